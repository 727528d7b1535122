package main

import (
	"fmt"
	"go/ast"
	"go/constant"
	"go/token"
	"go/types"
	"reflect"
	"strings"
)

// The bytes of a string that its text has at most.
const mostPrinted = 64

// text writes the value of a constant as gocheck's report does.
func text(value constant.Value) string {
	if value.Kind() == constant.String {
		return stringText(constant.StringVal(value))
	}
	return value.ExactString()
}

func stringText(s string) string {
	if len(s) <= mostPrinted {
		return quoted(s)
	}
	return fmt.Sprintf("%s+%d", quoted(s[:mostPrinted]), len(s)-mostPrinted)
}

// quoted writes a string byte by byte, those outside 20 to 7E in base 16.
func quoted(s string) string {
	var out strings.Builder
	out.WriteByte('"')
	for i := 0; i < len(s); i++ {
		switch b := s[i]; {
		case b == '"' || b == '\\':
			out.WriteByte('\\')
			out.WriteByte(b)
		case ' ' <= b && b <= '~':
			out.WriteByte(b)
		default:
			fmt.Fprintf(&out, "\\x%02x", b)
		}
	}
	out.WriteByte('"')
	return out.String()
}

// kindText writes the type of a constant. An untyped operand has the kind that it has by itself, where go/types tells that
// of its operation.
func kindText(expr ast.Expr, known types.TypeAndValue, info *types.Info) string {
	if known.Type == types.Typ[types.UntypedRune] {
		return types.Typ[kindOf(expr, info)].String()
	}
	return known.Type.String()
}

// kindOf gives the kind of an untyped integer or rune constant.
func kindOf(expr ast.Expr, info *types.Info) types.BasicKind {
	switch expr := expr.(type) {
	case *ast.BasicLit:
		if expr.Kind == token.INT {
			return types.UntypedInt
		}
	case *ast.ParenExpr:
		return kindOf(expr.X, info)
	case *ast.UnaryExpr:
		return kindOf(expr.X, info)
	case *ast.BinaryExpr:
		left := kindOf(expr.X, info)
		if left == types.UntypedRune || expr.Op == token.SHL || expr.Op == token.SHR {
			return left
		}
		return kindOf(expr.Y, info)
	case *ast.Ident:
		return info.Uses[expr].Type().(*types.Basic).Kind()
	case *ast.SelectorExpr:
		return kindOf(expr.Sel, info)
	}
	return types.UntypedRune
}

// copyLists puts a copy of the list before into each spec of constants that omits its list: go/types reads it as a list
// that is written, and tells its faults at the first name of the spec. The copies have no lines.
func (m *module) copyLists(file *ast.File) {
	for _, decl := range file.Decls {
		group, ok := decl.(*ast.GenDecl)
		if !ok || group.Tok != token.CONST {
			continue
		}
		var before *ast.ValueSpec
		for _, spec := range group.Specs {
			spec := spec.(*ast.ValueSpec)
			if spec.Type != nil || len(spec.Values) > 0 {
				before = spec
			} else if before != nil {
				m.copyList(before, spec)
			}
		}
	}
}

func (m *module) copyList(from, to *ast.ValueSpec) {
	at := to.Names[0].Pos()
	if from.Type != nil {
		to.Type = copyAt(from.Type, at)
		m.copies[to.Type] = true
	}
	for _, value := range from.Values {
		copied := copyAt(value, at)
		m.copies[copied] = true
		to.Values = append(to.Values, copied)
	}
}

// copyAt copies an expression; all that it has stands at that place.
func copyAt(expr ast.Expr, at token.Pos) ast.Expr {
	return copyValue(reflect.ValueOf(&expr).Elem(), at).Interface().(ast.Expr)
}

func copyValue(from reflect.Value, at token.Pos) reflect.Value {
	to := reflect.New(from.Type()).Elem()
	switch from.Kind() {
	case reflect.Pointer, reflect.Interface:
		if from.IsNil() {
			return to
		}
		inner := copyValue(from.Elem(), at)
		if from.Kind() == reflect.Pointer {
			inner = inner.Addr()
		}
		to.Set(inner)
	case reflect.Slice:
		for i := 0; i < from.Len(); i++ {
			to.Set(reflect.Append(to, copyValue(from.Index(i), at)))
		}
	case reflect.Struct:
		for i := 0; i < from.NumField(); i++ {
			to.Field(i).Set(copyValue(from.Field(i), at))
		}
	default:
		to.Set(from)
	}
	if pos, ok := to.Addr().Interface().(*token.Pos); ok && pos.IsValid() {
		*pos = at
	}
	return to
}

// inspect visits what is written in a file.
func (m *module) inspect(file *ast.File, visit func(ast.Node) bool) {
	ast.Inspect(file, func(node ast.Node) bool {
		if expr, ok := node.(ast.Expr); ok && m.copies[expr] {
			return false
		}
		return visit(node)
	})
}
