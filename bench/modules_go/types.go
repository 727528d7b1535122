package main

import (
	"fmt"
	"go/types"
	"strconv"
	"strings"
)

// typeText writes a type as gocheck's report does. Of an interface the methods stand before what it embeds, in the order
// of their names, so that a module to be compared has to write them so.
func typeText(t types.Type) string {
	switch t := t.(type) {
	case *types.Basic:
		return basicText(t)
	case *types.Named:
		if t.Obj().Pkg() == nil {
			return t.Obj().Name()
		}
		return t.Obj().Pkg().Path() + "." + t.Obj().Name()
	case *types.Pointer:
		return "*" + typeText(t.Elem())
	case *types.Slice:
		return "[]" + typeText(t.Elem())
	case *types.Array:
		return fmt.Sprintf("[%d]%s", t.Len(), typeText(t.Elem()))
	case *types.Map:
		return fmt.Sprintf("map[%s]%s", typeText(t.Key()), typeText(t.Elem()))
	case *types.Chan:
		return chanText(t)
	case *types.Signature:
		return "func" + signatureText(t)
	case *types.Struct:
		return structText(t)
	case *types.Interface:
		return interfaceText(t)
	}
	return t.String()
}

func basicText(t *types.Basic) string {
	switch t.Name() {
	case "byte":
		return "uint8"
	case "rune":
		return "int32"
	}
	return t.Name()
}

func chanText(t *types.Chan) string {
	elem := typeText(t.Elem())
	switch t.Dir() {
	case types.SendOnly:
		return "chan<- " + elem
	case types.RecvOnly:
		return "<-chan " + elem
	}
	if inner, ok := t.Elem().(*types.Chan); ok && inner.Dir() == types.RecvOnly {
		return "chan (" + elem + ")"
	}
	return "chan " + elem
}

func signatureText(t *types.Signature) string {
	var params, results []string
	for i := 0; i < t.Params().Len(); i++ {
		param := t.Params().At(i).Type()
		if t.Variadic() && i == t.Params().Len()-1 {
			params = append(params, "..."+typeText(param.(*types.Slice).Elem()))
		} else {
			params = append(params, typeText(param))
		}
	}
	for i := 0; i < t.Results().Len(); i++ {
		results = append(results, typeText(t.Results().At(i).Type()))
	}
	written := "(" + strings.Join(params, ", ") + ")"
	switch len(results) {
	case 0:
		return written
	case 1:
		return written + " " + results[0]
	}
	return written + " (" + strings.Join(results, ", ") + ")"
}

func structText(t *types.Struct) string {
	var fields []string
	for i := 0; i < t.NumFields(); i++ {
		field := typeText(t.Field(i).Type())
		if !t.Field(i).Embedded() {
			field = t.Field(i).Name() + " " + field
		}
		if t.Tag(i) != "" {
			field += " " + strconv.Quote(t.Tag(i))
		}
		fields = append(fields, field)
	}
	return "struct{" + strings.Join(fields, "; ") + "}"
}

func interfaceText(t *types.Interface) string {
	var elems []string
	for i := 0; i < t.NumExplicitMethods(); i++ {
		method := t.ExplicitMethod(i)
		elems = append(elems, method.Name()+signatureText(method.Type().(*types.Signature)))
	}
	for i := 0; i < t.NumEmbeddeds(); i++ {
		elems = append(elems, typeText(t.EmbeddedType(i)))
	}
	return "interface{" + strings.Join(elems, "; ") + "}"
}
