// Checks a module of constants and types with go/parser and go/types, and prints the lines of gocheck's report, to compare
// gocheck with.
//
// usage: modules ROOT [STUBS]    ends with status 1 at the first package with errors, which are printed
package main

import (
	"bufio"
	"container/heap"
	"errors"
	"fmt"
	"go/ast"
	"go/parser"
	"go/token"
	"go/types"
	"os"
	"path/filepath"
	"sort"
	"strconv"
	"strings"
)

// A source is a package before it is checked: its files and the paths that it imports.
type source struct {
	files   []*ast.File
	imports []string
}

type module struct {
	root, stubs, path string
	files             *token.FileSet
	sources           map[string]*source
	checked           map[string]*types.Package
	copies            map[ast.Expr]bool
	out               *bufio.Writer
}

// Import gives a package that is checked before.
func (m *module) Import(path string) (*types.Package, error) {
	if p := m.checked[path]; p != nil {
		return p, nil
	}
	return nil, fmt.Errorf("no package %s", path)
}

// read parses the Go files below a root, in the order of their paths; each folder is a package behind the prefix.
func (m *module) read(root, prefix string) error {
	return filepath.WalkDir(root, func(path string, entry os.DirEntry, err error) error {
		if err != nil || entry.IsDir() || !strings.HasSuffix(path, ".go") {
			return err
		}
		file, err := parser.ParseFile(m.files, path, nil, parser.SkipObjectResolution)
		if err != nil {
			return err
		}
		m.copyLists(file)
		folder, _ := filepath.Rel(root, filepath.Dir(path))
		m.add(slashPath(prefix, folder), file)
		return nil
	})
}

func slashPath(prefix, folder string) string {
	return strings.TrimSuffix(strings.TrimPrefix(prefix+"/"+filepath.ToSlash(folder), "/"), "/.")
}

func (m *module) add(path string, file *ast.File) {
	if m.sources[path] == nil {
		m.sources[path] = &source{}
	}
	own := m.sources[path]
	own.files = append(own.files, file)
	for _, spec := range file.Imports {
		imported, _ := strconv.Unquote(spec.Path.Value)
		own.imports = append(own.imports, imported)
	}
}

// reach gives the packages that these import, and these.
func (m *module) reach(paths []string) map[string]bool {
	reached := map[string]bool{}
	for len(paths) > 0 {
		path := paths[len(paths)-1]
		paths = paths[:len(paths)-1]
		if m.sources[path] != nil && !reached[path] {
			reached[path] = true
			paths = append(paths, m.sources[path].imports...)
		}
	}
	return reached
}

// Paths is a heap, the least path first.
type Paths struct{ sort.StringSlice }

func (p *Paths) Push(path any) { p.StringSlice = append(p.StringSlice, path.(string)) }

func (p *Paths) Pop() any {
	last := len(p.StringSlice) - 1
	path := p.StringSlice[last]
	p.StringSlice = p.StringSlice[:last]
	return path
}

// checkAll checks packages: of those whose imports are checked the one with the least path is next.
func (m *module) checkAll(reached map[string]bool) error {
	ready, lacking, importers := &Paths{}, map[string]int{}, map[string][]string{}
	for path := range reached {
		lacking[path] = len(m.sources[path].imports)
		for _, imported := range m.sources[path].imports {
			importers[imported] = append(importers[imported], path)
		}
		if lacking[path] == 0 {
			heap.Push(ready, path)
		}
	}
	for ready.Len() > 0 {
		path := heap.Pop(ready).(string)
		if err := m.check(path); err != nil {
			return err
		}
		for _, importer := range importers[path] {
			if lacking[importer]--; lacking[importer] == 0 {
				heap.Push(ready, importer)
			}
		}
	}
	if len(m.checked) < len(reached) {
		return fmt.Errorf("imports that name no package, or lie on a cycle")
	}
	return nil
}

// check checks a package behind those that it imports.
func (m *module) check(path string) error {
	info := &types.Info{Types: map[ast.Expr]types.TypeAndValue{}, Defs: map[*ast.Ident]types.Object{},
		Uses: map[*ast.Ident]types.Object{}}
	var faults []string
	config := types.Config{Importer: m, Error: func(fault error) { faults = append(faults, m.fault(fault.(types.Error))) }}
	p, _ := config.Check(path, m.files, m.sources[path].files, info)
	if len(faults) > 0 {
		return errors.New(strings.Join(faults, "\n"))
	}
	m.checked[path] = p
	fmt.Fprintf(m.out, "package\t%s\t%s\taccepted\n", path, p.Name())
	m.print(m.sources[path].files, info)
	return nil
}

func (m *module) fault(fault types.Error) string {
	return m.place(fault.Pos) + "\t" + fault.Msg
}

func (m *module) print(files []*ast.File, info *types.Info) {
	for _, file := range files {
		m.printDefs(file, info)
	}
	for _, file := range files {
		m.inspect(file, func(node ast.Node) bool {
			if name, ok := node.(*ast.Ident); ok && info.Uses[name] != nil {
				fmt.Fprintf(m.out, "use\t%s\t%s\t%s\n", m.place(name.Pos()), name.Name, m.place(info.Uses[name].Pos()))
			}
			return true
		})
	}
	for _, file := range files {
		m.inspect(file, func(node ast.Node) bool { return m.printExpr(node, info) })
	}
}

func (m *module) printDefs(file *ast.File, info *types.Info) {
	rights := map[*ast.Ident]ast.Expr{}
	m.inspect(file, func(node ast.Node) bool {
		if spec, ok := node.(*ast.TypeSpec); ok {
			rights[spec.Name] = spec.Type
		}
		name, ok := node.(*ast.Ident)
		if !ok {
			return true
		}
		switch object := info.Defs[name].(type) {
		case *types.Const:
			m.printDef(name, "const", object.Type().String(), text(object.Val()))
		case *types.TypeName:
			if object.IsAlias() {
				m.printDef(name, "alias", typeText(object.Type()))
			} else {
				m.printDef(name, "type", typeText(object.Type()), typeText(info.TypeOf(rights[name])))
			}
		case *types.Var:
			kind := "var"
			if object.IsField() {
				kind = "field"
			}
			m.printDef(name, kind, typeText(object.Type()))
		case *types.Func:
			m.printDef(name, "func", typeText(object.Type()))
		case *types.PkgName:
			if name.Name != "." {
				m.printDef(name, "package", object.Imported().Path())
			}
		}
		return true
	})
}

func (m *module) printDef(name *ast.Ident, fields ...string) {
	fmt.Fprintf(m.out, "def\t%s\t%s\t%s\n", m.place(name.Pos()), name.Name, strings.Join(fields, "\t"))
}

// printExpr prints the line of an expression, and says whether its parts have lines.
func (m *module) printExpr(node ast.Node, info *types.Info) bool {
	expr, ok := node.(ast.Expr)
	if !ok {
		return true
	}
	known, ok := info.Types[expr]
	if _, dots := expr.(*ast.Ellipsis); dots {
		// `...T` is no type, though go/types says []T of it
		ok = false
	}
	if ok && known.Value != nil {
		m.printRecord(expr, "const", kindText(expr, known, info), text(known.Value))
	} else if ok && known.IsType() {
		m.printRecord(expr, "type", typeText(known.Type))
	}
	if literal, ok := expr.(*ast.InterfaceType); ok {
		// the signature of a method has no line
		for _, field := range literal.Methods.List {
			if signature, ok := field.Type.(*ast.FuncType); ok && len(field.Names) > 0 {
				delete(info.Types, signature)
			}
		}
	}
	_, selects := expr.(*ast.SelectorExpr)
	return !selects
}

func (m *module) printRecord(expr ast.Expr, fields ...string) {
	end := m.files.Position(expr.End())
	fmt.Fprintf(m.out, "expr\t%s\t%d:%d\t%s\n", m.place(expr.Pos()), end.Line, end.Column, strings.Join(fields, "\t"))
}

func (m *module) place(pos token.Pos) string {
	if !pos.IsValid() {
		return "universe"
	}
	at := m.files.Position(pos)
	sign, root := "", m.root
	if m.stubs != "" && strings.HasPrefix(at.Filename, m.stubs+"/") {
		sign, root = "stub:", m.stubs
	}
	path, _ := filepath.Rel(root, at.Filename)
	return fmt.Sprintf("%s%s:%d:%d", sign, filepath.ToSlash(path), at.Line, at.Column)
}

func (m *module) run() error {
	text, err := os.ReadFile(filepath.Join(m.root, "go.mod"))
	if err != nil {
		return err
	}
	m.path = strings.Fields(string(text))[1]
	if err := m.read(m.root, m.path); err != nil {
		return err
	}
	own := make([]string, 0, len(m.sources))
	for path := range m.sources {
		own = append(own, path)
	}
	if m.stubs != "" {
		if err := m.read(m.stubs, ""); err != nil {
			return err
		}
	}
	fmt.Fprintf(m.out, "module\t%s\t1.21\n", m.path)
	if err := m.checkAll(m.reach(own)); err != nil {
		return err
	}
	return m.out.Flush()
}

func main() {
	m := &module{root: filepath.Clean(os.Args[1]), files: token.NewFileSet(), sources: map[string]*source{},
		checked: map[string]*types.Package{}, copies: map[ast.Expr]bool{}, out: bufio.NewWriter(os.Stdout)}
	if len(os.Args) > 2 {
		m.stubs = filepath.Clean(os.Args[2])
	}
	if err := m.run(); err != nil {
		fmt.Fprintln(os.Stderr, err)
		os.Exit(1)
	}
}
