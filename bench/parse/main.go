// Reads Go files with go/parser, to compare gocheck with.
//
// usage: parse FILE      parses the file; ends with status 1 where it is refused
//
//	parse          reads paths from standard input, a line each, and prints for each a line: `ok`, or
//	               the first error
package main

import (
	"bufio"
	"fmt"
	"go/parser"
	"go/token"
	"os"
)

func read(path string) error {
	_, err := parser.ParseFile(token.NewFileSet(), path, nil, parser.SkipObjectResolution)
	return err
}

func main() {
	if len(os.Args) == 2 {
		if read(os.Args[1]) != nil {
			os.Exit(1)
		}
		return
	}
	lines := bufio.NewScanner(os.Stdin)
	out := bufio.NewWriter(os.Stdout)
	defer out.Flush()
	for lines.Scan() {
		if err := read(lines.Text()); err != nil {
			fmt.Fprintf(out, "%q\n", err.Error())
		} else {
			fmt.Fprintln(out, "ok")
		}
	}
}
