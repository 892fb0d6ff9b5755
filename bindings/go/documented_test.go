package makhloeum

import (
	"go/ast"
	"go/parser"
	"go/token"
	"io/fs"
	"regexp"
	"strings"
	"testing"
)

// growing are the methods that take time for more than the names of a path. Those of FS begin with "FS.".
var growing = map[string]bool{
	"Children": true, "Close": true, "Copy": true, "Fail": true, "Forget": true, "FS.Mkdir": true, "FS.Open": true, "FS.ReadDir": true,
	"FS.ReadFile": true, "FS.Remove": true, "FS.WriteFile": true, "Groups": true, "Line": true, "Mkdir": true, "Processes": true,
	"Read": true, "ReadMany": true, "Reset": true, "Rmdir": true, "Undo": true, "UndoTo": true, "Write": true,
}

func parsed(t *testing.T, folder string) []ast.Decl {
	t.Helper()
	isCode := func(info fs.FileInfo) bool { return !strings.HasSuffix(info.Name(), "_test.go") }
	packages, err := parser.ParseDir(token.NewFileSet(), folder, isCode, parser.ParseComments)
	if err != nil || len(packages) != 1 {
		t.Fatal(len(packages), "packages", err)
	}
	var all []ast.Decl
	for _, it := range packages {
		for _, file := range it.Files {
			all = append(all, file.Decls...)
		}
	}
	return all
}

// receiver returns the name of the type of a method, and whether the type is exported; "" of a function.
func receiver(f *ast.FuncDecl) (string, bool) {
	if f.Recv == nil {
		return "", true
	}
	it := f.Recv.List[0].Type
	if star, ok := it.(*ast.StarExpr); ok {
		it = star.X
	}
	name := it.(*ast.Ident).Name
	return name, ast.IsExported(name)
}

func hasWord(text, word string) bool {
	return regexp.MustCompile(`\b` + regexp.QuoteMeta(word) + `\b`).MatchString(text)
}

func returnsError(f *ast.FuncDecl) bool {
	for _, it := range resultsOf(f) {
		if ident, ok := it.Type.(*ast.Ident); ok && ident.Name == "error" {
			return true
		}
	}
	return false
}

func resultsOf(f *ast.FuncDecl) []*ast.Field {
	if f.Type.Results == nil {
		return nil
	}
	return f.Type.Results.List
}

var (
	namesAnError = regexp.MustCompile(`refused|[Tt]he error is|ErrClosed|errno`)
	saysTime     = regexp.MustCompile(`[Tt]akes? (as\s+much )?time|moves \d+ bytes for each`)
)

func checkFunc(t *testing.T, f *ast.FuncDecl) {
	owner, isPublic := receiver(f)
	if !isPublic || !f.Name.IsExported() {
		return
	}
	name := strings.TrimPrefix(owner+"."+f.Name.Name, "Hierarchy.")
	name = strings.TrimPrefix(name, ".")
	text := strings.Join(strings.Fields(f.Doc.Text()), " ")
	if !strings.HasPrefix(text, f.Name.Name+" ") {
		t.Errorf("%s: its comment doesn't begin with its name: %q", name, text)
	}
	for _, field := range f.Type.Params.List {
		for _, it := range field.Names {
			if !hasWord(text, it.Name) {
				t.Errorf("%s: its comment doesn't say what %s is", name, it.Name)
			}
		}
	}
	if returnsError(f) && !namesAnError.MatchString(text) {
		t.Errorf("%s: its comment names no error", name)
	}
	if saysTime.MatchString(text) != growing[name] && owner != "" {
		t.Errorf("%s: whether it takes time: %v, but the comment says %v", name, growing[name], !growing[name])
	}
}

func checkDecl(t *testing.T, decl *ast.GenDecl) {
	for _, it := range decl.Specs {
		switch it := it.(type) {
		case *ast.TypeSpec:
			if it.Name.IsExported() && !strings.HasPrefix(decl.Doc.Text(), it.Name.Name+" ") {
				t.Errorf("type %s: its comment doesn't begin with its name", it.Name)
			}
		case *ast.ValueSpec:
			for _, name := range it.Names {
				if name.IsExported() && it.Comment.Text() == "" && !strings.HasPrefix(decl.Doc.Text(), name.Name+" ") {
					t.Errorf("%s has no comment", name)
				}
			}
		}
	}
}

// TestGoDocNeedsNoOtherPage looks at each exported name: a comment, each argument, the errors, and what takes time.
func TestGoDocNeedsNoOtherPage(t *testing.T) {
	count := 0
	for _, folder := range []string{".", "makhloeumtest"} {
		for _, decl := range parsed(t, folder) {
			switch it := decl.(type) {
			case *ast.FuncDecl:
				checkFunc(t, it)
				count++
			case *ast.GenDecl:
				checkDecl(t, it)
			}
		}
	}
	if count < 50 {
		t.Errorf("only %d functions were found", count)
	}
}
