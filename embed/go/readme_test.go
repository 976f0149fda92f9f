package rookdresser

import (
	"go/ast"
	"go/doc"
	"go/parser"
	"go/token"
	"os"
	"reflect"
	"regexp"
	"strings"
	"testing"
)

func read(t *testing.T, name string) string {
	text, err := os.ReadFile(name)
	if err != nil {
		t.Fatal(err)
	}
	return string(text)
}

func TestTheCodeOfTheReadmeIsThatOfTheExamples(t *testing.T) {
	examples := read(t, "example_test.go") + read(t, "example_ported_test.go")
	blocks := regexp.MustCompile("(?ms)^```go\n(.*?)^```$").FindAllStringSubmatch(read(t, "README.md"), -1)
	if len(blocks) < 10 {
		t.Fatal(len(blocks))
	}
	for _, block := range blocks {
		indented := regexp.MustCompile("(?m)^(.)").ReplaceAllString(block[1], "\t$1")
		if !strings.Contains(examples, "\n"+indented) {
			t.Errorf("no example has\n%s", block[1])
		}
	}
}

// Its tables name each setting and each count, and each call.
func TestTheReadmeNamesAllOfTheSettingsCountsAndCalls(t *testing.T) {
	page := read(t, "README.md")
	for _, of := range []any{Setup{}, Stats{}} {
		for i, kind := 0, reflect.TypeOf(of); i < kind.NumField(); i++ {
			if name := kind.Field(i).Name; !regexp.MustCompile("(?m)^\\|.*\\b" + name + "\\b").MatchString(page) {
				t.Error(name)
			}
		}
	}
	for _, of := range []any{&Cache[int, int]{}, Stats{}} {
		for i, kind := 0, reflect.TypeOf(of); i < kind.NumMethod(); i++ {
			if name := kind.Method(i).Name; !strings.Contains(page, name+"(") && name != "Close" {
				t.Error(name)
			}
		}
	}
}

// documented returns what `go doc` tells of this package.
func documented(t *testing.T) *doc.Package {
	files := token.NewFileSet()
	packages, err := parser.ParseDir(files, ".", nil, parser.ParseComments)
	if err != nil {
		t.Fatal(err)
	}
	var all []*ast.File
	for _, p := range packages {
		for _, file := range p.Files {
			all = append(all, file)
		}
	}
	found, err := doc.NewFromFiles(files, all, "rookdresser")
	if err != nil {
		t.Fatal(err)
	}
	return found
}

func TestEachCallHasAnExampleAndEachNameASentence(t *testing.T) {
	told, calls := documented(t), 0
	hasSentence := func(name, text string) {
		if !strings.HasSuffix(text, ".\n") {
			t.Errorf("the comment of %s is no sentence: %s", name, text)
		}
	}
	haveExamples := func(of string, funcs []*doc.Func) {
		for _, f := range funcs {
			if calls++; len(f.Examples) == 0 {
				t.Errorf("no example is of %s%s", of, f.Name)
			}
			hasSentence(of+f.Name, f.Doc)
		}
	}
	haveExamples("", told.Funcs)
	for _, of := range told.Types {
		hasSentence(of.Name, of.Doc)
		haveExamples("", of.Funcs)
		haveExamples(of.Name+".", of.Methods)
	}
	for _, of := range told.Vars {
		hasSentence(of.Names[0], of.Doc)
	}
	// Open, OpenHashed, OnLeave, Weigh, Life, InBackground, 24 of a Cache, 2 of Stats, Fault.Error, and String of AtLimit, Cause, Choice and Reads.
	if calls != 37 {
		t.Error(calls)
	}
}
