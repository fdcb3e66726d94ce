// Answers for gqlparser. A line on standard input is a list, each of whose items has a schema and documents; the answer is a list with
// what gqlparser has against each schema, and against each document over it, nothing where the schema is refused. With `count`
// the documents are checked so often, and what is refused is counted.
package main

import (
	"bufio"
	"encoding/json"
	"fmt"
	"os"

	"github.com/vektah/gqlparser/v2"
	"github.com/vektah/gqlparser/v2/ast"
)

type asked struct {
	Schema    string   `json:"schema"`
	Documents []string `json:"documents"`
	Count     int      `json:"count"`
}

type answer struct {
	Schema    []string   `json:"schema"`
	Documents [][]string `json:"documents"`
	Refused   int        `json:"refused"`
}

// read gives a schema, or what is against it.
func read(text string) (schema *ast.Schema, faults []string) {
	faults = []string{}
	defer func() {
		if stopped := recover(); stopped != nil {
			faults = append(faults, fmt.Sprint("crash: ", stopped))
		}
	}()
	schema, err := gqlparser.LoadSchema(&ast.Source{Input: text})
	if err != nil {
		faults = append(faults, err.Error())
	}
	return schema, faults
}

// check gives what is against a document.
func check(schema *ast.Schema, text string) (faults []string) {
	faults = []string{}
	defer func() {
		if stopped := recover(); stopped != nil {
			faults = append(faults, fmt.Sprint("crash: ", stopped))
		}
	}()
	_, errs := gqlparser.LoadQuery(schema, text)
	for _, err := range errs {
		faults = append(faults, err.Message)
	}
	return faults
}

// counted checks the documents so often, and counts what is refused.
func counted(line asked) answer {
	schema, faults := read(line.Schema)
	refused := 0
	for i := 0; i < line.Count; i++ {
		for _, text := range line.Documents {
			if len(check(schema, text)) > 0 {
				refused++
			}
		}
	}
	return answer{faults, nil, refused}
}

// answered is what is said of a line.
func answered(line asked) answer {
	if line.Count > 0 {
		return counted(line)
	}
	schema, faults := read(line.Schema)
	told := answer{Schema: faults, Documents: [][]string{}}
	for _, text := range line.Documents {
		if len(faults) > 0 {
			told.Documents = append(told.Documents, []string{})
		} else {
			told.Documents = append(told.Documents, check(schema, text))
		}
	}
	return told
}

func main() {
	lines := bufio.NewReaderSize(os.Stdin, 1<<20)
	out := json.NewEncoder(os.Stdout)
	for {
		text, err := lines.ReadBytes('\n')
		if err != nil {
			return
		}
		var line []asked
		if err := json.Unmarshal(text, &line); err != nil {
			panic(err)
		}
		told := []answer{}
		for _, item := range line {
			told = append(told, answered(item))
		}
		if err := out.Encode(told); err != nil {
			panic(err)
		}
	}
}
