//go:build gqlparser

package main

import (
	"context"

	"github.com/vektah/gqlparser/v2"
	"github.com/vektah/gqlparser/v2/ast"
)

func init() {
	checkers["gqlparser"] = func(path string, text []byte) (checker, error) {
		schema, err := gqlparser.LoadSchema(&ast.Source{Name: path, Input: string(text)})
		if err != nil {
			return nil, err
		}
		return func(_ context.Context, query []byte) ([]problem, error) {
			_, errs := gqlparser.LoadQuery(schema, string(query))
			problems := make([]problem, len(errs))
			for i, err := range errs {
				problems[i] = problem{Message: err.Message, Extensions: map[string]string{"rule": err.Rule}}
				for _, at := range err.Locations {
					problems[i].Locations = append(problems[i].Locations, location{at.Line, at.Column})
				}
			}
			return problems, nil
		}, nil
	}
}
