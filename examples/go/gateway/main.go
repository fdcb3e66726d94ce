// A gateway that passes on only queries which the schema accepts: gateway [-checker NAME] [-listen ADDRESS] -schema FILE
//
// What is passed on is answered here, by `{"data":{}}`. The first line on standard output is the address. scripts/gateway loads it.
package main

import (
	"bytes"
	"context"
	"encoding/json"
	"flag"
	"fmt"
	"io"
	"log"
	"net"
	"net/http"
	"os"

	"graphqlchecked"
)

// most is how long a request may be.
const most = 1 << 20

// location and problem are parts of an answer with errors, as the specification has them (section 7.1).
type location struct {
	Line   int `json:"line"`
	Column int `json:"column"`
}

type problem struct {
	Message    string            `json:"message"`
	Locations  []location        `json:"locations,omitempty"`
	Extensions map[string]string `json:"extensions,omitempty"`
}

// checker tells what is wrong with a query: nothing where it is accepted. An error is no verdict. It waits no longer than the context.
type checker func(ctx context.Context, query []byte) ([]problem, error)

// checkers are made of a schema, by name. With the tag gqlparser there is one more.
var checkers = map[string]func(path string, text []byte) (checker, error){
	"graphqlchecked": newChecked,
	"none": func(string, []byte) (checker, error) {
		return func(context.Context, []byte) ([]problem, error) { return nil, nil }, nil
	},
}

// newChecked checks by a pool of handles.
func newChecked(path string, text []byte) (checker, error) {
	pool, err := graphqlchecked.NewPool(0, graphqlchecked.Options{MaxFaults: 100}, graphqlchecked.Text{Path: path, Bytes: text})
	if err != nil {
		return nil, err
	}
	return func(ctx context.Context, query []byte) ([]problem, error) {
		faults, err := pool.CheckContext(ctx, graphqlchecked.Text{Path: "query", Bytes: query})
		problems := make([]problem, len(faults))
		for i, fault := range faults {
			problems[i] = problem{fault.Message, []location{location(fault.Position)}, map[string]string{"rule": fault.Rule, "hint": fault.Hint}}
		}
		return problems, err
	}, nil
}

// onlyAccepted passes on what the checker accepts, and answers all else.
func onlyAccepted(check checker, next http.Handler) http.Handler {
	return http.HandlerFunc(func(w http.ResponseWriter, r *http.Request) {
		body, err := io.ReadAll(http.MaxBytesReader(w, r.Body, most))
		if err != nil {
			http.Error(w, err.Error(), http.StatusRequestEntityTooLarge)
			return
		}
		var request struct{ Query string }
		if err := json.Unmarshal(body, &request); err != nil {
			http.Error(w, err.Error(), http.StatusBadRequest)
			return
		}
		problems, err := check(r.Context(), []byte(request.Query))
		if err != nil {
			http.Error(w, err.Error(), http.StatusInternalServerError)
			return
		}
		if len(problems) > 0 {
			w.Header().Set("Content-Type", "application/graphql-response+json")
			w.WriteHeader(http.StatusBadRequest)
			json.NewEncoder(w).Encode(map[string][]problem{"errors": problems})
			return
		}
		r.Body = io.NopCloser(bytes.NewReader(body))
		next.ServeHTTP(w, r)
	})
}

func main() {
	name := flag.String("checker", "graphqlchecked", "what checks")
	listen := flag.String("listen", "127.0.0.1:0", "the address")
	path := flag.String("schema", "", "the file of the schema")
	flag.Parse()
	text, err := os.ReadFile(*path)
	if err != nil {
		log.Fatal(err)
	}
	made, is := checkers[*name]
	if !is {
		log.Fatalf("there is no checker %s here", *name)
	}
	check, err := made(*path, text)
	if err != nil {
		log.Fatal(err)
	}
	listener, err := net.Listen("tcp", *listen)
	if err != nil {
		log.Fatal(err)
	}
	fmt.Println(listener.Addr())
	log.Fatal(http.Serve(listener, onlyAccepted(check, http.HandlerFunc(func(w http.ResponseWriter, r *http.Request) {
		io.WriteString(w, `{"data":{}}`)
	}))))
}
