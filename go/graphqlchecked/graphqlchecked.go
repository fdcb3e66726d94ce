// Package graphqlchecked is the proved GraphQL checker, over its library for C.
//
//	schema, err := graphqlchecked.Open(graphqlchecked.Text{Path: "schema.graphql", Bytes: bytes})
//	faults, err := schema.Check(graphqlchecked.Text{Path: "query.graphql", Bytes: query})
//	for _, fault := range faults { fmt.Println(fault) }
//
// A document is accepted exactly if there is neither a fault nor an error. A verdict is proved where [Proved] is true; this package
// passes texts on, and is not. It links libgraphql_checked, by -lgraphql_checked: where that is not installed, CGO_CFLAGS and
// CGO_LDFLAGS are to name its folders, with -I and -L.
//
// A [Schema] may be used by several goroutines, which wait for each other; a [Pool] has a handle for each of several.
package graphqlchecked

/*
#cgo LDFLAGS: -lgraphql_checked
#include <stdlib.h>
#include "graphql_checked.h"

// A document's bytes are Go's, and are told by themselves, so that no struct of C's leads to Go.
static graphql_checked_status check(graphql_checked_schema *schema, const char *bytes, size_t length, const char *path, graphql_checked_answer *answer) {
	graphql_checked_text document = {bytes, length, path};
	return graphql_checked_check(schema, &document, answer);
}

static graphql_checked_status document_text(graphql_checked_schema *schema, const char *bytes, size_t length, const char *path, const char *indent, graphql_checked_answer *answer) {
	graphql_checked_text document = {bytes, length, path};
	return graphql_checked_document_text(schema, &document, indent, answer);
}
*/
import "C"

import (
	"bytes"
	"encoding/json"
	"fmt"
	"runtime"
	"strings"
	"sync"
	"unsafe"
)

// Version is that of this package, and of the header that it is built with.
const Version = C.GRAPHQL_CHECKED_VERSION

// Build tells how the library was made: its version, the commit of its sources, and `proved` or `not proved`.
func Build() string { return C.GoString(C.graphql_checked_build()) }

// Proved tells whether the library was proved before it was built.
func Proved() bool { return C.graphql_checked_proved() != 0 }

// Text is a text in UTF-8, and the name that faults are to have for it.
type Text struct {
	Path  string // "schema" or "document" where it is empty; it ends before a zero byte
	Bytes []byte
}

// Options tell how a schema is opened. What is 0 stands for the default.
type Options struct {
	Nesting   uint // how many brackets may be open at once: 398
	MaxFaults uint // how many faults a report has at most: all
}

// Position is a line and a column, both from 1, columns in characters.
type Position struct {
	Line   int `json:"line"`
	Column int `json:"column"`
}

// Related is another place that belongs to a fault.
type Related struct {
	Path string `json:"path"`
	Position
	Words string `json:"words"`
}

// Fault is what is wrong, and where. Where there is no place in a text each number is 0; what is built in has the path `<built in>`.
type Fault struct {
	Path string `json:"path"`
	Position
	End     Position          `json:"end"`    // the place after its last character
	Offset  int               `json:"offset"` // how many bytes of the text are before it
	Length  int               `json:"length"` // in bytes
	Rule    string            `json:"rule"`   // a name of docs/RULES.md, or see GRAPHQL_CHECKED_JSON of the header
	Message string            `json:"message"`
	Related []Related         `json:"related"`
	Hint    string            `json:"hint"` // what may be meant; empty where there is none
	Fields  map[string]string `json:"fields"`
}

// String is the fault in a line.
func (f Fault) String() string {
	var line strings.Builder
	if f.Line > 0 {
		fmt.Fprintf(&line, "%s:%d:%d: ", f.Path, f.Line, f.Column)
	}
	fmt.Fprintf(&line, "%s: %s", f.Rule, f.Message)
	if f.Hint != "" {
		fmt.Fprintf(&line, " (%s)", f.Hint)
	}
	return line.String()
}

// RefusedError says that texts are refused where a schema or a text was asked for.
type RefusedError struct{ Faults []Fault }

func (e *RefusedError) Error() string {
	lines := make([]string, len(e.Faults))
	for i, fault := range e.Faults {
		lines[i] = fault.String()
	}
	return strings.Join(lines, "\n")
}

// StatusError says that a call has no verdict: a status of the header.
type StatusError uint32

// The statuses that a caller may meet.
const (
	NotUTF8 StatusError = C.GRAPHQL_CHECKED_NOT_UTF8
	Memory  StatusError = C.GRAPHQL_CHECKED_MEMORY
	Stack   StatusError = C.GRAPHQL_CHECKED_STACK
	Indent  StatusError = C.GRAPHQL_CHECKED_INDENT
	Closed  StatusError = C.GRAPHQL_CHECKED_CLOSED
)

func (e StatusError) Error() string {
	return "graphqlchecked: " + C.GoString(C.graphql_checked_status_text(C.graphql_checked_status(e)))
}

// Schema is a checked schema, kept for many documents. It is closed by Close, or once nothing refers to it.
type Schema struct {
	mutex  sync.Mutex
	handle C.graphql_checked_schema
}

// Open opens the schema of these texts. The error is a [*RefusedError] where they are refused, or else a [StatusError].
func Open(texts ...Text) (*Schema, error) { return OpenWith(Options{}, texts...) }

// OpenWith opens as [Open] does, by these options.
func OpenWith(options Options, texts ...Text) (*Schema, error) {
	first := C.calloc(C.size_t(len(texts)+1), C.sizeof_graphql_checked_text)
	if first == nil {
		return nil, Memory
	}
	defer C.free(first)
	all := unsafe.Slice((*C.graphql_checked_text)(first), len(texts)+1)
	for i, text := range texts {
		all[i] = C.graphql_checked_text{bytes: (*C.char)(C.CBytes(text.Bytes)), length: C.size_t(len(text.Bytes)), path: cString(text.Path)}
		defer C.free(unsafe.Pointer(all[i].bytes))
		defer C.free(unsafe.Pointer(all[i].path))
	}
	given := C.graphql_checked_options{size: C.sizeof_graphql_checked_options, nesting: C.size_t(options.Nesting), max_faults: C.size_t(options.MaxFaults)}
	schema := new(Schema)
	runtime.SetFinalizer(schema, (*Schema).Close)
	schema.mutex.Lock()
	defer schema.mutex.Unlock()
	var answer C.graphql_checked_answer
	status := C.graphql_checked_open(&schema.handle, &all[0], C.size_t(len(texts)), &given, &answer)
	if _, err := textOf(status, answer); err != nil {
		return nil, err
	}
	return schema, nil
}

// cString is a text that ends with a zero byte, or nil where it is empty.
func cString(text string) *C.char {
	if text == "" {
		return nil
	}
	return C.CString(text)
}

// pointer is where the bytes are, and nil where there are none.
func pointer(bytes []byte) *C.char {
	if len(bytes) == 0 {
		return nil
	}
	return (*C.char)(unsafe.Pointer(&bytes[0]))
}

// bytesOf are the bytes of an answer, in the library's memory until the next call on its handle.
func bytesOf(answer C.graphql_checked_answer) []byte {
	return unsafe.Slice((*byte)(unsafe.Pointer(answer.bytes)), int(answer.length))
}

// textOf is what was written, or why nothing was, with no part of the answer in it.
func textOf(status C.graphql_checked_status, answer C.graphql_checked_answer) (string, error) {
	switch status {
	case C.GRAPHQL_CHECKED_ACCEPTED:
		return string(bytesOf(answer)), nil
	case C.GRAPHQL_CHECKED_REFUSED:
		faults, err := faultsOf(bytesOf(answer))
		if err != nil {
			return "", err
		}
		return "", &RefusedError{faults}
	}
	return "", StatusError(status)
}

// faultsOf reads lines of JSON.
func faultsOf(lines []byte) ([]Fault, error) {
	var faults []Fault
	for _, line := range bytes.Split(bytes.TrimSuffix(lines, []byte("\n")), []byte("\n")) {
		var fault Fault
		if err := json.Unmarshal(line, &fault); err != nil {
			return nil, err
		}
		faults = append(faults, fault)
	}
	return faults, nil
}

// Check tells what is wrong with a document over the schema: nothing where it is accepted. The error is a [StatusError]; the schema
// is as before.
func (s *Schema) Check(document Text) ([]Fault, error) {
	path := cString(document.Path)
	defer C.free(unsafe.Pointer(path))
	s.mutex.Lock()
	defer s.mutex.Unlock()
	var answer C.graphql_checked_answer
	status := C.check(&s.handle, pointer(document.Bytes), C.size_t(len(document.Bytes)), path, &answer)
	_, err := textOf(status, answer)
	if refused, is := err.(*RefusedError); is {
		return refused.Faults, nil
	}
	return nil, err
}

// Text is the canonical text of the schema, in lines that begin with the indent, of spaces and tabs, once for each level.
func (s *Schema) Text(indent string) (string, error) {
	if strings.IndexByte(indent, 0) >= 0 {
		return "", Indent
	}
	prefix := C.CString(indent)
	defer C.free(unsafe.Pointer(prefix))
	s.mutex.Lock()
	defer s.mutex.Unlock()
	var answer C.graphql_checked_answer
	status := C.graphql_checked_schema_text(&s.handle, prefix, &answer)
	return textOf(status, answer)
}

// DocumentText is the canonical text of a document, as Text is that of the schema. The error is a [*RefusedError] where the
// document is refused.
func (s *Schema) DocumentText(document Text, indent string) (string, error) {
	if strings.IndexByte(indent, 0) >= 0 {
		return "", Indent
	}
	path, prefix := cString(document.Path), C.CString(indent)
	defer C.free(unsafe.Pointer(path))
	defer C.free(unsafe.Pointer(prefix))
	s.mutex.Lock()
	defer s.mutex.Unlock()
	var answer C.graphql_checked_answer
	status := C.document_text(&s.handle, pointer(document.Bytes), C.size_t(len(document.Bytes)), path, prefix, &answer)
	return textOf(status, answer)
}

// Close frees the schema. Calls after that answer [Closed].
func (s *Schema) Close() {
	s.mutex.Lock()
	defer s.mutex.Unlock()
	C.graphql_checked_close(&s.handle)
}
