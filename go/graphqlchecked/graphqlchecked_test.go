package graphqlchecked

import (
	"context"
	"errors"
	"fmt"
	"os"
	"runtime"
	"strings"
	"sync"
	"testing"
)

const shop = "type Query {\n  product(id: ID!): Product\n}\ntype Product { id: ID! price: Int }\n"

func open(t *testing.T, texts ...Text) *Schema {
	t.Helper()
	schema, err := Open(texts...)
	if err != nil {
		t.Fatal(err)
	}
	return schema
}

func text(s string) Text { return Text{Bytes: []byte(s)} }

func TestFaultsHaveAllThatIsTold(t *testing.T) {
	schema := open(t, Text{"shop.graphql", []byte(shop)})
	faults, err := schema.Check(Text{"query.graphql", []byte("{ product {\n  prize } }")})
	if err != nil || len(faults) != 2 {
		t.Fatal(faults, err)
	}
	missing, prize := faults[0], faults[1]
	if missing.Rule != "RequiredArgument" || missing.Line != 1 || missing.Column != 3 || len(missing.Related) != 1 {
		t.Error(missing)
	}
	if at := missing.Related[0]; at.Path != "shop.graphql" || at.Line != 2 || at.Column != 11 || at.Words != "the definition" {
		t.Error(at)
	}
	if prize.String() != "query.graphql:2:3: UndefinedField: `Product` has no field `prize` (did you mean `price`?)" {
		t.Error(prize)
	}
	if prize.Offset != 14 || prize.Length != 5 || prize.End != (Position{2, 8}) || prize.Fields["field_name"] != "prize" {
		t.Error(prize)
	}
}

func TestAccepted(t *testing.T) {
	schema := open(t, text("type Query { a: Int }"), text("extend type Query { b: Int }"))
	if faults, err := schema.Check(text("{ a b }")); faults != nil || err != nil {
		t.Error(faults, err)
	}
	if faults, err := schema.Check(text("")); len(faults) != 1 || err != nil {
		t.Error(faults, err)
	}
	if told, err := schema.Text("\t"); err != nil || !strings.HasPrefix(told, "type Query {\n\ta: Int\n}\n") {
		t.Error(told, err)
	}
	if told, err := schema.DocumentText(text("{b,a}"), " "); told != "{\n b\n a\n}\n" || err != nil {
		t.Error(told, err)
	}
	var refused *RefusedError
	if _, err := schema.DocumentText(text("{c}"), " "); !errors.As(err, &refused) || refused.Faults[0].Rule != "UndefinedField" {
		t.Error(err)
	}
	for _, indent := range []string{"-", " \x00", "\x00"} {
		if _, err := schema.Text(indent); err != Indent {
			t.Error(err)
		}
		if _, err := schema.DocumentText(text("{a}"), indent); err != Indent {
			t.Error(err)
		}
	}
}

func TestRefusedSchemas(t *testing.T) {
	var refused *RefusedError
	if _, err := Open(text(shop), Text{"other.graphql", []byte("extend type Missing { a: Int }")}); !errors.As(err, &refused) {
		t.Fatal(err)
	}
	if fault := refused.Faults[0]; fault.Path != "other.graphql" || fault.Rule != "OrphanTypeExtension" {
		t.Error(fault)
	}
	if _, err := Open(); !errors.As(err, &refused) || !strings.HasPrefix(refused.Faults[0].String(), "QueryRootOperationType: ") {
		t.Error(err)
	}
}

func TestErrors(t *testing.T) {
	if _, err := Open(text("# \xff")); err != NotUTF8 || err.Error() != "graphqlchecked: a text or a path is not UTF-8" {
		t.Error(err)
	}
	if _, err := OpenWith(Options{Nesting: 1 << 40}, text(shop)); err != Stack {
		t.Error(err)
	}
	schema := open(t, text(shop))
	if _, err := schema.Check(text("\xed\xa0\x80")); err != NotUTF8 {
		t.Error(err)
	}
	schema.Close()
	schema.Close()
	if _, err := schema.Check(text("{ a }")); err != Closed {
		t.Error(err)
	}
}

func TestOptions(t *testing.T) {
	schema, err := OpenWith(Options{Nesting: 1, MaxFaults: 2}, text("type Query { a: Int }"))
	if err != nil {
		t.Fatal(err)
	}
	if faults, _ := schema.Check(text("{ b c d }")); len(faults) != 2 {
		t.Error(faults)
	}
	if faults, _ := schema.Check(text("{ a { b } }")); faults[0].Rule != "Nesting" {
		t.Error(faults)
	}
}

// Goroutines with one schema, and with a pool that is closed while they check.
func TestGoroutines(t *testing.T) {
	schema := open(t, text("type Query { a: Int }"))
	pool, err := NewPool(3, Options{}, text("type Query { a: Int }"))
	if err != nil {
		t.Fatal(err)
	}
	checks := []func(Text) ([]Fault, error){schema.Check, pool.Check}
	var group sync.WaitGroup
	for i := 0; i < 16; i++ {
		group.Add(1)
		go func(check func(Text) ([]Fault, error)) {
			defer group.Done()
			for j := 0; j < 500; j++ {
				faults, err := check(text([]string{"{ a }", "{ missing }"}[j%2]))
				if err != nil || len(faults) != j%2 || (j%2 == 1 && faults[0].Column != 3) {
					t.Error(faults, err)
				}
			}
		}(checks[i%2])
	}
	group.Wait()
	if len(pool.free) > 3 {
		t.Error(len(pool.free))
	}
	pool.Close()
	pool.Close()
	if _, err := pool.Check(text("{ a }")); err != Closed {
		t.Error(err)
	}
}

// A pool opens the texts that it was given, also where its caller has changed them since; and whoever waits for a handle waits no longer
// than its context. The one handle is taken here, as a check takes it.
func TestPoolKeepsTextsAndContexts(t *testing.T) {
	bytes := []byte("type Query { a: Int }")
	pool, err := NewPool(1, Options{}, Text{Bytes: bytes})
	if err != nil {
		t.Fatal(err)
	}
	copy(bytes, "type Query { b: Int }")
	pool.slots <- struct{}{}
	held, _ := pool.takeFree()
	ctx, cancel := context.WithCancel(context.Background())
	waited := make(chan error)
	go func() {
		_, err := pool.CheckContext(ctx, text("{ a }"))
		waited <- err
	}()
	cancel()
	if err := <-waited; err != context.Canceled {
		t.Error(err)
	}
	<-pool.slots
	if _, err := pool.CheckContext(ctx, text("{ a }")); err != context.Canceled {
		t.Error(err)
	}
	// no handle is free, so one is opened
	if faults, err := pool.Check(text("{ a }")); faults != nil || err != nil {
		t.Error(faults, err)
	}
	held.Close()
	pool.Close()
}

// Goroutines that close a pool at once: each of them comes back.
func TestClosedAtOnce(t *testing.T) {
	for i := 0; i < 200; i++ {
		pool, err := NewPool(4, Options{}, text("type Query { a: Int }"))
		if err != nil {
			t.Fatal(err)
		}
		var group sync.WaitGroup
		for j := 0; j < 4; j++ {
			group.Add(1)
			go func() {
				defer group.Done()
				pool.Close()
				if _, err := pool.Check(text("{ a }")); err != Closed {
					t.Error(err)
				}
			}()
		}
		group.Wait()
	}
}

// collect has the garbage collector run, and waits until a finalizer of this call has run. Those of the call before have then too:
// all run on one goroutine, those that were found earlier first.
func collect() {
	done := make(chan struct{})
	runtime.SetFinalizer(&struct{ done chan struct{} }{done}, func(last *struct{ done chan struct{} }) { close(last.done) })
	runtime.GC()
	<-done
}

// resident is how many kilobytes of memory the process has.
func resident(t *testing.T) (kilobytes int) {
	t.Helper()
	status, err := os.ReadFile("/proc/self/status")
	if err != nil {
		t.Fatal(err)
	}
	_, after, _ := strings.Cut(string(status), "VmRSS:")
	if _, err := fmt.Sscan(after, &kilobytes); err != nil {
		t.Fatal(err)
	}
	return kilobytes
}

// Schemas that nothing refers to are freed: 1,000 of them, each of some 300 KB, would take 300 MB.
func TestFinalizers(t *testing.T) {
	var long strings.Builder
	for i := 0; i < 200; i++ {
		long.WriteString("extend type Query { field" + strings.Repeat("x", i) + ": Int } ")
	}
	for i := 0; i < 1000; i++ {
		open(t, text("type Query { a: Int }"), text(long.String()))
		if i%20 == 0 {
			collect()
		}
	}
	if kilobytes := resident(t); kilobytes > 200<<10 {
		t.Error(kilobytes)
	}
}

func TestVersion(t *testing.T) {
	if !strings.HasPrefix(Build(), Version+" (commit ") || Proved() == strings.HasSuffix(Build(), ", not proved)") {
		t.Error(Version, Build())
	}
}
