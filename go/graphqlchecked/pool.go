package graphqlchecked

import (
	"context"
	"runtime"
	"sync"
)

// Pool has a schema's handles for goroutines that check at once. Each handle has the whole schema, in memory some 13 times its text.
type Pool struct {
	texts   []Text
	options Options
	slots   chan struct{} // as many as handles, one for each that is in use
	closing sync.Mutex    // held by Close, which takes all slots
	mutex   sync.Mutex    // of what follows
	free    []*Schema
	closed  bool
}

// NewPool makes a pool of at most so many handles, or as many as processors for 0. The first is opened at once, each other one when
// so many goroutines check at once. The error is that of [Open].
func NewPool(size int, options Options, texts ...Text) (*Pool, error) {
	if size <= 0 {
		size = runtime.GOMAXPROCS(0)
	}
	first, err := OpenWith(options, texts...)
	if err != nil {
		return nil, err
	}
	return &Pool{texts: copied(texts), options: options, slots: make(chan struct{}, size), free: []*Schema{first}}, nil
}

// copied are the texts with bytes of their own, which the caller may change.
func copied(texts []Text) []Text {
	own := make([]Text, len(texts))
	for i, text := range texts {
		own[i] = Text{text.Path, append([]byte(nil), text.Bytes...)}
	}
	return own
}

// take is a handle that is free, or a new one. While that is opened, the others go on.
func (p *Pool) take() (*Schema, error) {
	schema, err := p.takeFree()
	if schema != nil || err != nil {
		return schema, err
	}
	return OpenWith(p.options, p.texts...)
}

// takeFree is a handle that is free, or nil where none is.
func (p *Pool) takeFree() (*Schema, error) {
	p.mutex.Lock()
	defer p.mutex.Unlock()
	if p.closed {
		return nil, Closed
	}
	last := len(p.free) - 1
	if last < 0 {
		return nil, nil
	}
	schema := p.free[last]
	p.free = p.free[:last]
	return schema, nil
}

func (p *Pool) give(schema *Schema) {
	p.mutex.Lock()
	defer p.mutex.Unlock()
	p.free = append(p.free, schema)
}

// Check checks as [Schema.Check] does, by a handle that is free, and waits for one where none is.
func (p *Pool) Check(document Text) ([]Fault, error) {
	return p.CheckContext(context.Background(), document)
}

// CheckContext checks as Check does, unless the context ends before a handle is free: then the error is the context's. A check that
// has begun is not cut short.
func (p *Pool) CheckContext(ctx context.Context, document Text) ([]Fault, error) {
	if err := ctx.Err(); err != nil {
		return nil, err
	}
	select {
	case p.slots <- struct{}{}:
	case <-ctx.Done():
		return nil, ctx.Err()
	}
	defer func() { <-p.slots }()
	schema, err := p.take()
	if err != nil {
		return nil, err
	}
	defer p.give(schema)
	return schema.Check(document)
}

// Close frees all handles, and waits for those that are in use. Checks after that answer [Closed].
func (p *Pool) Close() {
	p.closing.Lock()
	defer p.closing.Unlock()
	for i := 0; i < cap(p.slots); i++ {
		p.slots <- struct{}{}
	}
	p.mutex.Lock()
	defer p.mutex.Unlock()
	for _, schema := range p.free {
		schema.Close()
	}
	p.free, p.closed = nil, true
	for i := 0; i < cap(p.slots); i++ {
		<-p.slots
	}
}
