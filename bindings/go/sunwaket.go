// Package sunwaket answers GraphQL requests by a proved engine, over its C library.
//
// CGO_CFLAGS and CGO_LDFLAGS say where the header and the library lie:
//
//	CGO_CFLAGS="$(pkg-config --cflags gql)" CGO_LDFLAGS="$(pkg-config --libs gql)" go test
package sunwaket

/*
#include "gql.h"
*/
import "C"

import (
	"errors"
	"runtime"
	"sync"
	"unsafe"
)

// Refused is a text or a request that is refused; JSON is what a client is to be told.
type Refused struct{ JSON []byte }

func (r *Refused) Error() string { return "refused: " + string(r.JSON) }

// What else a call tells.
var (
	ErrMemory = errors.New("sunwaket: memory ran out")
	ErrClosed = errors.New("sunwaket: the value is closed")
	ErrUnread = errors.New("sunwaket: no UTF-8, or no JSON object of whole numbers")
)

// A handle for one goroutine at a time.
type value struct {
	lock   sync.Mutex
	handle C.gql_handle
}

func (v *value) free() {
	v.lock.Lock()
	defer v.lock.Unlock()
	C.gql_free(&v.handle)
}

// Schema is a schema that was read and checked.
type Schema struct{ value }

// Query is a query that was read and checked against a schema, which it keeps.
type Query struct{ value }

// Data is the object that a query begins at.
type Data struct{ value }

func at(bytes []byte) (*C.uint8_t, C.size_t) {
	if len(bytes) == 0 {
		return nil, 0
	}
	return (*C.uint8_t)(unsafe.Pointer(&bytes[0])), C.size_t(len(bytes))
}

// take gives the bytes of a reply, which is let go.
func take(reply *C.gql_handle) []byte {
	bytes := make([]byte, C.gql_reply_length(reply))
	first, length := at(bytes)
	C.gql_reply_copy(reply, first, length)
	C.gql_free(reply)
	return bytes
}

func told(status C.uint32_t, reply *C.gql_handle) error {
	switch status {
	case C.GQL_ANSWERED:
		return nil
	case C.GQL_REFUSED, C.GQL_TOO_COSTLY:
		return &Refused{take(reply)}
	case C.GQL_NO_MEMORY:
		return ErrMemory
	case C.GQL_WRONG_HANDLE:
		return ErrClosed
	}
	return ErrUnread
}

// NewSchema reads and checks the text of a schema.
func NewSchema(text string) (*Schema, error) {
	var reply C.gql_handle
	schema := new(Schema)
	first, length := at([]byte(text))
	if err := told(C.gql_schema_new(first, length, &schema.handle, &reply), &reply); err != nil {
		return nil, err
	}
	runtime.SetFinalizer(schema, func(s *Schema) { s.free() })
	return schema, nil
}

// share gives the query a handle of its own for another goroutine.
func (q *Query) share() (*Query, error) {
	share := new(Query)
	q.lock.Lock()
	status := C.gql_share(&q.handle, &share.handle)
	q.lock.Unlock()
	if err := told(status, nil); err != nil {
		return nil, err
	}
	runtime.SetFinalizer(share, func(q *Query) { q.free() })
	return share, nil
}

// Query reads and checks the text of a query against the schema.
func (s *Schema) Query(text string) (*Query, error) {
	var reply C.gql_handle
	query := new(Query)
	first, length := at([]byte(text))
	s.lock.Lock()
	status := C.gql_query_new(&s.handle, first, length, &query.handle, &reply)
	s.lock.Unlock()
	if err := told(status, &reply); err != nil {
		return nil, err
	}
	runtime.SetFinalizer(query, func(q *Query) { q.free() })
	return query, nil
}

// NewData reads the JSON text of an object.
func NewData(json []byte) (*Data, error) {
	data := new(Data)
	first, length := at(json)
	if err := told(C.gql_data_new(first, length, &data.handle), nil); err != nil {
		return nil, err
	}
	runtime.SetFinalizer(data, func(d *Data) { d.free() })
	return data, nil
}

// Execute gives the JSON of the response to the only operation of the query, with the values of its variables as JSON, or none.
func (q *Query) Execute(data *Data, variables []byte) ([]byte, error) {
	var reply C.gql_handle
	first, length := at(variables)
	q.lock.Lock()
	data.lock.Lock()
	status := C.gql_execute(&q.handle, &data.handle, nil, 0, first, length, 0, &reply)
	data.lock.Unlock()
	q.lock.Unlock()
	if err := told(status, &reply); err != nil {
		return nil, err
	}
	return take(&reply), nil
}

// Cost is how many nodes the data of a response to the only operation can have at most, where no list has more than so many items. It is
// known before anything is executed. What costs more than the limit is Refused.
func (q *Query) Cost(items, limit uint32) (uint32, error) { return q.cost(operation{}, items, limit) }

func (q *Query) cost(asked operation, items, limit uint32) (uint32, error) {
	var reply C.gql_handle
	var cost C.uint32_t
	most := C.gql_limit{items: C.uint32_t(items), nodes: C.uint32_t(limit)}
	name, length := at(asked.nameBytes())
	q.lock.Lock()
	status := C.gql_operation_cost(&q.handle, name, length, asked.flags()&C.GQL_NAMED, &most, &cost, &reply)
	q.lock.Unlock()
	if err := told(status, &reply); err != nil {
		return 0, err
	}
	return uint32(cost), nil
}
