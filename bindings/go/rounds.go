package sunwaket

/*
#include "gql.h"
*/
import "C"

import (
	"encoding/json"
	"errors"
	"fmt"
	"reflect"
	"runtime"
	"strings"
	"time"
)

// Ask is a field of an object that is to be resolved with these arguments.
type Ask struct {
	// Object is what a resolver gave for it; for the object that the operation begins at, what Resolve was given.
	Object any
	// Type is the name of the object's type, and Field that of the field.
	Type, Field string
	// Arguments is the JSON of an object.
	Arguments json.RawMessage
}

// Object is what a resolver gives where the field's type lets an object stand: any value, and the name of its object type. It may be an
// item of an []any, and a pointer stands for one object, however often it is given.
type Object struct {
	Type  string
	Value any
}

// Each is a resolver of a round that resolves one field after the other.
func Each(resolve func(Ask) (any, error)) func([]Ask) []any {
	return func(asks []Ask) []any {
		values := make([]any, len(asks))
		for at, ask := range asks {
			value, err := resolve(ask)
			if err != nil {
				value = err
			}
			values[at] = value
		}
		return values
	}
}

// Resolve gives the JSON of the response to the only operation of the query, with the values of its variables as JSON, or none, by a
// resolver over any objects.
//
// The resolver is given all fields that can be resolved in a round, and gives as many values in the same order: an Object, an []any,
// nil, an error, which stands in the response, or what has a JSON of whole numbers. The root fields of a mutation come one by one, each
// once those before it are whole (GraphQL October 2021, section 6.2.2).
func (q *Query) Resolve(root any, variables []byte, resolve func([]Ask) []any) ([]byte, error) {
	return q.resolve(root, operation{variables: variables}, resolve, nil)
}

// Which operation of a query is executed, and how. Without a name it is the only one.
type operation struct {
	name          *string
	variables     []byte
	introspection bool
}

func (o operation) nameBytes() []byte {
	if o.name == nil {
		return nil
	}
	return []byte(*o.name)
}

func (o operation) flags() C.uint32_t {
	var flags C.uint32_t
	if o.name != nil {
		flags |= C.GQL_NAMED
	}
	if o.introspection {
		flags |= C.GQL_INTROSPECTION
	}
	return flags
}

// resolve is Resolve for any operation, whose rounds a meter may measure and end.
func (q *Query) resolve(root any, asked operation, resolve func([]Ask) []any, meter *meter) ([]byte, error) {
	kind, err := q.kind(asked)
	if err != nil {
		return nil, err
	}
	serial := kind == C.GQL_MUTATION
	request := &rounds{objects: []any{root}, numbers: map[Object]int{}}
	answers := new(value)
	runtime.SetFinalizer(answers, func(v *value) { v.free() })
	for {
		start := time.Now()
		reply, isAsked, err := q.step(answers, asked)
		meter.engine(time.Since(start))
		if err != nil || !isAsked {
			return reply, err
		}
		if err := request.answer(answers, reply, serial, meter.measured(resolve)); err != nil {
			return nil, err
		}
	}
}

// kind gives the kind of an operation; GQL_NO_OPERATION where there is none.
func (q *Query) kind(asked operation) (C.uint32_t, error) {
	var kind C.uint32_t
	first, length := at(asked.nameBytes())
	q.lock.Lock()
	status := C.gql_operation_kind(&q.handle, first, length, asked.flags()&C.GQL_NAMED, &kind)
	q.lock.Unlock()
	if status != C.GQL_ANSWERED && status != C.GQL_REFUSED {
		return kind, told(status, nil)
	}
	return kind, nil
}

// step gives what is asked, and whether something is; or the response.
func (q *Query) step(answers *value, asked operation) ([]byte, bool, error) {
	var reply C.gql_handle
	first, length := at(asked.variables)
	name, nameLength := at(asked.nameBytes())
	q.lock.Lock()
	answers.lock.Lock()
	status := C.gql_step(&q.handle, &answers.handle, name, nameLength, first, length, asked.flags(), &reply)
	answers.lock.Unlock()
	q.lock.Unlock()
	if status == C.GQL_ASKS {
		return take(&reply), true, nil
	}
	if err := told(status, &reply); err != nil {
		return nil, false, err
	}
	return take(&reply), false, nil
}

// The objects of a request by their numbers, and the numbers of those that are pointers.
type rounds struct {
	objects []any
	numbers map[Object]int
}

// What is asked, as the library writes it.
type written struct {
	Object    int             `json:"object"`
	Type      string          `json:"type"`
	Field     string          `json:"field"`
	Arguments json.RawMessage `json:"arguments"`
}

// answer has a round resolved, and adds the answers.
func (r *rounds) answer(answers *value, text []byte, serial bool, resolve func([]Ask) []any) error {
	var all []written
	if err := json.Unmarshal(text, &all); err != nil {
		return err
	}
	if serial {
		all = r.due(all)
	}
	asks := make([]Ask, len(all))
	for at, it := range all {
		asks[at] = Ask{r.objects[it.Object], it.Type, it.Field, it.Arguments}
	}
	values := resolve(asks)
	if len(values) != len(asks) {
		return fmt.Errorf("sunwaket: the resolver gives %d values for %d", len(values), len(asks))
	}
	told := make([]string, len(all))
	for at, it := range all {
		told[at] = fmt.Sprintf(`{"object":%d,"field":"%s","arguments":%s,"value":%s}`, it.Object, it.Field, it.Arguments, r.json(values[at]))
	}
	return answers.add([]byte("[" + strings.Join(told, ",") + "]"))
}

// due gives those asks of a mutation that may be answered now: a field of the root once nothing else is asked.
func (r *rounds) due(all []written) []written {
	var below []written
	for _, it := range all {
		if it.Object != 0 {
			below = append(below, it)
		}
	}
	if below != nil {
		return below
	}
	// What was read of an object before this field is resolved may be another value after it.
	r.numbers = map[Object]int{}
	return all[:1]
}

func (answers *value) add(text []byte) error {
	first, length := at(text)
	answers.lock.Lock()
	defer answers.lock.Unlock()
	return told(C.gql_answers_add(&answers.handle, first, length), nil)
}

// json gives a value as the library reads it.
func (r *rounds) json(value any) string {
	switch value := value.(type) {
	case nil:
		return "null"
	case error:
		return failure(value)
	case Object:
		return fmt.Sprintf(`{"object":%d,"type":%s}`, r.number(value), quoted(value.Type))
	case []any:
		items := make([]string, len(value))
		for at, item := range value {
			items[at] = r.json(item)
		}
		return "[" + strings.Join(items, ",") + "]"
	}
	return leaf(value)
}

// number gives the number of an object, a new one unless it is a pointer that was given before.
func (r *rounds) number(object Object) int {
	isPointer := object.Value != nil && reflect.TypeOf(object.Value).Kind() == reflect.Pointer
	if isPointer {
		if number, known := r.numbers[object]; known {
			return number
		}
		r.numbers[object] = len(r.objects)
	}
	r.objects = append(r.objects, object.Value)
	return len(r.objects) - 1
}

var errNoJSON = errors.New("a value has no JSON of whole numbers")

// leaf gives the JSON of a value, or a failure where the library does not read it: one value never spoils the others.
func leaf(value any) string {
	text, err := json.Marshal(value)
	if err != nil {
		return failure(err)
	}
	data, err := NewData([]byte(`{"":[` + string(text) + `]}`))
	if err != nil {
		return failure(errNoJSON)
	}
	data.free()
	return string(text)
}

func failure(err error) string { return `{"__error":` + quoted(err.Error()) + `}` }

func quoted(text string) string {
	made, _ := json.Marshal(text) // of a text there always is one
	return string(made)
}
