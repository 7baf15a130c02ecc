package sunwaket

import (
	"errors"
	"testing"
)

func TestFirstAnswer(t *testing.T) {
	schema, err := NewSchema("type Query { book(title: String!): Book } type Book { title: String year: Int }")
	if err != nil {
		t.Fatal(err)
	}
	query, err := schema.Query("query ($title: String!) { book(title: $title) { title year } }")
	if err != nil {
		t.Fatal(err)
	}
	data, err := NewData([]byte(`{"book":{"title":"Emma","year":1815}}`))
	if err != nil {
		t.Fatal(err)
	}
	response, err := query.Execute(data, []byte(`{"title":"Emma"}`))
	if err != nil || string(response) != `{"data":{"book":{"title":"Emma","year":1815}}}` {
		t.Fatal(err, string(response))
	}
	var refused *Refused
	if _, err := query.Execute(data, nil); !errors.As(err, &refused) {
		t.Fatal(err)
	}
	if _, err := schema.Query("{ nope }"); !errors.As(err, &refused) {
		t.Fatal(err)
	}
	if cost, err := query.Cost(10, 100); err != nil || cost != 4 {
		t.Fatal(err, cost)
	}
	if _, err := query.Cost(10, 3); !errors.As(err, &refused) {
		t.Fatal(err)
	}
	if _, err := NewData([]byte("[]")); err != ErrUnread {
		t.Fatal(err)
	}
}
