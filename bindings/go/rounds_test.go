package sunwaket

import (
	"errors"
	"reflect"
	"testing"
)

type book struct {
	title string
	by    *author
}

type author struct{ name string }

const library = `type Query { books(first: Int = 2): [Book] found: Found half: Float } union Found = Book
	type Book { title: String by: Author } type Author { name: String } type Mutation { set(n: Int!): Holder } type Holder { n: Int }`

func queryOf(t *testing.T, text string) *Query {
	t.Helper()
	schema, err := NewSchema(library)
	if err != nil {
		t.Fatal(err)
	}
	query, err := schema.Query(text)
	if err != nil {
		t.Fatal(err)
	}
	return query
}

func expect(t *testing.T, query *Query, root any, resolve func([]Ask) []any, wanted string) {
	t.Helper()
	response, err := query.Resolve(root, nil, resolve)
	if err != nil || string(response) != wanted {
		t.Fatal(err, string(response))
	}
}

// resolveBook resolves the fields of the schema's objects, and counts the authors that it is asked for.
func resolveBook(asked *int) func(Ask) (any, error) {
	return func(ask Ask) (any, error) {
		switch of := ask.Object.(type) {
		case *book:
			if ask.Field == "by" {
				return Object{"Author", of.by}, nil
			}
			return of.title, nil
		case *author:
			*asked++
			return of.name, nil
		}
		return nil, errors.New("no such book")
	}
}

func TestResolve(t *testing.T) {
	austen := &author{"Jane Austen"}
	shelf := []any{Object{"Book", &book{"Emma", austen}}, nil, Object{"Book", &book{"Persuasion", austen}}}
	asked, rounds := 0, 0
	below := Each(resolveBook(&asked))
	resolve := func(asks []Ask) []any {
		rounds++
		if asks[0].Type == "Query" {
			if string(asks[0].Arguments) != `{"first":2}` || asks[0].Object != "root" {
				t.Fatal(asks)
			}
			return []any{shelf}
		}
		return below(asks)
	}
	wanted := `{"data":{"books":[{"title":"Emma","by":{"name":"Jane Austen"}},null,{"title":"Persuasion","by":{"name":"Jane Austen"}}]}}`
	expect(t, queryOf(t, "{ books { title by { name } } }"), "root", resolve, wanted)
	if asked != 1 || rounds != 3 {
		t.Fatal(asked, rounds)
	}
}

func TestResolveFailures(t *testing.T) {
	asked := 0
	wanted := `{"errors":[{"message":"resolver error: no such book","locations":[{"line":1,"column":3}],"path":["found"]}],"data":{"found":null}}`
	expect(t, queryOf(t, "{ found { __typename } }"), nil, Each(resolveBook(&asked)), wanted)
	half := func([]Ask) []any { return []any{0.5} }
	wanted = `{"errors":[{"message":"resolver error: a value has no JSON of whole numbers","locations":[{"line":1,"column":3}],"path":["half"]}],"data":{"half":null}}`
	expect(t, queryOf(t, "{ half }"), nil, half, wanted)
	if _, err := queryOf(t, "{ half }").Resolve(nil, nil, func([]Ask) []any { return nil }); err == nil {
		t.Fatal("too few values")
	}
	var refused *Refused
	if _, err := queryOf(t, "query ($n: Int!) { books(first: $n) { title } }").Resolve(nil, nil, half); !errors.As(err, &refused) {
		t.Fatal(err)
	}
}

func TestResolveMutation(t *testing.T) {
	holder := &[]int{0}
	var order []string
	resolve := Each(func(ask Ask) (any, error) {
		order = append(order, ask.Field)
		if ask.Field == "set" {
			(*holder)[0]++
			return Object{"Holder", holder}, nil
		}
		return (*ask.Object.(*[]int))[0], nil
	})
	wanted := `{"data":{"a":{"n":1},"b":{"n":2}}}`
	expect(t, queryOf(t, "mutation { a: set(n: 1) { n } b: set(n: 2) { n } }"), nil, resolve, wanted)
	if !reflect.DeepEqual(order, []string{"set", "n", "set", "n"}) {
		t.Fatal(order)
	}
}
