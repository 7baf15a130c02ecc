package sunwaket

import (
	"context"
	"encoding/json"
	"errors"
	"fmt"
	"io"
	"net"
	"net/http"
	"net/http/httptest"
	"os"
	"strings"
	"testing"
	"time"
)

const served = `
	type Query { count: Int! echo(id: ID): String books: [Book!]! fails: String late: String who: String panics: Int }
	type Mutation { rename(title: String): Book }
	type Subscription { counted(to: Int = 3): Int fails: Int silent: Int }
	type Book { id: ID! title: String next: Book }`

func resolveServed(r *http.Request) (func([]Ask) []any, error) {
	if r.Header.Get("Authorization") == "none" {
		return nil, &Fault{Status: http.StatusUnauthorized, Message: "who are you?"}
	}
	return Each(func(ask Ask) (any, error) {
		switch ask.Field {
		case "count":
			return 1, nil
		case "counted":
			return ask.Object, nil
		case "echo":
			return "here", nil
		case "who":
			return r.Header.Get("Authorization"), nil
		case "books":
			return []any{Object{"Book", "1"}, Object{"Book", "2"}}, nil
		case "next", "rename":
			return Object{"Book", "3"}, nil
		case "late":
			select {}
		case "panics":
			panic("a secret")
		case "id":
			return ask.Object, nil
		}
		return nil, errors.New("fails")
	}), nil
}

func handlerOf(t testing.TB, options Options) *Handler {
	t.Helper()
	schema, err := NewSchema(served)
	if err != nil {
		t.Fatal(err)
	}
	return NewHandler(schema, resolveServed, options)
}

func posted(query string, more string) *http.Request {
	body := `{"query":` + quoted(query) + more + `}`
	if query == "" {
		body = "{" + strings.TrimPrefix(more, ",") + "}"
	}
	made := httptest.NewRequest("POST", "/graphql", strings.NewReader(body))
	made.Header.Set("Content-Type", mediaJSON)
	made.Header.Set("Accept", mediaGraphQL)
	return made
}

func answered(handler http.Handler, request *http.Request) (int, string) {
	writer := httptest.NewRecorder()
	handler.ServeHTTP(writer, request)
	return writer.Code, writer.Body.String()
}

const counted = `{"data":{"count":1}}`

func TestLimits(t *testing.T) {
	for _, it := range []struct {
		limits         Limits
		above, message string
		status         int
		within         string
	}{
		{Limits{Depth: 2}, "{ books { next { id } } }", "the query is nested deeper than 2", 400, "{ books { id } }"},
		{Limits{Items: 10, Nodes: 20}, "{ books { id } }", "cost above limit", 400, "{ count }"},
		{Limits{Rounds: 2}, "{ books { next { id } } }", "the query takes more than 2 rounds", 400, "{ books { id } }"},
		{Limits{Asks: 4}, "{ books { id title } }", "the query asks more than 4 fields of objects", 400, "{ books { id } }"},
		{Limits{Time: 50 * time.Millisecond}, "{ late }", "the operation took more than 50ms", 503, "{ count }"},
		{Limits{Body: 40}, "{ count }" + strings.Repeat(" ", 40), "the request has more than 40 bytes", 413, "{ count }"},
	} {
		handler := handlerOf(t, Options{Limits: it.limits})
		status, body := answered(handler, posted(it.above, ""))
		if status != it.status || body != `{"errors":[{"message":"`+it.message+`"}]}` {
			t.Error(it.message, status, body)
		}
		if status, body = answered(handler, posted(it.within, "")); status != 200 || strings.Contains(body, "errors") {
			t.Error(it.message, status, body)
		}
	}
}

func TestDepth(t *testing.T) {
	for _, it := range []struct {
		text, name string
		depth      int
	}{
		{"{ a }", "", 1},
		{`query A($x: [Int!] = [1]) @d(a: {b: "}{"}) { a(x: $x, y: {z: ")"}) @d { b c: d { e } } f }`, "A", 3},
		{"{ ... on T { a { b } } ... @skip(if: true) { a { b { c } } } ...F } fragment F on T { a }", "", 3},
		{"fragment F on T { ...G a } fragment G on T { a { b { c } } } query { x { ...F } } # { {", "", 4},
		{`{ a(x: """ { { \""" { """) b }`, "", 1},
	} {
		if name, depth := lookAt(it.text, nil); name != it.name || depth != it.depth {
			t.Error(it.text, name, depth)
		}
	}
}

func TestPersisted(t *testing.T) {
	handler := handlerOf(t, Options{Documents: NewMemoryDocuments(1 << 20)})
	named := fmt.Sprintf(`,"extensions":{"persistedQuery":{"version":1,"sha256Hash":"%s"}}`, sumOf("{ count }"))
	if status, body := answered(handler, posted("", named)); status != 400 || !strings.Contains(body, "PersistedQueryNotFound") {
		t.Error(status, body)
	}
	if status, _ := answered(handler, posted("{ echo }", named)); status != 400 {
		t.Error(status)
	}
	for _, query := range []string{"{ count }", ""} {
		if status, body := answered(handler, posted(query, named)); status != 200 || body != counted {
			t.Error(status, body)
		}
	}
	listed := handlerOf(t, Options{Documents: NewListedDocuments("{ count }")})
	if status, body := answered(listed, posted("{ count }", "")); status != 200 || body != counted {
		t.Error(status, body)
	}
	if status, _ := answered(listed, posted("{ a: count }", "")); status != 403 {
		t.Error(status)
	}
}

func TestKept(t *testing.T) {
	all := newKept(2, func(string) int { return 1 })
	for _, key := range []string{"a", "b"} {
		all.put(key, key)
	}
	all.get("a")
	all.put("c", "c")
	if _, has := all.get("b"); has {
		t.Error("the least recently used stayed")
	}
	if _, has := all.get("a"); !has {
		t.Error("the last used went")
	}
}

func TestRequests(t *testing.T) {
	var told []Told
	handler := handlerOf(t, Options{HidesSchema: true, Limits: Limits{Batch: 2}, Watch: func(it Told) { told = append(told, it) }})
	refused := posted("{ count }", "")
	refused.Header.Set("Authorization", "none")
	named := posted("{ who }", "")
	named.Header.Set("Authorization", "ada")
	batch := posted("", "")
	batch.Body = io.NopCloser(strings.NewReader(`[{"query":"{ count }"},{"quarry":1}]`))
	batch.ContentLength = -1
	for _, it := range []struct {
		request *http.Request
		status  int
		part    string
	}{
		{refused, 401, "who are you?"},
		{named, 200, `{"data":{"who":"ada"}}`},
		{batch, 200, `[{"data":{"count":1}},{"errors"`},
		{posted("query A { count } query B { echo }", `,"operationName":"B"`), 200, `{"data":{"echo":"here"}}`},
		{posted("{ panics }", ""), 500, "internal error"},
		{posted("{ __schema { queryType { name } } }", ""), 200, `"errors"`},
		{posted("subscription { counted }", ""), 406, "text/event-stream"},
	} {
		if status, body := answered(handler, it.request); status != it.status || !strings.Contains(body, it.part) {
			t.Error(status, body)
		}
	}
	if it := told[2]; it.Name != "B" || it.Kind != "query" || it.Rounds != 1 || it.Asks != 1 || it.Errors != 0 || it.Status != 200 {
		t.Error(it)
	}
}

func sources(freed chan<- string) map[string]Source {
	return map[string]Source{
		"counted": func(ctx context.Context, arguments json.RawMessage) (<-chan any, error) {
			events := make(chan any)
			go func() {
				defer close(events)
				for at := 0; at < 2; at++ {
					events <- at
				}
			}()
			return events, nil
		},
		"fails": func(context.Context, json.RawMessage) (<-chan any, error) { return nil, errors.New("no source") },
		"silent": func(ctx context.Context, _ json.RawMessage) (<-chan any, error) {
			go func() {
				<-ctx.Done()
				freed <- "freed"
			}()
			return make(chan any), nil
		},
	}
}

func TestStreams(t *testing.T) {
	const complete = "event: complete\ndata:\n\n"
	handler := handlerOf(t, Options{Subscriptions: sources(nil)})
	for _, it := range []struct{ query, wanted string }{
		{"subscription { counted }", "event: next\ndata: {\"data\":{\"counted\":0}}\n\nevent: next\ndata: {\"data\":{\"counted\":1}}\n\n" + complete},
		{"subscription { fails }", "event: next\ndata: {\"errors\":[{\"message\":\"resolver error: no source\"}]}\n\n" + complete},
		{"{ count }", "event: next\ndata: " + counted + "\n\n" + complete},
	} {
		request := posted(it.query, "")
		request.Header.Set("Accept", mediaEvents)
		if status, body := answered(handler, request); status != 200 || body != it.wanted {
			t.Error(status, body)
		}
	}
}

func TestAClientThatLeavesFreesItsSource(t *testing.T) {
	freed := make(chan string, 1)
	server := httptest.NewServer(handlerOf(t, Options{Subscriptions: sources(freed), KeepAlive: 5 * time.Millisecond}))
	defer server.Close()
	ctx, leave := context.WithCancel(context.Background())
	request, _ := http.NewRequestWithContext(ctx, "POST", server.URL, strings.NewReader(`{"query":"subscription { silent }"}`))
	request.Header.Set("Content-Type", mediaJSON)
	request.Header.Set("Accept", mediaEvents)
	response, err := http.DefaultClient.Do(request)
	if err != nil {
		t.Fatal(err)
	}
	alive := make([]byte, 3)
	if _, err := io.ReadFull(response.Body, alive); err != nil || string(alive) != ":\n\n" {
		t.Fatal(err, alive)
	}
	leave()
	select {
	case <-freed:
	case <-time.After(10 * time.Second):
		t.Fatal("the source was not freed")
	}
}

// TestServe serves the schema for a client elsewhere, until its standard input ends.
func TestServe(t *testing.T) {
	if os.Getenv("SUNWAKET_SERVES") == "" {
		t.Skip("nobody asks")
	}
	listener, err := net.Listen("tcp", "127.0.0.1:0")
	if err != nil {
		t.Fatal(err)
	}
	fmt.Println(listener.Addr().(*net.TCPAddr).Port)
	go func() { _ = http.Serve(listener, handlerOf(t, Options{Path: "/graphql"})) }()
	_, _ = io.Copy(io.Discard, os.Stdin)
}
