package sunwaket

/*
#include "gql.h"
*/
import "C"

import (
	"bytes"
	"context"
	"encoding/json"
	"fmt"
	"log"
	"net/http"
	"strconv"
	"strings"
	"sync/atomic"
	"time"
)

// Limits is the most that a request may have or take; 0 is no limit, but for Body (1 MB), Items (100) and Seconds (30), which 0 leaves
// so.
type Limits struct {
	Body          int64
	Depth         int
	Items, Nodes  uint32
	Rounds, Asks  int
	Time          time.Duration
	Batch         int
	QueriesInRoom int
}

// Told is what an operation took.
type Told struct {
	// Name is that of the operation, and Kind is "query", "mutation" or "subscription"; both are empty where none was found.
	Name, Kind               string
	Cost                     uint32
	Rounds, Asks             int
	Whole, Engine, Resolvers time.Duration
	Errors, Status           int
}

// Source gives the events of the root field of a subscription for the values of its arguments: each is the object that the operation is
// executed with. It closes the channel at its end, and when the context is done, which is when the client leaves.
type Source func(ctx context.Context, arguments json.RawMessage) (<-chan any, error)

// Options of a Handler, none of which need be set.
type Options struct {
	// Path is where queries are answered; elsewhere is 404. Empty, any path is answered.
	Path   string
	Root   any
	Limits Limits
	// HidesSchema has `__schema` and `__type` fail.
	HidesSchema bool
	// Origins are those whose pages may ask; "*" is any.
	Origins       []string
	Documents     Documents
	Subscriptions map[string]Source
	// Watch is called once an operation.
	Watch func(Told)
	// KeepAlive is after how long a silent stream says that it is there: 15 seconds where it is 0.
	KeepAlive time.Duration
}

// Handler answers GraphQL over HTTP.
type Handler struct {
	schema  *Schema
	resolve func(*http.Request) (func([]Ask) []any, error)
	options Options
	queries *kept[*readQuery]
}

type readQuery struct {
	query *Query
	text  string
}

// NewHandler gives a handler of requests to a schema. For each request `resolve` gives the resolver, as Query.Resolve takes one, which may
// know what it likes of the request; an error in its place is answered, a *Fault by its status.
func NewHandler(schema *Schema, resolve func(*http.Request) (func([]Ask) []any, error), options Options) *Handler {
	limits := &options.Limits
	limits.Body = orElse(limits.Body, 1<<20)
	limits.Items = orElse(limits.Items, 100)
	limits.Time = orElse(limits.Time, 30*time.Second)
	limits.QueriesInRoom = orElse(limits.QueriesInRoom, 64<<20)
	options.KeepAlive = orElse(options.KeepAlive, 15*time.Second)
	queries := newKept(limits.QueriesInRoom, func(it *readQuery) int { return 12_000 + 100*len(it.text) })
	return &Handler{schema, resolve, options, queries}
}

func orElse[T comparable](given, usual T) T {
	var zero T
	if given == zero {
		return usual
	}
	return given
}

// A meter ends an operation that takes too much.
type meter struct {
	limits       Limits
	start        time.Time
	rounds, asks int
	inEngine     time.Duration
	isOver       atomic.Bool
	fault        *Fault
}

func newMeter(limits Limits, start time.Time) *meter { return &meter{limits: limits, start: start} }

func (m *meter) engine(took time.Duration) {
	if m != nil {
		m.inEngine += took
	}
}

// measured gives a resolver that does nothing, and gives too few values, once there is too much.
func (m *meter) measured(resolve func([]Ask) []any) func([]Ask) []any {
	if m == nil {
		return resolve
	}
	return func(asks []Ask) []any {
		m.rounds++
		m.asks += len(asks)
		limits := m.limits
		switch {
		case limits.Rounds > 0 && m.rounds > limits.Rounds:
			m.fault = &Fault{Message: fmt.Sprintf("the query takes more than %d rounds", limits.Rounds)}
		case limits.Asks > 0 && m.asks > limits.Asks:
			m.fault = &Fault{Message: fmt.Sprintf("the query asks more than %d fields of objects", limits.Asks)}
		case m.isOver.Load():
			m.fault = tooSlow(limits)
		default:
			return resolve(asks)
		}
		return nil
	}
}

func tooSlow(limits Limits) *Fault {
	return &Fault{Status: http.StatusServiceUnavailable, Message: fmt.Sprintf("the operation took more than %v", limits.Time)}
}

// A job is one operation, from its text to its response.
type job struct {
	handler *Handler
	request *http.Request
	resolve func([]Ask) []any
	meter   *meter
	asked   asked
	read    *readQuery
	told    Told
}

func (h *Handler) job(r *http.Request, resolve func([]Ask) []any) *job {
	return &job{handler: h, request: r, resolve: resolve, meter: newMeter(h.options.Limits, time.Now())}
}

func (j *job) operation() operation {
	return operation{j.asked.operationName, j.asked.variables, !j.handler.options.HidesSchema}
}

// ServeHTTP answers a request.
func (h *Handler) ServeHTTP(w http.ResponseWriter, r *http.Request) {
	h.tellOrigins(w, r)
	if h.options.Path != "" && r.URL.Path != h.options.Path {
		send(w, mediaJSON, nil, &Fault{Status: http.StatusNotFound, Message: "there is nothing here but " + h.options.Path})
		return
	}
	switch r.Method {
	case http.MethodOptions:
		h.preflight(w, r)
		return
	case http.MethodGet, http.MethodHead, http.MethodPost:
	default:
		header := http.Header{"Allow": {methods}}
		send(w, mediaJSON, nil, &Fault{Status: http.StatusMethodNotAllowed, Message: "the method is GET or POST", Header: header})
		return
	}
	kind, fault := accepted(r.Header.Get("Accept"), len(h.options.Subscriptions) > 0)
	if fault != nil {
		send(w, kind, nil, fault)
		return
	}
	h.respond(w, r, kind)
}

func (h *Handler) respond(w http.ResponseWriter, r *http.Request, kind string) {
	all, isBatch, fault := h.read(r, kind)
	if fault != nil {
		send(w, kind, nil, fault)
		return
	}
	resolve, err := h.resolve(r)
	if err != nil {
		send(w, kind, nil, err)
		return
	}
	if kind == mediaEvents {
		h.stream(w, r, resolve, all[0].asked)
		return
	}
	parts := make([][]byte, len(all))
	for at, one := range all {
		response, err := h.outcome(r, resolve, one)
		if !isBatch {
			send(w, kind, response, err)
			return
		}
		_, parts[at], _ = toldOf(response, err, kind)
	}
	send(w, kind, append(append([]byte("["), bytes.Join(parts, []byte(","))...), ']'), nil)
}

// One request of a list, or what is wrong with it.
type one struct {
	asked asked
	fault *Fault
}

// read gives what is asked, and whether it is a list.
func (h *Handler) read(r *http.Request, kind string) ([]one, bool, *Fault) {
	if r.Method != http.MethodPost {
		given, fault := fromAddress(r.URL.RawQuery)
		if fault != nil {
			return nil, false, fault
		}
		it, fault := parametersIn(given)
		return []one{{asked: it}}, false, fault
	}
	body, fault := bodyOf(r, h.options.Limits.Body)
	if fault != nil {
		return nil, false, fault
	}
	var list []json.RawMessage
	limit := h.options.Limits.Batch
	if limit == 0 || json.Unmarshal(body, &list) != nil || list == nil {
		it, fault := parametersOf(body)
		return []one{{asked: it}}, false, fault
	}
	if len(list) == 0 || len(list) > limit || kind == mediaEvents {
		return nil, true, wrong("a list has 1 to " + strconv.Itoa(limit) + " requests, and no stream")
	}
	all := make([]one, len(list))
	for at, it := range list {
		all[at].asked, all[at].fault = parametersOf(it)
	}
	return all, true, nil
}

// outcome gives the response of one operation.
func (h *Handler) outcome(r *http.Request, resolve func([]Ask) []any, it one) ([]byte, error) {
	if it.fault != nil {
		return nil, it.fault
	}
	made := h.job(r, resolve)
	if err := made.prepare(it.asked, false); err != nil {
		return made.done(nil, err)
	}
	return made.done(made.run(h.options.Root))
}

// prepare reads the text of the query, or finds it, and looks at its limits.
func (j *job) prepare(it asked, isStream bool) error {
	options := &j.handler.options
	j.asked = it
	text, fault := textOf(options.Documents, it)
	if fault != nil {
		return fault
	}
	read, has := j.handler.queries.get(text)
	if !has {
		query, err := j.handler.schema.Query(text)
		if err != nil {
			return err
		}
		read = &readQuery{query, text}
		j.handler.queries.put(text, read)
	}
	j.read = read
	if _, isNamed := it.extensions["persistedQuery"]; isNamed && it.query != nil && options.Documents != nil {
		options.Documents.Put(sumOf(text), text)
	}
	return j.look(isStream)
}

var kinds = map[C.uint32_t]string{C.GQL_QUERY: "query", C.GQL_MUTATION: "mutation", C.GQL_SUBSCRIPTION: "subscription"}

func (j *job) look(isStream bool) error {
	limits := j.handler.options.Limits
	kind, err := j.read.query.kind(j.operation())
	if err != nil {
		return err
	}
	j.told.Kind = kinds[kind]
	if isQuery := kind == C.GQL_QUERY || kind == C.GQL_NO_OPERATION; j.request.Method != http.MethodPost && !isQuery && !(isStream && kind == C.GQL_SUBSCRIPTION) {
		header := http.Header{"Allow": {"POST, OPTIONS"}}
		return &Fault{Status: http.StatusMethodNotAllowed, Message: "only queries are executed by GET", Header: header}
	}
	if kind == C.GQL_SUBSCRIPTION && !isStream {
		return &Fault{Status: http.StatusNotAcceptable, Message: "a subscription is answered as text/event-stream"}
	}
	if kind == C.GQL_NO_OPERATION {
		return nil
	}
	if limits.Nodes > 0 {
		if j.told.Cost, err = j.read.query.cost(j.operation(), limits.Items, limits.Nodes); err != nil {
			return err
		}
	}
	if limits.Depth > 0 || j.handler.options.Watch != nil {
		var depth int
		if j.told.Name, depth = lookAt(j.read.text, j.asked.operationName); limits.Depth > 0 && depth > limits.Depth {
			return &Fault{Message: fmt.Sprintf("the query is nested deeper than %d", limits.Depth)}
		}
	}
	return nil
}

// What comes of an operation.
type outcome struct {
	response []byte
	err      error
}

// run gives the response, unless it takes too long: then the operation ends at its next round.
func (j *job) run(root any) ([]byte, error) {
	query, err := j.read.query.share()
	if err != nil {
		return nil, err
	}
	found, meter := make(chan outcome, 1), j.meter
	go func() {
		defer func() {
			if panicked := recover(); panicked != nil {
				found <- outcome{nil, fmt.Errorf("a resolver panicked: %v", panicked)}
			}
		}()
		response, err := query.resolve(root, j.operation(), j.resolve, meter)
		if meter.fault != nil {
			response, err = nil, meter.fault
		}
		found <- outcome{response, err}
	}()
	timer := time.NewTimer(meter.limits.Time)
	defer timer.Stop()
	select {
	case it := <-found:
		return it.response, it.err
	case <-timer.C:
		meter.isOver.Store(true)
		// What the other goroutine still writes is not read.
		j.meter = newMeter(meter.limits, meter.start)
		return nil, tooSlow(meter.limits)
	}
}

// done tells whoever watches what came of an operation.
func (j *job) done(response []byte, err error) ([]byte, error) {
	status, body, _ := toldOf(response, err, mediaGraphQL)
	if status == http.StatusInternalServerError {
		log.Printf("sunwaket: a request ended by an error: %v", err)
	}
	if watch := j.handler.options.Watch; watch != nil {
		it, meter := j.told, j.meter
		it.Rounds, it.Asks, it.Engine, it.Status = meter.rounds, meter.asks, meter.inEngine, status
		it.Whole = time.Since(meter.start)
		it.Resolvers = it.Whole - it.Engine
		it.Errors = errorsIn(body)
		watch(it)
	}
	return response, err
}

// errorsIn counts the errors of a response, which come first in it.
func errorsIn(body []byte) int {
	var read struct {
		Errors []json.RawMessage `json:"errors"`
	}
	if bytes.HasPrefix(body, []byte(`{"errors"`)) {
		_ = json.Unmarshal(body, &read)
	}
	return len(read.Errors)
}

// send answers with a response, or with what is wrong.
func send(w http.ResponseWriter, kind string, response []byte, err error) {
	if kind == mediaEvents {
		kind = mediaJSON
	}
	status, body, header := toldOf(response, err, kind)
	for name, values := range header {
		w.Header()[name] = values
	}
	w.Header().Set("Content-Type", kind+"; charset=utf-8")
	w.Header().Set("Content-Length", strconv.Itoa(len(body)))
	w.WriteHeader(status)
	_, _ = w.Write(body)
}

func (h *Handler) tellOrigins(w http.ResponseWriter, r *http.Request) {
	origins, origin := h.options.Origins, r.Header.Get("Origin")
	if len(origins) == 1 {
		w.Header().Set("Access-Control-Allow-Origin", origins[0])
		return
	}
	for _, allowed := range origins {
		w.Header().Set("Vary", "Origin")
		if origin != "" && strings.EqualFold(allowed, origin) {
			w.Header().Set("Access-Control-Allow-Origin", origin)
		}
	}
}

func (h *Handler) preflight(w http.ResponseWriter, r *http.Request) {
	w.Header().Set("Allow", methods)
	if len(h.options.Origins) > 0 {
		w.Header().Set("Access-Control-Allow-Methods", methods)
		w.Header().Set("Access-Control-Allow-Headers", orElse(r.Header.Get("Access-Control-Request-Headers"), "Content-Type"))
		w.Header().Set("Access-Control-Max-Age", "600")
	}
	w.WriteHeader(http.StatusNoContent)
}
