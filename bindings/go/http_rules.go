package sunwaket

import (
	"bytes"
	"encoding/json"
	"errors"
	"io"
	"mime"
	"net/http"
	"net/url"
	"strconv"
	"strings"
	"unicode/utf8"
)

const (
	mediaGraphQL = "application/graphql-response+json"
	mediaJSON    = "application/json"
	mediaEvents  = "text/event-stream"
	methods      = "GET, HEAD, POST, OPTIONS"
)

// Fault is a request that is answered without a response: a status and a message. With the status 0 it is a refusal of the query, whose
// status is that of a fault of validation.
type Fault struct {
	Status  int
	Message string
	Code    string
	Header  http.Header
}

func (f *Fault) Error() string { return f.Message }

func (f *Fault) body() []byte {
	one := map[string]any{"message": f.Message}
	if f.Code != "" {
		one["extensions"] = map[string]string{"code": f.Code}
	}
	made, _ := json.Marshal(map[string]any{"errors": []any{one}}) // of texts there always is one
	return made
}

// What a request asks. A query is nil where the extensions name one that is known.
type asked struct {
	query, operationName *string
	variables            json.RawMessage
	extensions           map[string]json.RawMessage
}

// accepted gives the media type of the answer, by quality, then by order.
func accepted(header string, hasStreams bool) (string, *Fault) {
	if header == "" {
		return mediaJSON, nil
	}
	best, chosen := 0.0, ""
	for _, given := range strings.Split(header, ",") {
		name, parameters, err := mime.ParseMediaType(given)
		if err != nil {
			continue
		}
		quality := 1.0
		if told, has := parameters["q"]; has {
			quality, _ = strconv.ParseFloat(told, 64)
		}
		if kind := answeredWith(name, hasStreams); kind != "" && isUTF8(parameters["charset"]) && quality > best {
			best, chosen = quality, kind
		}
	}
	if chosen == "" {
		return mediaJSON, &Fault{Status: http.StatusNotAcceptable, Message: "the answer is " + mediaGraphQL + " or " + mediaJSON + ", in UTF-8"}
	}
	return chosen, nil
}

func answeredWith(name string, hasStreams bool) string {
	switch name {
	case mediaGraphQL, "application/*":
		return mediaGraphQL
	case mediaJSON, "*/*":
		return mediaJSON
	case mediaEvents:
		if hasStreams {
			return mediaEvents
		}
	}
	return ""
}

func isUTF8(charset string) bool {
	charset = strings.ToLower(charset)
	return charset == "" || charset == "utf-8" || charset == "utf8"
}

func wrong(message string) *Fault { return &Fault{Status: http.StatusBadRequest, Message: message} }

// bodyOf reads the body of a POST request: at most so many bytes.
func bodyOf(r *http.Request, limit int64) ([]byte, *Fault) {
	tooLong := &Fault{Status: http.StatusRequestEntityTooLarge, Message: "the request has more than " + strconv.FormatInt(limit, 10) + " bytes"}
	if r.ContentLength > limit {
		return nil, tooLong
	}
	name, parameters, err := mime.ParseMediaType(r.Header.Get("Content-Type"))
	if err != nil || name != mediaJSON || !isUTF8(parameters["charset"]) {
		header := http.Header{"Accept-Post": {mediaJSON}}
		return nil, &Fault{Status: http.StatusUnsupportedMediaType, Message: "the request is " + mediaJSON + ", in UTF-8", Header: header}
	}
	body, err := io.ReadAll(io.LimitReader(r.Body, limit+1))
	if err != nil {
		return nil, wrong("the request is not whole")
	}
	if int64(len(body)) > limit {
		return nil, tooLong
	}
	if !utf8.Valid(body) || !json.Valid(body) {
		return nil, wrong("the request is no JSON text")
	}
	return body, nil
}

// fromAddress gives the parameters of a GET request as a body has them. Empty ones are left out.
func fromAddress(query string) (map[string]json.RawMessage, *Fault) {
	values, err := url.ParseQuery(query)
	if err != nil {
		return nil, wrong("the address is no query")
	}
	given := map[string]json.RawMessage{}
	for _, name := range []string{"query", "operationName", "variables", "extensions"} {
		all := values[name]
		if len(all) == 0 || all[len(all)-1] == "" {
			continue
		}
		text := all[len(all)-1]
		if !utf8.ValidString(text) {
			return nil, wrong("the address is no UTF-8")
		}
		if name == "query" || name == "operationName" {
			text = quoted(text)
		}
		if !json.Valid([]byte(text)) {
			return nil, wrong("`" + name + "` is no JSON text")
		}
		given[name] = json.RawMessage(text)
	}
	return given, nil
}

func isNull(given json.RawMessage) bool { return len(given) == 0 || bytes.Equal(given, []byte("null")) }

// readText reads a parameter that is a text, or nil where there is none.
func readText(given map[string]json.RawMessage, name string) (*string, *Fault) {
	if isNull(given[name]) {
		return nil, nil
	}
	var text string
	if json.Unmarshal(given[name], &text) != nil {
		return nil, wrong("the parameter `" + name + "` is no text")
	}
	return &text, nil
}

// parametersOf gives what a request asks.
func parametersOf(body json.RawMessage) (asked, *Fault) {
	var given map[string]json.RawMessage
	if json.Unmarshal(body, &given) != nil || given == nil {
		return asked{}, wrong("the request is no object")
	}
	return parametersIn(given)
}

func parametersIn(given map[string]json.RawMessage) (asked, *Fault) {
	var made asked
	for _, name := range []string{"variables", "extensions"} {
		if !isNull(given[name]) && given[name][0] != '{' {
			return made, wrong("the parameter `" + name + "` is no object")
		}
	}
	var first, second *Fault
	made.query, first = readText(given, "query")
	made.operationName, second = readText(given, "operationName")
	if first != nil || second != nil {
		return made, firstOf(first, second)
	}
	if !isNull(given["variables"]) {
		made.variables = given["variables"]
	}
	if !isNull(given["extensions"]) {
		_ = json.Unmarshal(given["extensions"], &made.extensions) // it is an object
	}
	if _, isNamed := made.extensions["persistedQuery"]; made.query == nil && !isNamed {
		return made, wrong("the parameter `query` is missing")
	}
	return made, nil
}

func firstOf(faults ...*Fault) *Fault {
	for _, fault := range faults {
		if fault != nil {
			return fault
		}
	}
	return nil
}

// toldOf gives the status and the body that an outcome is answered with.
func toldOf(response []byte, err error, kind string) (int, []byte, http.Header) {
	refusal := http.StatusBadRequest
	if kind == mediaJSON {
		refusal = http.StatusOK
	}
	var refused *Refused
	var fault *Fault
	switch {
	case err == nil:
		return http.StatusOK, response, nil
	case errors.As(err, &refused):
		return refusal, refused.JSON, nil
	case errors.Is(err, ErrMemory):
		fault = &Fault{Status: http.StatusServiceUnavailable, Message: "out of memory"}
	case !errors.As(err, &fault):
		fault = &Fault{Status: http.StatusInternalServerError, Message: "internal error"}
	}
	if fault.Status != 0 {
		refusal = fault.Status
	}
	return refusal, fault.body(), fault.Header
}
