package sunwaket

import (
	"context"
	"encoding/json"
	"net/http"
	"time"
)

// Streams of events: GraphQL over SSE, distinct connections mode, and the execution of a subscription for each event of its source
// (GraphQL October 2021, section 6.2.3).

type stream struct {
	writer  http.ResponseWriter
	flusher http.Flusher
}

func (s stream) write(text string) {
	_, _ = s.writer.Write([]byte(text))
	if s.flusher != nil {
		s.flusher.Flush()
	}
}

func (s stream) next(response []byte, err error) {
	_, body, _ := toldOf(response, err, mediaGraphQL)
	s.write("event: next\ndata: " + string(body) + "\n\n")
}

func (h *Handler) stream(w http.ResponseWriter, r *http.Request, resolve func([]Ask) []any, it asked) {
	made := h.job(r, resolve)
	refused := made.prepare(it, true)
	if refused != nil {
		_, _ = made.done(nil, refused)
		if fault, isFault := refused.(*Fault); isFault && fault.Status != 0 {
			send(w, mediaJSON, nil, refused)
			return
		}
	}
	w.Header().Set("Content-Type", mediaEvents+"; charset=utf-8")
	w.Header().Set("Cache-Control", "no-cache")
	w.Header().Set("X-Accel-Buffering", "no")
	flusher, _ := w.(http.Flusher)
	out := stream{w, flusher}
	out.write("")
	switch {
	case refused != nil:
		out.next(nil, refused)
	case made.told.Kind == "subscription":
		if err := made.subscribe(r.Context(), out); err != nil {
			out.next(made.done(nil, err))
		}
	default:
		out.next(made.done(made.run(h.options.Root)))
	}
	out.write("event: complete\ndata:\n\n")
}

// source gives the events of the operation's root field, by the values of its arguments (section 6.2.3.1).
func (j *job) source(ctx context.Context) (<-chan any, error) {
	reply, isAsked, err := j.read.query.step(new(value), j.operation())
	if err != nil {
		return nil, err
	}
	var asks []written
	if isAsked {
		if err := json.Unmarshal(reply, &asks); err != nil {
			return nil, err
		}
	}
	if len(asks) == 0 {
		return nil, &Fault{Message: "the subscription has no field that has events"}
	}
	source, has := j.handler.options.Subscriptions[asks[0].Field]
	if !has {
		return nil, &Fault{Message: "there are no events of the field `" + asks[0].Field + "`"}
	}
	events, err := source(ctx, asks[0].Arguments)
	if err != nil {
		return nil, &Fault{Message: "resolver error: " + err.Error()}
	}
	return events, nil
}

// subscribe executes the operation for each event until there are no more or the client leaves, which ends the context of the source. An
// event that is an error ends the stream with it.
func (j *job) subscribe(leaves context.Context, out stream) error {
	ctx, cancel := context.WithCancel(leaves)
	defer cancel()
	events, err := j.source(ctx)
	if err != nil {
		return err
	}
	alive := time.NewTicker(j.handler.options.KeepAlive)
	defer alive.Stop()
	for {
		select {
		case <-ctx.Done():
			return nil
		case <-alive.C:
			out.write(":\n\n")
		case event, isOpen := <-events:
			if !isOpen {
				return nil
			}
			if err, isError := event.(error); isError {
				return &Fault{Message: "resolver error: " + err.Error()}
			}
			j.meter = newMeter(j.handler.options.Limits, time.Now())
			out.next(j.done(j.run(event)))
		}
	}
}
