package sunwaket

import (
	"regexp"
	"strings"
)

var token = regexp.MustCompile(`"""(?s:\\"""|"{0,2}[^"])*?"{0,2}"""|"(?:[^"\\\n]|\\.)*"|#[^\n\r]*|\.\.\.|[_A-Za-z]\w*|[{}()$@:]`)

// A selection set: how deep its fields stand, and at which depth fragments are spread.
type selectionSet struct {
	depth   int
	spreads []spread
}

type spread struct {
	name  string
	depth int
}

// A reader of a text that the engine has checked, token by token.
type depthReader struct {
	tokens []string
	at     int
}

func newDepthReader(text string) *depthReader {
	var tokens []string
	for _, it := range token.FindAllString(text, -1) {
		if it[0] != '"' && it[0] != '#' {
			tokens = append(tokens, it)
		}
	}
	return &depthReader{tokens: tokens}
}

func (r *depthReader) peek() string {
	if r.at < len(r.tokens) {
		return r.tokens[r.at]
	}
	return ""
}

func (r *depthReader) take() string {
	it := r.peek()
	r.at++
	return it
}

func (r *depthReader) skipParentheses() {
	for depth := 0; r.peek() == "(" || depth > 0; {
		switch r.take() {
		case "(":
			depth++
		case ")":
			if depth--; depth == 0 {
				return
			}
		case "":
			return
		}
	}
}

func (r *depthReader) skipDirectives() {
	for r.peek() == "@" {
		r.at += 2
		r.skipParentheses()
	}
}

// set reads a selection set. No call recurs.
func (r *depthReader) set() *selectionSet {
	found := &selectionSet{}
	open, below := []int{}, 0
	for r.at < len(r.tokens) {
		switch it := r.take(); it {
		case "{":
			open = append(open, below)
		case "}":
			open = open[:len(open)-1]
			if len(open) == 0 {
				return found
			}
		case "...":
			below = open[len(open)-1]
			r.fragment(below, found)
		default:
			below = open[len(open)-1] + 1
			if below > found.depth {
				found.depth = below
			}
			if r.peek() == ":" {
				r.at += 2
			}
			r.skipParentheses()
			r.skipDirectives()
		}
	}
	return found
}

func (r *depthReader) fragment(depth int, found *selectionSet) {
	if next := r.peek(); next == "on" {
		r.at += 2
	} else if next != "@" && next != "{" {
		found.spreads = append(found.spreads, spread{r.take(), depth})
	}
	r.skipDirectives()
}

// lookAt gives the name and the depth of the operation of a name, or of the only one.
func lookAt(text string, name *string) (string, int) {
	reader, fragments := newDepthReader(text), map[string]*selectionSet{}
	var found *selectionSet
	var foundName string
	for reader.at < len(reader.tokens) {
		kind, own := reader.peek(), ""
		if kind != "{" {
			reader.at++
			if next := reader.peek(); !strings.Contains("{(@", next) {
				own = reader.take()
			}
		}
		for reader.peek() != "{" && reader.peek() != "" {
			if reader.peek() == "(" {
				reader.skipParentheses()
			} else {
				reader.at++
			}
		}
		set := reader.set()
		if kind == "fragment" {
			fragments[own] = set
		} else if name == nil || own == *name {
			found, foundName = set, own
		}
	}
	if found == nil {
		return "", 0
	}
	return foundName, depthOf(found, fragments, map[string]int{})
}

func depthOf(set *selectionSet, fragments map[string]*selectionSet, known map[string]int) int {
	deepest := set.depth
	for _, it := range set.spreads {
		below, has := known[it.name]
		if fragment := fragments[it.name]; !has && fragment != nil {
			below = depthOf(fragment, fragments, known)
			known[it.name] = below
		}
		if it.depth+below > deepest {
			deepest = it.depth + below
		}
	}
	return deepest
}
