package main

import (
	"encoding/json"
	"strconv"
	"strings"
)

// Documents are JSON, as docs/FORMATS.md has them, but for numbers below zero or of more than 19 digits, which this reader refuses. A text without an escape
// is a part of the file's text, and takes no memory of its own.

type kind uint8

const (
	kindNull kind = iota
	kindFalse
	kindTrue
	kindNumber
	kindText
	kindList
	kindObject
)

type value struct {
	kind   kind
	number uint64
	text   string
	parts  []member // of an object, or of a list, where they have no names
}

type member struct {
	name  string
	value value
}

// A row is the members of its document, in byte order of their names.
type row []member

var null value

// get returns the member of this name, or null.
func (r row) get(name string) *value {
	for at := range r {
		if r[at].name == name {
			return &r[at].value
		}
	}
	return &null
}

// A reader stands at a place of a text; after a fault it stands at the end.
type reader struct {
	text  string
	at    int
	fault bool
}

// readValue reads a whole text, and says whether it is a document.
func readValue(text string) (v value, ok bool) {
	r := reader{text: text}
	r.value(&v)
	r.blanks()
	return v, !r.fault && r.at == len(text)
}

func (r *reader) fail() {
	r.fault = true
	r.at = len(r.text)
}

func (r *reader) blanks() {
	for r.at < len(r.text) {
		switch r.text[r.at] {
		case ' ', '\t', '\n', '\r':
			r.at++
		default:
			return
		}
	}
}

// peek returns the next byte, or 0 at the end.
func (r *reader) peek() byte {
	if r.at == len(r.text) {
		return 0
	}
	return r.text[r.at]
}

// expect goes over the byte that has to come next.
func (r *reader) expect(c byte) {
	if r.peek() == c {
		r.at++
	} else {
		r.fail()
	}
}

func (r *reader) value(v *value) {
	r.blanks()
	switch c := r.peek(); {
	case c == '{':
		v.kind = kindObject
		r.members(v)
	case c == '[':
		v.kind = kindList
		r.items(v)
	case c == '"':
		v.kind = kindText
		v.text = r.string()
	case c >= '0' && c <= '9':
		v.kind = kindNumber
		v.number = r.number()
	case c == 'n':
		r.word("null")
	case c == 'f':
		v.kind = kindFalse
		r.word("false")
	case c == 't':
		v.kind = kindTrue
		r.word("true")
	default:
		r.fail()
	}
}

func (r *reader) word(word string) {
	if strings.HasPrefix(r.text[r.at:], word) {
		r.at += len(word)
	} else {
		r.fail()
	}
}

func (r *reader) number() uint64 {
	begin, n := r.at, uint64(0)
	for ; r.at < len(r.text) && r.text[r.at] >= '0' && r.text[r.at] <= '9'; r.at++ {
		n = 10*n + uint64(r.text[r.at]-'0')
	}
	if digits := r.at - begin; digits > 19 || digits > 1 && r.text[begin] == '0' {
		r.fail()
	}
	return n
}

func (r *reader) string() string {
	r.expect('"')
	for at := r.at; at < len(r.text); at++ {
		switch c := r.text[at]; {
		case c == '"':
			s := r.text[r.at:at]
			r.at = at + 1
			return s
		case c == '\\':
			return r.escaped(at)
		case c < ' ':
			r.fail()
			return ""
		}
	}
	r.fail()
	return ""
}

// escaped reads a text that has its first escape there.
func (r *reader) escaped(at int) string {
	for at < len(r.text) && r.text[at] != '"' {
		if r.text[at] == '\\' {
			at++
		}
		at++
	}
	var s string
	if at >= len(r.text) || json.Unmarshal([]byte(r.text[r.at-1:at+1]), &s) != nil {
		r.fail()
		return ""
	}
	r.at = at + 1
	return s
}

func (r *reader) items(v *value) {
	r.expect('[')
	r.blanks()
	if r.peek() == ']' {
		r.at++
		return
	}
	for !r.fault {
		v.parts = append(v.parts, member{})
		r.value(&v.parts[len(v.parts)-1].value)
		r.blanks()
		if r.peek() == ']' {
			r.at++
			return
		}
		r.expect(',')
	}
}

func (r *reader) members(v *value) {
	r.expect('{')
	r.blanks()
	if r.peek() == '}' {
		r.at++
		return
	}
	v.parts = make([]member, 0, 4)
	for !r.fault {
		r.blanks()
		name := r.string()
		r.blanks()
		r.expect(':')
		r.value(v.member(name))
		r.blanks()
		if r.peek() == '}' {
			r.at++
			return
		}
		r.expect(',')
	}
}

// member makes room for a member at its place. Of several members of one name the last counts.
func (v *value) member(name string) *value {
	at := len(v.parts)
	for at > 0 && v.parts[at-1].name >= name {
		at--
	}
	if at == len(v.parts) || v.parts[at].name != name {
		v.parts = append(v.parts, member{})
		copy(v.parts[at+1:], v.parts[at:])
	}
	v.parts[at] = member{name: name}
	return &v.parts[at].value
}

func appendText(out []byte, s string) []byte {
	const digits = "0123456789abcdef"
	out = append(out, '"')
	begin := 0
	for at := 0; at < len(s); at++ {
		c := s[at]
		if c >= ' ' && c != '"' && c != '\\' {
			continue
		}
		out = append(out, s[begin:at]...)
		begin = at + 1
		if place := strings.IndexByte("\"\\\b\f\n\r\t", c); place >= 0 {
			out = append(out, '\\', `"\bfnrt`[place])
		} else {
			out = append(out, '\\', 'u', '0', '0', digits[c>>4], digits[c&15])
		}
	}
	return append(append(out, s[begin:]...), '"')
}

func appendRow(out []byte, r row) []byte {
	out = append(out, '{')
	for at := range r {
		if at > 0 {
			out = append(out, ',')
		}
		out = append(appendText(out, r[at].name), ':')
		out = appendValue(out, &r[at].value)
	}
	return append(out, '}')
}

func appendValue(out []byte, v *value) []byte {
	switch v.kind {
	case kindFalse:
		return append(out, "false"...)
	case kindTrue:
		return append(out, "true"...)
	case kindNumber:
		return strconv.AppendUint(out, v.number, 10)
	case kindText:
		return appendText(out, v.text)
	case kindObject:
		return appendRow(out, v.parts)
	case kindList:
		out = append(out, '[')
		for at := range v.parts {
			if at > 0 {
				out = append(out, ',')
			}
			out = appendValue(out, &v.parts[at].value)
		}
		return append(out, ']')
	}
	return append(out, "null"...)
}
