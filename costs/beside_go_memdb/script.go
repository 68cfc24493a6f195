package main

import (
	"strings"
	"unicode/utf8"
)

// A line of a client file: its number, and what it does.
type line struct {
	number int
	does   func(*session)
}

// A question in the library's words.
type question struct {
	table, index string
	arguments    []interface{}
}

// readScript reads all lines of a client file. A line that isn't carried out here ends the program.
func readScript(name, text string) []line {
	if !utf8.ValidString(text) {
		stop("%s isn't UTF-8", name)
	}
	lines := make([]line, 0, strings.Count(text, "\n")+1)
	for number := 1; text != ""; number++ {
		end := strings.IndexByte(text, '\n')
		if end < 0 {
			end = len(text)
		}
		this := strings.TrimSpace(text[:end])
		text = text[min(end+1, len(text)):]
		if this == "" || this[0] == '#' {
			continue
		}
		does := readLine(this)
		if does == nil {
			stop("%s line %d isn't carried out here", name, number)
		}
		lines = append(lines, line{number, does})
	}
	return lines
}

func min(a, b int) int {
	if a < b {
		return a
	}
	return b
}

// cut parts a line behind its first word.
func cut(line string) (word, rest string) {
	end := 0
	for end < len(line) && line[end] != ' ' && line[end] != '\t' {
		end++
	}
	next := end
	for next < len(line) && (line[next] == ' ' || line[next] == '\t') {
		next++
	}
	return line[:end], line[next:]
}

// The lines of one word.
var alone = map[string]func(*session){"read": read, "write": write, "end": end, "commit": commit, "abort": abort}

func readLine(line string) func(*session) {
	if does := alone[line]; does != nil {
		return does
	}
	word, rest := cut(line)
	switch word {
	case "insert":
		return readInsert(cut(rest))
	case "delete-all", "delete-prefix":
		q := readQuestion(rest)
		if q == nil || word == "delete-prefix" && !isPrefix(q) {
			return nil
		}
		if word == "delete-all" {
			return func(s *session) { s.deleteAll(q) }
		}
		return func(s *session) { s.deletePrefix(q) }
	case "watch":
		name, rest := cut(rest)
		if word, rest := cut(rest); word == "first" {
			if q := readQuestion(rest); q != nil {
				return func(s *session) { s.watch(name, q) }
			}
		}
		return nil
	case "check":
		return func(s *session) { s.check(rest) }
	case "add":
		set, name := cut(rest)
		return func(s *session) { s.add(set, name) }
	case "wait":
		if strings.ContainsAny(rest, " \t") {
			return nil
		}
		return func(s *session) { s.wait(rest) }
	}
	return readAsk(word, rest)
}

func readInsert(table, document string) func(*session) {
	v, ok := readValue(document)
	if !ok || v.kind != kindObject {
		return nil
	}
	r := new(row)
	*r = v.parts
	return func(s *session) { s.insert(table, r) }
}

func readAsk(word, rest string) func(*session) {
	q := readQuestion(rest)
	if q == nil {
		return nil
	}
	if word == "first" {
		return func(s *session) { s.first(q) }
	}
	if list := lists[word]; list != nil {
		return func(s *session) { s.list(list, q) }
	}
	return nil
}

func readQuestion(rest string) *question {
	table, rest := cut(rest)
	index, rest := cut(rest)
	q := &question{table: table, index: index}
	if rest == "" {
		return q
	}
	v, ok := readValue(rest)
	if !ok || v.kind != kindList {
		return nil
	}
	q.arguments = make([]interface{}, len(v.parts))
	for at := range v.parts {
		switch item := &v.parts[at].value; item.kind {
		case kindText:
			q.arguments[at] = item.text
		case kindNumber:
			q.arguments[at] = item.number
		case kindFalse, kindTrue:
			q.arguments[at] = item.kind == kindTrue
		default:
			return nil
		}
	}
	return q
}

// isPrefix says whether the library's DeletePrefix takes the question.
func isPrefix(q *question) bool {
	if !strings.HasSuffix(q.index, "_prefix") || len(q.arguments) != 1 {
		return false
	}
	_, ok := q.arguments[0].(string)
	return ok
}
