package main

import (
	"encoding/binary"
	"errors"
)

// The indexers that the workloads use, as docs/FORMATS.md has their keys. A key that a row or an argument can't have ends the program.

// A keyer adds one key to the bytes of another. It says of a row whether it has a key.
type keyer interface {
	ofRow(key []byte, r row) ([]byte, bool)
	ofArgument(key []byte, argument interface{}) []byte
}

type textKey struct{ field string }

func (k textKey) ofRow(key []byte, r row) ([]byte, bool) {
	v := r.get(k.field)
	if v.kind != kindText && v.kind != kindNull {
		stop("%s is no text", k.field)
	}
	return append(append(key, v.text...), 0), v.text != ""
}

func (k textKey) ofArgument(key []byte, argument interface{}) []byte {
	return append(append(key, argument.(string)...), 0)
}

type uintKey struct {
	field string
	width int
}

func (k uintKey) ofRow(key []byte, r row) ([]byte, bool) {
	v := r.get(k.field)
	if v.kind != kindNumber && v.kind != kindNull {
		stop("%s is no number", k.field)
	}
	return k.ofArgument(key, v.number), v.kind == kindNumber
}

func (k uintKey) ofArgument(key []byte, argument interface{}) []byte {
	n := argument.(uint64)
	if n>>(8*k.width) != 0 {
		stop("%d is out of range", n)
	}
	var whole [8]byte
	binary.BigEndian.PutUint64(whole[:], n)
	return append(key, whole[8-k.width:]...)
}

type boolKey struct{ field string }

func (k boolKey) ofRow(key []byte, r row) ([]byte, bool) {
	switch r.get(k.field).kind {
	case kindNull:
		return key, false
	case kindFalse:
		return append(key, 0), true
	case kindTrue:
		return append(key, 1), true
	}
	stop("%s is no truth value", k.field)
	return key, false
}

func (k boolKey) ofArgument(key []byte, argument interface{}) []byte {
	if argument.(bool) {
		return append(key, 1)
	}
	return append(key, 0)
}

// A single is an index of one key a row, with a part for each argument. The library asks it for the keys of rows under the writer's
// lock alone, and for the keys of questions from any goroutine. It keeps the keys of the row that is put in. A key of another row only
// has to last until the next one is asked for.
type single struct {
	parts []keyer
	put   **row // the row that is put in
	last  *row  // the last such row with a key, and its key
	key   []byte
	room  []byte // where a key is made
}

func (s *single) FromObject(object interface{}) (bool, []byte, error) {
	r := object.(*row)
	if r == s.last {
		return true, s.key, nil
	}
	key, ok := s.room[:0], true
	for at := 0; at < len(s.parts) && ok; at++ {
		key, ok = s.parts[at].ofRow(key, *r)
	}
	s.room = key
	if ok && r == *s.put {
		s.last, s.key = r, append(make([]byte, 0, len(key)), key...)
		return true, s.key, nil
	}
	return ok, key, nil
}

func (s *single) FromArgs(arguments ...interface{}) ([]byte, error) {
	if len(arguments) != len(s.parts) {
		return nil, errors.New("another number of arguments than parts")
	}
	var key []byte
	for at, argument := range arguments {
		key = s.parts[at].ofArgument(key, argument)
	}
	return key, nil
}

func (s *single) PrefixFromArgs(arguments ...interface{}) ([]byte, error) {
	prefix, ok := arguments[0].(string)
	if _, is := s.parts[0].(textKey); !is || !ok || len(s.parts) != 1 || len(arguments) != 1 {
		return nil, errors.New("no prefix form")
	}
	return []byte(prefix), nil
}

// A texts is an index of a key for each text of a list.
type texts struct{ field string }

func (t texts) FromObject(object interface{}) (bool, [][]byte, error) {
	items := object.(*row).get(t.field).parts
	keys := make([][]byte, 0, len(items))
	for at := range items {
		if item := items[at].value; item.text != "" {
			key := make([]byte, len(item.text)+1)
			copy(key, item.text)
			keys = append(keys, key)
		}
	}
	return len(keys) != 0, keys, nil
}

func (t texts) FromArgs(arguments ...interface{}) ([]byte, error) {
	return append([]byte(arguments[0].(string)), 0), nil
}

func (t texts) PrefixFromArgs(arguments ...interface{}) ([]byte, error) {
	return []byte(arguments[0].(string)), nil
}
