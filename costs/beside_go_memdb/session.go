package main

import (
	"context"
	"sort"
	"strconv"

	memdb "github.com/hashicorp/go-memdb"
)

// A session is a client while its lines are carried out.
type session struct {
	db      *database
	out     []byte
	txn     *memdb.Txn // the open transaction, if there is one
	writes  bool
	commits uint64 // on which it stands
	watches map[string]<-chan struct{}
	sets    map[string]*set
	rows    []*row // of an answer
}

// A set has its watches in order too, since an answer names the first that fired.
type set struct {
	watches  memdb.WatchSet
	names    []string
	channels []<-chan struct{}
}

func newSession(db *database) *session {
	return &session{db: db, watches: map[string]<-chan struct{}{}, sets: map[string]*set{}}
}

func (s *session) run(lines []line) {
	for _, line := range lines {
		s.out = append(strconv.AppendInt(s.out, int64(line.number), 10), ": "...)
		line.does(s)
	}
	if s.txn != nil {
		s.txn.Abort()
	}
}

func (s *session) say(answer string) { s.out = append(append(s.out, answer...), '\n') }

// sayNumber says a word and a number, between which something stands.
func (s *session) sayNumber(answer, between string, n uint64) {
	s.out = append(append(s.out, answer...), between...)
	s.out = append(strconv.AppendUint(s.out, n, 10), '\n')
}

func (s *session) sayRow(before string, r *row) {
	s.out = append(appendRow(append(s.out, before...), *r), '\n')
}

// refused says that the transaction isn't as the line needs it, if so.
func (s *session) refused(needsWrite bool) bool {
	if s.txn == nil {
		s.say("refused no-transaction")
	} else if needsWrite && !s.writes {
		s.say("refused read-only")
	}
	return s.txn == nil || needsWrite && !s.writes
}

func (s *session) begin(word string, writes bool) {
	if s.txn != nil {
		s.say("refused transaction-open")
		return
	}
	s.txn, s.writes = s.db.Txn(writes), writes
	s.commits = s.txn.Commits()
	if writes && len(s.db.tracked) != 0 {
		s.txn.TrackChanges()
	}
	s.sayNumber(word, " @", s.commits)
}

func read(s *session)  { s.begin("read", false) }
func write(s *session) { s.begin("write", true) }

func end(s *session) {
	if s.refusedInWrite() || s.refused(false) {
		return
	}
	s.txn = nil
	s.say("ended")
}

func commit(s *session) {
	if s.refused(true) {
		return
	}
	s.sayNumber("commit", " @", s.commits+1)
	s.sayChanges()
	s.txn.SetCommits(s.commits + 1)
	s.txn.Commit()
	s.txn = nil
}

// sayChanges says what the transaction changed in tracked tables, in the order of the tables and of the keys.
func (s *session) sayChanges() {
	type change struct{ table, key, before, after string }
	var changes []change
	for _, each := range s.txn.Changes() {
		before, after := rowOrNone(each.Before), rowOrNone(each.After)
		if id := s.db.tracked[each.Table]; id != nil && before != after {
			object := each.After
			if object == nil {
				object = each.Before
			}
			_, key, _ := id.FromObject(object)
			changes = append(changes, change{each.Table, string(key), before, after})
		}
	}
	sort.Slice(changes, func(a, b int) bool {
		return changes[a].table < changes[b].table || changes[a].table == changes[b].table && changes[a].key < changes[b].key
	})
	for _, c := range changes {
		s.say("  changed " + c.table + " " + c.before + " " + c.after)
	}
}

func rowOrNone(object interface{}) string {
	if object == nil {
		return "none"
	}
	return string(appendRow(nil, *object.(*row)))
}

func abort(s *session) {
	if s.refused(true) {
		return
	}
	s.txn.Abort()
	s.txn = nil
	s.say("aborted")
}

// insert asks each unique index for another row of the same key, since the library would put the row in beside it.
func (s *session) insert(name string, r *row) {
	if s.refused(true) {
		return
	}
	s.db.put = r
	old := s.txn.Holder(name, "id", r)
	for _, index := range s.db.unique[name] {
		if other := s.txn.Holder(name, index, r); other != nil && other != old {
			s.say("refused key-taken " + index)
			return
		}
	}
	must(s.txn.Insert(name, r))
	if old == nil {
		s.say("inserted")
	} else {
		s.say("replaced")
	}
}

func (s *session) deleteAll(q *question) {
	if s.refused(true) {
		return
	}
	count, err := s.txn.DeleteAll(q.table, q.index, q.arguments...)
	must(err)
	s.sayNumber("deleted", " ", uint64(count))
}

// deletePrefix counts the rows before, since the library only says whether there was one.
func (s *session) deletePrefix(q *question) {
	if s.refused(true) {
		return
	}
	rows, err := s.txn.Get(q.table, q.index, q.arguments...)
	must(err)
	count := uint64(0)
	for rows.Next() != nil {
		count++
	}
	_, err = s.txn.DeletePrefix(q.table, q.index, q.arguments[0].(string))
	must(err)
	s.sayNumber("deleted", " ", count)
}

func (s *session) first(q *question) {
	if s.refused(false) {
		return
	}
	found, err := s.txn.First(q.table, q.index, q.arguments...)
	must(err)
	s.found(found)
}

func (s *session) found(found interface{}) {
	if found == nil {
		s.say("none")
	} else {
		s.sayRow("row ", found.(*row))
	}
}

// The questions for many rows, by their words.
var lists = map[string]func(*memdb.Txn, string, string, ...interface{}) (memdb.ResultIterator, error){
	"get":           (*memdb.Txn).Get,
	"get-reverse":   (*memdb.Txn).Falling,
	"lower":         (*memdb.Txn).LowerBound,
	"reverse-lower": (*memdb.Txn).UpperBound,
}

// list takes the rows before it says them, since their number comes first.
func (s *session) list(list func(*memdb.Txn, string, string, ...interface{}) (memdb.ResultIterator, error), q *question) {
	if s.refused(false) {
		return
	}
	found, err := list(s.txn, q.table, q.index, q.arguments...)
	must(err)
	s.rows = s.rows[:0]
	for next := found.Next(); next != nil; next = found.Next() {
		s.rows = append(s.rows, next.(*row))
	}
	s.sayNumber("rows", " ", uint64(len(s.rows)))
	for _, r := range s.rows {
		s.sayRow("  ", r)
	}
}

func (s *session) watch(name string, q *question) {
	if s.refused(false) {
		return
	}
	if s.writes || s.watches[name] != nil {
		stop("a watch of a write transaction, or of a name that is taken, isn't carried out here")
	}
	channel, found, err := s.txn.FirstWatch(q.table, q.index, q.arguments...)
	must(err)
	s.watches[name] = channel
	s.found(found)
}

// named returns the watch of this name.
func (s *session) named(name string) <-chan struct{} {
	channel := s.watches[name]
	if channel == nil {
		stop("there is no watch %s", name)
	}
	return channel
}

// refusedInWrite refuses a look at watches while a write transaction is open.
func (s *session) refusedInWrite() bool {
	open := s.txn != nil && s.writes
	if open {
		s.say("refused write-open")
	}
	return open
}

func isFired(channel <-chan struct{}) bool {
	select {
	case <-channel:
		return true
	default:
		return false
	}
}

// now returns the number of commits. Those before it have fired their watches.
func (s *session) now() uint64 { return s.db.Txn(false).Commits() }

func (s *session) check(name string) {
	if s.refusedInWrite() {
		return
	}
	channel := s.named(name)
	if now := s.now(); !isFired(channel) {
		s.sayNumber("quiet", " @", now)
	} else {
		s.sayNumber("fired", " @", s.now())
	}
}

func (s *session) add(name, watch string) {
	channel := s.named(watch)
	to := s.sets[name]
	if to == nil {
		to = &set{watches: memdb.NewWatchSet()}
		s.sets[name] = to
	}
	to.watches.Add(channel)
	if len(to.watches) > len(to.names) {
		to.names = append(to.names, watch)
		to.channels = append(to.channels, channel)
	}
	s.sayNumber("size", " ", uint64(len(to.names)))
}

func (s *session) wait(name string) {
	if s.refusedInWrite() {
		return
	}
	of := s.sets[name]
	if of == nil {
		stop("there is no set %s", name)
	}
	for {
		for at, channel := range of.channels {
			if isFired(channel) {
				s.sayNumber("fired "+of.names[at], " @", s.now())
				return
			}
		}
		ctx, cancel := context.WithCancel(context.Background())
		_ = of.watches.WatchCtx(ctx) // it never ends before one fires
		cancel()
	}
}
