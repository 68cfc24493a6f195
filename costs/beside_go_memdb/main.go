// beside_go_memdb carries out schema and client files as `memdb` does, over go-memdb. costs/beside builds it and runs it beside memdb.
//
//	beside_go_memdb run SCHEMA CLIENT...
//	beside_go_memdb make NUMBER CLIENTS COUNT
//
// It needs Debian's golang-go, golang-github-hashicorp-go-memdb-dev (1.2.1) and golang-github-hashicorp-go-immutable-radix-dev (1.3.1).
//
// The library has the trees, the transactions, the writer's lock, the firing, and the walks. Here stand the reader of the files, the
// indexers, the answers, and two tests which the answers need: whether an insert replaces a row, and whether another row has a key of
// it in a unique index. Each client has a goroutine.
//
// The output is memdb's, byte for byte, on what the workloads use. It carries out the lines read, write, end, commit, abort, insert,
// delete-all, delete-prefix, first, get, get-reverse, lower, reverse-lower, watch (of first), check, add and wait; the indexers text,
// text_list, uint, bool and compound, which don't fold; and tracked tables. What else the files ask ends it with status 2, or isn't
// looked at: it tests no rule of the schema, and refuses no row but for a key that is taken.
package main

import (
	"fmt"
	"os"
	"strconv"
	"sync"
)

func stop(what string, words ...interface{}) {
	fmt.Fprintf(os.Stderr, "beside_go_memdb: "+what+"\n", words...)
	os.Exit(2)
}

func must(err error) {
	if err != nil {
		stop("%v", err)
	}
}

func main() {
	words := os.Args[1:]
	switch {
	case len(words) >= 3 && words[0] == "run":
		run(words[1:])
	case len(words) == 4 && words[0] == "make":
		number, err := strconv.Atoi(words[1])
		must(err)
		clients, err := strconv.Atoi(words[2])
		must(err)
		count, err := strconv.Atoi(words[3])
		must(err)
		makeClients(number, clients, count)
	default:
		stop("run SCHEMA CLIENT... or make NUMBER CLIENTS COUNT")
	}
}

func run(names []string) {
	files := make([]string, len(names))
	for at, name := range names {
		bytes, err := os.ReadFile(name)
		must(err)
		files[at] = string(bytes)
	}
	_, sessions := work(names, files)
	size := 0
	for _, s := range sessions {
		size += len(s.out) + 100
	}
	out := make([]byte, 0, size)
	for at, s := range sessions {
		out = append(out, fmt.Sprintf("client %d %s\n", at+1, names[at+1])...)
		out = append(out, s.out...)
	}
	_, err := os.Stdout.Write(out)
	must(err)
}

// work carries out the clients side by side. The first file is the schema's.
func work(names, files []string) (*database, []*session) {
	db := openDatabase(files[0])
	scripts := make([][]line, len(files)-1)
	for at := range scripts {
		scripts[at] = readScript(names[at+1], files[at+1])
	}
	sessions := make([]*session, len(scripts))
	var all sync.WaitGroup
	for at := range scripts {
		sessions[at] = newSession(db)
		all.Add(1)
		go func(at int) {
			sessions[at].run(scripts[at])
			all.Done()
		}(at)
	}
	all.Wait()
	return db, sessions
}

const madeSchema = `{"memdb":1,"tables":{"items":{"indexes":{` +
	`"age":{"indexer":{"kind":"uint","field":"age","width":2}},` +
	`"id":{"unique":true,"indexer":{"kind":"text","field":"name"}}}}}}`

// makeClients runs the clients that docs/FORMATS.md calls made, and sums up their rows.
func makeClients(x, clients, count int) {
	names, files := []string{"schema"}, []string{madeSchema}
	for client := 1; client <= clients; client++ {
		script := make([]byte, 0, 100*count)
		name := strconv.AppendInt([]byte{'k'}, int64(client), 10)
		prefix := len(name)
		for round := 0; round < count; round++ {
			x = (75*x + 74) % 65537
			name = strconv.AppendInt(append(name[:prefix], '-'), int64(x%100), 10)
			script = append(script, "write\ninsert items {\"age\":"...)
			script = strconv.AppendInt(script, int64(x%65536), 10)
			script = append(append(script, ",\"name\":\""...), name...)
			script = append(append(script, "\"}\ncommit\nread\nfirst items id [\""...), name...)
			script = append(script, "\"]\nend\n"...)
		}
		names = append(names, "client "+strconv.Itoa(client))
		files = append(files, string(script))
	}
	db, _ := work(names, files)
	txn := db.Txn(false)
	found, err := txn.Get("items", "id")
	must(err)
	rows, ages := 0, uint64(0)
	for next := found.Next(); next != nil; next = found.Next() {
		rows++
		ages += next.(*row).get("age").number
	}
	fmt.Printf("clients %d\ncommits %d\nrows %d\nages %d\n", clients, txn.Commits(), rows, ages)
}
