// Package memdb gets this file when it is built for the program beside it (by the compiler's -overlay), since go-memdb 1.2.1 lacks
// these calls. The tree below it has what they take.
package memdb

import iradix "github.com/hashicorp/go-immutable-radix"

// The number of commits is one more entry in the tree that holds the indexes' trees. So each state carries its own number.
var commitsPath = []byte("commits")

// Commits returns how many commits the transaction's state has.
func (txn *Txn) Commits() uint64 {
	count, _ := txn.rootTxn.Get(commitsPath)
	n, _ := count.(uint64)
	return n
}

// SetCommits is called by each commit.
func (txn *Txn) SetCommits(n uint64) { txn.rootTxn.Insert(commitsPath, n) }

// Holder returns the row that has this row's key in a unique index of one key a row, or nil. It opens the index for the insert to come.
func (txn *Txn) Holder(table, index string, row interface{}) interface{} {
	ok, key, err := txn.db.schema.Tables[table].Indexes[index].Indexer.(SingleIndexer).FromObject(row)
	if !ok || err != nil {
		return nil
	}
	holder, _ := txn.writableIndex(table, index).Get(key)
	return holder
}

type falling struct{ rows *iradix.ReverseIterator }

func (f falling) Next() interface{} {
	_, row, _ := f.rows.Previous()
	return row
}

func (f falling) WatchCh() <-chan struct{} { return nil }

// Falling lists the rows of Get from the last to the first.
func (txn *Txn) Falling(table, index string, args ...interface{}) (ResultIterator, error) {
	schema, key, err := txn.getIndexValue(table, index, args...)
	if err != nil {
		return nil, err
	}
	rows := txn.readableIndex(table, schema.Name).Root().ReverseIterator()
	rows.SeekPrefix(key)
	return falling{rows}, nil
}

// UpperBound lists the rows whose key is at most that of the arguments, from the last to the first.
func (txn *Txn) UpperBound(table, index string, args ...interface{}) (ResultIterator, error) {
	schema, key, err := txn.getIndexValue(table, index, args...)
	if err != nil {
		return nil, err
	}
	rows := txn.readableIndex(table, schema.Name).Root().ReverseIterator()
	rows.SeekReverseLowerBound(key)
	return falling{rows}, nil
}
