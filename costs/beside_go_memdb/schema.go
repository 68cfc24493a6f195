package main

import memdb "github.com/hashicorp/go-memdb"

// A database is the library's, and what an insert looks at beside it.
type database struct {
	*memdb.MemDB
	unique  map[string][]string // the unique indexes of each table, but `id`
	tracked map[string]*single  // the index `id` of each tracked table
	put     *row                // the row that is put in
}

// openDatabase opens a database of this schema file.
func openDatabase(text string) *database {
	file, ok := readValue(text)
	if !ok {
		stop("the schema is no document")
	}
	db := &database{unique: map[string][]string{}, tracked: map[string]*single{}}
	schema := &memdb.DBSchema{Tables: map[string]*memdb.TableSchema{}}
	for _, each := range row(file.parts).get("tables").parts {
		indexes := map[string]*memdb.IndexSchema{}
		for _, index := range row(each.value.parts).get("indexes").parts {
			members := row(index.value.parts)
			read := &memdb.IndexSchema{
				Name:         index.name,
				Unique:       members.get("unique").kind == kindTrue,
				AllowMissing: members.get("allow_missing").kind == kindTrue,
				Indexer:      db.readIndexer(members.get("indexer").parts),
			}
			if read.Unique && read.Name != "id" {
				db.unique[each.name] = append(db.unique[each.name], read.Name)
			}
			indexes[index.name] = read
		}
		if row(each.value.parts).get("tracked").kind == kindTrue {
			db.tracked[each.name] = indexes["id"].Indexer.(*single)
		}
		schema.Tables[each.name] = &memdb.TableSchema{Name: each.name, Indexes: indexes}
	}
	var err error
	db.MemDB, err = memdb.NewMemDB(schema)
	must(err)
	return db
}

func (db *database) readIndexer(members row) memdb.Indexer {
	switch members.get("kind").text {
	case "text_list":
		return texts{members.get("field").text}
	case "compound":
		indexer := &single{put: &db.put}
		for _, part := range members.get("parts").parts {
			indexer.parts = append(indexer.parts, readKeyer(part.value.parts))
		}
		return indexer
	}
	return &single{parts: []keyer{readKeyer(members)}, put: &db.put}
}

func readKeyer(members row) keyer {
	field := members.get("field").text
	if members.get("lowercase").kind == kindTrue {
		stop("the indexers here don't fold")
	}
	switch kind := members.get("kind").text; kind {
	case "text":
		return textKey{field}
	case "uint":
		return uintKey{field, int(members.get("width").number)}
	case "bool":
		return boolKey{field}
	default:
		stop("an indexer of the kind %q isn't carried out here", kind)
		return nil
	}
}
