"""A second reader of what clients are told, which goes by plain rows and not by the program's way: whether the answers are those of
one history. The scripts beside it share it. It knows a schema of two tables, whose rows have a name and an age, and the lines that
those scripts draw. A line is a tuple of its words, of which documents and lists are values of Python; an answer is the list of its
lines."""

import json

TABLES = ("items", "users")
TRACKED = "items"
INDEXES = ("age", "id")
SCHEMA = {
    "memdb": 2,
    "tables": {
        table: {
            "tracked": table == TRACKED,
            "indexes": {
                "id": {"unique": True, "indexer": {"kind": "text", "field": "name"}},
                "age": {"indexer": {"kind": "uint", "field": "age", "width": 2}},
            },
        }
        for table in TABLES
    },
}
ASKS = ("first", "last", "get", "get-reverse")
WRITES = ("insert", "delete", "delete-all")
NUMBERED = ("read", "write", "check", "wait")


class Fault(Exception):
    pass


def claim(holds, what):
    if not holds:
        raise Fault(what)


def text(value):
    return json.dumps(value, separators=(",", ":"), sort_keys=True)


def spelled(line):
    return " ".join(word if isinstance(word, str) else text(word) for word in line)


# ---- the plain rows: a table is a map from names to ages


def copied(state):
    return {table: dict(rows) for table, rows in state.items()}


def row_of(table, name):
    return text({"name": name, "age": table[name]}) if name in table else "none"


def key_of(index, name, age):
    """The full key of a row in an index."""
    key = name.encode() + b"\0"
    return key if index == "id" else age.to_bytes(2, "big") + key


def own_name(index):
    return index.removesuffix("_prefix")


def is_whole_key(question):
    """Whether a question looks up the one row of a key."""
    word, _, index, args = question
    return word in ("first", "last") and index == "id" and len(args) == 1


def prefix_of(question):
    """That with which the full keys of a question's rows begin."""
    _, _, index, args = question
    if not args:
        return b""
    return args[0].to_bytes(2, "big") if index == "age" else args[0].encode() + (b"\0" if index == "id" else b"")


def keys_in(state, table, index):
    return sorted((key_of(index, *row), row[0]) for row in state[table].items())


def listed(state, question):
    """The names of the rows that `get` lists, in their order."""
    prefix = prefix_of(question)
    return [name for key, name in keys_in(state, question[1], own_name(question[2])) if key.startswith(prefix)]


def question_rule(question):
    """The first rule that a question breaks, or nothing."""
    _, table, index, args = question
    if table not in TABLES:
        return "unknown-table"
    if index not in ("id", "id_prefix", "age"):
        return "unknown-index"
    if len(args) > 1:
        return "arg-count"
    if args and type(args[0]) is not (int if index == "age" else str):
        return "arg-kind"
    return "out-of-range" if index == "age" and args and not 0 <= args[0] < 1 << 16 else None


def ask(state, question):
    """What a question is answered."""
    rule = question_rule(question)
    if rule:
        return ["refused " + rule]
    word, table = question[:2]
    names = listed(state, question)
    if word in ("get", "get-reverse"):
        rows = [row_of(state[table], name) for name in (names if word == "get" else reversed(names))]
        return ["rows %d" % len(rows)] + ["  " + row for row in rows]
    return ["row " + row_of(state[table], names[0 if word == "first" else -1]) if names else "none"]


def row_rule(word, table, row):
    """The first rule that the row of an `insert` or a `delete` breaks by itself, or nothing."""
    name, age = row.get("name"), row.get("age")
    if table not in TABLES:
        return "unknown-table"
    if name is not None and not isinstance(name, str):
        return "wrong-kind id"
    if not name:
        return "no-id"
    if word == "delete":
        return None
    if age is None:
        return "missing age"
    if type(age) is not int:
        return "wrong-kind age"
    return None if 0 <= age < 1 << 16 else "out-of-range age"


def change(state, line):
    """The first rule that a write breaks, or nothing; the rows that it takes out, and those that it puts in."""
    word, table = line[:2]
    if word == "delete-all":
        rule = question_rule(("get", *line[1:]))
        names = [] if rule else listed(state, ("get", *line[1:]))
        return rule, {name: state[table][name] for name in names}, {}
    row = line[2]
    rule = row_rule(word, table, row)
    if rule:
        return rule, {}, {}
    there = {name: age for name, age in state[table].items() if name == row["name"]}
    if word == "insert":
        return None, there, {row["name"]: row["age"]}
    return None if there else "not-found", there, {}


def write(state, line):
    """What a write is answered over a state, which it changes, and the full keys that it touches, with their table and index."""
    rule, out, put = change(state, line)
    if rule:
        return ["refused " + rule], set()
    word, table = line[:2]
    for name in out:
        del state[table][name]
    state[table].update(put)
    told = {"insert": "replaced" if out else "inserted", "delete": "deleted", "delete-all": "deleted %d" % len(out)}[word]
    rows = [*out.items(), *put.items()]
    return [told], {(table, index, key_of(index, *row)) for index in INDEXES for row in rows}


def changes(before, after):
    """The lines of a commit that tell what it has changed."""
    old, new = before[TRACKED], after[TRACKED]
    differ = [name for name in sorted(old.keys() | new.keys()) if old.get(name) != new.get(name)]
    return ["  changed %s %s %s" % (TRACKED, row_of(old, name), row_of(new, name)) for name in differ]


# ---- the output


def parted(output, files, numbers):
    """The answers of each client. They are those to the first lines of its script, whose lines have these numbers in its file."""
    clients = []
    for line in output.decode().splitlines():
        if len(clients) < len(files) and line == "client %d %s" % (len(clients) + 1, files[len(clients)]):
            clients.append([])
        elif line.startswith("  "):
            clients[-1][-1].append(line)
        else:
            number, _, told = line.partition(": ")
            claim(number == str(numbers[len(clients) - 1][len(clients[-1])]), "an answer to another line: " + line)
            clients[-1].append([told])
    claim(len(clients) == len(files), "not every client is answered")
    return clients


def is_refused(told):
    return told[0].startswith("refused ")


def number_in(told):
    """The number of commits that an answer tells, or nothing."""
    _, at, number = told[0].rpartition("@")
    return int(number) if at else None


# ---- one history


class History:
    """Commits, numbered from 1: of each number the state after it, the full keys that it touches, and the client that made it."""

    def __init__(self):
        self.states = [{table: {} for table in TABLES}]
        self.touched = [set()]
        self.makers = [0]

    def count(self):
        return len(self.states) - 1

    def commit(self, maker, writes):
        state, touched = copied(self.states[-1]), set()
        for line in writes:
            touched |= write(state, line)[1]
        self.states.append(state)
        self.touched.append(touched)
        self.makers.append(maker)

    def is_unchanged(self, question, first, last):
        """Whether the answer is the same after each of these commits."""
        answer = ask(self.states[first], question)
        return all(ask(self.states[number], question) == answer for number in range(first + 1, last + 1))

    def is_touched(self, watch, last):
        """Whether a commit since the watch was asked has touched what its question looks at."""
        _, table, index, _ = watch.question
        found = is_whole_key(watch.question) and listed(self.states[watch.number], watch.question)
        keys = set().union(*self.touched[watch.number + 1 : last + 1])
        if found:
            return (table, index, prefix_of(watch.question)) in keys
        return any(key[:2] == (table, own_name(index)) for key in keys)


def history_of(scripts, answers):
    """The history that the answers to scripts tell. The commits printed are 1 to their number, each once, and rising for each
    client."""
    commits = {}
    for maker, (lines, answered) in enumerate(zip(scripts, answers), 1):
        last, writes = 0, None
        for line, told in zip(lines, answered):
            if is_refused(told):
                continue
            if line[0] in ("write", "abort"):
                writes = [] if line[0] == "write" else None
            elif line[0] in WRITES + ("commit",):
                claim(writes is not None, "%s is answered %s without a transaction" % (spelled(line), told))
                if line[0] != "commit":
                    writes.append(line)
                    continue
                claim(told[0].startswith("commit @"), "commit is answered %s" % told)
                made = number_in(told)
                claim(made not in commits and made > last, "commit %d comes twice, or too late" % made)
                commits[made] = maker, writes
                last, writes = made, None
    claim(sorted(commits) == list(range(1, len(commits) + 1)), "the commits aren't 1 to their number")
    history = History()
    for made in sorted(commits):
        history.commit(*commits[made])
    return history


# ---- a client


class Watch:
    def __init__(self, name, question, number):
        self.name, self.question, self.number = name, question, number


class Client:
    """What a client knows between two lines: how many commits it was told, its open transaction, its watches and its sets."""

    def __init__(self, number, history):
        self.number, self.history = number, history
        self.last = 0
        # `read` or `write` where a transaction is open, the commit on which it stands, and the rows that it sees.
        self.open, self.seen, self.rows = None, 0, None
        self.watches = {}
        # The members of each set, and all that were ever added to it.
        self.sets = {}

    def reply(self, line, now, told):
        """What a line is answered after so many commits, or nothing where it is still to wait. What the program has told counts
        only where more than one answer is lawful: then it is that one, if it is one of them."""
        rule = self.transaction_rule(line[0]) or self.name_rule(line)
        if rule:
            return ["refused " + rule]
        word = line[0]
        if word in ASKS:
            return ask(self.rows, line)
        if word in WRITES:
            return write(self.rows, line)[0]
        if word in ("read", "write"):
            self.open, self.last, self.seen, self.rows = word, now, now, copied(self.history.states[now])
            return ["%s @%d" % (word, now)]
        if word in ("end", "abort", "commit"):
            return self.end(word)
        if word == "watch":
            return self.watch(line[1], line[2:])
        if word == "check":
            return self.check(self.watches[line[1]], now, told)
        if word == "add":
            return self.add(line[1], self.watches[line[2]], told)
        if word == "size":
            return ["size %d" % len(self.sets[line[1]][0])]
        return self.wait(*self.awaited(line), now, told)

    def transaction_rule(self, word):
        if word in ("read", "write"):
            return "transaction-open" if self.open else None
        if word in ("add", "size"):
            return None
        if word not in ("check", "wait") and not self.open:
            return "no-transaction"
        if word in ("end", "check", "wait") and self.open == "write":
            return "write-open"
        return "read-only" if word in ("commit", "abort") + WRITES and self.open == "read" else None

    def name_rule(self, line):
        if line[0] == "watch":
            return "name-taken" if line[1] in self.watches else "uncommitted" if self.open == "write" else None
        known = {"check": self.watches, "size": self.sets, "wait": self.sets}.get(line[0])
        if known is not None and line[1] not in known:
            return "unknown-name"
        if line[0] == "add" and line[2] not in self.watches:
            return "unknown-name"
        return "unknown-name" if line[0] == "wait" and len(line) == 4 and line[3] not in self.watches else None

    def end(self, word):
        self.open = None
        if word != "commit":
            return ["ended" if word == "end" else "aborted"]
        self.last = self.seen + 1
        return ["commit @%d" % self.last] + changes(self.history.states[self.seen], self.rows)

    def watch(self, name, question):
        if question[1] in TABLES and question[0] not in ASKS:
            return ["refused unwatchable"]
        told = ask(self.rows, question)
        if not is_refused(told):
            self.watches[name] = Watch(name, question, self.seen)
        return told

    def check(self, watch, now, told):
        self.last, last = now, self.last
        lawful = [["quiet @%d" % now]] if self.may_be_quiet(watch, now) else []
        lawful += [["fired @%d" % now]] if self.may_have_fired(watch, now) else []
        claim(lawful, "a watch that changed was not touched, after commit %d" % last)
        answer = told if told in lawful else lawful[0]
        (self.note_quiet if answer == ["quiet @%d" % now] else self.note_fired)(watch)
        return answer

    def add(self, name, watch, told):
        members, added = self.sets.setdefault(name, ([], []))
        like = any((one.question, one.number) == (watch.question, watch.number) for one in added)
        sizes = [] if like or any(self.must_share(one, watch) for one in members) else [len(members) + 1]
        sizes += [len(members)] if any(self.may_share(one, watch) for one in members) else []
        lawful = [["size %d" % size] for size in sizes]
        answer = told if told in lawful else lawful[0]
        added.append(watch)
        if answer == ["size %d" % (len(members) + 1)]:
            members.append(watch)
        return answer

    def awaited(self, line):
        """The members of a wait's set, and the watch that cancels it or nothing."""
        return self.sets[line[1]][0], self.watches[line[3]] if len(line) == 4 else None

    def wait(self, members, until, now, told):
        ends = [(watch, ["fired %s @%d" % (watch.name, now)]) for watch in members]
        for watch, answer in ends + ([(until, ["stopped @%d" % now])] if until else []):
            if not self.may_be_quiet(watch, self.last) or (told == answer and self.may_have_fired(watch, now)):
                self.note_fired(watch)
                self.last = now
                return answer
            self.note_quiet(watch)
        return None

    # What may be told of watches. The last commit may be shown and not yet have fired, but for a client's own.

    def may_be_quiet(self, watch, now):
        own = now > 0 and self.history.makers[now] == self.number
        return self.history.is_unchanged(watch.question, watch.number, max(watch.number, now if own else now - 1))

    def may_have_fired(self, watch, now):
        return self.history.is_touched(watch, now)

    def note_quiet(self, watch):
        pass

    def note_fired(self, watch):
        pass

    # Whether a watch has the cell of a member of a set.

    def may_share(self, member, watch):
        return member.question[1] == watch.question[1] and own_name(member.question[2]) == own_name(watch.question[2])

    def must_share(self, member, watch):
        return False


def read_client(history, number, lines, answers):
    """Sees that the answers to a client's first lines are lawful in a history, and gives what the client knows then."""
    client = Client(number, history)
    for line, told in zip(lines, answers):
        now = number_in(told) if line[0] in NUMBERED and not is_refused(told) else None
        now = client.last if now is None else now
        claim(client.last <= now <= history.count(), "%s is answered %s, after commit %d" % (spelled(line), told, client.last))
        wanted = client.reply(line, now, told)
        claim(told == wanted, "%s is answered %s, and not %s" % (spelled(line), told, wanted))
    return client
