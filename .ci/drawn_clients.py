"""Draws sets of clients for the scripts beside it: what each line is, is drawn anew from a seed, so the sets are the same in each
run. A script is a list of lines, each with its number in the client's file."""

import random

from second_reader import TABLES, spelled

LARGE = 25  # each such set has as many clients as there may be


class Drawer:
    """Draws the lines of a client."""

    def __init__(self, rng, names, waits):
        self.rng, self.names, self.waits = rng, names, waits
        self.lines = []
        self.watches = 0

    def name(self):
        return self.rng.choice(self.names)

    def question(self):
        word = self.rng.choice(["first", "first", "last", "get", "get", "get-reverse"])
        index = self.rng.choice(["id", "id", "id", "id_prefix", "id_prefix", "age"])
        args = [self.rng.randrange(3)] if index == "age" else [self.name()]
        if index == "id_prefix":
            args = [args[0][: self.rng.choice([1, 2, 3, 3])]]
        return (word, self.rng.choice(TABLES), index, args if self.rng.random() < 0.7 else [])

    def write(self):
        table = self.rng.choice(TABLES)
        word = self.rng.choice(["insert"] * 6 + ["delete"] * 3 + ["delete-all"])
        if word == "insert":
            return (word, table, {"name": self.name(), "age": self.rng.randrange(3)})
        return (word, table, {"name": self.name()}) if word == "delete" else (word, table, "age", [self.rng.randrange(3)])

    def refused_line(self, transaction):
        """A line that breaks a rule where a transaction of this kind is open, or most likely does."""
        name = self.name()
        lines = [("check", "none"), ("wait", "none"), ("size", "none"), ("add", "s0", "none"), ("wait", "s0", "until", "none")]
        if transaction is None:
            lines += [("end",), ("commit",), ("abort",), self.question(), self.write(), ("watch", "u0", *self.question())]
        else:
            lines += [("read",), ("write",), ("first", "users", "size", []), ("get", "others", "id", []),
                      ("get", "items", "age", [name]), ("last", "items", "id", [name, name]), ("get", "users", "age", [65536])]
        if transaction == "read":
            lines += [("commit",), ("abort",), self.write(), ("watch", "w0", *self.question()),
                      ("watch", "u0", "get", "others", "id", []), ("watch", "u0", "lower", "items", "id", [name]),
                      ("watch", "u0", "first", "items", "id", [1])]
        if transaction == "write":
            lines += [("end",), ("wait", "s0"), ("check", "w0"), ("watch", "u0", *self.question()), ("insert", "items", {"age": 1}),
                      ("insert", "items", {"name": name}), ("insert", "users", {"name": name, "age": "1"}),
                      ("insert", "items", {"name": name, "age": -1}), ("insert", "others", {"name": name, "age": 1}),
                      ("delete", "users", {"name": 1}), ("delete-all", "items", "size", [])]
        return self.rng.choice(lines)

    def perhaps_refused(self, transaction):
        if self.rng.random() < 0.15:
            self.lines.append(self.refused_line(transaction))

    def writes(self):
        self.lines.append(("write",))
        for _ in range(self.rng.randrange(6)):
            self.lines.append(self.write() if self.rng.random() < 0.8 else self.question())
        self.perhaps_refused("write")
        self.lines.append(("commit",) if self.rng.random() < 0.85 else ("abort",))

    def reads(self):
        self.lines.append(("read",))
        self.lines += [self.question() for _ in range(self.rng.randrange(3))]
        self.perhaps_refused("read")
        self.lines.append(("end",))

    def watching(self):
        """Lines that watch answers, put watches into a set, and mostly wait for it or look at one."""
        names = ["w%d" % (self.watches + at) for at in range(self.rng.choice([1, 2, 2, 3]))]
        set_name = "s%d" % self.watches if self.rng.random() < 0.7 else "s0"
        self.watches += len(names)
        until = ("until", names[-1]) if self.rng.random() < 0.4 else ()
        stays_open = self.rng.random() < 0.1
        self.lines.append(("read",))
        self.lines += [("watch", name, *self.question()) for name in names]
        self.perhaps_refused("read")
        self.lines += [] if stays_open else [("end",)]
        self.lines += [("add", set_name, name) for name in names[: -1 if until and len(names) > 1 else None]]
        if self.rng.random() < 0.3 and not stays_open:
            self.writes()
        if self.rng.random() < 0.4:
            self.lines.append(("check", self.rng.choice(names)))
        if self.rng.random() < self.waits:
            self.lines.append(("wait", set_name, *until))
        elif self.rng.random() < 0.3:
            self.lines.append(("size", set_name))
        self.lines += [("end",)] if stays_open else []

    def fills(self):
        """A commit of a row for each name."""
        self.lines.append(("write",))
        self.lines += [("insert", table, {"name": name, "age": 0}) for table in TABLES for name in self.names]
        self.lines.append(("commit",))

    def waits_for_rows(self):
        self.lines += [("read",), ("watch", "all", "get", "users", "id", []), ("end",), ("add", "all", "all"), ("wait", "all")]

    def script(self, blocks):
        for _ in range(blocks):
            self.rng.choice([self.writes, self.writes, self.watching, self.watching, self.reads])()
            self.perhaps_refused(None)
        if self.rng.random() < self.waits:
            self.watching()
        if self.rng.random() < 0.1:
            self.lines.append(self.rng.choice([("write",), ("read",)]))  # left open at the end
        return self.numbered()

    def numbered(self):
        """The lines with their numbers, between which are those of comments and of lines without anything."""
        number, numbered = 0, []
        for line in self.lines:
            number += 1 if self.rng.random() < 0.9 else self.rng.choice([2, 3])
            numbered.append((number, line))
        return numbered


def drawn(seed, waits=True):
    """The scripts of a set of clients. In some sets the first one fills the tables, for which the others wait. Else no client waits,
    if none shall."""
    rng = random.Random(seed)
    clients, most = (63, 3) if seed % LARGE == LARGE - 1 else (rng.randint(1, 8), 5)
    names = rng.sample(["ann", "anna", "annie", "ant", "bo", "bob", "bobby", "bon", "cy"], rng.choice([1, 3, 5, 9]))
    waiting = rng.choice([0.1, 0.3, 0.6, 0.9])
    drawers = [Drawer(rng, names, waiting if rng.random() < 0.7 and waits else 0) for _ in range(clients)]
    if rng.random() < 0.4:
        drawers[0].fills()
        for drawer in drawers[1:] if waits else []:
            drawer.waits_for_rows()
    return [drawer.script(rng.randint(1, most)) for drawer in drawers]


def file_of(script):
    """The text of a client's file."""
    there = dict(script)
    last = max(there, default=0)
    return "".join(spelled(there[at]) + "\n" if at in there else ("# nothing\n", "\n")[at % 2] for at in range(1, last + 1))
