"""What the scripts `words`, `limits` and `made` have in common: runs of the programs that `rt ci` built, in a folder of files."""

import os
import subprocess
import sys
import tempfile

TOP = os.path.dirname(os.path.dirname(os.path.abspath(__file__)))
MEMDB = os.path.join(TOP, "crates/memdb/out/memdb")
LOOP = os.path.join(TOP, "crates/session_loop/out/session_loop")
USAGE = {}
for _program in MEMDB, LOOP:
    with open(os.path.join(TOP, "launcher", os.path.basename(_program) + ".usage"), encoding="utf-8") as _file:
        USAGE[_program] = _file.read()

ONE_TABLE = """{"memdb":1,"tables":{"t":{"indexes":{
"id":{"unique":true,"indexer":{"kind":"text","field":"name"}}}}}}"""
ANN = """write
insert t {"name":"ann","age":3}
commit
read
first t id ["ann"]
first t id ["bob"]
"""
ANN_OUT = """client 1 c1
1: write @0
2: inserted
3: commit @1
4: read @1
5: row {"age":3,"name":"ann"}
6: none
"""


def summary(number, clients, count):
    """What `make` tells of these numbers."""
    rows = {}
    for client in range(1, clients + 1):
        for _ in range(count):
            number = (75 * number + 74) % 65537
            rows["k%d-%d" % (client, number % 100)] = number % 65536
    return "clients %d\ncommits %d\nrows %d\nages %d\n" % (clients, clients * count, len(rows), sum(rows.values()))


class Trial:
    """Counts the runs, and those that end otherwise than they have to."""

    def __init__(self):
        self.name = os.path.basename(sys.argv[0])
        self.tried = self.failed = 0

    def fails(self, what):
        print("%s: %s" % (self.name, what), file=sys.stderr)
        self.failed += 1

    def ends(self):
        """What the script ends with."""
        print("%s: %d tries of the programs, %d failed" % (self.name, self.tried, self.failed))
        return 1 if self.failed else 0

    def run(self, program, files, words, argument=None):
        """The status and the output of a program on these words, in a folder of these files alone. The argument is the first one, by
        which a program is called."""
        self.tried += 1
        with tempfile.TemporaryDirectory() as room:
            for name, content in files.items():
                path = os.path.join(room, name)
                os.makedirs(os.path.dirname(path), exist_ok=True)
                with open(path, "wb") as file:
                    file.write(content if isinstance(content, bytes) else content.encode())
            first = program if argument is None else argument
            called = [first, *words]
            try:
                done = subprocess.run(called, executable=program, cwd=room, stdout=subprocess.PIPE, timeout=120, check=False)
            except subprocess.TimeoutExpired:
                return None, ""
        return done.returncode, done.stdout.decode()

    def told(self, program, files, words, status, text, argument=None):
        """Sees that a run ends with this status, and with this text: the whole of it, or so many lines of which these are the last."""
        got = self.run(program, files, words, argument)
        lines, end = text if isinstance(text, tuple) else (None, text)
        if got[0] == status and (got[1] == text if lines is None else got[1].count("\n") == lines and got[1].endswith(end)):
            return got[1]
        what = " ".join([os.path.basename(program), *words])[:99]
        self.fails("%s: status %s, and not %s; %d lines, %r" % (what, got[0], status, got[1].count("\n"), got[1][-99:]))
        return None

    def is_legal(self, files, clients, output):
        """Sees that `memdb check` finds an output legal for clients under the schema S."""
        if output is not None:
            self.told(MEMDB, {**files, "output": output}, ["check", "S", *clients, "output"], 0, "legal\n")
