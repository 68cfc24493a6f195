"""The first bad line of an output by the second reader's plain rows: the number of the line by the first of four tests that fails, or
nothing where the output is one history of its clients. It knows the lines that `drawn_clients` draws. A script is a list of lines, each
with its number in the client's file; an output is bytes."""

import re

from second_reader import NUMBERED, WRITES, Client, Fault, History, is_refused

ORDER = ("transaction-open", "no-transaction", "write-open", "read-only")
KEPT = ["refused " + rule for rule in (*ORDER, "commits-spent", "ids-spent", "spoiled")]
NUMBER = "(0|[1-9][0-9]*)"
FORMS = {
    "read": "read @" + NUMBER,
    "write": "write @" + NUMBER,
    "end": "ended",
    "commit": "commit @" + NUMBER,
    "abort": "aborted",
    "insert": "inserted|replaced",
    "delete": "deleted",
    "delete-all": "deleted " + NUMBER,
    "check": "(?:quiet|fired) @" + NUMBER,
    "add": "size " + NUMBER,
    "size": "size " + NUMBER,
    "wait": r"fired [^ \t]+ @" + NUMBER,
    "until": "stopped @" + NUMBER,
    "first": "row .*|none",
    "last": "row .*|none",
    "get": "rows " + NUMBER,
    "get-reverse": "rows " + NUMBER,
    "lower": "rows " + NUMBER,
}


class Bad(Exception):
    """A bad line, by its number."""


def claim(holds, line):
    if not holds:
        raise Bad(line)


# ---- the shape


class Reading:
    """The lines of an output, and the number of the next one."""

    def __init__(self, output):
        self.lines = output.decode("latin-1").split("\n")
        # What stands behind the last line feed is no line where it is nothing, and else one that isn't ended.
        self.ended = self.lines.pop() if self.lines[-1] == "" else None
        self.next = 1

    def is_there(self):
        """Whether there is a next line, which a line feed ends."""
        return self.next < len(self.lines) or (self.next == len(self.lines) and self.ended is not None)

    def line(self):
        claim(self.is_there(), self.next)
        self.next += 1
        return self.lines[self.next - 2]

    def further(self, answer):
        """The further lines of an answer."""
        if answer.startswith("rows "):
            lines = []
            for _ in range(int(answer[5:])):
                claim(self.line().startswith("  "), self.next - 1)
                lines.append(self.lines[self.next - 2])
            return lines
        begun = self.next
        while answer.startswith("commit @") and self.is_there() and self.lines[self.next - 1].startswith("  "):
            self.next += 1
        return self.lines[begun - 1 : self.next - 1]


def order_rule(open_now, word):
    """The refusal that the order of a client's lines decides, or nothing."""
    if word in ("read", "write"):
        return "transaction-open" if open_now else None
    if word in ("add", "size"):
        return None
    if word in ("check", "wait"):
        return "write-open" if open_now == "write" else None
    if not open_now:
        return "no-transaction"
    if word == "end":
        return "write-open" if open_now == "write" else None
    return "read-only" if word in ("commit", "abort") + WRITES and open_now == "read" else None


def open_after(open_now, word):
    if not open_now:
        return word if word in ("read", "write") else None
    return None if word in {"read": ("end",), "write": ("commit", "abort")}[open_now] else open_now


def fits(line, answer):
    """Whether an answer has a form of the line's word."""
    word = line[2] if line[0] == "watch" else line[0]
    forms = [FORMS[word]] + ([FORMS["until"]] if word == "wait" and len(line) == 4 else [])
    found = [re.fullmatch(form, answer, re.DOTALL) for form in forms]
    return any(all(int(number) < 1 << 64 for number in one.groups()) for one in found if one)


def may_answer(open_now, line, answer):
    rule = order_rule(open_now, line[0])
    if rule:
        return answer == "refused " + rule
    return fits(line, answer) or (answer.startswith("refused ") and answer not in KEPT)


class Reply:
    """A reply as it stands in an output: the number of its first line, the line of the script, and its own lines."""

    def __init__(self, at, line, told):
        self.at, self.line, self.told = at, line, told

    def number_behind(self, word):
        found = re.match(re.escape(word) + NUMBER + "(?![0-9])", self.told[0])
        return int(found.group(1)) if found and int(found.group(1)) < 1 << 64 else None


def shaped(files, scripts, output):
    """The replies of each client."""
    reading = Reading(output)
    clients = []
    for at, (name, script) in enumerate(zip(files, scripts), 1):
        claim(reading.line() == "client %d %s" % (at, name), reading.next - 1)
        replies, open_now = [], None
        for number, line in script:
            first = reading.line()
            here = reading.next - 1
            claim(first.startswith("%d: " % number), here)
            answer = first[len("%d: " % number) :]
            claim(may_answer(open_now, line, answer), here)
            replies.append(Reply(here, line, [answer] + reading.further(answer)))
            open_now = open_after(open_now, line[0])
        clients.append(replies)
    claim(reading.next > len(reading.lines), reading.next)
    return clients


# ---- the numbers, and the history


def commits_of(clients):
    """Of each commit in the order of the text: its reply, its client, its number, that of its `write` or nothing, and its lines."""
    commits = []
    for maker, replies in enumerate(clients, 1):
        open_now, base, writes = None, None, []
        for reply in replies:
            word = reply.line[0]
            made = reply.number_behind("commit @")
            if made is not None:
                commits.append((reply.at, maker, made, base, list(writes)))
            if word == "write" and not open_now:
                base, writes = reply.number_behind("write @"), []
            elif word in WRITES:
                writes.append(reply.line)
            open_now = open_after(open_now, word)
    return commits


def history_of(commits):
    seen = set()
    for at, _, made, _, _ in commits:
        claim(1 <= made <= len(commits) and made not in seen, at)
        seen.add(made)
    for at, _, made, base, _ in commits:
        claim(base is None or base + 1 == made, at)
    history = History()
    for _, maker, _, _, writes in sorted(commits, key=lambda commit: commit[2]):
        history.commit(maker, writes)
    return history


# ---- what clients may be told


def is_told(client, reply):
    """Whether a client may be told this."""
    now = client.last
    if reply.line[0] in NUMBERED and not is_refused(reply.told):
        now = int(reply.told[0].rpartition("@")[2])
    if not client.last <= now <= client.history.count():
        return False
    try:
        return client.reply(reply.line, now, reply.told) == reply.told
    except Fault:
        # (neither quiet nor fired is lawful then)
        return False


def first_bad(files, scripts, output):
    """The number of the first bad line, or nothing."""
    try:
        clients = shaped(files, scripts, output)
        history = history_of(commits_of(clients))
        for number, replies in enumerate(clients, 1):
            client = Client(number, history)
            for reply in replies:
                claim(is_told(client, reply), reply.at)
    except Bad as bad:
        return bad.args[0]
    return None
