"""Reads scripts by docs/SCRIPT.md alone, as a second reading beside the program's: their lines, or their first fault in words.

`read(bytes)` gives a Script or raises a ScriptFault, whose line and cause are those that a run prints.
"""
import dataclasses
import re

LONGEST = 1_048_576
MOST_LINES, MOST_CLIENTS = 4_096, 64
PIECE = 65_536
LABEL = re.compile(r"[a-z0-9]{1,16}")
NUMBER = re.compile(r"[0-9]{1,20}")


class ScriptFault(Exception):
    """The first fault of a script: its line from 1, its cause, and what was wanted, with the word's place where one is known."""

    def __init__(self, line, cause, wanted, place=0, word=None):
        super().__init__(wanted)
        self.line, self.cause, self.wanted, self.place, self.word = line, cause, wanted, place, word

    def printed(self):
        """What a run prints in place of a report."""
        return f"script {self.line} {self.cause}"

    def __str__(self):
        where = f"line {self.line}" if self.line else "the script"
        where += f", word {self.place}" if self.place else ""
        found = "" if self.place == 0 else ": nothing is there" if self.word is None else f': "{shortened(self.word)}"'
        return f"{where}{found}: {self.wanted}"


def shortened(word):
    return word if len(word) <= 40 else word[:37] + "..."


@dataclasses.dataclass
class Line:
    """A line with a command: the line of the file, the client with its number and the line's number, and the command's words."""

    at: int
    client: str
    client_number: int
    number: int
    after: tuple
    words: list

    def name(self):
        """The first two words, as `key put`."""
        return " ".join(self.words[:2])

    def path(self):
        """The path that the command is about, or an empty text."""
        return next((word for word in self.words[2:] if word.startswith("/")), "")

    def length(self):
        """How many bytes the line puts, or None where it puts none."""
        if self.name() not in ("key put", "key open"):
            return None
        return len(self.words[-1]) if self.words[-2] == "text" else int(self.words[-1])

    def changes(self):
        """About how many decisions of the line change the store: a block each piece, and what opens and commits."""
        if self.length() is not None:
            return 1 + -(-self.length() // PIECE) + (self.name() == "key put")
        return int(self.words[1] in ("create", "delete", "commit", "rename", "expire"))


@dataclasses.dataclass
class Script:
    lines: list

    def line(self, client_number, number):
        """The line of this number of that client, or None."""
        return self.by_number().get((client_number, number))

    def by_number(self):
        return {(it.client_number, it.number): it for it in self.lines}

    def changes(self):
        return sum(it.changes() for it in self.lines)


# --- the forms of a command -----------------------------------------------------------------------------------------


class Wrong(Exception):
    """A word, by its place from 1, that is none of those which may stand there."""

    def __init__(self, place, wanted):
        super().__init__(wanted)
        self.place, self.wanted = place, wanted


def is_path(word):
    return word.startswith("/")


def is_number(least, most):
    return lambda word: bool(NUMBER.fullmatch(word)) and least <= int(word) <= most


def is_label(word):
    return bool(LABEL.fullmatch(word))


def is_short(word):
    return len(word) <= 1024


ANY = lambda word: True
VOLUME = ("/VOLUME", is_path, "a path begins with /")
BUCKET = ("/VOLUME/BUCKET", is_path, "a path begins with /")
KEY = ("/VOLUME/BUCKET/KEY", is_path, "a path begins with /")
NAME = ("NAME", ANY, "")
LABELLED = ("LABEL", is_label, "a label has 1 to 16 of a-z and 0-9")
DATA = ("DATA", ANY, "")  # read by its first word
PREFIX = ("PREFIX", is_short, "a prefix has at most 1,024 bytes")
START = ("START", is_short, "a start has at most 1,024 bytes")
COUNT = ("COUNT", is_number(1, 1000), "a count is 1 to 1000")
NODE = ("N", is_number(0, 15), "the number of a datanode is 0 to 15")
DATA_FORMS = {
    "text": [("WORD", is_short, "a word has at most 1,024 bytes")],
    "fill": [
        ("NUMBER", is_number(0, (1 << 64) - 1), "the number of a fill is below 2^64"),
        ("LENGTH", is_number(0, 1_048_576), "a length is 0 to 1048576"),
    ],
}
FORMS = {
    "volume": {"create": [[VOLUME]], "delete": [[VOLUME]], "info": [[VOLUME]]},
    "bucket": {"create": [[BUCKET]], "delete": [[BUCKET]], "info": [[BUCKET]], "list": [[VOLUME]]},
    "key": {
        "put": [[KEY, DATA]],
        "open": [[LABELLED, KEY, DATA]],
        "commit": [[LABELLED]],
        "get": [[KEY]],
        "delete": [[KEY]],
        "rename": [[KEY, NAME]],
        "list": [[BUCKET], [BUCKET, PREFIX, START, COUNT]],
        "expire": [[BUCKET]],
    },
    "snapshot": {
        "create": [[BUCKET, NAME]],
        "delete": [[BUCKET, NAME]],
        "info": [[BUCKET, NAME]],
        "list": [[BUCKET]],
    },
    "admin": {"stop": [[NODE]], "start": [[NODE]], "wipe": [[NODE]], "close": [[]], "containers": [[]], "drain": [[]]},
}
SERVED_LATER = {"admin close", "admin containers", "admin drain"}


def listed(words):
    return ", ".join(words)


def command_fault(words, first):
    """Raises Wrong at the first of the words, the first of which has the place `first`, at which no command can stand."""
    kinds = listed(FORMS)
    if not words or words[0] not in FORMS:
        raise Wrong(first, f"a command begins with {kinds}")
    verbs = FORMS[words[0]]
    if len(words) < 2 or words[1] not in verbs:
        raise Wrong(first + 1, f"{words[0]} takes {listed(verbs)}")
    forms = verbs[words[1]]
    form = next((it for it in forms if len(it) + 2 >= len(words)), forms[-1])
    shown = " or ".join(" ".join(field[0] for field in it) or "nothing" for it in forms)
    compare(words[2:], form, first + 2, f"{words[0]} {words[1]} takes {shown}")


def compare(words, form, first, takes):
    """Raises Wrong at the first of the words that isn't of the form, or where one is missing or too many."""
    for at, (name, rule, why) in enumerate(form):
        if at >= len(words):
            raise Wrong(first + at, takes)
        if name == "DATA":
            forms = DATA_FORMS.get(words[at])
            wanted = "DATA is text WORD or fill NUMBER LENGTH"
            if forms is None:
                raise Wrong(first + at, wanted)
            return compare(words[at + 1 :], forms, first + at + 1, wanted)
        if not rule(words[at]):
            raise Wrong(first + at, f"{why}; {takes}")
    if len(words) > len(form):
        raise Wrong(first + len(form), f"nothing stands there; {takes}")


# --- scripts --------------------------------------------------------------------------------------------------------


def raw_lines(script):
    """The lines of a script, from 1, without their ends. The last one may lack its line feed."""
    lines = script.split(b"\n")
    ended, last = lines[:-1], lines[-1]
    texts = [it[:-1] if it.endswith(b"\r") else it for it in ended] + ([last] if last else [])
    return enumerate(texts, 1)


def words_in(at, text):
    """The words of a line. A byte that no word has is a fault."""
    for place, word in enumerate(re.split(rb"[ \t]+", text.strip(b" \t")), 1):
        if any(not 33 <= it <= 126 for it in word):
            raise ScriptFault(at, "form", "a word has bytes from ! to ~ alone", place, repr(word)[2:-1])
    return text.decode("ascii").split()


class Reader:
    """Reads line after line, and keeps what later ones rest on."""

    def __init__(self):
        self.lines, self.counts, self.labels = [], {}, set()

    def take(self, at, words):
        try:
            after, command = self.parts(words)
            command_fault(command, len(words) - len(command) + 1)
        except Wrong as wrong:
            word = words[wrong.place - 1] if wrong.place <= len(words) else None
            raise ScriptFault(at, "form", wrong.wanted, wrong.place, word) from None
        client = words[0]
        if len(self.lines) >= MOST_LINES:
            raise ScriptFault(at, "many", f"a script has at most {MOST_LINES:,} lines with a command")
        if client not in self.counts and len(self.counts) >= MOST_CLIENTS:
            raise ScriptFault(at, "many", f"a script has at most {MOST_CLIENTS} clients", 1, client)
        self.note_label(at, client, command)
        self.counts[client] = self.counts.get(client, 0) + 1
        number = list(self.counts).index(client) + 1
        self.lines.append(Line(at, client, number, self.counts[client], after, command))

    def parts(self, words):
        """What a line waits for, and the words of its command."""
        if not is_label(words[0]):
            hint = "a remark begins at the very first byte" if words[0].startswith("#") else "a client has 1 to 16 of a-z and 0-9"
            raise Wrong(1, hint)
        if words[1:2] != ["after"]:
            return None, words[1:]
        takes = "after takes CLIENT NUMBER COMMAND"
        rules = [("CLIENT", is_label, "a client has 1 to 16 of a-z and 0-9")]
        rules.append(("NUMBER", is_number(0, 65_535), "the number of a line is below 65,536"))
        compare(words[2:4], rules, 3, takes)
        return (words[2], int(words[3])), words[4:]

    def note_label(self, at, client, command):
        name = " ".join(command[:2])
        if name == "key open":
            self.labels.add((client, command[2]))
        if name == "key commit" and (client, command[2]) not in self.labels:
            wanted = f"no earlier line of {client} opens the label {command[2]}; key open LABEL /VOLUME/BUCKET/KEY DATA does"
            raise ScriptFault(at, "label", wanted)


def look_at_waits(lines):
    """Refuses the first line that waits for none, and then the first that waits for itself."""
    places = {(it.client, it.number): place for place, it in enumerate(lines)}
    followed = []
    for it in lines:
        if it.after and it.after not in places:
            raise ScriptFault(it.at, "after", f"there is no line {it.after[1]} of {it.after[0]}, for which it waits")
        followed.append([places[key] for key in ((it.client, it.number - 1), it.after) if key in places])
    for place in in_circles(followed):
        raise ScriptFault(lines[place].at, "circle", "it waits for a line that waits for it")


def in_circles(followed):
    """The places, in their order, from which a way of one step or more leads back. The lists are of places that each waits for."""
    waiting = [0] * len(followed)
    for places in followed:
        for place in places:
            waiting[place] += 1
    free = [place for place, count in enumerate(waiting) if count == 0]
    while free:  # what nobody who is left waits for is on no circle
        place = free.pop()
        for other in followed[place]:
            waiting[other] -= 1
            if waiting[other] == 0:
                free.append(other)
    return (place for place, count in enumerate(waiting) if count and comes_back(place, followed))


def comes_back(start, followed):
    seen, open_ends = set(), list(followed[start])
    while open_ends:
        place = open_ends.pop()
        if place == start:
            return True
        if place not in seen:
            seen.add(place)
            open_ends += followed[place]
    return False


def read(script):
    """The script that these bytes are. The first fault is raised, in the order of docs/SCRIPT.md."""
    if len(script) > LONGEST:
        raise ScriptFault(0, "long", f"it has more than {LONGEST:,} bytes")
    reader = Reader()
    for at, text in raw_lines(script):
        if text.strip(b" \t") and not text.startswith(b"#"):
            reader.take(at, words_in(at, text))
    look_at_waits(reader.lines)
    for it in reader.lines:
        if it.name() in SERVED_LATER:
            raise ScriptFault(it.at, "later", f"no run serves {it.name()} yet")
    return Script(reader.lines)
