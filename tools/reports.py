"""Reads reports by docs/SCRIPT.md, The report: the events in their order, and with the script what each line was."""
import argparse
import dataclasses
import sys

import scripts

# What an answer means that isn't a refusal by the names and keys that are there.
REMARKS = {
    "NO_QUORUM": "every pipeline that runs refused the block; its datanodes may be full: see ./ozone check DIR",
    "NO_PIPELINE": "of each three datanodes that hold a block together, two are stopped or have failed",
    "NO_REPLICA": "no datanode that runs has this piece intact: see ./ozone check DIR",
}


class NoReport(Exception):
    """A text that is no report, with the line that says so."""


@dataclasses.dataclass
class Event:
    """A line of a report: a decision `d`, an answer `t`, or a halt `h`."""

    at: int
    kind: str
    client: int = 0
    line: int = 0
    step: int = 0
    request: str = ""
    answer: str = ""
    node: str = ""
    count: int = 0


@dataclasses.dataclass
class Report:
    """The events, how many lines were told of how many, if the report ends so, and the script, if it is known."""

    events: list
    told: tuple = None
    script: scripts.Script = None
    last: int = 0

    def line_of(self, event):
        return self.lines.get((event.client, event.line))

    def __post_init__(self):
        self.lines = self.script.by_number() if self.script else {}

    def client_name(self, number):
        """The client's name by the script, or its number."""
        line = self.lines.get((number, 1))
        return line.client if line else str(number)

    def command(self, client, line):
        found = self.lines.get((client, line))
        return " ".join(found.words) if found else ""

    def node_command(self, event):
        """What an answer OK says was done to a datanode, with its name, or None."""
        line = self.lines.get((event.client, event.line))
        done = {"admin stop": "stopped", "admin start": "started", "admin wipe": "wiped"}
        if event.kind != "t" or not line or line.name() not in done:
            return None
        return f"dn{int(line.words[2])}", done[line.name()]

    def ended(self):
        return f"{self.told[0]} of {self.told[1]} lines were told" if self.told else "the report ends before its last line"

    def remarks(self):
        found = dict.fromkeys(it.answer.split(" ")[0] for it in self.events if it.kind == "t")
        return [f"{word}: {REMARKS[word]}" for word in found if word in REMARKS]


def event_of(at, line):
    kind, *words = line.split(" ")
    if kind == "d" and len(words) == 5:
        return Event(at, "d", int(words[0]), int(words[1]), int(words[2]), words[3], words[4])
    if kind == "t" and len(words) >= 3:
        return Event(at, "t", int(words[0]), int(words[1]), answer=" ".join(words[2:]))
    if kind == "h" and len(words) == 2:
        return Event(at, "h", node=words[0], count=int(words[1]))
    return None


def read(text, script=None, wanted=None):
    """The report that a text is, or those of its lines, from 1, that are wanted: the first and the last."""
    lines = text.splitlines()
    if not lines or lines[0] != "story 1":
        raise NoReport(lines[0] if lines else "it is empty")
    first, last = wanted or (1, len(lines))
    report = Report([], None, script, len(lines))
    for at, line in enumerate(lines[1:], 2):
        words = line.split(" ")
        event = event_of(at, line)
        if event is None and words[0] == "end" and len(words) == 4:
            report.told = int(words[1]), int(words[3])
        elif event is None:
            raise NoReport(line)
        elif first <= at <= last:
            report.events.append(event)
    return report


# --- the words of show and picture ----------------------------------------------------------------------------------


def lines_wanted(word):
    first, _, last = word.partition("-")
    if not first.isdigit() or not last.isdigit():
        raise argparse.ArgumentTypeError("it is A-B, as 1-200")
    return int(first), int(last)


def parser(name, about):
    made = argparse.ArgumentParser(prog=f"ozone {name}", description=about)
    made.add_argument("--script", metavar="FILE", help="the script of the run, for the names of clients and the commands of lines")
    made.add_argument("--lines", metavar="A-B", type=lines_wanted, help="these lines of the report alone, from 1")
    made.add_argument("report", nargs="?", help="a file with the report; without it, standard input")
    return made


def text_of(path):
    if path:
        with open(path, encoding="utf-8") as file:
            return file.read()
    return sys.stdin.read()


def script_of(path):
    if not path:
        return None
    with open(path, "rb") as file:
        return scripts.read(file.read())
