"""Reads the disks of a store by docs/FORMATS.md and docs/format-*.md alone, as a second reading beside the program's.

`Store(folder)` has them all, and changes nothing. What can't be read is a `Fault`, with its place on the disk; what stands
before it is kept. Names are texts, blocks are pairs of a container and a local id, and places count bytes from 0.
"""
import dataclasses
import functools
import hashlib
import os

GREATEST = 1 << 62  # of a container and of a local id
SLOT_SIZE = SLOTS = 16_384
LONGEST_BLOCK = 65_536
IDS_IN_GRANT = 64
STRIPES = 16
REPLICAS = 3
FEWEST_NODES, MOST_NODES = 3, 16
STATES = {1: "open", 2: "closing", 3: "quasi-closed", 4: "closed", 5: "deleting", 6: "deleted"}
DELETED = 6


class Fault(Exception):
    """A place on a disk, or in a body, at which it isn't of its form, and what was wanted there."""

    def __init__(self, place, wanted):
        super().__init__(f"damaged at {place}: {wanted}")
        self.place, self.wanted = place, wanted

    def behind(self, place):
        return Fault(place + self.place, self.wanted)


# --- names ----------------------------------------------------------------------------------------------------------


def is_name(text):
    """Whether a volume, a bucket or a snapshot may have this name."""
    letters = b"abcdefghijklmnopqrstuvwxyz"
    digits = b"0123456789"
    if not 3 <= len(text) <= 63 or any(it not in letters + digits + b"-." for it in text):
        return False
    marks = [it in b"-." for it in text]
    if marks[0] or marks[-1] or all(it in digits + b"." for it in text):
        return False
    return all(text[at : at + 2] == b"--" for at in range(len(text) - 1) if marks[at] and marks[at + 1])


def is_key_name(text):
    is_short = 1 <= len(text) <= 1024 and all(33 <= it <= 126 for it in text)
    return is_short and text != b".snapshot" and not text.startswith(b".snapshot/")


def stripe_of(volume):
    return sum(volume.encode()) % STRIPES


# --- fields ---------------------------------------------------------------------------------------------------------


class Fields:
    """The fields of a body, taken from the left. Each that is refused is a Fault at its first byte."""

    def __init__(self, body):
        self.body, self.at = body, 0

    def number(self, size, what, rule=lambda value: True):
        end = self.at + size
        if end > len(self.body):
            raise Fault(self.at, f"{what}, of which the body has no {size} bytes")
        value = int.from_bytes(self.body[self.at : end], "big")
        if not rule(value):
            raise Fault(self.at, f"{what}, which {value} isn't here")
        self.at = end
        return value

    def long(self, what, least=0, most=(1 << 64) - 1):
        return self.number(8, what, lambda value: least <= value <= most)

    def text(self, what, rule):
        place = self.at
        size = self.number(2, f"the length of {what}")
        text = self.body[self.at : self.at + size]
        if len(text) < size or not rule(text):
            raise Fault(place, what)
        self.at += size
        return text.decode("ascii")

    def list(self, what, item, least=0, most=256):
        count = self.number(2, f"the count of {what}", lambda value: least <= value <= most)
        return [item() for _ in range(count)]

    def block(self):
        container = self.long("a container", 1, GREATEST)
        return container, self.long("a local id", 1, GREATEST)

    def piece(self):
        return self.block(), self.number(4, "the length of a piece", lambda value: 1 <= value <= LONGEST_BLOCK)

    def is_at_end(self):
        return self.at >= len(self.body)

    def end(self):
        if not self.is_at_end():
            raise Fault(self.at, "the end of the body")


# --- journals -------------------------------------------------------------------------------------------------------


class Journal:
    """The bodies of a journal with their places, the place of the gate behind them, and the fault at which they end, if any."""

    def __init__(self, disk):
        self.disk, self.bodies, self.gate, self.fault = disk, [], 0, None
        if len(disk) > 1:
            try:
                for place, body in self.records(0):
                    self.bodies.append((place, body))
                    self.gate = place + len(body)
            except Fault as fault:
                self.fault = fault

    def records(self, gate, is_open=False):
        """The places and bodies from a gate on, up to one that is closed. With `is_open` the first is taken as open."""
        while is_open or self.gate_at(gate) == 1:
            place = gate + 5
            size = int.from_bytes(self.disk[gate + 1 : place], "big")
            if place > len(self.disk) or place + size > len(self.disk):
                raise Fault(gate, "a record that ends on the disk, or a closed gate")
            yield place, self.disk[place : place + size]
            gate, is_open = place + size, False

    def gate_at(self, place):
        if place >= len(self.disk):
            raise Fault(len(self.disk), "a gate")
        return self.disk[place]

    def rest(self):
        """How many bytes stand behind the last gate. No run reads them."""
        return max(0, len(self.disk) - self.gate - 1)

    def hidden(self):
        """The places and bodies that would be read if the last gate were open, up to the first fault."""
        found = []
        try:
            for it in self.records(self.gate, is_open=True):
                found.append(it)
        except Fault:
            pass
        return found


# --- the manager's rows ---------------------------------------------------------------------------------------------

VOLUME, BUCKET, KEY, OPEN, DELETED_ROW, SNAPSHOT, SNAPSHOT_KEY, RENAMED, STRIPE = range(1, 10)
KINDS = {
    VOLUME: "volume",
    BUCKET: "bucket",
    KEY: "key",
    OPEN: "open",
    DELETED_ROW: "deleted",
    SNAPSHOT: "snapshot",
    SNAPSHOT_KEY: "snapshot key",
    RENAMED: "renamed",
    STRIPE: "stripe",
}
LIVE = 1
PUT, REMOVE, COPY_KEYS, MOVE_DELETED, DROP_KEYS, DROP_OPEN = range(1, 7)
OPERATIONS = {
    PUT: "put",
    REMOVE: "remove",
    COPY_KEYS: "copy keys",
    MOVE_DELETED: "move deleted",
    DROP_KEYS: "drop keys",
    DROP_OPEN: "drop open",
}


class RowFields(Fields):
    """The fields of rows and operations, by their names."""

    FIELDS = {
        "volume": lambda it: it.text("the name of a volume", is_name),
        "bucket": lambda it: it.text("the name of a bucket", is_name),
        "key": lambda it: it.text("the name of a key", is_key_name),
        "name": lambda it: it.text("the name of a snapshot", is_name),
        "session": lambda it: it.long("the number of a session", 1),
        "number": lambda it: it.long("the number of a snapshot", 1),
        "owner": lambda it: it.long("an owner"),
        "from": lambda it: it.long("an owner"),
        "to": lambda it: it.long("an owner"),
        "after": lambda it: it.long("the number of a snapshot or 0"),
        "local": lambda it: it.long("a local id", 1, GREATEST),
        "state": lambda it: it.number(1, "the state of a snapshot, 1 or 2", lambda value: value in (1, 2)),
        "stripe": lambda it: it.number(1, "a stripe below 16", lambda value: value < STRIPES),
        "drawn": lambda it: it.long("how many numbers were drawn", 0, 1 << 48),
        "pieces": lambda it: it.list("pieces", it.piece),
        "blocks": lambda it: it.list("blocks", it.block),
    }
    KEY_FIELDS = {
        VOLUME: ("volume",),
        BUCKET: ("volume", "bucket"),
        KEY: ("volume", "bucket", "key"),
        OPEN: ("volume", "bucket", "key", "session"),
        DELETED_ROW: ("volume", "bucket", "owner", "key", "local"),
        SNAPSHOT: ("volume", "bucket", "number"),
        SNAPSHOT_KEY: ("volume", "bucket", "number", "key"),
        RENAMED: ("volume", "bucket", "owner", "local"),
        STRIPE: ("stripe",),
    }
    VALUE_FIELDS = {
        KEY: ("session", "pieces"),
        OPEN: ("blocks",),
        SNAPSHOT: ("name", "after", "state"),
        SNAPSHOT_KEY: ("session", "pieces"),
        RENAMED: ("key",),
        STRIPE: ("drawn",),
    }
    OPERATION_FIELDS = {
        COPY_KEYS: ("volume", "bucket", "number"),
        MOVE_DELETED: ("volume", "bucket", "from", "to"),
        DROP_KEYS: ("volume", "bucket", "number"),
        DROP_OPEN: ("volume", "bucket"),
    }

    def named(self, names):
        return {name: self.FIELDS[name](self) for name in names}

    def row_key(self):
        kind = self.number(1, "the kind of a row, 1 to 9", KINDS.__contains__)
        return kind, self.named(self.KEY_FIELDS[kind])

    def row_value(self, kind, key):
        if kind == DELETED_ROW:
            return {"blocks": self.deleted_blocks(key["local"])}
        return self.named(self.VALUE_FIELDS.get(kind, ()))

    def deleted_blocks(self, local):
        """The blocks of a deleted row, at least one. The first has the local id of the row's key."""
        count = self.number(2, "a count of 1 to 256 blocks", lambda value: 1 <= value <= 256)
        container = self.long("a container", 1, GREATEST)
        first = container, self.long(f"the local id {local} of the row's key", local, local)
        return [first] + [self.block() for _ in range(count - 1)]

    def operation(self):
        place = self.at
        tag = self.number(1, "an operation, 1 to 6", OPERATIONS.__contains__)
        if tag > REMOVE:
            return Operation(place, tag, self.named(self.OPERATION_FIELDS[tag]))
        kind, key = self.row_key()
        return Operation(place, tag, key, kind, self.row_value(kind, key) if tag == PUT else None)


@dataclasses.dataclass
class Operation:
    """An operation of a body: its place there, its fields, and for a put and a remove the kind of the row and its value."""

    place: int
    tag: int
    fields: dict
    kind: int = 0
    value: dict = None

    def row(self):
        """The key of the row that is put or removed: its kind and its key fields."""
        return (self.kind, *self.fields.values())

    def needed(self):
        return needed_by(self.row(), self.value)

    def as_value(self):
        row = {"row": KINDS[self.kind]} if self.kind else {}
        return {"operation": OPERATIONS[self.tag], **row, **self.fields, **(self.value or {})}

    def __str__(self):
        if not self.kind:
            words = {COPY_KEYS: " for {number}", DROP_KEYS: " for {number}", MOVE_DELETED: " from {from} to {to}", DROP_OPEN: ""}
            path = "/{volume}/{bucket}".format(**self.fields)
            return f"{OPERATIONS[self.tag]} of {path}" + words[self.tag].format(**self.fields)
        value = "".join(f" {text}" for text in map(shown, (self.value or {}).items()))
        return f"{OPERATIONS[self.tag]} {row_text(self.row())}{value}"


def shown(field):
    name, value = field
    if name == "pieces":
        return " ".join([name, *(f"{block_text(block)}:{length}" for block, length in value)])
    if name == "blocks":
        return " ".join([name, *map(block_text, value)])
    return f"{name} {value}"


def block_text(block):
    return f"{block[0]}.{block[1]}"


def row_text(row):
    """A row's key in words, as `key /vol1/bk1/k`."""
    kind, *fields = row
    if kind == STRIPE:
        return f"stripe {fields[0]}"
    named = dict(zip(RowFields.KEY_FIELDS[kind], fields))
    path = [named.pop(name) for name in ("volume", "bucket") if name in named]
    if kind in (KEY, OPEN):
        path.append(named.pop("key"))
    rest = "".join(f" {'block' if name == 'local' else name} {value}" for name, value in named.items())
    return f"{KINDS[kind]} /{'/'.join(path)}{rest}"


def needed_by(row, value):
    """The key of the row without which this one can't stand, or None."""
    kind = row[0]
    if kind == BUCKET:
        return VOLUME, row[1]
    if kind in (KEY, OPEN) or kind == SNAPSHOT and value["state"] == LIVE:
        return BUCKET, row[1], row[2]
    return None


class Manager:
    """The rows that the manager's bodies make, by their keys, and the last transaction index."""

    def __init__(self):
        self.rows, self.index = {}, 0

    def read(self, body):
        """Takes a body, and returns its index and operations. A Fault leaves the rows half changed."""
        fields = RowFields(body)
        fields.number(1, "the layout 1", lambda value: value == 1)
        index = fields.long(f"an index above {self.index} and below 2^63", self.index + 1, (1 << 63) - 1)
        operations = []
        while not fields.is_at_end():
            operation = fields.operation()
            operations.append(operation)
            self.apply(operation)
        self.look_for_orphans(operations)
        self.index = index
        return {"index": index, "operations": operations}

    def apply(self, it):
        if it.tag == PUT:
            self.rows[it.row()] = it.value
        elif it.tag == REMOVE:
            if it.row() not in self.rows:
                raise Fault(it.place, "a row that is there")
            del self.rows[it.row()]
        elif it.tag == COPY_KEYS:
            self.copy_keys(**it.fields)
        elif it.tag == MOVE_DELETED:
            self.move_deleted(*it.fields.values())
        elif it.tag == DROP_KEYS:
            for row in self.rows_of(SNAPSHOT_KEY, *it.fields.values()):
                del self.rows[row]
        elif it.tag == DROP_OPEN:
            self.drop_open(**it.fields)

    def rows_of(self, kind, *fields):
        """The keys of the rows of a kind whose first fields are these, in their order."""
        head = (kind, *fields)
        return sorted(row for row in self.rows if row[: len(head)] == head)

    def copy_keys(self, volume, bucket, number):
        for row in self.rows_of(KEY, volume, bucket):
            self.rows[SNAPSHOT_KEY, volume, bucket, number, row[3]] = self.rows[row]

    def move_deleted(self, volume, bucket, before, after):
        if before == after:
            return
        for kind in (DELETED_ROW, RENAMED):
            for row in self.rows_of(kind, volume, bucket, before):
                moved = (kind, volume, bucket, after, *row[4:])
                value = self.rows.pop(row)
                if kind == DELETED_ROW or before or moved not in self.rows:
                    self.rows[moved] = value

    def drop_open(self, volume, bucket):
        kept = {block for row in self.rows_of(KEY) for block in blocks_of(KEY, self.rows[row])}
        for row in self.rows_of(OPEN, volume, bucket):
            for block in self.rows.pop(row)["blocks"]:
                if block not in kept:
                    self.rows[DELETED_ROW, volume, bucket, 0, row[3], block[1]] = {"blocks": [block]}

    def look_for_orphans(self, operations):
        """Refuses a row that lacks the one that it needs, at the first operation at fault."""
        removed = {it.row(): it.place for it in operations if it.tag == REMOVE}
        places = [it.place for it in operations if it.tag == PUT and self.is_orphan(it.row())]
        put = {it.row() for it in operations if it.tag == PUT}
        needed = {row for row in removed if row not in self.rows and row[0] in (VOLUME, BUCKET)}
        if needed:
            for row, value in self.rows.items():
                lacked = needed_by(row, value)
                if lacked in needed and row not in put:
                    places.append(removed[lacked])
        if places:
            raise Fault(min(places), "rows whose volume and bucket are there")

    def is_orphan(self, row):
        needed = needed_by(row, self.rows[row]) if row in self.rows else None
        return needed is not None and needed not in self.rows


def blocks_of(kind, value):
    """The blocks that a row of this kind names."""
    if kind in (KEY, SNAPSHOT_KEY):
        return [block for block, _ in value["pieces"]]
    if kind in (OPEN, DELETED_ROW):
        return value["blocks"]
    return []


def locals_of(row, value):
    """The local ids that a row names, in its key too."""
    in_key = [row[-1]] if row[0] in (DELETED_ROW, RENAMED) else []
    return in_key + [local for _, local in blocks_of(row[0], value)]


def length_of(value):
    """How many bytes a key has."""
    return sum(length for _, length in value["pieces"])


# --- the storage container manager ----------------------------------------------------------------------------------


@dataclasses.dataclass(frozen=True)
class Grant:
    stripe: int
    container: int
    pipeline: int
    first: int


EVENTS = {1: "finalize", 2: "quasi-close", 3: "close", 4: "force-close", 5: "delete", 6: "clean-up"}

# Of each state the events that it allows, and the state to which each leads.
STEPS = {1: {1: 2}, 2: {2: 3, 3: 4}, 3: {4: 4}, 4: {5: 5}, 5: {6: 6}, 6: {}}


class Scm:
    """What the bodies of the storage container manager's journal make: the containers with their pipelines and states, the
    grants, and the deletions that aren't retired: by their numbers the container, who acknowledged them, and the local ids."""

    def __init__(self):
        self.nodes, self.pipelines, self.states, self.grants, self.next = None, [], [], [], 1
        self.last, self.log = 0, {}

    def read(self, body):
        fields = Fields(body)
        if self.nodes is None:
            fields.number(1, "the entry 1, how many datanodes there are", lambda tag: tag == 1)
            nodes = fields.number(1, "3 to 16 datanodes", lambda count: FEWEST_NODES <= count <= MOST_NODES)
            fields.end()
            self.nodes = nodes
            return {"entry": "nodes", "nodes": nodes}
        tag = fields.number(1, "an entry of 2 to 6", (2, 3, 4, 5, 6).__contains__)
        if tag > 2:
            return (self.step, self.logged, self.acknowledged, self.retired)[tag - 3](fields)
        grant = self.grant_in(fields)
        fields.end()
        if grant.container > len(self.pipelines):
            self.pipelines.append(grant.pipeline)
            self.states.append(1)
        self.grants.append(grant)
        self.next += IDS_IN_GRANT
        return {"entry": "grant", **dataclasses.asdict(grant), "count": IDS_IN_GRANT}

    def step(self, fields):
        container = fields.long("a container that was made", 1, len(self.states))
        steps = STEPS[self.states[container - 1]]
        event = fields.number(1, f"an event of {list(steps)}", steps.__contains__)
        fields.end()
        self.states[container - 1] = steps[event]
        return {"entry": "step", "container": container, "event": EVENTS[event], "state": STATES[self.states[container - 1]]}

    def logged(self, fields):
        number = fields.long(f"the next transaction, {self.last + 1}", self.last + 1, self.last + 1)
        container = fields.long("a container that was made", 1, len(self.states))
        locals = fields.list("local ids", lambda: fields.long("a local id"), 1, 1024)
        fields.end()
        self.last, self.log[number] = number, (container, set(), locals)
        return {"entry": "log", "transaction": number, "blocks": [(container, it) for it in locals]}

    def acknowledged(self, fields):
        number = fields.number(8, "a transaction that isn't retired", self.log.__contains__)
        container, done, _ = self.log[number]
        waits = [it for it in self.members(container) if it not in done]
        datanode = fields.number(1, f"a datanode of {waits}", waits.__contains__)
        fields.end()
        done.add(datanode)
        return {"entry": "ack", "transaction": number, "datanode": datanode}

    def retired(self, fields):
        is_done = lambda value: value in self.log and len(self.log[value][1]) == REPLICAS
        number = fields.number(8, "a transaction that three datanodes acknowledged", is_done)
        fields.end()
        del self.log[number]
        return {"entry": "retire", "transaction": number}

    def due_at(self, datanode):
        """The blocks that a datanode is still to be told to delete."""
        return {
            (container, it)
            for container, done, locals in self.log.values()
            if datanode in self.members(container) and datanode not in done
            for it in locals
        }

    def grant_in(self, fields):
        stripe = fields.number(1, "a stripe below 16", lambda value: value < STRIPES)
        made = len(self.pipelines)
        container = fields.long(f"a container, 1 to {made + 1}", 1, made + 1)
        pipelines = range(1 if self.nodes == REPLICAS else self.nodes)
        if container <= made:
            pipelines = [self.pipelines[container - 1]]
        pipeline = fields.number(1, f"a pipeline of {list(pipelines)}", pipelines.__contains__)
        is_first = lambda value: value == self.next and value + IDS_IN_GRANT <= GREATEST
        first = fields.number(8, f"the next id, {self.next}", is_first)
        fields.number(4, f"{IDS_IN_GRANT} ids", lambda value: value == IDS_IN_GRANT)
        return Grant(stripe, container, pipeline, first)

    def members(self, container):
        """The datanodes of a container that was made: that of its pipeline's number and the next two, going round."""
        first = self.pipelines[container - 1]
        return [(first + more) % self.nodes for more in range(REPLICAS)]

    def grant_of(self, local):
        """The grant that has a local id, or None. They begin at 1 and follow each other without a gap."""
        at = (local - 1) // IDS_IN_GRANT
        return self.grants[at] if local >= 1 and at < len(self.grants) else None


# --- datanodes ------------------------------------------------------------------------------------------------------


@dataclasses.dataclass(frozen=True)
class Replica:
    """A block that a datanode holds: its length, and the slot and the SHA-256 of each chunk."""

    length: int
    chunks: tuple

    def slots(self):
        return [slot for slot, _ in self.chunks]

    def content(self):
        """What the bytes are known by: equal for two replicas of the same bytes."""
        return self.length, tuple(digest for _, digest in self.chunks)

    def chunk_length(self, number):
        return min(SLOT_SIZE, self.length - number * SLOT_SIZE)


class Datanode:
    """What the bodies of a datanode's journal make: its blocks, the states of its replicas, their greatest transactions."""

    def __init__(self):
        self.blocks, self.used, self.states, self.greatest = {}, {}, {}, {}

    def read(self, body):
        fields = Fields(body)
        tag = fields.number(1, "an entry, 1 to 4", lambda value: 1 <= value <= 4)
        return (self.put, self.set_state, self.apply, self.drop)[tag - 1](fields)

    def put(self, fields):
        is_container = lambda value: 1 <= value <= GREATEST and self.states.get(value) != DELETED
        container = fields.number(8, "a container that isn't deleted", is_container)
        is_free = lambda value: 1 <= value <= GREATEST and (container, value) not in self.blocks
        block = container, fields.number(8, "a local id that isn't held", is_free)
        length = fields.number(4, "a length of 1 to 65,536", lambda value: 1 <= value <= LONGEST_BLOCK)
        wanted = -(-length // SLOT_SIZE)
        fields.number(1, f"{wanted} chunks", lambda value: value == wanted)
        chunks = []
        for _ in range(wanted):
            own = [slot for slot, _ in chunks]
            slot = fields.number(4, "a free slot", lambda value: value < SLOTS and value not in self.used and value not in own)
            chunks.append((slot, fields.number(32, "a SHA-256").to_bytes(32, "big")))
        fields.end()
        self.blocks[block] = Replica(length, tuple(chunks))
        self.used.update((slot, block) for slot, _ in chunks)
        shown_chunks = [{"slot": slot, "sha256": digest.hex()} for slot, digest in chunks]
        return {"entry": "put", "block": block, "length": length, "chunks": shown_chunks}

    def set_state(self, fields):
        container = fields.long("a container")
        state = fields.number(1, "a state, 1 to 6", STATES.__contains__)
        fields.end()
        self.states[container] = state
        return {"entry": "state", "container": container, "state": STATES[state]}

    def apply(self, fields):
        container = fields.long("a container")
        place = fields.at
        transaction = fields.long("a transaction", 1)
        blocks = [(container, it) for it in fields.list("local ids", lambda: fields.long("a local id"), 1, 1024)]
        greatest = self.greatest.get(container, 0)
        if transaction <= greatest and not any(it in self.blocks for it in blocks):
            raise Fault(place, f"a transaction above {greatest}, or one of a block that is held")
        fields.end()
        self.greatest[container] = max(transaction, greatest)
        self.take_away(blocks)
        return {"entry": "transaction", "container": container, "transaction": transaction, "blocks": blocks}

    def drop(self, fields):
        is_empty = lambda value: all(container != value for container, _ in self.blocks)
        container = fields.number(8, "a container of which no block is held", is_empty)
        fields.end()
        self.states[container] = DELETED
        return {"entry": "drop", "container": container}

    def take_away(self, blocks):
        for block in blocks:
            if block in self.blocks:
                for slot in self.blocks.pop(block).slots():
                    del self.used[slot]


# --- entries in words -----------------------------------------------------------------------------------------------


def entry_text(entry):
    """An entry of any disk in words."""
    if "operations" in entry:
        return f"index {entry['index']:<6}  " + ";  ".join(map(str, entry["operations"]))
    return ENTRY_TEXTS[entry["entry"]](entry)


def grant_text(entry):
    last = entry["first"] + entry["count"] - 1
    return "grant of ids {first} to {0} to stripe {stripe}, in container {container} on pipeline {pipeline}".format(last, **entry)


def step_text(entry):
    return "{event} of container {container}, which is {state} from then on".format(**entry)


def put_text(entry):
    slots = ranges(chunk["slot"] for chunk in entry["chunks"])
    return f"put {block_text(entry['block'])} of {counted(entry['length'], 'byte')} in {slots_text(slots)}"


ENTRY_TEXTS = {
    "nodes": lambda entry: counted(entry["nodes"], "datanode"),
    "grant": grant_text,
    "step": step_text,
    "log": lambda entry: "transaction {transaction} is to take ".format(**entry) + " ".join(map(block_text, entry["blocks"])),
    "ack": "datanode {datanode} has done transaction {transaction}".format_map,
    "retire": "transaction {transaction} is done".format_map,
    "put": put_text,
    "state": lambda entry: "container {container} is {state}".format(**entry),
    "transaction": lambda entry: "transaction {transaction} takes ".format(**entry) + " ".join(map(block_text, entry["blocks"])),
    "drop": lambda entry: "container {container} is dropped".format(**entry),
}


def counted(count, thing):
    return f"{count:,} {thing}" if count == 1 else f"{count:,} {thing}s"


def ranges(numbers):
    """Numbers in their order, those side by side as one range: `0-3, 7`."""
    parts = []
    for number in sorted(numbers):
        if parts and number == parts[-1][1] + 1:
            parts[-1][1] = number
        else:
            parts.append([number, number])
    return ", ".join(str(first) if first == last else f"{first}-{last}" for first, last in parts)


def slots_text(shown):
    return f"slots {shown}" if "-" in shown or "," in shown else f"slot {shown}"


def lines_of(disk):
    """A line for each entry of a disk: its place, and what it says."""
    return [f"{place:8}  {entry_text(entry)}" for place, entry in disk.entries]


def end_of(disk):
    """What comes behind the entries of a disk without a fault."""
    if disk.size() < 2:
        return "no bodies"
    count = "1 body" if len(disk.entries) == 1 else f"{len(disk.entries)} bodies"
    return f"{count}; the last gate is at {disk.journal.gate}, and no run reads the {disk.journal.rest()} bytes behind it"


# --- disks and stores -----------------------------------------------------------------------------------------------


def bytes_of(path):
    """The bytes of a file, or None where there is no such file."""
    try:
        with open(path, "rb") as file:
            return file.read()
    except FileNotFoundError:
        return None


class Disk:
    """A disk that is a journal: its entries with their places, what they make, and its first fault, one of the journal first."""

    def __init__(self, folder, name, kind):
        self.name = name
        found = bytes_of(f"{folder}/{name}")
        self.is_there = found is not None
        self.journal = Journal(found or b"")
        self.made, self.entries, self.fault = kind(), [], self.journal.fault
        for place, body in self.journal.bodies:
            try:
                self.entries.append((place, self.made.read(body)))
            except Fault as fault:
                self.fault = self.fault or fault.behind(place)
                self.made = functools.reduce(taken, self.journal.bodies[: len(self.entries)], kind())
                return

    def size(self):
        return len(self.journal.disk)

    def hidden(self):
        """How many bodies could follow if the last gate were open. A stop leaves one at most, a flipped gate all behind it."""
        if self.fault or not self.size():
            return 0
        count = 0
        follower = functools.reduce(taken, self.journal.bodies, type(self.made)())
        for _, body in self.journal.hidden():
            try:
                follower.read(body)
            except Fault:
                break
            count += 1
        return count


def taken(made, placed_body):
    made.read(placed_body[1])
    return made


class Slots:
    """A datanode's disk of slots. Its bytes are read from the file where they are asked for."""

    def __init__(self, folder, name):
        self.name, self.path = name, f"{folder}/{name}"
        self.is_there = os.path.exists(self.path)
        self.size = os.path.getsize(self.path) if self.is_there else 0

    def read(self, place, length):
        with open(self.path, "rb") as file:
            file.seek(place)
            return file.read(length)

    def past(self, used):
        """The lowest slot of these that passes the disk's end, or None."""
        return min((slot for slot in used if (slot + 1) * SLOT_SIZE > self.size), default=None)

    def wrong_chunks(self, replica):
        """The slots whose bytes haven't the digest that is kept of them."""
        wrong = []
        for number, (slot, digest) in enumerate(replica.chunks):
            chunk = self.read(slot * SLOT_SIZE, replica.chunk_length(number))
            if hashlib.sha256(chunk).digest() != digest:
                wrong.append(slot)
        return wrong


class Node:
    """A datanode's two disks."""

    def __init__(self, folder, number):
        self.number = number
        self.meta = Disk(folder, f"dn{number}.meta", Datanode)
        self.slots = Slots(folder, f"dn{number}.slots")

    def is_there(self):
        return self.meta.is_there or self.slots.is_there


class Store:
    """All disks of a store. It has the datanodes that the storage container manager names, and all that have a file."""

    def __init__(self, folder):
        self.folder = folder
        os.listdir(folder)
        self.manager = Disk(folder, "manager", Manager)
        self.scm = Disk(folder, "scm", Scm)
        nodes = [Node(folder, number) for number in range(MOST_NODES)]
        self.recorded = self.scm.made.nodes
        present = max((it.number + 1 for it in nodes if it.is_there()), default=0)
        self.nodes = nodes[: max(present, self.recorded or 0)]

    def journals(self):
        return [self.manager, self.scm, *(node.meta for node in self.nodes)]

    def is_empty(self):
        return not (self.manager.is_there or self.scm.is_there or self.nodes)

    def greatest_local(self):
        """The greatest local id of a block that the manager or a datanode has, or 0."""
        named = [local for row, value in self.manager.made.rows.items() for local in locals_of(row, value)]
        held = [local for node in self.nodes for _, local in node.meta.made.blocks]
        return max(named + held, default=0)

    def refusal(self, count=None):
        """What a run with so many datanodes prints in place of a report, or None where it takes the store."""
        count = count or self.recorded or FEWEST_NODES
        if self.manager.fault:
            return f"damaged manager at {self.manager.fault.place}"
        if self.scm.fault:
            return f"damaged scm at {self.scm.fault.place}"
        if self.recorded not in (None, count):
            return f"nodes {self.recorded} {count}"
        for node in self.nodes[:count]:
            if node.meta.fault:
                return f"damaged {node.meta.name} at {node.meta.fault.place}"
            past = node.slots.past(node.meta.made.used)
            if past is not None:
                return f"damaged {node.slots.name} at {past * SLOT_SIZE}"
        seen = self.greatest_local()
        if seen >= self.scm.made.next:
            return f"ids {self.scm.made.next} {seen}"
        return None
