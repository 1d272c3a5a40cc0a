"""A session over a plain list: what each line is replied.

Written from docs/formats.md and docs/definitions.md alone.
"""
import re

from plain_list import DOMAINS, ENTITIES, PlainList, names_of, rows_page, times_page

LINE_MOST = 262_144
KEY_MOST = 64
VALUE_MOST = 65_535
NUMBER_MOST = 2**63 - 1
PAGE_MOST = 1_000
OPENS_MOST = 64
CONTENT_MOST = 2**28
STEPS_MOST = 4_096

# What stands behind the first word of each form.
FORMS = {
    "tx": "number",
    "put": "entity key value",
    "del": "entity key",
    "mark": "entity key",
    "commit": "",
    "open": "",
    "close": "number",
    "latest": "number entity key",
    "asof": "number entity number key",
    "range": "number entity number end end limit",
    "history": "number entity low high end limit",
    "index": "number entity key low high direction limit",
    "settle": "",
}


class Refused(Exception):
    """With the words of the refusal behind `err`."""


class NoForm(Exception):
    pass


# Words of a line, which are bytes


def read_number(word):
    if not re.fullmatch(rb"[0-9]{1,19}", word) or int(word) > NUMBER_MOST:
        raise NoForm
    return int(word)


def read_bytes(word):
    if word != b"-" and not re.fullmatch(rb"([0-9a-fA-F]{2})+", word):
        raise NoForm
    return b"" if word == b"-" else bytes.fromhex(word.decode())


def read_entity(word):
    if word.decode("latin-1") not in ENTITIES:
        raise NoForm
    return word.decode()


def read_limit(word):
    limit = read_number(word)
    if not 1 <= limit <= PAGE_MOST:
        raise NoForm
    return limit


def read_direction(word):
    if word not in (b"asc", b"desc"):
        raise NoForm
    return word == b"desc"


READERS = {
    "number": read_number,
    "entity": read_entity,
    "key": read_bytes,
    "value": read_bytes,
    "end": lambda word: None if word == b"-" else read_bytes(word),
    "low": lambda word: 0 if word == b"-" else read_number(word),
    "high": lambda word: NUMBER_MOST + 1 if word == b"-" else read_number(word),
    "limit": read_limit,
    "direction": read_direction,
}


def request_of(line):
    """The first word of a line and what its other words say."""
    first, *words = line.split(b" ")
    form = first.decode("latin-1")
    if form not in FORMS:
        raise NoForm
    kinds = FORMS[form].split()
    if len(words) != len(kinds):
        raise NoForm
    given = [READERS[kind](word) for kind, word in zip(kinds, words)]
    for most, *names in [(KEY_MOST, "key", "end"), (VALUE_MOST, "value")]:
        for kind, it in zip(kinds, given):
            if kind in names and it is not None and not 1 <= len(it) <= most:
                raise Refused(f"length {len(it)}")
    if form != "index" and "entity" in kinds:
        if (given[kinds.index("entity")] in DOMAINS) == (form == "mark"):
            raise Refused("entity")
    return form, given


def lines_of(text):
    """The lines of a text without their ends, and None for each that is too long."""
    pieces = text.split(b"\n")
    if not pieces[-1]:
        pieces.pop()
    for piece in pieces:
        if len(piece) > LINE_MOST:
            yield None
        else:
            yield piece[:-1] if piece.endswith(b"\r") else piece


class Session:
    """What a session is between two lines."""

    def __init__(self, size):
        self.size = size
        self.lines = 0
        self.list = PlainList()
        self.content = 0
        # Changes (number, entity, key, value) since the last commit.
        self.pending = []
        self.pending_content = 0
        self.current = None
        self.opens = 0
        # The list of each open transaction as it stood.
        self.open = {}

    def steps(self):
        return self.list.next // self.size

    def line(self, line):
        """The lines of the reply to a line; none for an empty one."""
        self.lines += 1
        if line is None:
            return [f"err long {self.lines}"]
        if not line:
            return []
        try:
            form, given = request_of(line)
            return getattr(self, f"on_{form}")(*given)
        except NoForm:
            return [f"err syntax {self.lines}"]
        except Refused as why:
            return [f"err {why}"]

    def on_tx(self, number):
        far = STEPS_MOST * self.size
        if number >= far:
            raise Refused(f"far {far} {number}")
        if self.current is not None and number <= self.current:
            raise Refused(f"order {self.current} {number}")
        self.current = number
        return ["ok"]

    def on_put(self, entity, key, value):
        if self.current is None:
            raise Refused("notx")
        content = len(key) + len(value or b"") + 64
        if self.pending_content + content > CONTENT_MOST:
            raise Refused("limit")
        self.pending.append((self.current, entity, key, value))
        self.pending_content += content
        return ["ok"]

    def on_del(self, entity, key):
        return self.on_put(entity, key, None)

    def on_mark(self, entity, key):
        return self.on_put(entity, key, None)

    def on_commit(self):
        pending, self.pending = self.pending, []
        self.pending_content, self.current = 0, None
        if not pending:
            raise Refused("empty")
        if pending[0][0] < self.list.next:
            raise Refused(f"order {self.list.next - 1} {pending[0][0]}")
        merged = {(number, entity, key): value for number, entity, key, value in pending}
        content = sum(64 + len(key) + len(value or b"") for (_, _, key), value in merged.items())
        if self.content + content > CONTENT_MOST:
            raise Refused("limit")
        self.content += content
        for (number, entity, key), value in merged.items():
            self.list.add(entity, key, number, value)
        self.list.next = pending[-1][0] + 1
        return [f"committed {len(merged)} {self.list.next}"]

    def on_open(self):
        if len(self.open) == OPENS_MOST:
            raise Refused(f"open {OPENS_MOST}")
        self.opens += 1
        self.open[self.opens] = self.list.copy()
        return [f"opened {self.opens} {self.list.next}"]

    def at(self, transaction):
        """The list as the transaction sees it."""
        if transaction not in self.open:
            raise Refused(f"tx {transaction}")
        return self.open[transaction]

    def on_close(self, transaction):
        self.at(transaction)
        del self.open[transaction]
        return ["ok"]

    def on_latest(self, transaction, entity, key):
        value = self.at(transaction).latest(entity, key)
        return ["none" if value is None else f"value {value.hex()}"]

    def on_asof(self, transaction, entity, number, key):
        value = self.at(transaction).value(entity, key, number)
        return ["none" if value is None else f"value {value.hex()}"]

    def on_range(self, transaction, entity, number, first, last, limit):
        return rows_page(self.at(transaction).range(entity, number, first, last), limit)

    def on_history(self, transaction, entity, low, high, first, limit):
        return rows_page(self.at(transaction).history(entity, low, high, first), limit)

    def on_index(self, transaction, entity, key, low, high, descends, limit):
        return times_page(self.at(transaction).index(entity, key, low, high, descends), limit)

    def on_settle(self):
        return [f"file {name}" for name in names_of(self.steps())] + ["end"]


def replies_to(text, size):
    """The lines of the reply to each line of a text, and the session after it."""
    session = Session(size)
    return [session.line(line) for line in lines_of(text)], session
