"""Random sessions over all entities, forms and refusals, each told by a seed and its number."""
import random

from plain_list import DOMAINS, ENTITIES, INDEXES
from plain_session import FORMS, KEY_MOST, LINE_MOST, NUMBER_MOST, OPENS_MOST, PAGE_MOST, STEPS_MOST, VALUE_MOST
from plain_session import Session, lines_of

USUAL_SIZE = 1_562_500
SIZES = [1, 1, 2, 3, 4, 5, 8, 16, 100, 1_000, USUAL_SIZE, 2**32]
MOST_STEPS = 6

READS = ["latest", "asof", "range", "history", "index"]
CHANGES = ["put", "del", "mark"]
BAD_NUMBERS = [b"", b"-1", b"+1", b"1x", b"0x1", b"1.0", b"9223372036854775808", b"0" * 19 + b"1", b"\xd9\xa1", b"-"]
BAD_BYTES = [b"", b"0", b"0g", b"0x01", b"aa-", b"--", b"abc", b"\xaa", b"-"]
BAD_ENTITIES = [b"", b"account", b"Accounts", b"logaddr", b"tracesfroms", b"receipts", b"-", b"0"]
BAD_LIMITS = [b"0", b"1001", b"-", b"", b"10000000000", b"-1"]
BAD_DIRECTIONS = [b"", b"up", b"ASC", b"as", b"descend", b"-"]
BAD_FORMS = [b"", b"unwind", b"PUT", b"puts", b"get", b"Commit", b"end", b"\xff\xfe", b"pu"]
# Words that some form takes somewhere.
ANY_WORDS = [it.encode() for it in [*FORMS, *ENTITIES, "asc", "desc", "-", "0", "1", "10", "1000", "1001", "00", "AA"]]


def hexed(source, text):
    """The digits of bytes, in either case."""
    digits = text.hex() or "-"
    case = source.random()
    if case < 0.05:
        digits = digits.upper()
    elif case < 0.1:
        digits = "".join(source.choice([it, it.upper()]) for it in digits)
    return digits.encode()


def digits(source, number):
    zeros = source.randrange(1, 4) if source.random() < 0.05 else 0
    return b"0" * zeros + str(number).encode()


class Maker:
    """Makes a session line by line, beside a session over the plain list that says where it stands."""

    def __init__(self, source, size, steps, keys):
        self.source, self.size = source, size
        # Numbers of accepted changes are at most this, so that there aren't too many files.
        self.most = size * steps + source.randrange(size)
        # How far a number mostly is from the one before.
        self.width = 1 + self.most // 5
        self.keys = keys
        # Those that most lines speak of.
        self.domains = source.sample(DOMAINS, source.randrange(1, 4))
        self.indexes = source.sample(INDEXES, source.randrange(1, 3))
        self.session = Session(size)
        self.lines = []

    def add(self, line, end=b"\n"):
        """One more line, with its end."""
        self.lines.append(line + end)
        return self.session.line(*lines_of(line + end))

    def say(self, *words):
        """A line of words, of which numbers and bytes are spelled."""
        return self.add(b" ".join(map(self.spelled, words)))

    def spelled(self, word):
        if isinstance(word, int):
            return digits(self.source, word)
        return hexed(self.source, word) if isinstance(word, bytes) else word.encode()

    # Words

    def key(self):
        return self.source.choice(self.keys)

    def value(self):
        length = self.source.choices([1, 2, 4, 33, 300], [10, 5, 3, 2, 0.2])[0]
        return bytes(self.source.choices([0, 1, 2, 254, 255], k=length))

    def end(self):
        """A key or one beside it, or an open end."""
        key = self.key()
        beside = [key, key + b"\0", key[:-1], key + b"\xff"]
        near = [it for it in beside if 1 <= len(it) <= KEY_MOST]
        return self.source.choice(near) if self.source.random() < 0.6 else "-"

    def number(self):
        """A border of steps or a number beside it, the end of the list, or any number."""
        source, step = self.source, self.source.randrange(self.session.steps() + 2) * self.size
        last = self.session.list.next
        near = [0, step, step + 1, max(step - 1, 0), last, max(last - 1, 0), last + 1, source.randrange(last + 2)]
        return NUMBER_MOST if source.random() < 0.03 else source.choice(near)

    def changed(self, entities):
        """An entity and a key of it with two numbers at which it changed or beside them, where one did."""
        source, changes = self.source, self.session.list
        entity = source.choice([it for it in entities if changes.keys[it]] or entities)
        if not changes.keys[entity]:
            return entity, self.key(), self.number(), self.number()
        key = source.choice(changes.keys[entity])
        numbers = source.choices(changes.held[entity][key][0], k=2)
        low, high = sorted(it + source.choice([0, 0, 1]) for it in numbers)
        return entity, key, low, high

    def bound(self):
        return "-" if self.source.random() < 0.3 else self.number()

    def limit(self):
        return self.source.choices([1, 2, 3, 10, PAGE_MOST], [4, 3, 2, 3, 2])[0]

    def transaction(self):
        if self.session.open and self.source.random() < 0.97:
            numbers = list(self.session.open)
            return numbers[-1] if self.source.random() < 0.5 else self.source.choice(numbers)
        return self.source.choice([0, self.session.opens, self.session.opens + 1, 7, NUMBER_MOST])

    def next_number(self):
        """Mostly one above the current number and those of the list."""
        session, source = self.session, self.source
        least = session.list.next if session.current is None else session.current + 1
        kind = source.random()
        if kind < 0.06:
            return source.randrange(least + 1)
        if kind < 0.09:
            far = STEPS_MOST * self.size
            return source.choice([far - 1, far, far + 1, NUMBER_MOST])
        return min(least + source.randrange(self.width), self.most)

    def words_of(self, form):
        """The words of a line of the form, that is mostly done."""
        both = self.domains + self.indexes
        entity = self.source.choice(both if form == "index" else self.indexes if form == "mark" else self.domains)
        number = self.next_number if form == "tx" else self.transaction if form == "close" else self.number
        makers = {
            "number": number, "entity": lambda: entity, "key": self.key, "value": self.value, "end": self.end,
            "low": self.bound, "high": self.bound, "limit": self.limit,
            "direction": lambda: self.source.choice(["asc", "desc"]),
        }
        words = [makers[kind]() for kind in FORMS[form].split()]
        if form in READS:
            words[0] = self.transaction()
            if self.source.random() < 0.6:
                entity, key, low, high = self.changed(both if form == "index" else self.domains)
                told = {"entity": entity, "key": key, "number": low, "low": low, "high": high}
                words[1:] = [told.get(kind, word) for kind, word in zip(FORMS[form].split()[1:], words[1:])]
        return [form, *words]

    # Lines

    def may_change(self):
        """A change at the current number wouldn't make too many steps."""
        session = self.session
        is_refused = session.pending and session.pending[0][0] < session.list.next
        return session.current is None or session.current <= self.most or is_refused

    def opened(self):
        """The next numbers of the open transactions."""
        return {it.next for it in self.session.open.values()}

    def form(self):
        session, source = self.session, self.source
        is_full = max(session.current or 0, session.list.next) >= self.most
        forms = {
            "tx": 0.5 if is_full else 3 if session.current is not None else 20,
            source.choices(CHANGES, [6, 2, 4])[0]: 20 if session.current is not None else 0.7,
            "commit": 2.5 if session.pending else 0.3,
            "open": 3 if session.list.next and session.list.next not in self.opened() else 0.3,
            "close": 0.5,
            source.choice(READS): 14 if session.open else 0.7,
            "settle": 0.6,
        }
        return source.choices(list(forms), list(forms.values()))[0]

    def line(self):
        """One more line: of a form, of none, or with one or two faults."""
        words = self.words_of(self.form() if self.may_change() else "commit")
        kind = self.source.random()
        if kind < 0.85 or not self.may_change():
            return self.say(*(self.with_wrong_words(words) if kind < 0.05 else words))
        line = b" ".join(map(self.spelled, words))
        for _ in range(self.source.choices([1, 2], [2, 1])[0]):
            line = self.with_fault(line)
        if line.split(b" ")[0] != b"tx" or self.is_near(line):
            self.add(line, self.source.choices([b"\n", b"\r\n", b"\r\r\n"], [8, 2, 1])[0])

    def with_wrong_words(self, words):
        """A line of a form, of which several words may be refused: lengths, the entity, the transaction."""
        source, (form, *rest) = self.source, words
        for at, kind in enumerate(FORMS[form].split()):
            if source.random() < 0.5:
                continue
            if kind in ("key", "end"):
                rest[at] = bytes(source.choice([0, KEY_MOST, KEY_MOST + 1, KEY_MOST + 2]))
            elif kind == "value":
                rest[at] = b""
            elif kind == "entity":
                rest[at] = source.choice(ENTITIES)
            elif kind == "number" and at == 0 and form != "tx":
                rest[at] = self.session.opens + 1
        return [form, *rest]

    def is_near(self, line):
        """Not a number in reach that would make too many steps, behind a fault that is none."""
        word = line.split(b" ")[-1].rstrip(b"\r")
        return not word.isdigit() or not self.most < int(word) < STEPS_MOST * self.size - 1

    def with_fault(self, line):
        source = self.source
        words = line.split(b" ")
        kind = source.randrange(10)
        if kind == 0:
            return b""
        if kind == 1:
            return line + source.choice([b" ", b" 1", b" aa", b"\t", b"\0", b"\r", b" -"])
        if kind == 2:
            return source.choice([b" ", b"\t", b"\r", b"\xef\xbb\xbf", b"-"]) + line
        at = source.randrange(len(words))
        if kind == 3:
            return b" ".join(words[:at] + words[at + 1:])
        if kind == 4:
            return b" ".join(words[:at] + [source.choice([b"", words[at]])] + words[at:])
        if kind == 5:
            return line.replace(b" ", source.choice([b"  ", b"\t", b"\xc2\xa0"]), 1)
        words[at] = self.bad_word(words, at)
        return b" ".join(words)

    def bad_word(self, words, at):
        """In place of the word of a line, mostly one that its form doesn't take there."""
        source = self.source
        form = words[0].decode("latin-1")
        kinds = ["form", *FORMS.get(form, "").split()]
        kind = kinds[at] if at < len(kinds) else "form"
        if source.random() < 0.3:
            return source.choice(ANY_WORDS)
        if kind == "form":
            return source.choice(BAD_FORMS)
        if kind == "entity":
            return source.choice(BAD_ENTITIES + [it.encode() for it in ENTITIES] * 2)
        if kind in ("limit", "direction"):
            return source.choice(BAD_LIMITS if kind == "limit" else BAD_DIRECTIONS)
        if kind in ("number", "low", "high"):
            return source.choice(BAD_NUMBERS)
        return source.choice(BAD_BYTES + [b"Aa" * source.choice([KEY_MOST, KEY_MOST + 1, KEY_MOST + 40])] * 4)

    def finish(self):
        """The text of the session, whose last line may lack its end."""
        last = self.source.random()
        if self.lines and last < 0.2:
            self.lines[-1] = self.lines[-1].rstrip(b"\n")
        return b"".join(self.lines)


# Kinds of sessions


def drawn_keys(source, count):
    """Few and short keys, many the beginning of another, and some at the borders of pieces of eight bytes."""
    keys = set()
    while len(keys) < count:
        length = source.choices([1, 2, 3, 7, 8, 9, 16, 17, KEY_MOST], [8, 6, 4, 1, 1, 1, 1, 1, 1])[0]
        keys.add(bytes(source.choices([0, 1, 0x9F, 0xAA, 0xFF], k=length)))
    return sorted(keys)


def usual(source, lines=None, steps=None):
    size = source.choice(SIZES)
    steps = source.randrange(MOST_STEPS + 1) if steps is None else steps
    count = source.randrange(2, 9) if source.random() < 0.8 else source.randrange(10, 40)
    maker = Maker(source, size, steps, drawn_keys(source, count))
    for _ in range(source.randrange(20, 160) if lines is None else lines):
        maker.line()
    for form in source.choice([[], ["commit", "settle", "open"], ["commit", "open", "settle"]]):
        maker.say(form)
    for _ in range(source.randrange(20)):
        maker.say(*maker.words_of(source.choice(READS)))
    return maker


def many_steps(source):
    """Some forty steps in files."""
    return usual(source, 400, 40)


def many_keys(source):
    """As many keys as a page has at most, or one more, and pages at this border."""
    count, size = PAGE_MOST + source.randrange(2), source.choice([1, 2, 3])
    keys = sorted(source.sample([bytes([i, j]) for i in range(64) for j in range(64)], count))
    maker = Maker(source, size, 3, keys)
    entity, half = source.choice(DOMAINS), source.randrange(count)
    for number, part in enumerate([keys[:half], keys[half:], keys[:3]]):
        maker.say("tx", number)
        for key in part:
            maker.say("put", entity, key, maker.value())
        maker.say("commit")
        maker.say("open")
    for transaction in (2, 3):
        for first in ("-", keys[0], keys[1]):
            for limit in (PAGE_MOST, PAGE_MOST - 1, PAGE_MOST + 1):
                maker.say("range", transaction, entity, 2, first, maker.end(), limit)
                maker.say("range", transaction, entity, 3, first, "-", limit)
                maker.say("history", transaction, entity, "-", "-", first, limit)
                maker.say("history", transaction, entity, 0, 2, first, limit)
    return maker


def many_numbers(source):
    """A key that changes as often as a page has lines, or once more, and pages at this border."""
    count = PAGE_MOST + source.randrange(2)
    maker = Maker(source, source.choice([200, 400, 501, USUAL_SIZE]), 3, drawn_keys(source, 3))
    maker.most = 2 * count + 1
    entity, key = source.choice(ENTITIES), maker.key()
    for number in range(0, 2 * count, 2):
        maker.say("tx", number)
        maker.say(*(["mark", entity, key] if entity in INDEXES else ["put", entity, key, maker.value()]))
        if source.random() < 0.02:
            maker.say("commit")
    maker.say("commit")
    maker.say("open")
    for low, high in [("-", "-"), (0, "-"), (1, "-"), (2, "-"), ("-", 2 * count - 2), (0, NUMBER_MOST), (40, 60)]:
        for direction in ("asc", "desc"):
            for limit in (PAGE_MOST, PAGE_MOST - 1, PAGE_MOST + 1, 1):
                maker.say("index", 1, entity, key, low, high, direction, limit)
    return maker


def many_opens(source):
    """As many open transactions as there may be, one more, and some after others were closed."""
    maker = Maker(source, source.choice([1, 2, 4]), 4, drawn_keys(source, 5))
    for _ in range(OPENS_MOST + 3):
        maker.say("open")
        while source.random() < 0.5:
            maker.line()
    for _ in range(20):
        maker.say(*maker.words_of(source.choice(["close", "open", "open", *READS])))
    return maker


def long_lines(source):
    """Keys, values and lines at their longest, and one byte longer."""
    maker = Maker(source, source.choice([1, 2, 8]), 2, drawn_keys(source, 4))
    maker.say("tx", 0)
    for _ in range(6):
        key = bytes([source.randrange(256)]) * source.choice([1, KEY_MOST, KEY_MOST + 1])
        value = bytes([source.randrange(256)]) * source.choice([0, 1, VALUE_MOST, VALUE_MOST, VALUE_MOST + 1])
        maker.keys.append(key[:KEY_MOST])
        maker.say("put", source.choice(ENTITIES), key, value)
        length = LINE_MOST + source.choice([-1, 0, 1, 2])
        line = source.choice([b"x", b"put code aa "]).ljust(length, b"0")
        if source.random() < 0.3:
            maker.add(line, source.choice([b"\n", b"\r\n"]))
        else:
            maker.add(line[:-1] + b"\r")
        maker.line()
    maker.say("commit")
    maker.say("open")
    for _ in range(20):
        maker.line()
    return maker


# Of so many sessions one is of this kind, at this place; the others are usual ones.
KINDS = [(many_keys, 50, 7), (many_numbers, 50, 31), (many_opens, 30, 11), (long_lines, 30, 19), (many_steps, 60, 44)]


class Made:
    """A session with its number and step size."""

    def __init__(self, seed, number):
        source = random.Random(f"{seed} {number}")
        kind = next((it for it, every, place in KINDS if number % every == place), usual)
        maker = kind(source)
        self.number, self.size, self.text = number, maker.size, maker.finish()
        self.words = ["run"]
        if self.size != USUAL_SIZE or source.random() < 0.3:
            self.words += source.choice([["--step", str(self.size)], [f"--step={self.size}"]])
