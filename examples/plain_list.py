"""The plain list of changes, and what it defines: values, reads, and the contents of files.

Written from docs/definitions.md and docs/formats.md alone. random_sessions.py compares the program with it, and
bench/session its replies.
"""
import bisect
import itertools

DOMAINS = ["accounts", "storage", "code"]
INDEXES = ["logaddrs", "logtopics", "tracesfrom", "tracesto"]
ENTITIES = DOMAINS + INDEXES
KINDS = ["kv", "bt", "kvi", "v", "vi", "ef", "efi"]


def kinds_of(entity):
    return KINDS if entity in DOMAINS else KINDS[5:]


def names_of(steps):
    """The names of the files of so many complete steps, in their order."""
    return [f"v1-{entity}.{step}-{step + 1}.{kind}"
            for entity in ENTITIES for step in range(steps) for kind in kinds_of(entity)]


def page(items, limit):
    """The first items up to a limit, and the next one, if there is one."""
    found = list(itertools.islice(items, limit + 1))
    return found[:limit], found[limit] if len(found) > limit else None


def rows_page(rows, limit):
    """The lines of a page of `range` or `history`."""
    found, more = page(rows, limit)
    lines = [f"row {key.hex()} {'-' if value is None else value.hex()}" for key, value in found]
    return lines + ["end" if more is None else f"more {more[0].hex()}"]


def times_page(numbers, limit):
    """The lines of a page of `index`."""
    found, more = page(numbers, limit)
    return [f"at {number}" for number in found] + ["end" if more is None else f"more {more}"]


class PlainList:
    """All changes: of each key its numbers, ascending, and at each the value, None for a deletion or a mark.

    Keys and values are bytes. `next` is the number from which on the next changes come.
    """

    def __init__(self):
        self.next = 0
        self.held = {entity: {} for entity in ENTITIES}
        self.keys = {entity: [] for entity in ENTITIES}

    def add(self, entity, key, number, value):
        """One more change, at a number above those of the key."""
        if key not in self.held[entity]:
            bisect.insort(self.keys[entity], key)
            self.held[entity][key] = ([], [])
        numbers, values = self.held[entity][key]
        numbers.append(number)
        values.append(value)

    def copy(self):
        other = PlainList()
        other.next = self.next
        other.keys = {entity: list(keys) for entity, keys in self.keys.items()}
        other.held = {entity: {key: (list(numbers), list(values)) for key, (numbers, values) in held.items()}
                      for entity, held in self.held.items()}
        return other

    def value(self, entity, key, number):
        """The value just before a number: that of the last change below it."""
        numbers, values = self.held[entity].get(key, ([], []))
        at = bisect.bisect_left(numbers, number)
        return values[at - 1] if at else None

    def latest(self, entity, key):
        return self.value(entity, key, self.next)

    def numbers(self, entity, key, low, high):
        """The numbers from `low` on and below `high` at which the key changed."""
        return [number for number in self.held[entity].get(key, ([], []))[0] if low <= number < high]

    def keys_between(self, entity, first, last):
        """The keys from `first` on and below `last`, ascending; None is an open end."""
        for key in self.keys[entity][bisect.bisect_left(self.keys[entity], first or b""):]:
            if last is not None and key >= last:
                return
            yield key

    def range(self, entity, number, first, last):
        """The keys that have a value just before the number, each with it."""
        for key in self.keys_between(entity, first, last):
            value = self.value(entity, key, number)
            if value is not None:
                yield key, value

    def history(self, entity, low, high, first):
        """The keys that changed from `low` on and below `high`, each with its value just before `low`."""
        for key in self.keys_between(entity, first, None):
            if self.numbers(entity, key, low, high):
                yield key, self.value(entity, key, low)

    def index(self, entity, key, low, high, descends):
        numbers = self.numbers(entity, key, low, high)
        return numbers[::-1] if descends else numbers

    # What files over the numbers from `low` on and below `high` hold.

    def kv_contents(self, entity, low, high):
        """The changed keys, each with its value just before `high`; from 0 on without those that have none."""
        for key, _ in self.history(entity, low, high, None):
            value = self.value(entity, key, high)
            if low > 0 or value is not None:
                yield key, value or b""

    def v_contents(self, entity, low, high):
        """Each change by key and number, with the value just before it."""
        for key, _ in self.history(entity, low, high, None):
            for number in self.numbers(entity, key, low, high):
                yield key, number, self.value(entity, key, number) or b""

    def ef_contents(self, entity, low, high):
        """The changed keys, each with its numbers."""
        for key, _ in self.history(entity, low, high, None):
            yield key, self.numbers(entity, key, low, high)
