#!/usr/bin/env python3
"""The bytes of the store's files by definition, written from docs/formats.md; reader.py is their reader.

    examples/file_bytes.py                 checks the writer against the texts of the page, and by the reader
    examples/file_bytes.py TEXT STEP       prints what files a session over the lines of TEXT leaves, with so many
                                           numbers a step: a hash of their names and bytes, how many, and their bytes

The hash is FNV-1a with 64 bits: of each file its name and then its bytes, the names ascending.
"""
import functools
import random
import sys

# Nothing is written beside the scripts.
sys.dont_write_bytecode = True
import reader
from plain_list import DOMAINS, ENTITIES, PlainList, names_of
from plain_session import replies_to

TRIES = 65_536
SALTS = 8
MOST_OF_A_LEAF = 8
BUCKET = 100
FAN = 16
EMPTY_HASH = 0xCBF29CE484222325


def number(value, width=8):
    return value.to_bytes(width, "big")


# Word files, which come with the offsets of their key words.


def word_file(entity, kind, size, first, last, pairs):
    """The bytes over the steps from `first` on and below `last`, the key words, and their offsets."""
    words, keys, offsets, at = [], [], [], 40
    for key, value in pairs:
        keys.append(key)
        offsets.append(at)
        words += [number(len(key), 4), key, number(len(value), 4), value]
        at += 8 + len(key) + len(value)
    header = [b"AGW1", bytes([ENTITIES.index(entity), kind]), number(1, 2)]
    header += map(number, (size, first, last, 2 * len(keys)))
    return b"".join(header + words), keys, offsets


# Bits, the first the least significant of its byte; Rice codes; Elias-Fano lists


def text_of(bits):
    text = bytearray(-(-len(bits) // 8))
    for i, bit in enumerate(bits):
        text[i // 8] |= bit << i % 8
    return bytes(text)


def field(value, width):
    return [value >> i & 1 for i in range(width)]


def rice(value, r):
    return [0] * (value >> r) + [1] + field(value, r)


def elias_fano(items):
    n, last = len(items), items[-1]
    low = 0 if last <= n else (last // n).bit_length() - 1
    lower = [bit for item in items for bit in field(item, low)]
    upper = [0] * ((last >> low) + n)
    for i, item in enumerate(items):
        upper[(item >> low) + i] = 1
    return number(n) + number(last) + text_of(lower) + text_of(upper)


# Accessors


def ordered_accessor(offsets):
    levels = [offsets] if offsets else []
    while levels and len(levels[0]) > FAN:
        levels.insert(0, levels[0][::FAN])
    entries = [number(offset) for level in levels for offset in level]
    return b"AGB1" + number(len(levels), 4) + number(len(offsets)) + b"".join(entries)


class NoSeed(Exception):
    """No seed below the limit of tries works at some node."""


def parted(hashes, depth, seed):
    """The position of each hash of a node under a seed."""
    return [reader.position(it, depth, seed, len(hashes)) for it in hashes]


def are_different(hashes, depth, seed):
    seen = set()
    for it in hashes:
        place = reader.position(it, depth, seed, len(hashes))
        if place in seen:
            return False
        seen.add(place)
    return True


def node(hashes, depth, tries, bits):
    """The hashes of a node by slot; the codes of its seeds join the bits."""
    size = len(hashes)
    if size < 2:
        return hashes
    if size <= MOST_OF_A_LEAF:
        seed = next((it for it in range(tries) if are_different(hashes, depth, it)), None)
        if seed is None:
            raise NoSeed
        bits += rice(seed, reader.RICE[size])
        return [it for _, it in sorted(zip(parted(hashes, depth, seed), hashes))]
    left = 8 * ((-(-size // 8) + 1) // 2)
    for seed in range(tries):
        places = parted(hashes, depth, seed)
        if sum(place < left for place in places) == left:
            break
    else:
        raise NoSeed
    bits += rice(seed, 2)
    below = [it for it, place in zip(hashes, places) if place < left]
    others = [it for it, place in zip(hashes, places) if place >= left]
    return node(below, depth + 1, tries, bits) + node(others, depth + 1, tries, bits)


def arranged(keys, salt, tries):
    """The places of the keys by slot, the numbers of keys and bits before each bucket and the end, and the bits."""
    buckets = -(-len(keys) // BUCKET)
    places = {reader.key_hash(salt, key): i for i, key in enumerate(keys)}
    if len(places) < len(keys):
        raise NoSeed
    held = [[] for _ in range(buckets)]
    for it in places:
        held[it * buckets >> 64].append(it)
    slots, bits, table = [], [], [(0, 0)]
    for hashes in held:
        slots += node(hashes, 0, tries, bits)
        table.append((len(slots), len(bits)))
    return [places[it] for it in slots], table, bits


@functools.lru_cache(maxsize=4096)
def form_of(keys, tries):
    """The first salt that works and what it gives, or None."""
    for salt in range(SALTS):
        try:
            return salt, arranged(keys, salt, tries)
        except NoSeed:
            continue
    return None


def hash_accessor(keys, offsets, tries=TRIES):
    """Over keys in ascending order of their pairs, with the offsets of their words."""
    form = form_of(tuple(keys), tries)
    if form is None:
        return b"AGH1" + bytes(4) + number(len(keys)) + b"".join(map(number, offsets))
    salt, (slots, table, bits) = form
    rows = b"".join(number(before) + number(bit) for before, bit in table)
    return b"".join([
        b"AGH1", bytes([1, salt, 0, 0]), number(len(keys)), rows,
        b"".join(number(offsets[place]) for place in slots), text_of(bits)])


# Files of a list


def group(changes, entity, size, first, last):
    """The files of an entity over the steps from `first` on and below `last`, by their kind."""
    low, high = first * size, last * size
    files = {}
    if entity in DOMAINS:
        files["kv"], keys, offsets = word_file(entity, 0, size, first, last, changes.kv_contents(entity, low, high))
        files["bt"] = ordered_accessor(offsets)
        files["kvi"] = hash_accessor(keys, offsets)
        befores = [(key + number(at), value) for key, at, value in changes.v_contents(entity, low, high)]
        files["v"], keys, offsets = word_file(entity, 1, size, first, last, befores)
        files["vi"] = hash_accessor(keys, offsets)
    lists = [(key, elias_fano(numbers)) for key, numbers in changes.ef_contents(entity, low, high)]
    files["ef"], keys, offsets = word_file(entity, 2, size, first, last, lists)
    files["efi"] = hash_accessor(keys, offsets)
    return files


def files_of(changes, size):
    """All files of a list by their names: those of each complete step."""
    return {
        f"v1-{entity}.{step}-{step + 1}.{kind}": text
        for entity in ENTITIES
        for step in range(changes.next // size)
        for kind, text in group(changes, entity, size, step, step + 1).items()
    }


def files_left(text, size):
    """The files that a session over the text leaves."""
    return files_of(replies_to(text, size)[1].list, size)


def hashed(text, before=EMPTY_HASH):
    """The hash of bytes behind those of a hash."""
    for byte in text:
        before = (before ^ byte) * 0x100000001B3 % 2**64
    return before


def hash_of(files, before=EMPTY_HASH):
    for name in sorted(files):
        before = hashed(files[name], hashed(name.encode(), before))
    return before


# The texts of docs/formats.md, and files that the reader has to find all in


def test_texts():
    hexed = reader.hexed
    assert text_of([1, 0, 1, 0]) == hexed("05") and rice(5, 2) == [0, 1, 1, 0]
    for items, text in [
        ([0], "0000000000000001 0000000000000000 01"),
        ([1 << 62], "0000000000000001 4000000000000000 0000000000000000 02"),
        ([5, 9], "0000000000000002 0000000000000009 05 0a"),
        ([7, 7], "0000000000000002 0000000000000007 03 18"),
        (list(range(256)), "0000000000000100 00000000000000ff" + "55" * 64),
    ]:
        assert elias_fano(items) == hexed(text), items
    assert hash_accessor([], []) == hexed("41474831 01000000") + bytes(24)
    assert hash_accessor([b"\xaa"], [40]) == hexed("41474831 01000000 0000000000000001") + bytes(16) + hexed(
        "0000000000000001 0000000000000000 0000000000000028")
    assert hash_accessor([b"\xaa", b"\xbb"], [40, 50]) == hexed(
        "41474831 01000000 0000000000000002 0000000000000000 0000000000000000"
        "0000000000000002 0000000000000001 0000000000000028 0000000000000032 01")
    assert hash_accessor([b"\xaa", b"\xbb"], [40, 50], 0) == hexed(
        "41474831 00000000 0000000000000002 0000000000000028 0000000000000032")
    assert ordered_accessor([]) == hexed("41474231 00000000 0000000000000000")
    offsets = [40 + 10 * i for i in range(17)]
    assert ordered_accessor(offsets) == hexed(
        "41474231 00000002 0000000000000011 0000000000000028 00000000000000c8") + b"".join(map(number, offsets))


def test_first_step():
    """The accounts' files of one change, with step size 1."""
    changes = PlainList()
    changes.add("accounts", b"\xaa", 0, b"\x01")
    changes.next = 1
    files = files_of(changes, 1)
    assert list(files) == names_of(1) and len(files) == 29
    range_of = "0000000000000001 0000000000000000 0000000000000001"
    for kind, text in [
        ("kv", f"41475731 00 00 0001 {range_of} 0000000000000002 00000001 aa 00000001 01"),
        ("bt", "41474231 00000001 0000000000000001 0000000000000028"),
        ("v", f"41475731 00 01 0001 {range_of} 0000000000000002 00000009 aa0000000000000000 00000000"),
        ("ef", f"41475731 00 02 0001 {range_of} 0000000000000002"
               "00000001 aa 00000011 0000000000000001 0000000000000000 01"),
    ]:
        assert files[f"v1-accounts.0-1.{kind}"] == reader.hexed(text), kind


def test_by_reader():
    """What the reader finds in files of many keys, by each accessor."""
    source, changes, size = random.Random(4), PlainList(), 50
    keys = sorted({source.randbytes(source.randrange(1, 12)) for _ in range(300)})
    for at in range(2 * size):
        for key in source.sample(keys, 20):
            changes.add("accounts", key, at, source.choice([None, source.randbytes(3)]))
    changes.next = 2 * size
    files = group(changes, "accounts", size, 1, 2)
    for kind, accessor in [("kv", "kvi"), ("v", "vi"), ("ef", "efi")]:
        found = reader.words(files[kind])[1]
        offsets = reader.keys_at(found)
        for at, key in offsets.items():
            assert reader.hash_find(files[accessor], offsets, key) == at
        assert reader.hash_find(files[accessor], offsets, b"none") is None
    pairs = reader.pairs(reader.words(files["kv"])[1])
    assert pairs == list(changes.kv_contents("accounts", size, 2 * size))
    offsets = reader.keys_at(reader.words(files["kv"])[1])
    for place, (key, _) in enumerate(pairs):
        assert reader.btree_seek(files["bt"], offsets, key) == place
        assert reader.btree_seek(files["bt"], offsets, key + b"\0") == place + 1
    lists = reader.pairs(reader.words(files["ef"])[1])
    assert [(key, reader.elias_fano(text)) for key, text in lists] == list(
        changes.ef_contents("accounts", size, 2 * size))


def main(given):
    if given:
        with open(given[0], "rb") as it:
            files = files_left(it.read(), int(given[1]))
        print(hash_of(files), len(files), sum(map(len, files.values())))
        return
    test_texts()
    test_first_step()
    test_by_reader()
    print("the writer gives the texts of the page, and the reader finds what it wrote")


if __name__ == "__main__":
    main(sys.argv[1:])
