#!/usr/bin/env python3
"""A reader of the store's files, written from docs/formats.md alone.

    examples/reader.py FILE          lists what a .kv, .v or .ef file holds
    examples/reader.py --test        checks the reader against the texts of docs/formats.md
"""
import struct
import sys

ENTITIES = ["accounts", "storage", "code", "logaddrs", "logtopics", "tracesfrom", "tracesto"]
KINDS = ["kv", "v", "ef"]
MASK = (1 << 64) - 1
G = 0x9E3779B97F4A7C15
RICE = {2: 0, 3: 1, 4: 3, 5: 4, 6: 5, 7: 7, 8: 8}


class Refused(Exception):
    pass


def number(data, at, width):
    return int.from_bytes(data[at : at + width], "big")


# Word files


def words(data):
    """The tag, and each word with its offset."""
    if len(data) < 40:
        raise Refused(f"short at {len(data)}")
    if data[:4] != b"AGW1":
        raise Refused("magic")
    tag = dict(
        entity=data[4], kind=data[5], version=number(data, 6, 2), step=number(data, 8, 8),
        first=number(data, 16, 8), last=number(data, 24, 8))
    found, at = [], 40
    while at < len(data):
        end = at + 4 + number(data, at, 4)
        if at + 4 > len(data) or end > len(data):
            raise Refused(f"short at {at}")
        found.append((at, data[at + 4 : end]))
        at = end
    if number(data, 32, 8) != len(found):
        raise Refused(f"count {number(data, 32, 8)} of {len(found)}")
    return tag, found


def pairs(found):
    return [(found[i][1], found[i + 1][1]) for i in range(0, len(found), 2)]


# Bits, Rice codes, Elias-Fano lists


def bit(data, i):
    return data[i // 8] >> (i % 8) & 1


def field(data, i, width):
    return sum(bit(data, i + j) << j for j in range(width))


def rice(data, at, r):
    zeros = 0
    while not bit(data, at + zeros):
        zeros += 1
    return (zeros << r) + field(data, at + zeros + 1, r), at + zeros + 1 + r


def elias_fano(data):
    n, last = number(data, 0, 8), number(data, 8, 8)
    low = 0 if last <= n else (last // n).bit_length() - 1
    lower = data[16 : 16 + (n * low + 7) // 8]
    upper = data[16 + len(lower) :]
    ones = [i for i in range(8 * len(upper)) if bit(upper, i)]
    return [(place - i) << low | field(lower, i * low, low) for i, place in enumerate(ones)]


# Accessors


def btree_seek(index, keys, key):
    """The place of the first key that isn't below: keys has the key at each offset."""
    levels, n = number(index, 4, 4), number(index, 8, 8)
    at, found = 16, None
    for level in reversed(range(levels)):
        count = -(-n // 16**level)
        place, end = 0, count
        if found is not None:
            place, end = max(0, 16 * (found - 1) + 1), min(16 * found, count)
        while place < end and keys[number(index, at + 8 * place, 8)] < key:
            place += 1
        at, found = at + 8 * count, place
    return found or 0


def mix(x):
    x ^= x >> 30
    x = x * 0xBF58476D1CE4E5B9 & MASK
    x ^= x >> 27
    x = x * 0x94D049BB133111EB & MASK
    return x ^ x >> 31


def key_hash(salt, key):
    h = mix((salt * G + len(key)) & MASK)
    for i in range(0, len(key), 8):
        c = int.from_bytes(key[i : i + 8].ljust(8, b"\0"), "big")
        h = mix(((h ^ c) + G) & MASK)
    return h


def position(h, depth, seed, size):
    return mix((h + G * ((depth + 1 << 20) + seed)) & MASK) * size >> 64


def hash_slot(index, h):
    n = number(index, 8, 8)
    buckets = -(-n // 100)
    bucket = h * buckets >> 64
    before, bits = number(index, 16 + 16 * bucket, 8), number(index, 24 + 16 * bucket, 8)
    size = number(index, 32 + 16 * bucket, 8) - before
    text, depth, slot = index[16 + 16 * (buckets + 1) + 8 * n :], 0, before
    while size > 8:
        seed, bits = rice(text, bits, 2)
        left = 8 * ((-(-size // 8) + 1) // 2)
        if position(h, depth, seed, size) < left:
            size = left
        else:
            bits = skip(text, bits, left)
            slot, size = slot + left, size - left
        depth += 1
    if size < 2:
        return slot
    seed, _ = rice(text, bits, RICE[size])
    return slot + position(h, depth, seed, size)


def skip(text, bits, size):
    """Past the node of this size."""
    if size < 2:
        return bits
    _, bits = rice(text, bits, RICE.get(size, 2))
    if size > 8:
        left = 8 * ((-(-size // 8) + 1) // 2)
        bits = skip(text, skip(text, bits, left), size - left)
    return bits


def hash_find(index, keys, key):
    """The offset of the key's word, or None."""
    n = number(index, 8, 8)
    if n == 0:
        return None
    if index[4] == 0:
        at = 16
        offsets = [number(index, at + 8 * i, 8) for i in range(n)]
        return next((it for it in offsets if keys[it] == key), None)
    slot = hash_slot(index, key_hash(index[5], key))
    offset = number(index, 16 + 16 * (-(-n // 100) + 1) + 8 * slot, 8)
    return offset if keys[offset] == key else None


# What a file holds


def show(data):
    tag, found = words(data)
    entity, kind = ENTITIES[tag["entity"]], KINDS[tag["kind"]]
    print(f"{entity} {kind}, steps {tag['first']}-{tag['last']} of {tag['step']}")
    for key, value in pairs(found):
        if kind == "kv":
            print(key.hex(), value.hex() or "-")
        elif kind == "v":
            print(key[:-8].hex(), number(key, len(key) - 8, 8), value.hex() or "-")
        else:
            print(key.hex(), *elias_fano(value))


# The texts of docs/formats.md


def hexed(text):
    return bytes.fromhex(text.replace(" ", ""))


def keys_at(found):
    return {offset: word for offset, word in found[::2]}


def test():
    head = "41475731 00 00 0001 0000000000000001 0000000000000000 0000000000000001 0000000000000002"
    one = hexed(head + "00000001 aa 00000001 01")
    assert len(one) == 50 and pairs(words(one)[1]) == [(b"\xaa", b"\x01")]
    for cut in range(len(one)):
        try:
            words(one[:cut])
        except Refused:
            continue
        raise AssertionError(f"a text of {cut} bytes passes")

    lists = {
        "0000000000000001 0000000000000000 01": [0],
        "0000000000000001 4000000000000000 0000000000000000 02": [1 << 62],
        "0000000000000002 0000000000000009 05 0a": [5, 9],
        "0000000000000002 0000000000000007 03 18": [7, 7],
        "0000000000000100 00000000000000ff" + "55" * 64: list(range(256)),
    }
    for text, items in lists.items():
        assert elias_fano(hexed(text)) == items, text

    assert rice(hexed("06"), 0, 2)[0] == 5
    assert key_hash(0, b"\xaa") == 0xD7A4A05B13D36841
    assert key_hash(0, b"\xbb") == 0xB52E02F1CEBF4DC9
    assert key_hash(3, b"abcdefghi") == 0x9657053CBE7D8C0B

    two = {40: b"\xaa", 50: b"\xbb"}
    index = hexed(
        "41474831 01000000 0000000000000002 0000000000000000 0000000000000000"
        "0000000000000002 0000000000000001 0000000000000028 0000000000000032 01")
    plain = hexed("41474831 00000000 0000000000000002 0000000000000028 0000000000000032")
    for accessor in (index, plain):
        assert hash_find(accessor, two, b"\xaa") == 40
        assert hash_find(accessor, two, b"\xbb") == 50
        assert hash_find(accessor, two, b"\xcc") is None
    single = hexed(
        "41474831 01000000 0000000000000001 0000000000000000 0000000000000000"
        "0000000000000001 0000000000000000 0000000000000028")
    assert hash_find(single, {40: b"\xaa"}, b"\xaa") == 40
    nothing = hexed("41474831 01000000 0000000000000000 0000000000000000 0000000000000000")
    assert hash_find(nothing, {}, b"\xaa") is None

    many = {40 + 10 * i: bytes([i]) for i in range(17)}
    offsets = b"".join(struct.pack(">Q", it) for it in many)
    tree = hexed("41474231 00000002 0000000000000011 0000000000000028 00000000000000c8") + offsets
    for i in range(17):
        assert btree_seek(tree, many, bytes([i])) == i
    assert btree_seek(tree, many, b"\x03\x00") == 4
    assert btree_seek(tree, many, b"\xff") == 17
    print("the reader takes the texts of the page")


def main():
    if sys.argv[1:] == ["--test"]:
        test()
    elif len(sys.argv) == 2:
        with open(sys.argv[1], "rb") as file:
            show(file.read())
    else:
        sys.exit(__doc__)


if __name__ == "__main__":
    main()
