#!/usr/bin/env python3
"""The drawn sessions of crates/agg_session/src/made_sessions.rt, and what the plain list says of each.

    examples/made_sessions.py             compares the hashes that stand in byte_tests.rt with the definition
    examples/made_sessions.py --print     prints the hash for each seed
    examples/made_sessions.py SEED        prints the step size and the text of each of the seed's sessions

A hash is FNV-1a with 64 bits over thirty sessions, of each the replies and then every file's name and bytes. Replies
and files are those of plain_session.py and file_bytes.py; of the source here are only the words that lines are drawn
from. Status 1: a hash is another one, or the lines of blocks.txt aren't those of the test.
"""
import re
import sys
from pathlib import Path

# Nothing is written beside the scripts.
sys.dont_write_bytecode = True
import file_bytes
from plain_session import replies_to

TOP = Path(__file__).resolve().parent
SOURCE = TOP.parent / "crates" / "agg_session" / "src"
SESSIONS = 30
LARGE = 200
MASK = 2**64 - 1


# The words of the source


def text_of(literal):
    """The text of a literal, whose lines may go on behind a backslash."""
    return re.sub(r"\\\n\s*", "", literal).replace("\\n", "\n")


class Words:
    """The forms of lines, and the words that a letter of a form stands for."""

    def __init__(self):
        self.source = (SOURCE / "made_sessions.rt").read_text()
        self.forms = self.listed("FORMS")
        letters = re.findall(r"'([A-Z])' => &([A-Z]+),", self.source)
        self.letters = {letter: self.listed(name) for letter, name in letters}

    def listed(self, name):
        body = re.search(rf"const {name}: \[&str; \d+\] = \[(.*?)\];", self.source, re.S).group(1)
        return [text_of(it) for it in re.findall(r'"([^"]*)"', body)]


# Drawn sessions


class Draws:
    def __init__(self, words, seed):
        self.words, self.state, self.number = words, seed, 0

    def below(self, limit):
        self.state = (self.state * 6364136223846793005 + 1442695040888963407) & MASK
        return (self.state >> 33) % limit

    def one_of(self, words):
        return words[self.below(len(words))]

    def word(self, letter):
        if letter == "N":
            self.number += self.below(4)
            return str(self.number)
        return self.one_of(self.words.letters[letter]) if letter in self.words.letters else letter

    def size(self):
        return self.below(10) or LARGE

    def text(self, size):
        self.number = 0
        lines = 900 if size == LARGE else 20 + self.below(80)
        return "".join(self.word(it) for _ in range(lines) for it in self.one_of(self.words.forms) + "\n").encode()

    def sessions(self):
        """The step size and the text of each session."""
        for _ in range(SESSIONS):
            size = self.size()
            yield size, self.text(size)


def hash_for(words, seed):
    found = file_bytes.EMPTY_HASH
    for size, text in Draws(words, seed).sessions():
        replies, session = replies_to(text, size)
        lines = "".join(line + "\n" for reply in replies for line in reply)
        found = file_bytes.hash_of(file_bytes.files_of(session.list, size), file_bytes.hashed(lines.encode(), found))
    return found


# The hashes that stand in the tests


def written():
    """The hashes for the seeds."""
    tests = (SOURCE / "byte_tests.rt").read_text()
    body = re.search(r"const MADE: .*?= \[(.*?)\];", tests, re.S).group(1)
    return [tuple(map(int, it)) for it in re.findall(r"\((\d+), (\d+)\)", body)]


def blocks_differ():
    tests = (SOURCE / "byte_tests.rt").read_text()
    text = text_of(re.search(r'const BLOCKS: .*?= b"(.*?)";', tests, re.S).group(1)).encode()
    found = int(re.search(r"const BLOCKS_HASH: u64 = (\d+);", tests).group(1))
    return text != (TOP / "blocks.txt").read_bytes() or found != file_bytes.hash_of(file_bytes.files_left(text, 4))


def main(given):
    words = Words()
    if given and given[0].isdigit():
        for size, text in Draws(words, int(given[0])).sessions():
            print(f"--step {size}\n{text.decode()}")
        return 0
    pairs = [(seed, hash_for(words, seed)) for seed, _ in written()]
    if given == ["--print"]:
        for seed, found in pairs:
            print(f"({seed}, {found}),")
        return 0
    other = [seed for (seed, found), (_, told) in zip(pairs, written()) if found != told]
    if blocks_differ():
        other.insert(0, "blocks.txt")
    print(f"byte_tests.rt has other hashes for {other}" if other
          else f"byte_tests.rt has the hashes of blocks.txt and of {SESSIONS * len(pairs)} drawn sessions by definition")
    return 1 if other or not pairs else 0


if __name__ == "__main__":
    sys.exit(main(sys.argv[1:]))
