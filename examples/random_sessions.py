#!/usr/bin/env python3
"""Random sessions over all entities, forms and refusals, each compared with a plain list.

    examples/random_sessions.py [--count COUNT] [--seed SEED] [--first FIRST] [--program FILE]
    examples/random_sessions.py --write FOLDER     writes the sessions and their replies, as `rt try --cases` reads them

The program is run over each session in an empty folder. Its status, every reply, and where it leaves a folder
`agg-data` the names and bytes of all files there have to be those that plain_session.py and file_bytes.py give by
definition. Of a session that differs the lines are printed that it takes. Status 1: a session differs. Status 2: the
program can't be run.
"""
import argparse
import collections
import os
import subprocess
import sys
import tempfile
from pathlib import Path

# Nothing is written beside the scripts.
sys.dont_write_bytecode = True
import file_bytes
from plain_session import replies_to
from session_maker import Made

TOP = Path(__file__).resolve().parent.parent
SEED = 21
# The status of ./aggregator where the program could not be built.
NOT_BUILT = 125
# Seconds.
LONGEST_RUN = 60
MOST_SHOWN = 3
LONGEST_SHOWN = 200


# Runs of the program


class CannotRun(Exception):
    pass


def files_in(folder):
    return {path.relative_to(folder).as_posix(): path.read_bytes() for path in folder.rglob("*") if path.is_file()}


def run(program, words, text):
    """The status, what was written, what was said, and the files that were left, or None where there is no folder."""
    with tempfile.TemporaryDirectory() as folder:
        try:
            child = subprocess.run([program, *words], input=text, capture_output=True, cwd=folder, timeout=LONGEST_RUN)
        except (OSError, subprocess.TimeoutExpired) as why:
            raise CannotRun(why) from why
        data = Path(folder) / "agg-data"
        return child.returncode, child.stdout, child.stderr, files_in(data) if data.is_dir() else None


def make_sure_of(program):
    """The first call may build the program, which it tells on standard error."""
    try:
        status = subprocess.run([program, "run"], stdin=subprocess.DEVNULL).returncode
    except OSError as why:
        raise CannotRun(why) from why
    if status == NOT_BUILT:
        raise CannotRun("the program could not be built")


def text_of(lines):
    return "".join(line + "\n" for line in lines).encode()


def shown(text):
    """Bytes as a line that can be printed."""
    line = repr(text)[2:-1]
    return line if len(line) <= LONGEST_SHOWN else f"{line[:LONGEST_SHOWN]}.. ({len(text)} bytes)"


def first_difference(text, replies, output):
    """The first line of a session whose reply isn't as wanted, and both."""
    for line, reply in zip(text.split(b"\n"), replies):
        wanted = text_of(reply)
        if not output.startswith(wanted):
            pairs = list(zip(wanted.split(b"\n"), output.split(b"\n")))
            return next((f"{shown(line)}: wanted {shown(it)}, came {shown(other)}"
                         for it, other in pairs if it != other), f"{shown(line)}: the output ends early")
        output = output[len(wanted):]
    return f"behind all replies came {shown(output)}"


def file_difference(name, wanted, found):
    if wanted is None or found is None:
        return None if wanted == found else f"{name} is {'missing' if found is None else 'there'}"
    if wanted == found:
        return None
    at = len(os.path.commonprefix([wanted, found]))
    return f"{name} at {at}: wanted {wanted[at:at + 16].hex()}, found {found[at:at + 16].hex()}"


def difference(program, words, size, text, count):
    """What isn't as the definitions say, or None; `count` counts what was compared."""
    replies, session = replies_to(text, size)
    status, output, said, files = run(program, words, text)
    ended = [] if status == 0 and not said else [f"status {status}, and said was {shown(said)}"]
    if output != text_of(line for reply in replies for line in reply):
        ended.insert(0, first_difference(text, replies, output))
    if ended:
        return "; ".join(ended)
    count.update(kind_of(line) for reply in replies for line in reply)
    if files is None:
        return None
    wanted = file_bytes.files_of(session.list, size)
    count["files"] += len(wanted)
    names = sorted(wanted.keys() | files.keys())
    return next((it for it in (file_difference(name, wanted.get(name), files.get(name)) for name in names) if it), None)


def kind_of(line):
    words = line.split(" ")
    return " ".join(words[:2]) if words[0] == "err" else words[0]


def smallest(text, differs):
    """A text with as few lines as can be come to by leaving out lines, that still differs."""
    lines = [line + b"\n" for line in text.split(b"\n")]
    lines[-1] = lines[-1][:-1]
    size = len(lines)
    while size > 0:
        at = 0
        while at < len(lines):
            fewer = lines[:at] + lines[at + size:]
            if differs(b"".join(fewer)):
                lines = fewer
            else:
                at += size
        size //= 2
    return b"".join(lines)


def report(program, made, what, seed):
    print(f"seed {seed}, session {made.number}, {' '.join(made.words)}: {what}")
    unused = collections.Counter()
    differs = lambda text: difference(program, made.words, made.size, text, unused) is not None
    text = smallest(made.text, differs)
    print(f"  of these lines, {' '.join(made.words)}: {difference(program, made.words, made.size, text, unused)}")
    for line in text.removesuffix(b"\n").split(b"\n"):
        print(f"    {shown(line)}")


def compare(given):
    count, found = collections.Counter(), 0
    for number in range(given.first, given.first + given.count):
        made = Made(given.seed, number)
        what = difference(given.program, made.words, made.size, made.text, count)
        if what is not None:
            found += 1
            if found <= MOST_SHOWN:
                report(given.program, made, what, given.seed)
    files = count.pop("files", 0)
    print(", ".join(f"{kind} {times:,}" for kind, times in sorted(count.items())))
    what = f"{files:,} files have their bytes" if files else "no folder of files was left to compare"
    print(f"random_sessions: {given.count - found} of {given.count} sessions as by the plain list; {what}")
    return 1 if found else 0


def write(given):
    given.write.mkdir(parents=True, exist_ok=True)
    for number in range(given.first, given.first + given.count):
        made = Made(given.seed, number)
        replies, _ = replies_to(made.text, made.size)
        (given.write / f"{number:04}").write_bytes(made.text)
        (given.write / f"{number:04}.args").write_text("".join(f"{word}\n" for word in made.words))
        (given.write / f"{number:04}.stdout").write_bytes(text_of(line for reply in replies for line in reply))


def main():
    words = argparse.ArgumentParser(description=__doc__.split("\n")[0])
    words.add_argument("--count", type=int, default=300, help="how many sessions (300)")
    words.add_argument("--seed", type=int, default=SEED, help=f"what they are drawn from ({SEED})")
    words.add_argument("--first", type=int, default=0, help="the number of the first session (0)")
    words.add_argument("--program", type=Path, default=TOP / "aggregator", help="the program (./aggregator)")
    words.add_argument("--write", type=Path, metavar="FOLDER", help="write the sessions there, and run nothing")
    given = words.parse_args()
    if given.write:
        write(given)
        return 0
    given.program = given.program.resolve()
    try:
        make_sure_of(given.program)
        return compare(given)
    except CannotRun as why:
        print(f"random_sessions: {why}", file=sys.stderr)
        return 2


if __name__ == "__main__":
    sys.exit(main())
