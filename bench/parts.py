"""What the measurements share: the programs, proved and built, their twins in plain Rust, and runs of both."""

import os
import subprocess
import tempfile
import time
from pathlib import Path

TOP = Path(__file__).resolve().parent.parent


class NotMeasured(Exception):
    """Why there is nothing to report."""


def built_program(crate="bench_parts"):
    """The program of this crate, proved and built anew.

    What an earlier build left is taken away first: where building fails, an old program would be measured.
    """
    folder = TOP / "crates" / crate
    program = folder / "out" / crate
    program.unlink(missing_ok=True)
    build = subprocess.run(
        ["rt", "run"], cwd=folder, stdin=subprocess.DEVNULL, stdout=subprocess.DEVNULL, stderr=subprocess.PIPE, text=True
    )
    if not program.exists():
        said = build.stderr.strip().splitlines()[-1:]
        raise NotMeasured(" ".join([f"{crate} could not be built:", *said]))
    return program


def built_twin(folder, name):
    """The twin of this name, built into the folder."""
    twin = Path(folder) / "twin"
    source = TOP / "bench" / f"{name}.rs"
    subprocess.run(["rustc", "-O", "--edition", "2024", "-o", twin, source], check=True)
    return twin


def run_timed(command):
    """The numbers that one run prints, and the seconds that it took of processor time and by the clock."""
    with tempfile.TemporaryFile() as out:
        began = time.perf_counter()
        child = subprocess.Popen(command, stdout=out)
        _, status, used = os.wait4(child.pid, 0)
        passed = time.perf_counter() - began
        child.returncode = os.waitstatus_to_exitcode(status)
        out.seek(0)
        if child.returncode != 0:
            raise NotMeasured(f"{command[0]} ended with status {child.returncode}")
        return [int(word) for word in out.read().split()], used.ru_utime + used.ru_stime, passed


def run(command):
    """The numbers that one run prints, and the seconds of processor time that it took."""
    numbers, seconds, _ = run_timed(command)
    return numbers, seconds


def cost(command, wanted):
    """The seconds of processor time of one run that prints this number alone."""
    numbers, seconds = run(command)
    if numbers != [wanted]:
        raise NotMeasured(f"{command[0]} didn't print the checksum")
    return seconds
