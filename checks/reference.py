"""The reference program: what it makes of cases, and its parts."""
import os
import subprocess
import sys
import tempfile
from concurrent.futures import ThreadPoolExecutor

from case import FOLDER

REFERENCE = os.path.join(os.path.dirname(FOLDER), "reference")
sys.path.insert(0, REFERENCE)
sys.dont_write_bytecode = True

import croquet_reference as croquet  # noqa: E402

WORKERS = os.cpu_count() or 1
FEWEST_LINES = 30


def run_reference(kind, lines):
    """What the reference makes of each line, by its own command."""
    with tempfile.NamedTemporaryFile("w", encoding="utf-8") as file:
        file.write("\n".join(lines) + "\n")
        file.flush()
        command = [sys.executable, "-B", os.path.join(REFERENCE, "croquet_reference.py"), kind,
                   file.name]
        done = subprocess.run(command, stdout=subprocess.PIPE, check=True)
    told = done.stdout.decode("utf-8").removesuffix("\n").split("\n")
    assert len(told) == len(lines)
    return [line[len(case):].removeprefix(" = ") for line, case in zip(told, lines)]


def outcomes(kind, lines):
    """What the reference makes of each line, computed in several processes."""
    size = max(FEWEST_LINES, -(-len(lines) // WORKERS))
    parts = [lines[start:start + size] for start in range(0, len(lines), size)]
    with ThreadPoolExecutor(WORKERS) as pool:
        return [told for part in pool.map(lambda part: run_reference(kind, part), parts)
                for told in part]


def expanded(case):
    """The bytes of a case, in which something else stands in place of each `<<HEAD:TEXT>>`."""
    return croquet.replaced(case.encode("utf-8"))


def log_text(entries):
    """Entries as a text, without their times."""
    return " ".join(f"{entry.seq}:{entry.kind}:{entry.view}"
                    + (f":{entry.number}:{entry.payload.hex()}" if entry.kind == "event" else "")
                    for entry in entries)


def read_stored(source):
    """The session of a file; None where it is no stored session."""
    try:
        return croquet.read_stored(source)
    except croquet.Bad:
        return None


def read_log(source):
    """The entries of a file; None where it is no stored session."""
    session = read_stored(source)
    return None if session is None else session.log
