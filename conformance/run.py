#!/usr/bin/env python3
"""Runs the built program on stored calls, and on the calls that the documents show, and compares byte for byte.

usage: run.py PROGRAM [CALLS .. | shown]

Without CALLS all *.jsonl of this folder are run, every row of the tables in docs/COMMANDS.md has to be shown by a call, and
the calls of README.md, docs/, examples/ and man/ are run too; with `shown` these alone. README.md of this folder says what a stored
call has.
"""

import hashlib
import json
import pathlib
import re
import resource
import subprocess
import sys
import tempfile
from typing import NamedTuple, Optional

HERE = pathlib.Path(__file__).resolve().parent
TOP = HERE.parent
COMMANDS = TOP / "docs" / "COMMANDS.md"
MANUAL = TOP / "man" / "sag.1"

SECONDS = 60
SHOWN = 200


class Answer(NamedTuple):
    """What a call gives; `out` is None where only its checksum is stored."""
    status: int
    out: Optional[bytes]
    err: bytes


def content(value):
    """The bytes of a stored file: a text, or a list of texts and of [text, first, last], repeated with {n} counted."""
    if isinstance(value, str):
        return value.encode("latin-1")
    pieces = []
    for piece in value:
        if isinstance(piece, str):
            pieces.append(piece)
        else:
            text, first, last = piece
            pieces.extend(text.replace("{n}", str(n)).replace("{next}", str(n + 1)) for n in range(first, last + 1))
    return "".join(pieces).encode("latin-1")


def expected(call):
    """The answer that is stored. An `err` of null is the usage text."""
    err = (HERE / "usage.txt").read_bytes() if call["err"] is None else call["err"].encode("latin-1")
    return Answer(call["status"], call["out"].encode("latin-1") if "out" in call else None, err)


def limited(call):
    """What the program's process sets of its limits before it starts."""
    kinds = {"stack": resource.RLIMIT_STACK, "memory": resource.RLIMIT_AS}
    limits = [(kinds[name], size) for name, size in call.get("limits", {}).items()]

    def lower():
        for kind, size in limits:
            resource.setrlimit(kind, (size, size))
    return lower if limits else None


def run(program, call):
    """The answer of the program, in a fresh folder that holds the call's files and folders alone."""
    with tempfile.TemporaryDirectory() as name:
        folder = pathlib.Path(name)
        for file, value in call.get("files", {}).items():
            (folder / file).write_bytes(content(value))
        for inner in call.get("folders", []):
            (folder / inner).mkdir()
        with tempfile.TemporaryFile() as held:
            output = open(call["output"], "wb") if "output" in call else held
            done = subprocess.run([program, *call["words"]], cwd=folder, stdout=output, stderr=subprocess.PIPE,
                                  timeout=SECONDS, preexec_fn=limited(call), check=False)
            held.seek(0)
            return Answer(done.returncode, held.read(), done.stderr)


def excerpt(data, place):
    """Some bytes of a text round a place, as one reads them."""
    begin = max(0, place - SHOWN // 2)
    text = data[begin:place + SHOWN // 2].decode("latin-1")
    return ("..." if begin else "") + repr(text)[1:-1]


def differences(want, got, checksum):
    """A line for each part of the answer that differs, from the first byte that does."""
    lines = []
    if want.status != got.status:
        lines.append(f"status: wanted {want.status}, got {got.status}")
    pairs = [("error stream", want.err, got.err)]
    if want.out is not None:
        pairs.insert(0, ("output", want.out, got.out))
    for part, one, other in pairs:
        if one != other:
            place = next((i for i, (a, b) in enumerate(zip(one, other)) if a != b), min(len(one), len(other)))
            lines.append(f"{part}, byte {place + 1}:\n    wanted {excerpt(one, place)}\n    got    {excerpt(other, place)}")
    if checksum and hashlib.sha256(got.out).hexdigest() != checksum:
        lines.append(f"output: wanted the checksum {checksum}, got {len(got.out)} bytes with another")
    return lines


class Tally:
    """How many calls passed and failed."""

    def __init__(self):
        self.passed = self.failed = 0

    def note(self, place, lines):
        if lines:
            self.failed += 1
            print(place + "\n  " + "\n  ".join(lines))
        else:
            self.passed += 1


def run_stored(program, paths, tally):
    """Runs the calls of these files; gives the rows that they show."""
    shown = set()
    for path in paths:
        for line in path.read_text(encoding="utf-8").splitlines():
            call = json.loads(line)
            shown.add(call["shows"])
            lines = differences(expected(call), run(program, call), call.get("out_sha256"))
            tally.note(f"{path.name}: {call['name']}: sag {' '.join(call['words'])}", lines)
    return shown


def table_rows(text, heading):
    """The rows of the table under a heading, each as its cells."""
    section = text.split(f"## {heading}\n", 1)[1].split("\n## ", 1)[0]
    rows = [line.strip().strip("|").split(" | ") for line in section.splitlines() if line.startswith("| ")]
    return [[cell.strip() for cell in row] for row in rows[1:]]


def rows_to_show():
    """What calls have to show: when a status comes, but those that a text tells, and each text of the error stream."""
    text = COMMANDS.read_text(encoding="utf-8")
    statuses = [row[1] for row in table_rows(text, "Statuses") if row[3] == "nothing"]
    texts = [row[0].strip("`") for row in table_rows(text, "Texts on the error stream")]
    return set(statuses + texts)


def check_rows(shown, tally):
    """Every row is shown by a call, and calls show nothing else."""
    rows = rows_to_show()
    for row in sorted(rows - shown):
        tally.note(f"docs/COMMANDS.md: no call shows: {row}", ["add one to conformance/"])
    for row in sorted(shown - rows):
        tally.note(f"a call shows what docs/COMMANDS.md does not say: {row}", ["mend `shows` or the document"])


def blocks(text):
    """The indented or fenced blocks of a document that begin with a prompt, as lists of lines."""
    block = []
    for line in text.splitlines() + [""]:
        inside = line.startswith("    ") or (block and not line.strip())
        if inside:
            block.append(line[4:])
        elif block:
            while block and not block[-1].strip():
                block.pop()
            if block[0].startswith("$ "):
                yield block
            block = []


def steps(block):
    """The calls of a block, each with the lines that follow it."""
    calls = []
    for line in block:
        if line.startswith("$ "):
            calls.append((line[2:], []))
        else:
            calls[-1][1].append(line)
    return calls


def run_block(program, block, folder):
    """What differs where the calls of a block are run: `cd`, `cat`, `echo $?` and `sag` alone. A file behind `>` is there already,
    with the output that the call gives."""
    status = 0
    for call, printed in steps(block):
        words, _, kept = call.partition(" > ")
        words = words.split()
        want = "".join(line + "\n" for line in printed)
        if words[0] == "cd":
            folder, got = TOP / words[1], ""
        elif words[0] == "cat":
            got = "".join((folder / name).read_text(encoding="utf-8") for name in words[1:])
        elif call == "echo $?":
            got = f"{status}\n"
        else:
            done = subprocess.run([program, *words[1:]], cwd=folder, capture_output=True, timeout=SECONDS, check=False)
            status, told = done.returncode, done.stdout
            if kept and (folder / kept).is_file() and told == (folder / kept).read_bytes():
                told = b""
            got = (told + done.stderr).decode("utf-8")
        if got != want:
            yield f"$ {call}\n    wanted {want!r}\n    got    {got!r}"


def run_shown(program, tally):
    """Runs the blocks of the documents, and each example against its expected file."""
    documents = [TOP / "README.md", *sorted((TOP / "docs").glob("*.md")), *sorted((TOP / "examples").glob("*/README.md"))]
    for path in documents:
        for block in blocks(path.read_text(encoding="utf-8")):
            tally.note(f"{path.relative_to(TOP)}: {block[0]}", list(run_block(program, block, path.parent)))
    for text in re.findall(r"^\.Bd -literal[^\n]*\n(\$ .*?)^\.Ed$", MANUAL.read_text(encoding="utf-8"), re.M | re.S):
        block = text.splitlines()
        tally.note(f"man/sag.1: {block[0]}", list(run_block(program, block, TOP / "examples" / "analyse")))
    for row in table_rows((TOP / "examples" / "README.md").read_text(encoding="utf-8"), "Stories"):
        folder, call, prints = (re.sub(r"^\[?`?|`?(\]\(.*\))?$", "", cell) for cell in row[:3])
        done = subprocess.run([program, *call.split()[1:]], cwd=TOP / "examples" / folder, capture_output=True,
                              timeout=SECONDS, check=False)
        want = (TOP / "examples" / folder / prints).read_bytes()
        tally.note(f"examples/{folder}: {call}", differences(Answer(0, want, b""), Answer(done.returncode, done.stdout, done.stderr), None))


def main(program, words):
    program = str(pathlib.Path(program).resolve())
    tally = Tally()
    if words != ["shown"]:
        shown = run_stored(program, [pathlib.Path(word) for word in words] or sorted(HERE.glob("*.jsonl")), tally)
        if not words:
            check_rows(shown, tally)
    if words in ([], ["shown"]):
        run_shown(program, tally)
    print(f"conformance: {tally.passed} passed, {tally.failed} failed")
    return 1 if tally.failed else 0


if __name__ == "__main__":
    if len(sys.argv) < 2:
        sys.exit(__doc__)
    sys.exit(main(sys.argv[1], sys.argv[2:]))
