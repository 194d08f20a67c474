"""One task set through sag: unrolled, analysed, checked and reported, with what that took."""

import json
import os
import pathlib
import re
import shutil
import subprocess
import tempfile
import time
from dataclasses import asdict, dataclass
from typing import Optional

from .fault import Fault

RESULT = "result.json"
SETTING = "set.json"
SPENT = re.compile(r"spent level \d+ states (\d+) edges (\d+)\n")
STATUS_OK, STATUS_NO, STATUS_SPENT = 0, 1, 4
PIECE = 1 << 20


@dataclass
class Result:
    """What became of a set. `verdict` is ok, miss, or over budget, which is neither."""

    jobs: int
    verdict: str
    states: int
    edges: int
    analyse_seconds: float
    analyse_kib: Optional[int]
    check_seconds: Optional[float] = None
    check_kib: Optional[int] = None


@dataclass
class Ended:
    """How a program ended, after how many seconds, and how much memory it had at most, where GNU time is there to tell."""

    status: int
    text: str
    seconds: float
    kib: Optional[int]


def gnu_time():
    """The words of GNU time that write the greatest memory of a program into a file, if it is there."""
    found = shutil.which("time")
    if found is None:
        return None
    told = subprocess.run([found, "--version"], capture_output=True, text=True, check=False)
    return found if "GNU" in told.stdout + told.stderr else None


def measured(words, output):
    """Runs a program, with its output into the file of that name."""
    timer = gnu_time()
    with tempfile.NamedTemporaryFile("r") as memory, open(output, "wb") as out:
        before = [timer, "-q", "-f", "%M", "-o", memory.name] if timer else []
        begin = time.perf_counter()
        try:
            done = subprocess.run(
                [*before, *words], stdout=out, stderr=subprocess.PIPE, stdin=subprocess.DEVNULL, check=False
            )
        except OSError as error:
            raise Fault(f"{words[0]}: {error.strerror}") from error
        seconds = time.perf_counter() - begin
        kib = memory.read().split()
    return Ended(done.returncode, done.stderr.decode("utf-8", errors="replace"), seconds, int(kib[-1]) if kib else None)


def must_end(ended, words, *statuses):
    """Refuses another status, with the first line of what the program said."""
    if ended.status not in statuses:
        said = ended.text.partition("\n")[0] or f"status {ended.status}"
        raise Fault(f"{' '.join(words[:2])}: {said}")


def count_marks(path, marks):
    """How often each of some texts stands in a file, which may be larger than memory. None of them overlaps itself."""
    overlap = max(map(len, marks)) - 1
    counts, tail = [0] * len(marks), b""
    with open(path, "rb") as stream:
        while piece := stream.read(PIECE):
            text = tail + piece
            tail = text[len(text) - overlap :]
            # what stands whole in the tail is counted with the next piece
            counts = [count + text.count(mark) - tail.count(mark) for count, mark in zip(counts, marks)]
    return [count + tail.count(mark) for count, mark in zip(counts, marks)]


def last_line(path):
    with open(path, "rb") as stream:
        stream.seek(max(0, os.path.getsize(path) - 200))
        lines = stream.read().decode("ascii", errors="replace").splitlines()
    return lines[-1] if lines else ""


def analysed(folder, setting, sag):
    """Unrolls and analyses; gives what stands fixed then, without a verdict where the certificate is whole."""
    unroll = [sag, "unroll", str(folder / "tasks.csv"), str(setting["horizon"]), setting["policy"]]
    must_end(measured(unroll, folder / "jobs.csv"), unroll, STATUS_OK)
    (lines,) = count_marks(folder / "jobs.csv", [b"\n"])
    analyse = [
        sag,
        "analyse",
        str(folder / "jobs.csv"),
        "--cores",
        str(setting["cores"]),
        "--budget",
        str(setting["budget"]),
    ]
    ended = measured(analyse, folder / "certificate.txt")
    must_end(ended, analyse, STATUS_OK, STATUS_SPENT)
    if ended.status == STATUS_SPENT:
        found = SPENT.fullmatch(ended.text)
        if not found:
            raise Fault(f"sag analyse: {ended.text.strip()!r} is not how a budget ends")
        return Result(lines - 1, "over budget", int(found[1]), int(found[2]), ended.seconds, ended.kib)
    states, edges = count_marks(folder / "certificate.txt", [b"\nstate ", b"\nedge "])
    return Result(lines - 1, "", states + 1, edges, ended.seconds, ended.kib)


def checked(folder, setting, sag, result):
    """Checks the certificate, which gives the verdict, and writes the report."""
    files = [str(folder / "jobs.csv"), str(folder / "certificate.txt"), "--cores", str(setting["cores"])]
    check = [sag, "check", *files]
    ended = measured(check, folder / "answer.txt")
    if ended.status == STATUS_NO:
        raise Fault(f"{folder.name}: the certificate is not valid: {last_line(folder / 'answer.txt')}")
    must_end(ended, check, STATUS_OK)
    verdict = last_line(folder / "answer.txt").partition("verdict ")[2]
    if verdict not in ("ok", "miss"):
        raise Fault("sag check: no verdict")
    report = [sag, "report", *files]
    must_end(measured(report, folder / "report.csv"), report, STATUS_OK)
    result.verdict, result.check_seconds, result.check_kib = verdict, ended.seconds, ended.kib


def run_set(folder, sag, keep):
    """Runs a set, and leaves its result last and at once: a set that was ended half way has none. Without `keep` its long files
    are taken away again."""
    folder = pathlib.Path(folder)
    setting = json.loads((folder / SETTING).read_text(encoding="utf-8"))
    result = analysed(folder, setting, sag)
    if not result.verdict:
        checked(folder, setting, sag, result)
    if not keep:
        for name in ("jobs.csv", "certificate.txt", "answer.txt"):
            (folder / name).unlink(missing_ok=True)
    fresh = folder / (RESULT + ".new")
    fresh.write_text(json.dumps(asdict(result), indent=1) + "\n", encoding="utf-8")
    fresh.replace(folder / RESULT)
