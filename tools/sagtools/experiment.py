"""The command line of sag-experiment: makes task sets, runs them by GNU parallel, and tells what came of them."""

import argparse
import csv
import json
import pathlib
import shlex
import shutil
import signal
import subprocess
import sys
from decimal import Decimal, InvalidOperation

from .fault import Fault, WordParser, require_matplotlib
from .runs import RESULT, SETTING, run_set
from .tasksets import MOST_JOBS, Recipe, draw_set, horizon_of, period_source, tasks_text, utilization_of

DESCRIPTION = """Acceptance ratios over random task sets. `make` makes the sets in a folder, `run` runs those that have no result
yet by GNU parallel, `table` prints a CSV, `plot` draws it."""
PLAN = "experiment.json"
SETS = "sets"
SET_COLUMNS = ["Set", "Seed", "Utilization", "Task utilization", "Cores", "Tasks"]
RESULT_COLUMNS = {
    "Jobs": "jobs",
    "Verdict": "verdict",
    "States": "states",
    "Edges": "edges",
    "Analyse seconds": "analyse_seconds",
    "Check seconds": "check_seconds",
    "Analyse KiB": "analyse_kib",
    "Check KiB": "check_kib",
}


def steps(text):
    """`FROM:TO:STEP` as the list of its values, or one value."""
    try:
        parts = [Decimal(part) for part in text.split(":")]
    except InvalidOperation as error:
        raise argparse.ArgumentTypeError(f"{text!r} is not FROM:TO:STEP") from error
    if len(parts) == 1:
        parts = [parts[0], parts[0], Decimal(1)]
    if len(parts) != 3 or parts[2] <= 0 or not 0 < parts[0] <= parts[1] <= 1:
        raise argparse.ArgumentTypeError(f"{text!r} is not FROM:TO:STEP, above 0 and at most 1")
    first, last, step = parts
    return [str(first + step * number) for number in range(int((last - first) / step) + 1)]


def number_from(least, most=None):
    """A reader of whole numbers in a range."""

    def read(text):
        if not text.isascii() or not text.isdigit() or int(text) < least or (most is not None and int(text) > most):
            raise argparse.ArgumentTypeError(
                f"{text!r} is no whole number from {least}" + (f" to {most}" if most else "")
            )
        return int(text)

    return read


def plan_of(options):
    """What fixes an experiment, as it is kept in its folder."""
    names = (
        "utilizations",
        "sets",
        "seed",
        "tasks",
        "periods",
        "cores",
        "jitter",
        "variation",
        "longest",
        "horizon",
        "most_jobs",
        "policy",
        "budget",
    )
    return {name: getattr(options, name) for name in names}


def recipe_of(plan):
    return Recipe(*(plan[name] for name in Recipe.__dataclass_fields__))


def make_set(folder, plan, utilization, number):
    """The files of one set: its tasks, and how they are to be run."""
    recipe = recipe_of(plan)
    seed = f"{plan['seed']}/{utilization}/{number}"
    tasks = draw_set(recipe, float(utilization), seed)
    setting = {
        "seed": seed,
        "utilization": utilization,
        "task_utilization": round(utilization_of(tasks, recipe.cores), 6),
        "cores": recipe.cores,
        "tasks": recipe.tasks,
        "horizon": horizon_of(recipe, [task.period for task in tasks]),
        "policy": plan["policy"],
        "budget": plan["budget"],
    }
    place = folder / SETS / f"{utilization}-{number:04}"
    place.mkdir(parents=True, exist_ok=True)
    (place / "tasks.csv").write_text(tasks_text(tasks), encoding="ascii")
    (place / SETTING).write_text(json.dumps(setting, indent=1) + "\n", encoding="ascii")


def make(options):
    """Makes the sets. A folder keeps one experiment: made again with the same words it stays as it is."""
    plan, folder = plan_of(options), pathlib.Path(options.folder)
    period_source(plan["periods"])
    kept = folder / PLAN
    if kept.exists() and json.loads(kept.read_text(encoding="utf-8")) != plan:
        raise Fault(f"{folder} holds another experiment")
    for utilization in plan["utilizations"]:
        for number in range(1, plan["sets"] + 1):
            make_set(folder, plan, utilization, number)
    kept.write_text(json.dumps(plan, indent=1) + "\n", encoding="ascii")
    return 0


def sets_of(folder):
    """The folders of all sets, in order."""
    if not (pathlib.Path(folder) / PLAN).exists():
        raise Fault(f"{folder} holds no experiment: see sag-experiment make")
    return sorted(place.parent for place in (pathlib.Path(folder) / SETS).glob("*/" + SETTING))


def gnu_parallel():
    """The name of GNU parallel; another program of that name will not do."""
    found = shutil.which("parallel")
    told = subprocess.run([found, "--version"], capture_output=True, text=True, check=False).stdout if found else ""
    if not told.startswith("GNU parallel"):
        raise Fault("needs GNU parallel: apt-get install parallel")
    return found


def run_parallel(words, folders):
    """Hands the folders to GNU parallel. Where this program is told to end, parallel begins no further set."""
    signal.signal(signal.SIGTERM, lambda *_: sys.exit(128 + signal.SIGTERM))
    with subprocess.Popen(words, stdin=subprocess.PIPE) as child:
        try:
            child.communicate("\0".join(map(str, folders)).encode())
        except BaseException:
            child.terminate()
            raise


def run(options):
    """Runs the sets that have no result, and writes the table."""
    program = shutil.which(options.sag)
    if program is None:
        raise Fault(f"{options.sag}: no such program; name it by --sag")
    waiting = [place.resolve() for place in sets_of(options.folder) if not (place / RESULT).exists()]
    if waiting:
        keep = ["--keep"] if options.keep else []
        one = shlex.join(
            [str(pathlib.Path(sys.argv[0]).resolve()), "one", "--sag", str(pathlib.Path(program).resolve()), *keep]
        )
        run_parallel([gnu_parallel(), "--null", *options.parallel_words, one + " {}"], waiting)
    with open(pathlib.Path(options.folder) / "results.csv", "w", encoding="ascii", newline="") as stream:
        missing = write_table(options.folder, stream)
    if missing:
        lacking = "1 set has" if missing == 1 else f"{missing} sets have"
        print(f"sag-experiment: {lacking} no result; run it again to go on", file=sys.stderr)
    return 1 if missing else 0


def one(options):
    """Runs these sets, one after the other, also those that have a result."""
    for folder in options.folders:
        run_set(folder, options.sag, options.keep)
    return 0


def write_table(folder, stream):
    """The CSV of all results; gives how many sets have none."""
    writer = csv.writer(stream, lineterminator="\n")
    writer.writerow(SET_COLUMNS + list(RESULT_COLUMNS))
    missing = 0
    for place in sets_of(folder):
        if not (place / RESULT).exists():
            missing += 1
            continue
        setting = json.loads((place / SETTING).read_text(encoding="utf-8"))
        result = json.loads((place / RESULT).read_text(encoding="utf-8"))
        values = [result[key] for key in RESULT_COLUMNS.values()]
        shown = [f"{value:.3f}" if isinstance(value, float) else value for value in values]
        writer.writerow(
            [
                place.name,
                setting["seed"],
                setting["utilization"],
                setting["task_utilization"],
                setting["cores"],
                setting["tasks"],
                *shown,
            ]
        )
    return missing


def table(options):
    write_table(options.folder, sys.stdout)
    return 0


def plot(options):
    require_matplotlib()
    from .acceptance import acceptance_figure, read_results
    from .picture import image, kind_of, write_bytes

    kind = kind_of(options.output, options.format)
    if options.output is None and sys.stdout.isatty():
        raise Fault("the standard output is a terminal: name a file behind -o")
    series = [read_results(name) for name in options.tables]
    write_bytes(image(acceptance_figure(series), kind), options.output)
    return 0


# fmt: off
MAKE_OPTIONS = [
    ("utilizations", steps, "0.1:0.9:0.1", "FROM:TO:STEP", "shares of all cores together"),
    ("sets", number_from(1, 9999), 25, "N", "sets for each utilization"),
    ("seed", str, "1", "TEXT", "what the sets are drawn from"),
    ("tasks", number_from(1), 6, "N", "tasks of a set"),
    ("periods", str, "10000:100000:5000", "WORD",
     "LOW:HIGH:GRAIN: log-uniform; automotive: 1 to 1000 ms in microseconds, by the shares of the benchmark"),
    ("cores", number_from(1, 256), 1, "N", "cores"),
    ("jitter", number_from(0, 100), 0, "PERCENT", "release jitter of a task, of its period"),
    ("variation", number_from(0, 100), 0, "PERCENT", "how far an execution may stay below the longest one"),
    ("longest", number_from(0), 0, "N", "the longest execution time of any task; 0: the period"),
    ("horizon", number_from(0), 0, "N", "jobs released before it are analysed; 0: the hyperperiod"),
    ("most-jobs", number_from(1, MOST_JOBS), 2000, "N", "sets with more jobs are drawn again"),
    ("budget", number_from(1, 1_000_000), 100_000, "N", "the most states of a graph"),
]
# fmt: on


def add_make(commands):
    parser = commands.add_parser(
        "make", help="makes task sets in a folder", formatter_class=argparse.ArgumentDefaultsHelpFormatter
    )
    parser.add_argument("folder", metavar="DIR")
    for name, reader, default, metavar, text in MAKE_OPTIONS:
        parser.add_argument(f"--{name}", type=reader, default=default, metavar=metavar, help=text)
    parser.add_argument("--policy", choices=("rate", "deadline", "edf"), default="rate", help="priorities")
    parser.set_defaults(act=make)


def add_program_options(parser):
    parser.add_argument("--sag", default="sag", metavar="PROGRAM", help="the program; without it the sag on the path")
    parser.add_argument("--keep", action="store_true", help="keep jobs, certificates and answers")


def parser_of_words():
    parser = WordParser(prog="sag-experiment", description=DESCRIPTION)
    commands = parser.add_subparsers(metavar="COMMAND", required=True)
    add_make(commands)
    running = commands.add_parser(
        "run",
        help="runs the sets without a result; words behind -- go to GNU parallel",
        usage="sag-experiment run DIR [--sag PROGRAM] [--keep] [-- WORDS FOR PARALLEL]",
    )
    running.add_argument("folder", metavar="DIR")
    add_program_options(running)
    running.set_defaults(act=run)
    single = commands.add_parser("one", help="runs some sets by their folders, as an array of Slurm does")
    single.add_argument("folders", metavar="SET", nargs="+")
    add_program_options(single)
    single.set_defaults(act=one)
    telling = commands.add_parser("table", help="prints the results as CSV")
    telling.add_argument("folder", metavar="DIR")
    telling.set_defaults(act=table)
    drawing = commands.add_parser("plot", help="draws acceptance ratio by utilization, a line for each table")
    drawing.add_argument("tables", metavar="CSV", nargs="+")
    drawing.add_argument(
        "-o", dest="output", metavar="FILE", help="SVG or PNG by its name; without it the standard output"
    )
    drawing.add_argument("--format", choices=("svg", "png"), help="of a picture on the standard output")
    drawing.set_defaults(act=plot)
    return parser


def main(words):
    parallel_words = []
    if words[:1] == ["run"] and "--" in words:
        place = words.index("--")
        words, parallel_words = words[:place], words[place + 1 :]
    options = parser_of_words().parse_args(words)
    options.parallel_words = parallel_words
    return options.act(options)
