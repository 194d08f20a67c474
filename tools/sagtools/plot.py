"""The command line of sag-plot."""

import hashlib
import io
import sys

from .certificate import claimed_spans, read_certificate
from .fault import Fault, WordParser, require_matplotlib
from .tables import STDIN, opened, read_jobs, read_releases, read_report, read_schedule
from .window import add_window_options, window_of

DESCRIPTION = """Pictures of what sag reads and prints. A file named `-` is the standard input. A picture goes to the file
behind -o, as SVG or PNG by its name, or without -o to the standard output."""


def read(name, reader, *rest):
    with opened(name) as stream:
        return reader(stream, *rest)


def one_stdin(*names):
    if names.count(STDIN) > 1:
        raise Fault("the standard input can be one file only")


def draw_schedule(options):
    from .schedule import schedule_figure

    one_stdin(options.file_jobs, options.schedule, options.scenario)
    jobs = read(options.file_jobs, read_jobs)
    blocks = read(options.schedule, read_schedule, jobs)
    releases = read(options.scenario, read_releases, jobs) if options.scenario is not None else None
    return schedule_figure(blocks, releases, window_of(options))


def draw_bounds(options):
    from .bounds import bounds_figure

    one_stdin(options.file_jobs, options.report)
    jobs = read(options.file_jobs, read_jobs)
    return bounds_figure(read(options.report, read_report, jobs), window_of(options), options.times)


def draw_levels(options):
    from .levels import levels_figure

    return levels_figure(read(options.cert, read_certificate, False), window_of(options))


def hashed(stream, digest):
    """The lines of a stream, each also put into the digest."""
    for line in stream:
        digest.update(line)
        yield line


def write_picture(draw):
    """The act of a command that draws one figure."""

    def act(options):
        from .picture import image, kind_of, write_bytes

        kind = kind_of(options.output, options.format)
        refuse_terminal(options)
        write_bytes(image(draw(options), kind), options.output)
        return 0

    return act


def write_page(options):
    """The act of `page`."""
    from .page import Source, page_text
    from .picture import write_bytes

    refuse_terminal(options)
    one_stdin(options.file_jobs, options.cert)
    with opened(options.file_jobs) as stream:
        content = stream.read()
    jobs = read_jobs(io.BytesIO(content))
    digest = hashlib.sha256()
    with opened(options.cert) as stream:
        summary = read_certificate(hashed(stream, digest))
    sources = [
        Source(options.file_jobs, "JOBS", hashlib.sha256(content).hexdigest()),
        Source(options.cert, "CERT", digest.hexdigest()),
    ]
    text = page_text(summary, claimed_spans(summary, jobs), sources, options.prec, options.title)
    write_bytes(text.encode("utf-8"), options.output)
    return 0


def refuse_terminal(options):
    if options.output is None and sys.stdout.isatty():
        raise Fault("the standard output is a terminal: name a file behind -o")


def add_command(commands, name, act, text, files):
    parser = commands.add_parser(name, help=text, description=text[0].upper() + text[1:] + ".")
    for file, what in files:
        parser.add_argument("file_jobs" if file == "JOBS" else file.lower(), metavar=file, help=what)
    parser.add_argument("-o", dest="output", metavar="FILE", help="where it goes; without it the standard output")
    parser.set_defaults(act=act)
    return parser


JOBS = ("JOBS", "the job file")
CERT = ("CERT", "what `sag analyse` printed")
SCHEDULE = ("SCHEDULE", "what `sag replay` printed")
REPORT = ("REPORT", "what `sag report` printed")


def add_pictures(commands):
    text = "draws a schedule, a row a core"
    schedule = add_command(commands, "schedule", write_picture(draw_schedule), text, [JOBS, SCHEDULE])
    schedule.add_argument("--scenario", metavar="FILE", help="the scenario, for the exact releases")
    text = "draws the interval of completion times of each job, misses first"
    bounds = add_command(commands, "bounds", write_picture(draw_bounds), text, [JOBS, REPORT])
    text = "along one axis of time, or from the earliest release of each job; without it what is read better"
    bounds.add_argument("--times", choices=("completion", "response"), help=text)
    text = "draws the states and edges of each level, also of a certificate that the budget ended"
    levels = add_command(commands, "levels", write_picture(draw_levels), text, [CERT])
    for each, unit in ((schedule, "time"), (bounds, "time"), (levels, "level")):
        each.add_argument("--format", choices=("svg", "png"), help="of a picture on the standard output")
        add_window_options(each, unit, jobs=each is not levels)


def parser_of_words():
    parser = WordParser(prog="sag-plot", description=DESCRIPTION)
    commands = parser.add_subparsers(metavar="COMMAND", required=True)
    add_pictures(commands)
    page = add_command(commands, "page", write_page, "writes one HTML page for a reviewer", [JOBS, CERT])
    page.add_argument("--prec", metavar="FILE", help="the precedence file, for the command that checks again")
    page.add_argument("--title", metavar="TEXT", help="the heading of the page")
    return parser


def main(words):
    options = parser_of_words().parse_args(words)
    require_matplotlib()
    return options.act(options)
