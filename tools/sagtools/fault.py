"""What a tool refuses, as one line for the error stream."""

import argparse
import importlib.util
import sys

REFUSED = 2
INTERRUPTED = 130


class Fault(Exception):
    """A file, a word or a program that is not what it should be. Its text is one line."""


class WordParser(argparse.ArgumentParser):
    """Reads the words of a command line; what is wrong with them is a fault like another."""

    def error(self, message):
        raise Fault(f"{message}; see {self.prog} -h")


def require_matplotlib():
    """What draws is imported only behind this."""
    if importlib.util.find_spec("matplotlib") is None:
        raise Fault(
            f"needs matplotlib for {sys.executable}: pip install matplotlib, or apt-get install python3-matplotlib"
        )


def run_main(name, main, words):
    """The status of a tool: what `main` gives, or 2 where it refuses, with one line on the error stream."""
    try:
        return main(words)
    except Fault as fault:
        print(f"{name}: {fault}", file=sys.stderr)
        return REFUSED
    except KeyboardInterrupt:
        return INTERRUPTED
    except BrokenPipeError:
        sys.stderr.close()
        return REFUSED
    except OSError as error:
        place = f"{error.filename}: " if error.filename is not None else ""
        print(f"{name}: {place}{error.strerror or error}", file=sys.stderr)
        return REFUSED
