#!/usr/bin/env python3
"""Checks that what the documents name is there: paths and links, crates, functions, clauses, definitions; and that the commands
are the same everywhere.

usage: documents.py

Read are README.md, CONTRIBUTING.md, CHANGELOG.md, docs/, and the README of each folder. The commands of conformance/usage.txt are
those of docs/COMMANDS.md and of man/sag.1, and VERSION is the first release in CHANGELOG.md. A path is a word with a slash, a file
name or a link; a name is a word between backticks that looks like one of the sources (a_b, AaBb, name()). It passes where the tree
has it: a file or folder, from the top or below crates/, or a word of a source file. The last line is 'documents: N passed, M failed'.
"""

import pathlib
import re
import sys

TOP = pathlib.Path(__file__).resolve().parent.parent
SOURCES = (".rt", ".antt", ".py", ".txt", ".edit", ".csv", ".jsonl")

# words of the documents that stand for others, or for things outside the tree
FREE = {"NAME", "PROGRAM", "FILE", "PREFIX", "DIR", "MODE"}

PATH = re.compile(r"^[\w.-]+(?:/[\w.{}-]+)+/?$|^[\w-]+\.(?:rt|antt|md|py|jsonl|txt|edit)$")
NAME = re.compile(r"^[a-z][a-z0-9]*(?:_[a-z0-9]+)+(?:\(\))?$|^(?:[A-Z][a-z0-9]+){2,}$|^[A-Z]\w*::\w+$|^\w+::\w+$")


def documents():
    yield TOP / "README.md"
    yield TOP / "CONTRIBUTING.md"
    yield TOP / "CHANGELOG.md"
    for folder in ("docs", "examples", "conformance", "bench", "tools"):
        yield from sorted((TOP / folder).glob("**/*.md"))


def words_of_sources():
    """Every word of the sources, and the names of their files and folders."""
    words, paths = set(), set()
    for path in TOP.rglob("*"):
        relative = path.relative_to(TOP)
        if "out" in relative.parts or ".git" in relative.parts:
            continue
        paths.add(str(relative))
        words.update(re.split(r"[^\w]+", path.name))
        if path.is_file() and (path.suffix in SOURCES or path.name == "Makefile"):
            words.update(re.findall(r"\w+", path.read_text(encoding="utf-8", errors="replace")))
    return words, paths


def is_path_there(word, paths, folder):
    """Whether the tree has the path: from the top, below crates/, beside the document, or as the end of a path."""
    word = word.rstrip("/")
    near = str((folder / word).resolve().relative_to(TOP)) if (folder / word).exists() else None
    return near is not None or any(path == word or path.endswith("/" + word) for path in paths)


def cited(text):
    """The words that a document names: between backticks, paths in the running text, and links."""
    text = re.sub(r"^```.*?^```", "", text, flags=re.M | re.S)
    prose = "\n".join(line for line in text.splitlines() if not line.startswith("    "))
    for span in re.findall(r"`([^`\n]+)`", prose):
        yield from (word.strip("(),;:") for word in span.split())
    yield from (link.partition("#")[0] for link in re.findall(r"\]\(([^)\s]+)\)", prose) if "://" not in link)
    yield from (word.strip("(),;:`").rstrip(".") for word in re.sub(r"`[^`\n]*`|\]\([^)]*\)", " ", prose).split() if "/" in word)


def missing(path, words, paths):
    """The names and paths of a document that are nowhere."""
    for word in cited(path.read_text(encoding="utf-8")):
        if not word or set(re.findall(r"[A-Z]+", word)) & FREE:
            continue
        if PATH.match(word):
            if not is_path_there(word, paths, path.parent):
                yield word
        elif NAME.match(word) and not all(part in words for part in re.findall(r"\w+", word)):
            yield word


def found(name, pattern):
    """What the pattern finds in a file, line by line."""
    return re.findall(pattern, (TOP / name).read_text(encoding="utf-8"), re.M)


def uneven():
    """Files that name other commands than the usage does, or another release."""
    commands = sorted(found("conformance/usage.txt", r"^(?:usage:| {6}) sag (\w+)"))
    for name, pattern in ("docs/COMMANDS.md", r"^    sag (\w+) [A-Z]"), ("man/sag.1", r"^\.Ss sag (\w+)$"):
        if sorted(found(name, pattern)) != commands:
            yield f"{name} has other commands than conformance/usage.txt"
    if found("CHANGELOG.md", r"^## ([\d.]+)")[:1] != found("VERSION", r"^([\d.]+)$"):
        yield "CHANGELOG.md begins with another release than VERSION has"


def main():
    words, paths = words_of_sources()
    lines = list(uneven())
    print("".join(line + "\n" for line in lines), end="")
    passed, failed = 0, len(lines)
    for path in documents():
        lacking = sorted(set(missing(path, words, paths)))
        if lacking:
            failed += 1
            print(f"{path.relative_to(TOP)} names what is not there: {', '.join(lacking)}")
        else:
            passed += 1
    print(f"documents: {passed} passed, {failed} failed")
    return 1 if failed else 0


if __name__ == "__main__":
    sys.exit(main())
