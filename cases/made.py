"""What the tables of cases are made with.

A table is a file `cases/FOLDER/NAME.py`. It has what is too large for a file, long lists of short texts by subject, and what needs files or
streams of its own. Each of its cases has a name, by which `./test NAME` selects it, and the same parts as a case of files.
"""
import os
import re
import runpy

FOLDER = os.path.dirname(os.path.abspath(__file__))
DONE, REFUSED, FAILED, FAULT, SPENT = 0, 2, 3, 4, 5
NOTHING = "end done\nstack 0\nstore 0\nbindings 0\nhistory 0\n"


class Case:
    """A case: its input, which is also the file where a word is `{}`, its words, what it writes, and its exit status.

    What is not said is empty, or 0.
    """

    def __init__(self, name, given="", words=(), stdout="", stderr="", status=DONE, **more):
        self.name, self.given, self.words = name, as_bytes(given), list(words)
        # Whether it stands in a table, or is a further case of a list.
        self.is_one_of_many = False
        self.stdout, self.status = as_bytes(stdout), status
        # Bytes, or a pattern of them.
        self.stderr = stderr if isinstance(stderr, re.Pattern) else as_bytes(stderr)
        self.has(**more)

    def has(self, files=None, leaves=None, alone=None, fails=None, again=None):
        """What few cases have."""
        # Files that stand beside it, and what a file holds at the end; None says that there is no such file.
        self.files = {name: as_bytes(text) for name, text in (files or {}).items()}
        self.leaves = leaves or {}
        # Why only the proved program shows it, where that is so.
        self.alone = alone
        # The stream that fails: `stdin` is a folder then, and `stdout` or `stderr` is a full device.
        self.fails = fails
        # The words of a second run, in the same folder: it writes the same, and says the first line that the first run said.
        self.again = again


def as_bytes(text):
    return text if isinstance(text, bytes) else text.encode()


def read(path):
    """A file of a case, as bytes."""
    with open(f"{FOLDER}/{path}", "rb") as file:
        return file.read()


def text_of(case):
    """What a case of files writes."""
    return read(f"{case}.stdout")


MADE = []


def tables(folder, names):
    """The cases of the tables of a folder."""
    MADE.clear()
    for name in names:
        runpy.run_path(f"{FOLDER}/{folder}/{name}")
    return list(MADE)


def make(name, *parts, **more):
    MADE.append(Case(name, *parts, **more))


def refuse(name, given, line, words=(), **more):
    """One line is said, and nothing written."""
    make(name, given, words, stderr=f"chr: {line}\n", status=REFUSED, **more)


def query(name, text, line, **more):
    """A query that is refused: the first line of the input, or a word, over an empty program, where it has lines of its own."""
    text = as_bytes(text)
    if b"\n" in text:
        refuse(name, "", f"query {line}", ["{}", text.decode()], **more)
    else:
        refuse(name, text + b"\n", f"query {line}", **more)


def program(name, text, line, **more):
    """A program that is refused, or that is accepted where no line is said: then `true.` is run."""
    given = b"true.\n" + as_bytes(text)
    if line:
        refuse(name, given, f"program {line}", **more)
    else:
        make(name, given, stdout=NOTHING, **more)


def queries(subject, *rows):
    """Queries, each with the place and the kind of its error. They are numbered from 1."""
    for k, (place, text) in enumerate(rows):
        query(f"{subject}_{k + 1}", text, place)


def programs(subject, *rows, before=""):
    """Programs after the same lines, each with the place and the kind of its error, or with None where it is accepted."""
    for k, (place, text) in enumerate(rows):
        program(f"{subject}_{k + 1}", as_bytes(before) + as_bytes(text), place)
