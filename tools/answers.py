#!/usr/bin/env python3
"""Runs the built program over the recorded answers.

    answers.py PROGRAM [FILE..]

Each file (all of answers/ where none is named) is a list of cases, one line at a time:

    # a remark
    +  SOURCE             `count -` accepts the source
    ?N FAULT | SOURCE     `count -` refuses the source with status N and the line `scaff: FAULT`
    == TITLE              a case of its own begins
    @ NAME                a file of the case begins
    < PATH                what the repository has under this path
    | TEXT                a line of that file
    / TEXT                a text of that file without a line feed behind it
    * N TEXT              a text of that file N times, without a line feed
    $ WORDS               the words, quoted as for a shell; `< NAME` behind them is the standard input,
                          `> full` a device without room, `> closed` a pipe that nobody reads
    > TEXT                a line of the output
    ! TEXT                a line of the fault stream
    = N                   the exit status, 0 where none is named

A case that begins with `$` in place of `@` has the files of the case before it. The last line is `N passed, M failed`, and the exit status is 1 where a case failed.
"""
import os
import shlex
import subprocess
import sys
import tempfile

TOP = os.path.dirname(os.path.dirname(os.path.abspath(__file__)))
SECONDS = 60


class Case:
    def __init__(self, title, files):
        self.title, self.files = title, files
        self.words, self.out, self.err, self.status = [], b"", b"", 0


def source_case(line):
    """A source in one line, accepted or refused."""
    case = Case(line, {})
    mark, _, rest = line.partition(" ")
    if mark == "+":
        case.out = None
    else:
        fault, _, rest = rest.partition(" | ")
        case.status, case.err = int(mark[1:]), f"scaff: {fault}\n".encode()
    case.files = {"source": rest.strip().encode()}
    case.words = ["count", "-", "<", "source"]
    return case


def cases_of(path):
    """Reads the cases of a file."""
    cases, case, name = [], None, None
    with open(path, encoding="utf-8") as lines:
        for number, line in enumerate(lines, 1):
            mark, _, text = line.rstrip("\n").partition(" ")
            if not mark or mark == "#":
                continue
            if mark == "+" or mark[0] == "?":
                cases.append(source_case(line.rstrip("\n")))
            elif mark == "==":
                case = Case(text, dict(case.files) if case else {})
                cases.append(case)
            elif mark == "@":
                if not case.words and name is None:
                    case.files = {}
                name = text
                case.files[name] = b""
            elif mark == "<":
                with open(os.path.join(TOP, text), "rb") as file:
                    case.files[name] += file.read()
            elif mark == "|":
                case.files[name] += text.encode() + b"\n"
            elif mark == "/":
                case.files[name] += text.encode()
            elif mark == "*":
                count, _, text = text.partition(" ")
                case.files[name] += text.encode() * int(count)
            elif mark == "$":
                case.words, name = shlex.split(text), None
            elif mark == ">":
                case.out += text.encode() + b"\n"
            elif mark == "!":
                case.err += text.encode() + b"\n"
            elif mark == "=":
                case.status = int(text)
            else:
                sys.exit(f"{path}:{number}: no line of a case")
    return cases


def run(program, case, folder):
    """Runs a case in the folder, and answers its status, output and fault stream."""
    for name, text in case.files.items():
        with open(os.path.join(folder, name), "wb") as file:
            file.write(text)
    words, given, taken = list(case.words), subprocess.DEVNULL, subprocess.PIPE
    while len(words) > 1 and words[-2] in ("<", ">"):
        mark, name = words[-2:]
        del words[-2:]
        if mark == "<":
            given = open(os.path.join(folder, name), "rb")
        elif name == "full":
            taken = open("/dev/full", "wb")
        else:
            ours, taken = os.pipe()
            os.close(ours)
    done = subprocess.run(
        [program, *words], cwd=folder, stdin=given, stdout=taken, stderr=subprocess.PIPE, timeout=SECONDS
    )
    if taken not in (subprocess.PIPE,) and isinstance(taken, int):
        os.close(taken)
    return done.returncode, done.stdout or b"", done.stderr


def differs(case, got):
    """What differs from the recorded answer, and nothing where it is the same."""
    told = []
    for what, want, had in zip(("status", "output", "fault stream"), (case.status, case.out, case.err), got):
        if want is not None and want != had:
            told.append(f"  {what}: recorded {want!r}, answered {had!r}")
    return told


def main():
    if len(sys.argv) < 2:
        print(__doc__)
        return 2
    program = os.path.abspath(sys.argv[1])
    folder = os.path.join(TOP, "answers")
    paths = sys.argv[2:] or [os.path.join(folder, it) for it in sorted(os.listdir(folder)) if it.endswith(".txt")]
    passed = failed = 0
    for path in paths:
        for case in cases_of(path):
            with tempfile.TemporaryDirectory() as room:
                told = differs(case, run(program, case, room))
            passed, failed = passed + (not told), failed + bool(told)
            if told:
                print(f"{path}: {case.title}", *told, sep="\n")
    print(f"{passed} passed, {failed} failed")
    return 1 if failed else 0


sys.exit(main())
