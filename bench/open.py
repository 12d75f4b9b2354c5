#!/usr/bin/env python3
"""Times `open`, `reopen` and `cancel` in the built program, at a quarter, a half and all of what they take.

usage: bench/open.py PROGRAM
`open` and `cancel` are given sources of 4,194,304 gates, `reopen` what `open` wrote of these, and texts of 128 MiB. Prints the least
seconds of processor time of three runs, the peak memory, and the bytes of the answer.
"""
import os
import subprocess
import sys
import tempfile
from pathlib import Path

MOST_GATES = 4194304
MOST_BYTES = 134217728

# four gates of each form
FORMS = {
    "one_wire": "H(q[0]); T(q[0]); X(q[0]); S(q[0]);",
    "several": "H(q[i % 100]); Rz(q[i % 60000], 1.25); CNOT(q[i % 70], q[70 + i % 80]); X(q[i % 7]);",
    "pairs": "H(q[i % 100]); CNOT(q[i % 70], q[70 + i % 80]); CNOT(q[i % 70], q[70 + i % 80]); H(q[i % 100]);",
}

LINES = ("h q[0];\n", "ccx q[0],q[1],q[2];\n", "rz(0.123456789012) q[2];\n", "measure q[0] -> u[0];\n")


def source(form, gates):
    """Calls of a module of 65,536 gates."""
    return f"module g(qbit *q) {{ for (int i = 0; i < 16384; i++) {{ {FORMS[form]} }} }}\n" \
        f"int main() {{ qbit q[60000]; for (int i = 0; i < {gates // 65536}; i++) g(q); }}\n"


def text(line, size):
    front = 'OPENQASM 2.0;\ninclude "qelib1.inc";\nqreg q[3];\ncreg u[1];\n'
    return front + line * ((size - len(front)) // len(line))


def measure(words, out):
    least = None
    for _ in range(3):
        with open(out, "wb") as answer:
            child = subprocess.Popen(list(map(str, words)), stdout=answer)
            _, status, usage = os.wait4(child.pid, 0)
        busy = usage.ru_utime + usage.ru_stime
        least = busy if least is None else min(least, busy)
    told = f"{os.path.getsize(out)} bytes" if status == 0 else f"status {os.waitstatus_to_exitcode(status)}"
    return f"{least:.2f} s of processor time, peak {usage.ru_maxrss // 1024} MiB, {told}"


def main():
    program = sys.argv[1]
    with tempfile.TemporaryDirectory() as folder:
        given, opened, out = (Path(folder, name) for name in ("given", "opened", "out"))
        for form in FORMS:
            for gates in (MOST_GATES // 4, MOST_GATES // 2, MOST_GATES):
                given.write_text(source(form, gates), encoding="utf-8")
                print(f"open {form} {gates}: {measure((program, 'open', given), opened)}", flush=True)
                print(f"reopen of it: {measure((program, 'reopen', opened), out)}", flush=True)
                print(f"cancel {form} {gates}: {measure((program, 'cancel', given), out)}", flush=True)
        for line in LINES:
            for size in (MOST_BYTES // 4, MOST_BYTES // 2, MOST_BYTES):
                given.write_text(text(line, size), encoding="utf-8")
                print(f"reopen {line.strip()} {size // 1048576} MiB: {measure((program, 'reopen', given), out)}", flush=True)


main()
