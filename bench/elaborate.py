#!/usr/bin/env python3
"""Measures the elaborator in the built program: `elaborate.py PROGRAM` runs `hier` or `count` over sources that are made for load, and
prints for each the processor seconds, the memory at most, and the first and the last line of the answer. `elaborate.py --write NAME` writes
a source."""
import os
import resource
import subprocess
import sys
import tempfile


def deep():
    """256 modules, each of which calls the next from inside 126 nested loops: the most stack of all sources that were tried."""
    parts = []
    for i in range(255, -1, -1):
        head = "int main()" if i == 0 else f"module m{i}()"
        call = f"m{i + 1}();" if i < 255 else ";"
        parts.append(f"{head} {{ {'for (int i = 0; i < 1; i++) ' * 126}{call} }}\n")
    return "".join(parts)


def steps():
    """A loop of 1,048,576 steps in one body."""
    return "int main() { for (int i = 0; i < 349524; i++) ; }\n"


def instances():
    """65,536 instances of one gate each, with main: keys that differ in a number."""
    return "module g(qbit q, int n) { H(q); } module h(qbit q, int k) { for (int i = 0; i < 256; i++) g(q, 256 * k + i); }\n" \
        "int main() { qbit q; for (int k = 0; k < 254; k++) h(q, k); }\n"


def equal_calls():
    """300,000 equal calls, which are one item with turns."""
    return "module g(qbit q) { H(q); } int main() { qbit q; for (int i = 0; i < 300000; i++) g(q); }\n"


def wide_calls():
    """A module of 65,536 wires called 1,000 times."""
    return "module g(qbit *q) { H(q[0]); } int main() { qbit q[65536]; for (int i = 0; i < 1000; i++) g(q); }\n"


def apart_calls():
    """The same in turn with a gate, so that each call is an item of its own."""
    return "module g(qbit *q) { H(q[0]); } int main() { qbit q[65536]; for (int i = 0; i < 1000; i++) { g(q); X(q[1]); } }\n"


def recursion():
    """2^33 calls in 35 instances."""
    return "module t(qbit q, int n) { if (n == 0) T(q); else { t(q, n - 1); H(q); t(q, n - 1); } } int main() { qbit q; t(q, 33); }\n"


def million_gates():
    """A million gates in one body, of Toffoli gates that are replaced."""
    return "int main() { qbit q[3]; for (int i = 0; i < 66700; i++) Toffoli(q[0], q[1], q[2]); }\n"


SOURCES = {"deep": (deep, "hier"), "steps": (steps, "hier"), "instances": (instances, "count"), "equal_calls": (equal_calls, "hier"),
           "wide_calls": (wide_calls, "count"), "apart_calls": (apart_calls, "count"), "recursion": (recursion, "count"), "million_gates": (million_gates, "flat")}


def measure(program, mode, source):
    with tempfile.TemporaryDirectory() as folder:
        path = os.path.join(folder, "a")
        with open(path, "w", encoding="utf-8") as file:
            file.write(source)
        before = resource.getrusage(resource.RUSAGE_CHILDREN)
        done = subprocess.run([program, mode, path], capture_output=True, check=False)
        after = resource.getrusage(resource.RUSAGE_CHILDREN)
    seconds = after.ru_utime + after.ru_stime - before.ru_utime - before.ru_stime
    lines = (done.stdout or done.stderr).decode().splitlines()
    return seconds, after.ru_maxrss // 1024, done.returncode, lines


def main():
    if len(sys.argv) == 3 and sys.argv[1] == "--write":
        sys.stdout.write(SOURCES[sys.argv[2]][0]())
        return
    for name, (make, mode) in SOURCES.items():
        seconds, memory, status, lines = measure(sys.argv[1], mode, make())
        print(f"{name}: {mode} {seconds:.3f} s, at most {memory} MiB so far, status {status}, {lines[0][:60]!r} .. {lines[-1][:60]!r}")


main()
