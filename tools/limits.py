#!/usr/bin/env python3
"""Runs the built program at each of its limits, on each side, and on streams, files, memory and stacks that fail.

    limits.py PROGRAM [--only PART..] [--stack]

Each request at a limit (the parts `words`, `texts` and `sources`) runs four times: as it is, with a stack of 2 MB, with 64 MB of memory,
and with both; in 64 MB it may also answer `Memory`. The part `streams` has outputs that take nothing, files that are none, strange words,
and a file that shrinks while it is read. The part `stacks` has the deepest sources; with --stack their smallest stack is measured too. None may end by a signal. The last line is `N passed, M failed`, and the exit status is 1
where M is not 0.
"""
import argparse
import os
import resource
import signal
import subprocess
import sys
import tempfile
import threading
import time

KIB, MIB = 1024, 1024 * 1024
SECONDS = 60
DOUBLING = "module m(qbit q, int n) { if (n == 0) X(q); else { m(q, n - 1); m(q, n - 1); } } "
FRESH = "module w(int n) { if (n == 0) { qbit t; } else { w(n - 1); w(n - 1); } } "
FRESH_BITS = FRESH.replace("qbit t", "cbit t").replace("w(", "v(")
CHAIN = "module g(qbit q, int n) { if (n > 0) g(q, n - 1); } "
TENFOLD = "module t(qbit q, int n) { if (n == 0) X(q); else for (int i = 0; i < 10; i++) { t(q, n - 1); } } "
FLAT = "flat 1\nqbits 1\ncbits 0\ngates 1\nH q0\n"
EMPTY_FLAT = "flat 1\nqbits 0\ncbits 0\ngates 0\n"
EMPTY_SCHED = "sched 1\nregions 1\nwidth 1\ngates 0\nsteps 0\nend\n"


def main_of(body):
    return f"int main() {{ {body} }}\n"


def nested(count, opening, closing, inner):
    return opening * count + inner + closing * count


def modules(count):
    """A hierarchical text of so many empty modules, of which the last calls all others."""
    heads = "".join(f"module {i} k({i})\nend\n" for i in range(count - 1))
    return f"hier 1\n{heads}module {count - 1} main()\n" + "".join(f"call {i}\n" for i in range(count - 1)) + "end\n"


def tower(count):
    """A hierarchical text of so many modules, each of which calls the one before it."""
    calls = "".join(f"module {i} m({i})\ncall {i - 1}\nend\n" for i in range(1, count - 1))
    return f"hier 1\nmodule 0 m(0)\nend\n{calls}module {count - 1} main()\ncall {count - 2}\nend\n"


def sources():
    """Requests on a source `a`: what is at its limit, words, source, status and fault line."""
    tokens = "int main() { int x = 0" + "+0" * 2097146  # and 12 more, with `; ; }` behind them
    yield "bytes of a source", "flat a", " " * 16777216, 1, "NoMain"
    yield "bytes of a source", "flat a", " " * 16777217, 5, "SourceTooLarge"
    yield "tokens", "count a", f"{tokens}; ; }}", 0, ""
    yield "tokens", "count a", f"{tokens}; ; ; }}", 5, f"1:{len(tokens) + 7}: TooManyTokens"
    yield "semicolons", "count a", ";" * 4194304, 1, "1:1: Syntax"
    yield "semicolons", "count a", ";" * 4194305, 5, "1:4194305: TooManyTokens"
    yield "nesting of parentheses", "count a", main_of(f"int x = {nested(126, '(', ')', '0')};"), 0, ""
    yield "nesting of parentheses", "count a", main_of(f"int x = {nested(127, '(', ')', '0')};"), 5, "1:149: TooNested"
    yield "nesting of blocks", "count a", main_of(nested(128, "{", "}", "")), 0, ""
    yield "nesting of blocks", "count a", main_of(nested(129, "{", "}", "")), 5, "1:142: TooNested"
    yield "nesting of words", "count a", f"classical f(a) : 1 {{ return {nested(127, '(', ')', 'a')}; }} {main_of('')}", 0, ""
    yield "nesting of words", "count a", f"classical f(a) : 1 {{ return {nested(128, '(', ')', 'a')}; }} {main_of('')}", 5, "1:157: TooNested"
    yield "wires", "flat a", main_of("qbit q[65536];"), 0, ""
    yield "wires", "flat a", main_of("qbit q[65537];"), 5, "1:19: TooWide"
    yield "wires of both classes", "flat a", main_of("qbit q[65535]; cbit c;"), 0, ""
    yield "wires of both classes", "flat a", main_of("qbit q[65535]; cbit c, d;"), 5, "1:37: TooWide"
    yield "steps", "hier a", main_of("for (int i = 0; i < 349524; i++) ;"), 0, ""
    yield "steps", "hier a", main_of("for (int i = 0; i < 349525; i++) ;"), 5, "1:42: TooLong"
    yield "depth", "count a", CHAIN + main_of("qbit q; g(q, 254);"), 0, ""
    yield "depth", "count a", CHAIN + main_of("qbit q; g(q, 255);"), 5, "TooDeep"
    instances = "module k(qbit q, int n) { X(q); } int main() { qbit q; for (int i = 0; i < COUNT; i++) k(q, i); }"
    yield "instances", "count a", instances.replace("COUNT", "65535"), 0, ""
    yield "instances", "count a", instances.replace("COUNT", "65536"), 5, "TooManyInstances"
    yield from whole_sources()
    yield from numbers_of_sources()


def whole_sources():
    """The numbers of a whole program."""
    twice = "".join(f"m(q, {i}); " for i in range(128))  # 2^128 - 1 gates
    yield "gates of the whole", "count a", DOUBLING + main_of(f"qbit q; {twice}"), 0, ""
    yield "gates of the whole", "count a", DOUBLING + main_of(f"qbit q; {twice} X(q);"), 5, "CountTooLarge"
    yield "gates of the whole", "flat a", DOUBLING + main_of(f"qbit q; {twice} X(q);"), 5, "CountTooLarge"
    yield "weight", "count --times X=3 a", DOUBLING + main_of("qbit q;" + "".join(f"m(q, {i}); " for i in range(0, 127, 2))), 0, ""
    yield "weight", "count --times X=2 a", DOUBLING + main_of("qbit q; m(q, 127);"), 5, "CountTooLarge"
    for sort, text, name in (("qubits", FRESH, "w"), ("cbits", FRESH_BITS, "v")):
        calls = "".join(f"{name}({i}); " for i in range(128))
        yield f"{sort} of the whole", "count a", text + main_of(calls), 0, ""
        yield f"{sort} of the whole", "count a", text + main_of(f"{calls} {name}(0);"), 5, "CountTooLarge"
        calls = "".join(f"{name}({i}); " for i in range(32))
        yield f"{sort} of a flat list", "flat a", text + main_of(calls), 0, ""
        yield f"{sort} of a flat list", "flat a", text + main_of(f"{calls} {name}(0);"), 5, "TooManyWires"
    yield "gates written flat", "flat a", TENFOLD + main_of("qbit q; t(q, 7);"), 0, ""
    yield "gates written flat", "flat a", TENFOLD + main_of("qbit q; t(q, 7); X(q);"), 5, "TooManyGates"
    yield "gates written flat", "flat --limit 15 a", main_of("qbit q[3]; Toffoli(q[0], q[1], q[2]);"), 0, ""
    yield "gates written flat", "flat --limit 14 a", main_of("qbit q[3]; Toffoli(q[0], q[1], q[2]);"), 5, "TooManyGates"
    twice = "{ Toffoli(q[0], q[1], q[2]); Toffoli(q[2], q[1], q[0]); }"  # no two neighbours are equal
    stretch = f"qbit q[3]; for (int i = 0; i < 139810; i++) {twice} X(q[0]); Y(q[0]); X(q[0]); Y(q[0]);"
    yield "gates of a stretch", "coarse --regions 1 --width 3 a", main_of(stretch), 0, ""
    yield "gates of a stretch", "coarse --regions 1 --width 3 a", main_of(f"{stretch} X(q[0]);"), 5, "SchedTooLarge"
    for words in ("schedule --regions 1 --width 1 a", "open a", "cancel a"):
        yield "gates of a list", words, DOUBLING + main_of("qbit q; m(q, 22);"), 0, ""
        yield "gates of a list", words, DOUBLING + main_of("qbit q; m(q, 22); X(q);"), 5, "SchedTooLarge"


def numbers_of_sources():
    yield "whole numbers", "count a", main_of("int x = 9223372036854775807;"), 0, ""
    yield "whole numbers", "count a", main_of("int x = 9223372036854775808;"), 1, "1:22: BadNumber"
    yield "decimals", "count a", main_of("double x = 9223372.036854775807;"), 0, ""
    yield "decimals", "count a", main_of("double x = 9223372.036854775808;"), 1, "1:25: BadNumber"
    yield "widths", "count a", f"classical f(a[64]) : 64 {{ return a; }} {main_of('')}", 0, ""
    yield "widths", "count a", f"classical f(a[65]) : 64 {{ return a; }} {main_of('')}", 1, "1:15: BadWidth"


def texts():
    """Requests on a text `a`; a number is a file of so many zero bytes."""
    padded = EMPTY_FLAT + "#" * (134217728 - len(EMPTY_FLAT) - 1)
    yield "bytes of a flat text", "check a s", padded + "\n", 0, ""
    yield "bytes of a flat text", "check a s", padded + "#\n", 5, "SourceTooLarge"
    yield "bytes of a schedule", "check f a", 134217728, 1, "line 1: BadSchedule"
    yield "bytes of a schedule", "check f a", 134217729, 5, "SourceTooLarge"
    yield "bytes of a hierarchical text", "expand a", 134217728, 1, "line 1: BadQasm"
    yield "bytes of a hierarchical text", "expand a", 134217729, 5, "SourceTooLarge"
    yield "bytes of an OpenQASM text", "reopen a", 134217728, 1, "line 1: BadOpen"
    yield "bytes of an OpenQASM text", "reopen a", 134217729, 5, "SourceTooLarge"
    yield "modules", "expand a", modules(65536), 0, ""
    yield "modules", "expand a", modules(65537), 5, "line 131074: TooManyInstances"
    yield "depth of modules", "expand a", tower(256), 0, ""
    yield "depth of modules", "expand a", tower(257), 5, "line 770: TooDeep"
    items = "hier 1\nmodule 0 main()\nqbit 1\n" + "H q0\n" * 1048575
    yield "items of a module", "expand a", items + "end\n", 0, ""
    yield "items of a module", "expand a", items + "X q0\nend\n", 5, "line 1048579: TooLong"
    yield "wires of a module", "expand a", "hier 1\nmodule 0 main()\nqbit 65536\nend\n", 0, ""
    yield "wires of a module", "expand a", "hier 1\nmodule 0 main()\nqbit 65536\nqbit 1\nend\n", 5, "line 4: TooWide"
    turns = "hier 2\nmodule 0 f(q)\nend\nmodule 1 main()\nqbit 1\nrepeat COUNT call 0 q0\nend\n"
    yield "turns", "expand a", turns.replace("COUNT", "18446744073709551615"), 0, ""
    yield "turns", "expand a", turns.replace("COUNT", "18446744073709551616"), 1, "line 6: BadQasm"
    yield "qubits of a flat text", "check a s", EMPTY_FLAT.replace("qbits 0", "qbits 4294967295"), 0, ""
    yield "qubits of a flat text", "check a s", EMPTY_FLAT.replace("qbits 0", "qbits 4294967296"), 1, "line 2: BadQasm"
    yield "gates of a flat text", "check a s", EMPTY_FLAT.replace("gates 0", "gates 4194304"), 1, "line 5: BadQasm"
    yield "gates of a flat text", "check a s", EMPTY_FLAT.replace("gates 0", "gates 4194305"), 5, "SchedTooLarge"
    yield "steps of a schedule", "check f a", EMPTY_SCHED.replace("steps 0", "steps 4294967295"), 1, "line 6: BadSchedule"
    yield "steps of a schedule", "check f a", EMPTY_SCHED.replace("steps 0", "steps 4294967296"), 1, "line 5: BadSchedule"
    for word, line in (("regions", 2), ("width", 3)):
        yield f"{word} of a schedule", "check f a", EMPTY_SCHED.replace(f"{word} 1", f"{word} 1000000"), 0, ""
        yield f"{word} of a schedule", "check f a", EMPTY_SCHED.replace(f"{word} 1", f"{word} 1000001"), 1, f"line {line}: BadSchedule"
        yield f"{word} of a schedule", "check f a", EMPTY_SCHED.replace(f"{word} 1", f"{word} 0"), 1, f"line {line}: BadSchedule"
    opened = 'OPENQASM 2.0;\ninclude "qelib1.inc";\nqreg q[COUNT];\n'
    yield "qubits of an OpenQASM text", "reopen a", opened.replace("COUNT", "4294967295"), 0, ""
    yield "qubits of an OpenQASM text", "reopen a", opened.replace("COUNT", "4294967296"), 1, "line 3: BadOpen"


def words():
    """Numbers in the words, over a source `a` of two gates: taken, and refused."""
    source = main_of("qbit q; H(q); X(q);")
    for taken, refused in (
        ("flat --limit 18446744073709551615 a", "flat --limit 18446744073709551616 a"),
        ("flat --limit 00000000000000000002 a", "flat --limit 000000000000000000002 a"),
        ("schedule --regions 1 --width 1 a", "schedule --regions 0 --width 1 a"),
        ("schedule --regions 1000000 --width 1000000 a", "schedule --regions 1000001 --width 1000000 a"),
        ("schedule --regions 1 --width 1000000 a", "schedule --regions 1 --width 1000001 a"),
        ("schedule --regions 1 --width 1 --order lpfs a", "schedule --regions 1 --width 0 a"),
        ("count --times X=1 a", "count --times X=0 a"),
        ("count --times X=1000000,H=1 a", "count --times X=1000001 a"),
        ("drill 1", "drill 0"),
        ("drill 50000", "drill 50001"),
    ):
        yield "numbers of words", taken, source, 0, ""
        yield "numbers of words", refused, source, 2, "Usage"


def limited(stack=None, memory=None):
    def begin():
        resource.setrlimit(resource.RLIMIT_CORE, (0, 0))
        if stack:
            resource.setrlimit(resource.RLIMIT_STACK, (stack, stack))
        if memory:
            resource.setrlimit(resource.RLIMIT_AS, (memory, memory))
    return begin


class Bench:
    """A program in a folder, and what it passed and failed."""

    def __init__(self, program, folder):
        self.program, self.folder, self.passed, self.failed = program, folder, 0, 0

    def put(self, name, text):
        with open(os.path.join(self.folder, name), "wb") as file:
            file.truncate(text) if isinstance(text, int) else file.write(text.encode())

    def run(self, line, out=subprocess.DEVNULL, given=subprocess.DEVNULL, **limits):
        """Runs the program: its status, and its fault line without the first word."""
        done = subprocess.run([self.program, *line.split()], cwd=self.folder, stdin=given, stdout=out, stderr=subprocess.PIPE,
                              timeout=SECONDS, preexec_fn=limited(**limits))
        return done.returncode, done.stderr.decode().removeprefix("scaff: ").strip()

    def see(self, what, got, *wanted):
        fits = got in wanted
        self.passed, self.failed = self.passed + fits, self.failed + (not fits)
        if not fits:
            print(f"{what}: {got}, and not {' or '.join(map(str, wanted))}", flush=True)

    def see_limit(self, what, line, text, status, fault):
        """A request at a limit, in much and in little memory, with much and with little stack."""
        self.put("a", text)
        for limits in ({}, {"stack": 2 * MIB}, {"memory": 64 * MIB}, {"memory": 64 * MIB, "stack": 2 * MIB}):
            scarce = [(4, "Memory")] * ("memory" in limits)
            self.see(f"{what}: {line} {limits}", self.run(line, **limits), (status, fault), *scarce)


def outputs(bench):
    """Outputs that take nothing, for each mode: status 7, and no death by a signal."""
    bench.put("a", main_of("qbit q[3]; H(q[0]); Toffoli(q[0], q[1], q[2]);"))
    for name, line in (("h", "hier a"), ("f", "flat a"), ("s", "schedule --regions 1 --width 3 a"), ("o", "open a")):
        with open(os.path.join(bench.folder, name), "wb") as out:
            bench.run(line, out)
    lines = ["hier a", "flat a", "flat --kinds a", "count a", "schedule --regions 1 --width 3 a", "expand h", "check f s", "drill 3", "open a",
             "reopen o", "cancel --kinds a", "coarse --regions 1 --width 3 a"]
    for line in lines:
        with open("/dev/full", "wb") as full:
            bench.see(f"{line} > /dev/full", bench.run(line, full), (7, "WriteFault"))
        reader, writer = os.pipe()
        os.close(reader)
        bench.see(f"{line} | nobody", bench.run(line, writer), (7, "WriteFault"))
        os.close(writer)
        with open("/dev/null", "rb") as unwritten:
            bench.see(f"{line} > a file to read", bench.run(line, unwritten), (7, "WriteFault"))
        shell = f'"{bench.program}" {line} >&- 2>fault; echo $? $(cat fault)'
        told = subprocess.run(["sh", "-c", shell], cwd=bench.folder, capture_output=True, timeout=SECONDS).stdout
        bench.see(f"{line} >&-", told, b"7 scaff: WriteFault\n")
    shell = f'"{bench.program}" flat none 2>/dev/full; echo $?; "{bench.program}" flat none 2>&-; echo $?'
    told = subprocess.run(["sh", "-c", shell], cwd=bench.folder, capture_output=True, timeout=SECONDS).stdout
    bench.see("a fault stream that takes nothing", told, b"3\n3\n")
    reader, writer = os.pipe()
    os.close(reader)
    done = subprocess.run([bench.program, "flat", "none"], cwd=bench.folder, stdout=subprocess.PIPE, stderr=writer, timeout=SECONDS)
    bench.see("a fault stream that nobody reads", (done.returncode, done.stdout), (3, b""))
    os.close(writer)


def half_read(bench):
    """A reader that goes away, and a file that may not grow: what stands there is a front of the text."""
    bench.put("a", TENFOLD + main_of("qbit q; t(q, 6);"))
    whole = subprocess.run([bench.program, "flat", "a"], cwd=bench.folder, capture_output=True, timeout=SECONDS).stdout
    for count in (1, 4096, 70000, len(whole) // 2):
        with subprocess.Popen([bench.program, "flat", "a"], cwd=bench.folder, stdout=subprocess.PIPE, stderr=subprocess.PIPE) as running:
            front = running.stdout.read(count)
            running.stdout.close()
            fault = running.stderr.read()
        bench.see(f"flat a | head -c {count}", (running.returncode, fault, front == whole[:count]), (7, b"scaff: WriteFault\n", True))

        def begin():
            signal.signal(signal.SIGXFSZ, signal.SIG_IGN)
            resource.setrlimit(resource.RLIMIT_FSIZE, (count, count))
        with open(os.path.join(bench.folder, "out"), "wb") as out:
            done = subprocess.run([bench.program, "flat", "a"], cwd=bench.folder, stdout=out, stderr=subprocess.PIPE, preexec_fn=begin)
        with open(os.path.join(bench.folder, "out"), "rb") as out:
            bench.see(f"a file of {count} bytes", (done.returncode, done.stderr, out.read() == whole[:count]), (7, b"scaff: WriteFault\n", True))


def strange_words(bench):
    """Words that no shell would give."""
    for words, wanted in (([b"flat", b"\xff"], (2, b"")), ([b"\xff"], (2, b"")), ([], (2, b"scaff: Usage\n")), ([b""], (2, b"scaff: Usage\n")),
                          ([b"flat"] + [b"a"] * 100000, (2, b"scaff: Usage\n")), ([b"flat", b"a" * 131000], (3, b"scaff: ReadFault\n")),
                          ([b"flat", b""], (3, b"scaff: ReadFault\n")), ([b"flat", b"--limit=" + b"9" * 131000, b"a"], (2, b"scaff: Usage\n"))):
        done = subprocess.run([os.fsencode(bench.program), *words], cwd=bench.folder, capture_output=True, timeout=SECONDS)
        bench.see(f"{len(words)} words, the last {words[-1:][:20]}", (done.returncode, done.stderr), wanted)


def stuck(bench):
    """A pipe that nobody reads and that does not wait: what stands there is a front of the text."""
    bench.put("a", TENFOLD + main_of("qbit q; t(q, 6);"))
    reader, writer = os.pipe()
    os.set_blocking(writer, False)
    bench.see("flat a > a full pipe", bench.run("flat a", writer), (7, "WriteFault"))
    os.close(writer)
    with os.fdopen(reader, "rb") as pipe:
        front = pipe.read()
    bench.see("a full pipe", front.startswith(b"flat 1\nqbits 1\ncbits 0\ngates 1000000\nX q0\n"), True)


def inputs(bench):
    """Files that are none, and an endless one."""
    for name in (".", "/", "/proc/self/mem", "nothing", "a/b", "x" * 300, "/proc/self/fd/999"):
        for line in (f"flat {name}", f"expand {name}", f"check {name} {name}", f"reopen {name}"):
            bench.see(line[:60], bench.run(line), (3, "ReadFault"))
    bench.see("flat /dev/zero", bench.run("flat /dev/zero"), (5, "SourceTooLarge"))
    bench.see("expand /dev/zero", bench.run("expand /dev/zero"), (5, "SourceTooLarge"))
    bench.see("flat /dev/null", bench.run("flat /dev/null"), (1, "NoMain"))
    for given in ("<&-", "< ."):
        told = subprocess.run(["sh", "-c", f'"{bench.program}" flat - {given} 2>&1; echo $?'], cwd=bench.folder, capture_output=True).stdout
        bench.see(f"flat - {given}", told, b"scaff: ReadFault\n3\n")


def slow_input(bench):
    """Standard input that comes a few bytes at a time, and one that two texts are read from."""
    text = main_of("qbit q[2]; H(q[0]); CNOT(q[0], q[1]);")
    with subprocess.Popen([bench.program, "flat", "-"], stdin=subprocess.PIPE, stdout=subprocess.PIPE) as running:
        for i in range(0, len(text), 7):
            running.stdin.write(text[i:i + 7].encode())
            running.stdin.flush()
            time.sleep(0.002)
        running.stdin.close()
        out = running.stdout.read()
    bench.see("a slow input", (running.returncode, out), (0, b"flat 1\nqbits 2\ncbits 0\ngates 2\nH q0\nCNOT q0,q1\n"))
    with open(os.path.join(bench.folder, "f"), "rb") as given:
        bench.see("check - -", bench.run("check - -", given=given), (1, "line 1: BadSchedule"))


def shrinking(bench):
    """A file that is cut while it is read: the answer to what was read, where a zero byte may stand at the cut."""
    path, text = os.path.join(bench.folder, "a"), " " * 16777000 + main_of("")
    for turn in range(30):
        bench.put("a", text)
        cut = threading.Timer(turn * 0.001, os.truncate, (path, turn * 1000))
        cut.start()
        status, fault = bench.run("count a")
        cut.join()
        bench.see("a file that shrinks", (status, fault.split(" ")[-1]), (0, ""), (1, "NoMain"), (1, "BadByte"))


def deepest():
    """Sources of 256 modules, each of which calls the next from inside 126 nested statements."""
    statements = {"blocks": ("{", "}"), "ifs": ("if (1) ", ""), "elses": ("if (0) ; else ", ""), "fors": ("for (int i = 0; i < 1; i++) ", "")}
    for name, (opening, closing) in statements.items():
        heads = ["int main()", *[f"module m{i}()" for i in range(1, 256)]]
        calls = [*[f"m{i}();" for i in range(1, 256)], ";"]
        yield name, "".join(f"{head} {{ {nested(126, opening, closing, call)} }}\n" for head, call in zip(heads, calls))


def stacks(bench, measured):
    """The deepest sources with a stack of 2 MB, and the smallest stack that they need."""
    for name, text in deepest():
        bench.put("a", text)
        bench.see(f"nested {name}", bench.run("hier a", stack=2 * MIB), (0, ""))
        least, most = 16, 16384
        while measured and most - least > 8:
            middle = (least + most) // 2
            if bench.run("hier a", stack=middle * KIB)[0] < 0:
                least = middle
            else:
                most = middle
        if measured:
            print(f"nested {name}: a stack of {most} KiB is enough, {least} KiB is not", flush=True)


def main():
    parts = ["words", "texts", "sources", "streams", "stacks"]
    asked = argparse.ArgumentParser(description="runs the program at its limits")
    asked.add_argument("program")
    asked.add_argument("--only", nargs="+", choices=parts, default=parts)
    asked.add_argument("--stack", action="store_true")
    asked = asked.parse_args()
    with tempfile.TemporaryDirectory() as folder:
        bench = Bench(os.path.abspath(asked.program), folder)
        bench.put("f", EMPTY_FLAT)
        bench.put("s", EMPTY_SCHED)
        for part, cases in (("words", words), ("texts", texts), ("sources", sources)):
            for case in cases() if part in asked.only else ():
                bench.see_limit(*case)
        for part in (outputs, half_read, stuck, inputs, slow_input, strange_words, shrinking) if "streams" in asked.only else ():
            part(bench)
        if "stacks" in asked.only:
            stacks(bench, asked.stack)
    print(f"{bench.passed} passed, {bench.failed} failed")
    return 1 if bench.failed else 0


if __name__ == "__main__":
    sys.exit(main())
