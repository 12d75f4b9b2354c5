#!/usr/bin/env python3
"""Times the built program over sources and texts that are made for load: `program.py [PROGRAM] [NAME ..]`, all where no name is given.

PROGRAM is `crates/scaff/out/scaff` where none is given. Each line tells a name, the words, the least processor seconds and the peak of memory of three
runs, how many bytes are written, and the last line of the answer.
"""
import os
import subprocess
import sys
import tempfile
from pathlib import Path

from read import MOST, bodies

TOP = Path(__file__).resolve().parent.parent
GATES = 4194304


def doubling(levels):
    """X, and so many modules that each call the one before it twice: 2^levels gates."""
    lines = ["module m0(qbit a) { X(a); }"]
    lines += [f"module m{i}(qbit a) {{ m{i - 1}(a); m{i - 1}(a); }}" for i in range(1, levels + 1)]
    return "\n".join(lines) + f"\nint main() {{ qbit q; m{levels}(q); }}\n"


TOFFOLIS = "for (int i = 0; i < {turns}; i++) Toffoli(q[i % {wires}], q[(i + 1) % {wires}], q[(i + 2) % {wires}]);"


def one_body():
    """A million gates in one body, of Toffoli gates that are replaced by 15 gates each."""
    return f"int main() {{ qbit q[1000]; {TOFFOLIS.format(turns=66700, wires=1000)} }}\n"


def ten_million():
    """A thousand calls of a module of 9,990 gates, apart by a gate."""
    return f"module g(qbit *q) {{ {TOFFOLIS.format(turns=666, wires=1000)} }}\nint main() {{ qbit q[1000]; for (int i = 0; i < 1000; i++) {{ g(q); X(q[i]); }} }}\n"


def instances():
    """65,280 instances: keys that differ in a number."""
    return "module g(qbit q, int n) { H(q); } module h(qbit q, int k) { for (int i = 0; i < 256; i++) g(q, 256 * k + i); }\n" \
        "int main() { qbit q; for (int k = 0; k < 254; k++) h(q, k); }\n"


def tokens():
    """Modules of nearly 4,194,304 tokens, of which main calls none."""
    body = "H(a); CNOT(a, b[0]); for (int i = 0; i < n; i++) { T(b[i + 1]); Tdag(b[2 * i]); } if (n > 1) X(b[n - 1]); else Rz(a, 0.5 * n);"
    lines = [f"module m{i}(qbit a, qbit b[], int n) {{ {body} }}" for i in range(44000)]
    return "\n".join(lines) + "\nint main() { qbit q; H(q); }\n"


def many_gates():
    """4,194,240 gates on 64 qubits: 16 calls of a module of Toffoli gates that are replaced by 15 gates each."""
    return f"module g(qbit *q) {{ {TOFFOLIS.format(turns=17476, wires=64)} }}\nint main() {{ qbit q[64]; for (int i = 0; i < 16; i++) g(q); }}\n"


def rows():
    """4,194,304 gates H, 1,024 on each of 4,096 qubits."""
    return "module g(qbit *q) { for (int i = 0; i < 4096; i++) H(q[i]); }\nint main() { qbit q[4096]; for (int i = 0; i < 1024; i++) g(q); }\n"


def flat_list(folder):
    """A list of 4,194,304 gates whose qubits are picked from all 32-bit numbers, and a schedule of one gate a step."""
    with open(folder / "picked.flat", "w") as out:
        out.write(f"flat 1\nqbits 4294967295\ncbits 0\ngates {GATES}\n")
        for i in range(GATES):
            out.write(f"X q{(i * 1048576 + i // 4096) % 4294967291}\n")
    with open(folder / "picked.sched", "w") as out:
        out.write(f"sched 1\nregions 1\nwidth 1\ngates {GATES}\nsteps {GATES}\n")
        for i in range(GATES):
            out.write(f"step\nregion {i}\n")
        out.write("end\n")


def run(program, words, folder):
    """The least seconds and peak of three runs, the bytes written and the last line."""
    best, peak = None, None
    for _ in range(3):
        # a shell in between, since a peak counts what the process was before it became the program
        subprocess.run(["sh", "-c", '/usr/bin/time -o used -f "%U %S %M" "$@" > out 2> said; true', "sh", program, *words], cwd=folder)
        user, system, top = (folder / "used").read_text().splitlines()[-1].split()
        seconds, top = float(user) + float(system), int(top) / 1024
        best = seconds if best is None else min(best, seconds)
        peak = top if peak is None else min(peak, top)
    size = (folder / "out").stat().st_size
    with open(folder / "out", "rb") as text:
        text.seek(max(0, size - 100))
        lines = text.read().splitlines()
    said = (folder / "said").read_text().strip()
    return best, peak, size, (said or (lines[-1].decode() if lines else ""))[:60]


SOURCES = {"ten_million.scf": ten_million, "one_body.scf": one_body, "doubling.scf": lambda: doubling(120), "instances.scf": instances, "tokens.scf": tokens,
           "many.scf": many_gates, "rows.scf": rows}

# hierarchical texts of nearly 128 MiB
TEXTS = {"toffoli.hier": "Toffoli q10000,q20000,q30000\n", "angle.hier": "Rz q0,0.500000000000\n", "short.hier": "X q0\n"}

# each name, its words, and under which name its answer is kept for later ones
CASES = [
    ("flat_ten_million", "flat ten_million.scf", None),
    ("flat_one_body", "flat one_body.scf", None),
    ("flat_tokens", "flat tokens.scf", None),
    ("count_doubling", "count doubling.scf", None),
    ("count_instances", "count instances.scf", None),
    ("coarse_doubling", "coarse --regions 1 --width 1 doubling.scf", None),
    ("schedule_many", "schedule --regions 4 --width 4 many.scf", "many.sched"),
    ("schedule_many_lpfs", "schedule --regions 4 --width 4 --order lpfs many.scf", None),
    ("schedule_rows", "schedule --regions 1000 --width 1000 rows.scf", None),
    ("schedule_rows_one", "schedule --regions 1 --width 1 rows.scf", None),
    ("flat_many", "flat many.scf", "many.flat"),
    ("check_many", "check many.flat many.sched", None),
    ("check_picked", "check picked.flat picked.sched", None),
    ("cancel_many", "cancel many.scf", None),
    ("open_many", "open many.scf", "many.qasm"),
    ("reopen_many", "reopen many.qasm", None),
    ("expand_toffoli", "expand toffoli.hier", None),
    ("expand_angle", "expand angle.hier", None),
    ("expand_short", "expand --limit 100000000 short.hier", None),
    ("drill", "drill 50000", None),
]


def main():
    words = sys.argv[1:]
    program = str(TOP / "crates/scaff/out/scaff")
    if words and words[0] not in {name for name, _, _ in CASES}:
        program = os.path.abspath(words.pop(0))
    with tempfile.TemporaryDirectory() as made:
        folder = Path(made)
        for name, source in SOURCES.items():
            (folder / name).write_text(source())
        if not words or "check_picked" in words:
            flat_list(folder)
        for name, line in TEXTS.items():
            if not words or any(name in asked for case, asked, _ in CASES if case in words):
                (folder / name).write_text(bodies(line, MOST))
        for name, line, kept in CASES:
            if words and name not in words:
                continue
            seconds, peak, size, last = run(program, line.split(), folder)
            print(f"{name:20} {seconds:6.2f} s {peak:6.1f} MiB {size:11} bytes  {line}  | {last}", flush=True)
            if kept:
                (folder / "out").rename(folder / kept)


if __name__ == "__main__":
    main()
