#!/usr/bin/python3
"""Lets QuTiP's reader of OpenQASM (Debian's python3-qutip) read what `open` writes, and compares each gate with `reopen`'s.

usage: bench/openqasm.py PROGRAM [SOURCE..]
PROGRAM is a built `scaff`. The sources are by default those of examples/, and one with every gate. Each is written by `open` and by
`open --keep`. QuTiP knows no `reset`: these lines are taken out before it reads, and counted, and so are the `PrepZ` gates that
`reopen` reads them as. Prints a line for each text, and ends with status 1 where a gate differs. Run it with Debian's own Python.
"""
import subprocess
import sys
import tempfile
from pathlib import Path
from qutip.qip.circuit import Measurement
from qutip.qip.qasm import read_qasm

EVERY_GATE = """int main() {
    qbit q[3]; cbit c[2]; cbit d;
    PrepZ(q[0], 0); PrepZ(q[1], 1); PrepX(q[2], 0); PrepX(q[0], 1);
    X(q[0]); Y(q[1]); Z(q[2]); H(q[0]); S(q[1]); T(q[2]); Sdag(q[0]); Tdag(q[1]);
    CNOT(q[0], q[2]); Toffoli(q[2], q[0], q[1]); Fredkin(q[1], q[2], q[0]);
    Rx(q[0], 0.25); Ry(q[1], -1.5); Rz(q[2], 3.000000000001); Rz(q[0], -0.000000000001);
    c[1] = MeasZ(q[0]); d = MeasX(q[1]); MeasZ(q[2]); MeasX(q[0]);
}
"""

# what QuTiP calls the gates of a flat text
NAMES = {"X": "X", "Y": "Y", "Z": "Z", "H": "SNOT", "S": "S", "T": "T", "Sdag": "sdg", "Tdag": "tdg", "CNOT": "CNOT", "Toffoli": "TOFFOLI",
         "Rx": "RX", "Ry": "RY", "Rz": "RZ"}


def read_by_qutip(text):
    """Its gates, each with its name, its qubits, its angle and its classical bit."""
    circuit = read_qasm(text, strmode=True)
    for gate in circuit.gates:
        if isinstance(gate, Measurement):
            yield "MeasZ", gate.targets, None, gate.classical_store
        else:
            yield gate.name, (gate.controls or []) + gate.targets, gate.arg_value, None


def read_flat(text):
    """The same of the gates of a flat text but its PrepZ. A measurement into no bit has the number behind all others."""
    lines = text.splitlines()
    cbits = int(lines[2].removeprefix("cbits "))
    for line in lines[4:]:
        name, _, rest = line.partition(" ")
        words = rest.split(",")
        qubits = [int(word[1:]) for word in words if word[0] == "q"]
        if name == "MeasZ":
            yield name, qubits, None, int(words[1][1:]) if len(words) > 1 else cbits
        elif name != "PrepZ":
            yield NAMES[name], qubits, float(words[-1]) if name.startswith("R") else None, None


def compare(program, source, options):
    """What is to be told of a source, and whether no gate differs."""
    with tempfile.TemporaryDirectory() as folder:
        path = Path(folder, "a")
        path.write_text(source, encoding="utf-8")
        opened = subprocess.run([program, "open", *options, path], capture_output=True, text=True, check=False)
        if opened.returncode != 0:
            return f"no text, {opened.stderr.strip()}", True
        path.write_text(opened.stdout, encoding="utf-8")
        reopened = subprocess.run([program, "reopen", path], capture_output=True, text=True, check=True)
    lines = opened.stdout.splitlines(keepends=True)
    others = [line for line in lines if not line.startswith("reset ")]
    theirs = list(read_by_qutip("".join(others)))
    ours = list(read_flat(reopened.stdout))
    differ = [i for i, (one, other) in enumerate(zip(theirs, ours)) if one != other]
    told = f"{len(lines)} lines, {len(lines) - len(others)} resets taken out, {len(theirs)} gates"
    if differ:
        return f"{told}: gate {differ[0]} is {theirs[differ[0]]} and not {ours[differ[0]]}", False
    if len(theirs) != len(ours):
        return f"{told} and not {len(ours)}", False
    return f"{told}, each the same", True


def main():
    program = sys.argv[1]
    paths = [Path(path) for path in sys.argv[2:]] or sorted(Path(__file__).resolve().parent.parent.glob("examples/*.scf"))
    sources = {path.stem: path.read_text(encoding="utf-8") for path in paths}
    if len(sys.argv) == 2:
        sources["every gate"] = EVERY_GATE
    all_same = True
    for name, source in sources.items():
        for options in ([], ["--keep"]):
            told, same = compare(program, source, options)
            all_same &= same
            print(f"{' '.join(['open', *options])} of {name}: {told}")
    sys.exit(0 if all_same else 1)


main()
