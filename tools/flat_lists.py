"""Flat texts and what can be told of their gates, written anew from docs/ to stand beside the program's answers."""
import collections

NAMES = "X Y Z H S T Sdag Tdag CNOT Toffoli Fredkin Rx Ry Rz PrepX PrepZ MeasX MeasZ".split()
UNDO = {it: it for it in "X Y Z H CNOT Toffoli Fredkin".split()} | {"S": "Sdag", "Sdag": "S", "T": "Tdag", "Tdag": "T"}
OPEN_NAMES = dict(zip(NAMES, "x y z h s t sdg tdg cx ccx - rx ry rz".split()))
OPEN_HEAD = b'OPENQASM 2.0;\ninclude "qelib1.inc";\n'

# a gate line: its name, its wires as they are written, and its angle or start value
Gate = collections.namedtuple("Gate", "name wires more")
Gate.qubits = property(lambda gate: [int(it[1:]) for it in gate.wires if it[0] == "q"])


def gate_of(line):
    name, _, parts = line.partition(" ")
    parts = parts.split(",")
    wires = [it for it in parts if it[:1] in ("q", "c")]
    return Gate(name, tuple(wires), ",".join(parts[len(wires):]))


def line_of(gate):
    return f"{gate.name} " + ",".join([*gate.wires, *[gate.more] * (gate.more != "")])


def flat_text(qubits, cbits, gates):
    lines = ["flat 1", f"qbits {qubits}", f"cbits {cbits}", f"gates {len(gates)}", *map(line_of, gates)]
    return "".join(f"{line}\n" for line in lines).encode()


class FlatText:
    """A flat text: its numbers, its gates, and its lines that begin with `#`."""

    def __init__(self, text):
        lines = text.decode().split("\n")[:-1]
        self.numbers = tuple(int(lines[i].split(" ")[1]) for i in (1, 2, 3))
        self.marks = [it for it in lines[4:] if it.startswith("#")]
        plain = [it for it in lines if not it.startswith("#")]
        self.gates = [gate_of(it) for it in plain[4:]]
        self.plain = "".join(f"{it}\n" for it in plain).encode()

    def names(self):
        return collections.Counter(gate.name for gate in self.gates)

    def peak_fits(self, peak):
        """The peak counts live qubits: no gate touches more, and there are no more in all."""
        return max([len(gate.qubits) for gate in self.gates], default=0) <= peak <= self.numbers[0]


def chains(gates, times):
    """For each gate, the duration of the longest chain that ends at it; in a chain each gate shares a wire with the next one."""
    ends, found = {}, []
    for gate in gates:
        end = times.get(gate.name, 1) + max(ends.get(it, 0) for it in gate.wires)
        ends.update((it, end) for it in gate.wires)
        found.append(end)
    return found


def kinds_of(gates):
    names = collections.Counter(gate.name for gate in gates)
    return "".join(f" {it}={names[it]}" for it in NAMES if names[it])


def burst_of(gates):
    best, start = (0, None, None), 0
    for i, gate in enumerate(gates):
        if gate.name != gates[start].name:
            start = i
        if i + 1 - start > best[0]:
            best = (i + 1 - start, gate.name, start)
    return " 0" if not gates else f" {best[0]} {best[1]} {best[2]}"


def window_of(gates):
    marked = [gate.name in ("T", "Tdag") for gate in gates]
    return f" {max([sum(marked[i:i + 16]) for i in range(len(marked))], default=0)}"


def reach_of(gates):
    spans = [max(gate.qubits) - min(gate.qubits) for gate in gates]
    most = max(spans, default=0)
    return f" {most} {spans.index(most)}" if most else " 0"


def probe_line(rule, gates):
    """The line of a probe over the gates."""
    return f"# {rule}" + {"kinds": kinds_of, "burst": burst_of, "window": window_of, "reach": reach_of}[rule](gates)


def shortened(gates):
    """The gates that stay: each is taken out with the last kept gate on its wires, where the two undo each other."""
    kept, at = [], collections.defaultdict(list)
    for i, gate in enumerate(gates):
        last = max((at[it][-1] for it in gate.wires if at[it]), default=None)
        if last is not None and UNDO.get(gate.name) == gates[last].name and gate.wires == gates[last].wires:
            for it in gate.wires:
                at[it].pop()
            kept.remove(last) if kept[-1] != last else kept.pop()
        else:
            for it in gate.wires:
                at[it].append(i)
            kept.append(i)
    return [gates[i] for i in kept]


def lowered(gates):
    """Preparations as resets, measurements in X behind an H, and Fredkins written out."""
    for gate in gates:
        a = gate.wires[0]
        if gate.name in ("PrepX", "PrepZ"):
            yield Gate("Reset", (a,), "")
            yield from [Gate("X", (a,), "")] * (gate.more == "1")
            yield from [Gate("H", (a,), "")] * (gate.name == "PrepX")
        elif gate.name == "MeasX":
            yield from (Gate("H", (a,), ""), Gate("MeasZ", gate.wires, ""), Gate("H", (a,), ""))
        elif gate.name == "Fredkin":
            b, c = gate.wires[1:]
            yield from (Gate("CNOT", (c, b), ""), Gate("Toffoli", (a, b, c), ""), Gate("CNOT", (c, b), ""))
        else:
            yield gate


def open_line(gate, spare):
    wires = [f"{it[0]}[{it[1:]}]" for it in gate.wires]
    if gate.name == "Reset":
        return f"reset {wires[0]};\n"
    if gate.name == "MeasZ":
        return f"measure {wires[0]} -> {(wires + [spare])[1]};\n"
    angle = f"({gate.more})" if gate.more else ""
    return f"{OPEN_NAMES[gate.name]}{angle} {','.join(wires)};\n"


def open_text(flat):
    """The OpenQASM text of a flat text."""
    gates = list(lowered(flat.gates))
    qubits, cbits = flat.numbers[:2]
    text = [f"qreg q[{qubits}];\n"] * (qubits > 0) + [f"creg c[{cbits}];\n"] * (cbits > 0)
    text += ["creg u[1];\n"] * any(it.name == "MeasZ" and len(it.wires) == 1 for it in gates)
    return OPEN_HEAD + "".join(text + [open_line(it, "u[0]") for it in gates]).encode()


def reopened(flat):
    """The flat text of what is read of `open_text`."""
    gates = [Gate("PrepZ", it.wires, "0") if it.name == "Reset" else it for it in lowered(flat.gates)]
    return flat_text(*flat.numbers[:2], gates)
