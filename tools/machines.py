"""Schedules on a machine of k regions of width d, written anew from docs/ to stand beside the program's answers."""
import collections
import math

import flat_lists

FEW = 400  # longer lists are not scheduled here


def kind_of(gate):
    """What all gates of a region have in common: the name, and the angle or start value."""
    return gate.name, gate.more


class Machine:
    """k regions of width d, an order of gates and their durations."""

    def __init__(self, k, d, lpfs=False, times=None):
        self.k, self.d, self.lpfs, self.times = k, d, lpfs, times or {}

    def first_wide(self, gates):
        """The first gate that no region holds, if any."""
        return next((i for i, gate in enumerate(gates) if len(gate.qubits) > self.d), None)

    def ranks(self, gates):
        """The keys by which ready gates are taken, the least first."""
        heights = flat_lists.chains(gates[::-1], self.times)[::-1]
        if self.lpfs:
            ends = flat_lists.chains(gates, self.times)
            heights = [up + end - self.times.get(gate.name, 1) for up, end, gate in zip(heights, ends, gates)]
        return [(-height, i) for i, height in enumerate(heights)]

    def room_of(self, kind):
        """How many gates of a kind a region holds."""
        return self.d // {"Toffoli": 3, "Fredkin": 3, "CNOT": 2}.get(kind[0], 1)

    def regions_of(self, kind, count):
        return math.ceil(count / self.room_of(kind))

    def steps(self, gates):
        """The steps, each a list of regions of positions."""
        ranks, steps = self.ranks(gates), []
        waits, later = collections.Counter(), collections.defaultdict(set)
        last = {}
        for i, gate in enumerate(gates):
            before = {last[it] for it in gate.wires if it in last}
            waits[i] = len(before)
            for it in before:
                later[it].add(i)
            last.update((it, i) for it in gate.wires)
        ready = {i for i in range(len(gates)) if not waits[i]}
        while ready:
            placed = self.step(gates, sorted(ready, key=ranks.__getitem__))
            ready -= {i for it in placed.values() for i in it}
            for i in (i for it in placed.values() for i in it):
                for other in later[i]:
                    waits[other] -= 1
                    if not waits[other]:
                        ready.add(other)
            steps.append(self.cut(placed))
        return steps

    def step(self, gates, ready):
        """The ready gates that are placed in a step, by kind."""
        placed = collections.defaultdict(list)
        for i in ready:
            kind = kind_of(gates[i])
            needed = {it: len(positions) for it, positions in placed.items()}
            needed[kind] = needed.get(kind, 0) + 1
            if sum(self.regions_of(*it) for it in needed.items()) <= self.k:
                placed[kind].append(i)
        return placed

    def cut(self, placed):
        """The regions of a step: kinds by their lowest position, positions in ascending order."""
        regions = []
        for kind, positions in sorted(placed.items(), key=lambda it: min(it[1])):
            size, positions = self.room_of(kind), sorted(positions)
            regions += [positions[i:i + size] for i in range(0, len(positions), size)]
        return regions

    def head(self, name):
        return f"{name} 1\nregions {self.k}\nwidth {self.d}\n"

    def schedule_text(self, gates):
        steps = self.steps(gates)
        lines = "".join(step_text(it) for it in steps)
        return f"{self.head('sched')}gates {len(gates)}\nsteps {len(steps)}\n{lines}end\n".encode()


def step_text(regions):
    return "step\n" + "".join(f"region {' '.join(map(str, it))}\n" for it in regions)


def items_of(text):
    """The modules of a hierarchical text: each its line, and its items as turns with a gate, a callee or nothing."""
    modules = []
    for line in text.decode().split("\n")[1:]:
        words = line.split(" ")
        turns = 1
        if words[0] == "repeat":
            turns, words = int(words[1]), words[2:]
        if words[0] == "module":
            modules.append((line, []))
        elif words[0] == "call":
            modules[-1][1].append((turns, int(words[1])))
        elif words[0] in ("qbit", "cbit"):
            modules[-1][1].append((turns, None))
        elif words[0] not in ("end", ""):
            modules[-1][1].append((turns, flat_lists.gate_of(" ".join(words))))
    return modules


def narrow_item(machine, text):
    """The first instance with a gate item that is too wide, and that item, if any."""
    for number, (_, items) in enumerate(items_of(text)):
        for i, (_, item) in enumerate(items):
            if isinstance(item, flat_lists.Gate) and len(item.qubits) > machine.d:
                return number, i
    return None


class Coarse:
    """The coarse schedules of the modules of a hierarchical text."""

    def __init__(self, machine, text):
        self.machine, self.lengths, self.parts = machine, [], [machine.head("coarse")]
        for line, items in items_of(text):
            self.length, self.blocks, self.stretch = 0, [], []
            for i, (turns, item) in enumerate(items):
                self.add(i, turns, item)
            self.flush()
            self.lengths.append(self.length)
            self.parts.append(f"{line}\nlength {self.length}\n{''.join(self.blocks)}end\n")

    def add(self, i, turns, item):
        """One more item: a plain gate goes into the stretch, fresh wires do nothing, all else stands alone."""
        if item is None:
            return
        if isinstance(item, flat_lists.Gate) and turns == 1:
            self.stretch.append((i, item))
            return
        self.flush()
        self.blocks.append(f"alone {i}\n")
        self.length += turns * (1 if isinstance(item, flat_lists.Gate) else self.lengths[item])

    def flush(self):
        """The steps of the stretch."""
        places = [i for i, _ in self.stretch]
        for regions in self.machine.steps([gate for _, gate in self.stretch]):
            self.blocks.append(step_text([[places[i] for i in it] for it in regions]))
            self.length += 1
        self.stretch = []

    def text(self):
        return "".join(self.parts).encode()
