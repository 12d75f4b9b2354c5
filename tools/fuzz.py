#!/usr/bin/env python3
"""Feeds the built program with mutated inputs, and checks what can be checked of any answer.

    fuzz.py PROGRAM [--beside OTHER] [--inputs N] [--seed S] [--jobs J] [--bytes B] [--seconds T] [--keep FOLDER]

Each input is one of examples/, of the texts in answers/ or of the random sources of programs.py, changed at some bytes, tokens or lines,
with numbers at the limits of the language in the place of others, or with a part of another text. One in twenty is a list of words over
small texts. The program runs on it in several modes, each run in at most T seconds (10) and B bytes (2 GiB; 0 is no limit). Rules:

- no run ends by a signal or takes longer, and OTHER, the program as another compiler builds it, answers the same;
- the exit status and the fault line agree, a place lies in the text, and after a refusal the output is empty;
- where `hier` is refused, every mode of a source is refused with the same line; else each mode has only the refusals of its own, and
  those by numbers come exactly where the numbers of `count` pass the limit;
- `expand` of `hier` is `flat`; only replaced gates can make a module too long for it;
- the numbers of `count` are those of the lines of `flat`, with the longest chain of them, by durations too, and `weight` is their sum;
- the lines of probes tell of the gate lines;
- `check` of `flat` and `schedule` is legal, short lists have exactly the schedule by the order, and `Narrow` is the first wide gate;
- `open` is the text of the gates of `flat`, and `reopen` of it the flat text of what was read;
- `cancel` is the shortened list of `flat`;
- `coarse` is the schedule of the items of `hier`, where these are few, and `NarrowItem` the first wide one;
- what `expand` and `reopen` write is a flat text that `check` reads.

Inputs that break a rule are written to FOLDER. The last line is `N inputs, M runs, K broken`, and the exit status is 1 where K is not 0.
"""
import argparse
import collections
import concurrent.futures
import itertools
import os
import random
import re
import resource
import subprocess
import sys
import tempfile

import flat_lists
import machines
import programs

TOP = os.path.dirname(os.path.dirname(os.path.abspath(__file__)))
LIMIT = 20000  # gates written flat
LISTED = 4194304
NUMBERS = [0, 1, 2, 3, 15, 16, 17, 63, 64, 65, 126, 127, 128, 129, 254, 255, 256, 257, 65535, 65536, 65537, 1000000, 1000001, 1048575,
           1048576, 1048577, 4194303, 4194304, 4194305, 10000000, 4294967295, 4294967296, 9223372036854775807, 9223372036854775808,
           18446744073709551615, 18446744073709551616, 2**128 - 1, 2**128]
WORDS = ["qbit", "cbit", "int", "double", "if", "else", "while", "for", "return", "module", "classical", "main", "H", "CNOT", "Toffoli",
         "Fredkin", "Rz", "PrepX", "PrepZ", "MeasX", "MeasZ", "M_PI", "(", ")", "[", "]", "{", "}", ";", ",", "=", "+", "-", "*", "/", "%",
         "<<", ">>", "<", "==", "&&", "||", "?", ":", "!", "~", "&", "|", "^", "++", "+=", "0", "1", "2", "ext", "low"]
ARGUMENTS = ["hier", "flat", "count", "schedule", "expand", "check", "drill", "coarse", "open", "reopen", "cancel", "--keep", "--kinds",
             "--burst", "--window", "--reach", "--limit", "--times", "--regions", "--width", "--order", "rcp", "lpfs", "--", "-", "", "a", "b",
             "f", "s", "X=1", "T=2,Tdag=3", "T=0", "1", "0", "=", "--help", "-h", "--order=lpfs", "--keep=1", "./a", "/", "a\n", "\u00e9"]
STATUS = {
    1: "BadByte OpenComment BadNumber BadDefine Syntax UnknownName Redefined WrongKind WrongCount MeasuredUse BadWidth NoMain Overflow "
       "DivZero OutOfRange BadSize BadLength Repeated BadQasm BadSchedule BadOpen",
    2: "Usage Narrow NarrowItem",
    3: "ReadFault",
    4: "Memory",
    5: "SourceTooLarge TooManyTokens TooNested TooWide TooLong TooDeep TooManyInstances CountTooLarge TooManyWires TooManyGates SchedTooLarge",
    7: "WriteFault",
}
STATUS_OF = {name: status for status, names in STATUS.items() for name in names.split()}
FAULT = re.compile(rb"scaff: (?:(\d+):(\d+): |line (\d+): )?([A-Za-z]+)((?: \d+){0,2})\n\Z")
OWN = {  # the refusals of a mode behind those of a source
    "hier": "", "flat": "CountTooLarge TooManyWires TooManyGates", "count": "CountTooLarge",
    "schedule": "CountTooLarge TooManyWires SchedTooLarge Narrow", "coarse": "CountTooLarge SchedTooLarge NarrowItem",
    "open": "CountTooLarge TooManyWires SchedTooLarge", "cancel": "CountTooLarge TooManyWires SchedTooLarge",
}
PROBES = ["kinds", "burst", "window", "reach"]
Way = collections.namedtuple("Way", "program beside seconds")
Answer = collections.namedtuple("Answer", "status out fault line")


class Broken(Exception):
    """A rule that does not hold."""


def must(holds, what):
    if not holds:
        raise Broken(what)


class Room:
    """A folder in which the program runs on the texts that are put there."""

    def __init__(self, way, folder):
        self.way, self.folder, self.runs = way, folder, 0

    def put(self, name, text):
        with open(os.path.join(self.folder, name), "wb") as file:
            file.write(text)

    def text(self, name):
        with open(os.path.join(self.folder, name), "rb") as file:
            return file.read()

    def answer(self, program, words):
        """The status, the output and the fault stream of a program."""
        self.runs += 1
        try:
            done = subprocess.run([program, *words], cwd=self.folder, stdin=subprocess.DEVNULL, capture_output=True, timeout=self.way.seconds)
        except subprocess.TimeoutExpired:
            raise Broken(f"{words}: no end within {self.way.seconds} seconds") from None
        must(done.returncode >= 0, f"{words}: signal {-done.returncode}")
        return done.returncode, done.stdout, done.stderr

    def run(self, *words):
        """Runs the program, and checks its status against its fault line."""
        status, out, err = self.answer(self.way.program, words)
        if self.way.beside:
            other = self.answer(self.way.beside, words)
            must(other == (status, out, err) or 4 in (status, other[0]), f"{words}: {(status, err)}, and the other program {(other[0], other[2])}")
        if status in (0, 6):
            must(not err, f"{words}: status {status}, and on the fault stream {err!r}")
            return Answer(status, out, None, err)
        fault = FAULT.match(err)
        must(fault and STATUS_OF.get(fault[4].decode()) == status, f"{words}: status {status}, and on the fault stream {err!r}")
        must(not out, f"{words}: output after {err!r}")
        self.check_place(fault, words)
        return Answer(status, out, fault[4].decode(), err)

    def check_place(self, fault, words):
        """That the place of a fault lies in a text that was read."""
        line, column = int(fault[1] or fault[3] or 0), int(fault[2] or 1)
        if line:
            texts = [self.text(it).split(b"\n") for it in words[-2 if words[0] == "check" else -1:]]
            fits = [line <= len(it) and (not fault[1] or column <= len(it[line - 1]) + 1) for it in texts]
            must(any(fits) and line >= 1 and column >= 1, f"{words}: no place {fault[0]!r}")


def by_numbers(mode, told):
    """The refusal that the numbers of `count` give a mode, if any."""
    if told is None:
        return "CountTooLarge" if mode != "hier" else None
    if mode in ("flat", "open", "cancel", "schedule") and max(told["qubits"], told["cbits"]) > 4294967295:
        return "TooManyWires"
    if mode == "flat" and told["gates"] > LIMIT:
        return "TooManyGates"
    if mode in ("open", "cancel", "schedule") and told["gates"] > LISTED:
        return "SchedTooLarge"
    return None


def report(text):
    return {line.split(b" ")[0].decode(): int(line.split(b" ")[1]) for line in text.split(b"\n") if b" " in line}


class SourceCase:
    """A source `a` in a room, with the words that were drawn for it."""

    def __init__(self, room, chance):
        self.room, self.chance = room, chance
        self.keep = ["--keep"] if chance.random() < 0.5 else []
        self.probes = [it for it in PROBES if chance.random() < 0.4]
        self.regions, self.width = chance.choice([1, 2, 3, 1000000]), chance.choice([1, 2, 3, 3, 3, 1000000])
        self.order = chance.choice([[], ["--order", "lpfs"], ["--order=rcp"]])
        self.slow = chance.random() < 0.02
        self.times = {it: chance.choice([1, 2, 3, 10, 1000000]) for it in flat_lists.NAMES if chance.random() < 0.1} if chance.random() < 0.4 else {}
        self.machine = machines.Machine(self.regions, self.width, self.order == ["--order", "lpfs"], self.times)

    def asked(self):
        return [f"--{it}" for it in self.probes]

    def run(self, mode, *words):
        return self.room.run(mode, *self.keep, *words, "a")

    def timed(self):
        return ["--times", ",".join(f"{name}={time}" for name, time in self.times.items())] if self.times else []

    def built(self):
        return ["--regions", str(self.regions), "--width", str(self.width), *self.order]

    def check(self):
        """Runs each mode, and compares the answers with one another."""
        hier = self.run("hier")
        count = self.run("count")
        told = report(count.out) if count.status == 0 else None
        timed = self.times_of(told)
        large = told is not None and LIMIT < told["gates"] <= LISTED and not self.slow
        words = {"flat": ["--limit", str(LIMIT), *self.asked()], "coarse": self.built()}
        if not large:
            words.update({"schedule": [*self.built(), *self.timed()], "open": [], "cancel": self.asked()})
        if hier.status != 0:  # they have the front in common: one of them is enough
            words = dict([self.chance.choice(list(words.items()))])
        answers = {"hier": hier, "count": count, **{mode: self.run(mode, *it) for mode, it in words.items()}}
        if any(it.fault == "Memory" for it in answers.values()):
            return
        for mode, answer in answers.items():
            self.check_refusal(mode, answer, hier, told)
        if hier.status == 0 and answers["flat"].status == 0:
            self.check_texts(answers, told, timed)
        if hier.status == 0 and answers["coarse"].fault in (None, "NarrowItem"):
            self.check_coarse(answers["coarse"], hier)

    def check_refusal(self, mode, answer, hier, told):
        """A source that is refused is refused so by every mode; else a refusal is one of the mode's own."""
        if hier.status != 0:
            must(answer.line == hier.line, f"{mode}: {answer.line!r}, and hier: {hier.line!r}")
            return
        must(answer.fault is None or answer.fault in OWN[mode].split(), f"{mode}: {answer.line!r} of an accepted source")
        want = by_numbers(mode, told)
        if mode != "coarse" and want or answer.fault in ("CountTooLarge", "TooManyWires", "TooManyGates"):
            must(answer.fault == want, f"{mode}: {answer.line!r}, and by its numbers {want}")

    def times_of(self, told):
        """The report with durations, where there are any: the same but for the chain, and the weight as the sum of durations."""
        if not told or not self.times:
            return None
        answer = self.run("count", *self.timed())
        weight = sum(told[it] * self.times.get(it, 1) for it in flat_lists.NAMES)
        if answer.status != 0:
            must(answer.fault == "Memory" or answer.fault == "CountTooLarge" and weight >= 2**128, f"count with a weight of {weight}: {answer.line!r}")
            return None
        timed = report(answer.out)
        must({**timed, "critical": 0} == {**told, "critical": 0, "weight": weight}, "the report with durations has other numbers")
        return timed

    def check_texts(self, answers, told, timed):
        """The answers of a source whose flat text is written."""
        flat = flat_lists.FlatText(answers["flat"].out)
        told_of = [line for line in flat.marks]
        want = [flat_lists.probe_line(it, flat.gates) for it in self.probes]
        must(told_of == want, f"the probes tell {told_of}, and not {want}")
        must(told["instances"] == answers["hier"].out.count(b"\nmodule "), "count has other instances than hier")
        must((told["qubits"], told["cbits"], told["gates"]) == flat.numbers, "count has other numbers than flat")
        names = flat.names()
        must(all(told[it] == names[it] for it in flat_lists.NAMES), "count has other names than flat")
        for numbers, times in ((told, {}), (timed, self.times)):
            must(not numbers or numbers["critical"] == max(flat_lists.chains(flat.gates, times), default=0), "critical is not the longest chain")
        must(flat.peak_fits(told["peak"]), "peak is no number of qubits")
        self.check_expand(answers["hier"], flat)
        self.check_schedule(answers["schedule"], flat)
        self.check_open(answers["open"], flat)
        cancelled = flat_lists.FlatText(answers["cancel"].out)
        must(cancelled.gates == flat_lists.shortened(flat.gates), "cancel is not the shortened list")
        must(cancelled.marks == [flat_lists.probe_line(it, cancelled.gates) for it in self.probes], "the probes tell of other gates")

    def check_expand(self, hier, flat):
        self.room.put("h", hier.out)
        answer = self.room.run("expand", "--limit", str(LIMIT), "h")
        if answer.status == 0:
            must(answer.out == flat.plain, "expand of hier is not flat")
        else:
            must(answer.fault in ("TooLong", "SourceTooLarge", "Memory"), f"expand of hier: {answer.line!r}")

    def check_schedule(self, answer, flat):
        wide = self.machine.first_wide(flat.gates)
        if wide is not None:
            must(answer.line == f"scaff: Narrow {wide}\n".encode(), f"schedule: {answer.line!r}, and gate {wide} is the first wide one")
            return
        must(answer.status == 0, f"schedule: {answer.line!r}")
        if len(flat.gates) <= machines.FEW:
            must(answer.out == self.machine.schedule_text(flat.gates), "schedule is not that of the order")
        self.room.put("f", flat.plain)
        self.room.put("s", answer.out)
        verdict = self.room.run("check", "f", "s")
        must((verdict.status, verdict.out) == (0, b"legal\n"), f"the verdict on schedule is {verdict.out!r} {verdict.line!r}")

    def check_open(self, answer, flat):
        must(answer.out == flat_lists.open_text(flat), "open is not the text of the gates")
        self.room.put("o", answer.out)
        back = self.room.run("reopen", "o")
        must(back.status == 0 and back.out == flat_lists.reopened(flat), "reopen of open is not the flat text of its lines")

    def check_coarse(self, answer, hier):
        plain = machines.Machine(self.regions, self.width, self.machine.lpfs)
        narrow = machines.narrow_item(plain, hier.out)
        if narrow or answer.status != 0:
            must(answer.line == f"scaff: NarrowItem {narrow[0]} {narrow[1]}\n".encode(), f"coarse: {answer.line!r}, and {narrow} is the first wide item")
        elif hier.out.count(b"\n") <= machines.FEW:
            must(answer.out == machines.Coarse(plain, hier.out).text(), "coarse is not the schedule of the items")


TEXTS = {
    "hier": (["expand", "--limit", str(LIMIT)], "BadQasm TooWide TooLong TooDeep TooManyInstances CountTooLarge TooManyWires TooManyGates Memory"),
    "flat": (["check"], "BadQasm SchedTooLarge BadSchedule Memory"),
    "sched": (["check", "f"], "BadSchedule Memory"),
    "OPENQASM": (["reopen"], "BadOpen Memory"),
}


def check_text(room, kind):
    """Runs the mode that reads this kind of text; what it writes as a flat text is read."""
    words, faults = TEXTS[kind]
    room.put("f", b"flat 1\nqbits 2\ncbits 0\ngates 2\nH q0\nCNOT q0,q1\n")
    if kind == "flat":
        words = ["check", "a"]
        room.put("s", b"sched 1\nregions 1\nwidth 3\ngates 0\nsteps 0\nend\n")
        fault = room.run("check", "a", "s").fault if b"\n" in room.text("a") else None
        must(fault is None or fault in faults.split(), f"check of a flat text: {fault}")
        return
    answer = room.run(*words, "a")
    must(answer.fault is None or answer.fault in faults.split(), f"{words}: {answer.line!r}")
    if answer.status == 0 and kind != "sched":
        flat = flat_lists.FlatText(answer.out)
        must(len(flat.gates) == flat.numbers[2], "the header has another number of gates")
        room.put("w", answer.out)
        must(room.run("check", "w", "w").fault == "BadSchedule", "what was written is no flat text")


def check_words(room, chance):
    """Runs some words over small texts."""
    for name, text in (("a", b"int main() { qbit q[2]; H(q[0]); CNOT(q[0],q[1]); }\n"), ("b", b"\xff"),
                       ("f", b"flat 1\nqbits 1\ncbits 0\ngates 1\nH q0\n"), ("s", b"sched 1\nregions 1\nwidth 1\ngates 1\nsteps 1\nstep\nregion 0\nend\n")):
        room.put(name, text)
    numbers = [str(it) for it in NUMBERS]
    drawn = [chance.choice(ARGUMENTS if chance.random() < 0.85 else numbers) for _ in range(chance.randrange(1, 8))]
    words = [chance.choice(ARGUMENTS[:11]), *drawn] if chance.random() < 0.9 else drawn
    if words[0] == "drill" and any(it.isdigit() and int(it) > 3000 for it in words):
        return
    room.check_place = lambda fault, words: None
    room.run(*words)


def with_number(text, chance):
    numbers = list(re.finditer(rb"\d+", text))
    if not numbers:
        return text
    number = chance.choice(numbers)
    value = chance.choice(NUMBERS) if chance.random() < 0.7 else abs(int(number[0][:30]) + chance.choice([-1, 1, 2]))
    return text[:number.start()] + str(value).encode() + text[number.end():]


def with_token(text, chance):
    tokens = list(re.finditer(rb"\w+|[^\w\s]+", text))
    if not tokens:
        return text
    token, other = chance.choice(tokens), chance.choice(tokens)
    return text[:token.start()] + other[0] + text[token.end():]


def with_lines(text, chance):
    """A line twice, a line less, two lines in each other's place, or one line many times."""
    lines, kind = text.split(b"\n"), chance.randrange(4)
    here, there = chance.randrange(len(lines)), chance.randrange(len(lines))
    if kind == 0:
        lines.insert(there, lines[here])
    elif kind == 1:
        del lines[here]
    elif kind == 2:
        lines[here], lines[there] = lines[there], lines[here]
    else:
        lines[here:here] = [lines[here]] * chance.choice([2, 3, 17, 130])
    return b"\n".join(lines)


def with_bytes(text, chance):
    at, kind = chance.randrange(len(text) + 1), chance.randrange(4)
    if kind == 0:
        return text[:at] + bytes([chance.randrange(256)]) + text[at + 1:]
    if kind == 1:
        return text[:at] + text[at + chance.randrange(1, 9):]
    if kind == 2:
        return text[:at]
    return text[:at] + f" {chance.choice(WORDS)} ".encode() + text[at:]


def mutated(text, texts, changes, chance):
    """The text with some changes."""
    for _ in range(changes):
        kind = chance.randrange(9)
        if kind < 2:
            text = with_bytes(text, chance)
        elif kind < 4:
            text = with_number(text, chance)
        elif kind < 6:
            text = with_token(text, chance)
        elif kind < 8:
            text = with_lines(text, chance)
        else:
            other = chance.choice(texts)
            at, here = chance.randrange(len(text) + 1), chance.randrange(len(other) + 1)
            text = text[:at] + other[here:here + chance.randrange(200)] + text[at:]
    return text


def seeds():
    """The texts of examples/ and of answers/."""
    found = []
    for name in sorted(os.listdir(os.path.join(TOP, "examples"))):
        with open(os.path.join(TOP, "examples", name), "rb") as file:
            found.append(file.read())
    for name in sorted(os.listdir(os.path.join(TOP, "answers"))):
        text = b""
        with open(os.path.join(TOP, "answers", name), "rb") as file:
            for line in file.read().split(b"\n"):
                if line[:1] in (b"|", b"/"):
                    text += line[2:] + (b"\n" if line[:1] == b"|" else b"")
                elif text and line[:1] != b"*":
                    found.append(text)
                    text = b""
                if line[:1] in (b"?", b"+"):
                    found.append(line.split(b" | ", 1)[-1].lstrip(b"+ "))
    return [text for text in found if text and len(text) < 20000]


def attempt(job):
    """One input: how many runs, and what is broken, if anything."""
    way, text, seed = job
    chance = random.Random(seed)
    with tempfile.TemporaryDirectory() as folder:
        room = Room(way, folder)
        try:
            if text is None:
                check_words(room, chance)
            else:
                room.put("a", text)
                kind = text.split(b" ")[0].decode("latin-1")
                check_text(room, kind) if kind in TEXTS else SourceCase(room, chance).check()
        except Broken as broken:
            return room.runs, str(broken)
    return room.runs, None


def drawn(texts, chance):
    """An input: a text, or nothing for words."""
    kind = chance.random()
    if kind < 0.05:
        return None
    if kind < 0.45:
        return mutated(programs.source(chance), texts, chance.choice([0, 0, 0, 1, 1, 2]), chance)
    return mutated(chance.choice(texts), texts, chance.choice([0, 1, 1, 1, 2, 3, 6]), chance)


def jobs_of(texts, asked):
    """The inputs, each with a seed of its own."""
    way = Way(os.path.abspath(asked.program), asked.beside and os.path.abspath(asked.beside), asked.seconds)
    for number in range(asked.inputs):
        seed = f"{asked.seed}.{number}"
        yield way, drawn(texts, random.Random(seed)), seed


def limited(count):
    if count:
        resource.setrlimit(resource.RLIMIT_AS, (count, count))
    resource.setrlimit(resource.RLIMIT_CORE, (0, 0))


def tell(folder, job, why):
    """Keeps an input that breaks a rule."""
    os.makedirs(folder, exist_ok=True)
    with open(os.path.join(folder, job[2]), "wb") as file:
        file.write(job[1] or b"")
    print(f"{job[2]}: {why}", flush=True)


def main():
    asked = argparse.ArgumentParser(description="feeds the program with mutated inputs")
    asked.add_argument("program")
    asked.add_argument("--beside")
    asked.add_argument("--inputs", type=int, default=1000)
    asked.add_argument("--seed", type=int, default=1)
    asked.add_argument("--jobs", type=int, default=os.cpu_count())
    asked.add_argument("--bytes", type=int, default=2 << 30)
    asked.add_argument("--seconds", type=int, default=10)
    asked.add_argument("--keep", default="broken")
    asked = asked.parse_args()
    runs = broken = 0
    with concurrent.futures.ProcessPoolExecutor(asked.jobs, initializer=limited, initargs=(asked.bytes,)) as pool:
        jobs = jobs_of(seeds(), asked)
        while batch := list(itertools.islice(jobs, 1000)):
            for job, (ran, why) in zip(batch, pool.map(attempt, batch, chunksize=16)):
                runs += ran
                if why:
                    broken += 1
                    tell(asked.keep, job, why)
            print(f"so far: {runs} runs, {broken} broken", flush=True)
    print(f"{asked.inputs} inputs, {runs} runs, {broken} broken")
    return 1 if broken else 0


if __name__ == "__main__":
    sys.exit(main())
