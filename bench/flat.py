#!/usr/bin/env python3
"""Times `prepare` and `Expander::write` over ten million gates, into a sink that counts bytes.

usage: bench/flat.py
Builds four programs on copies of the crates below sc_flat, in a folder that it drops again, and prints the least seconds
of processor time of three runs and the peak memory of each. The first deck calls a body of four gates and one fresh qubit
2,500,000 times; the second calls a body of one gate ten million times; the third calls a body of 65,000 fresh qubits and
one gate 60,000 times; the last has no gate and shows what a program takes.
"""
import os, shutil, subprocess, tempfile
from pathlib import Path
from programs import COUNTER_RT

top = Path(__file__).resolve().parent.parent

MAIN_RT = '''//! Writes a flat text, and counts its bytes.
#![tactic(auto)]

ghost use Rattle.std.specs.Prelude.{◌≡◌, ◌≤◌, [], ◌∷◌, IfOk};
ghost use Rattle.sc_gate.specs.Kinds.{qubit};
ghost use Rattle.sc_deck.specs.Examples.{h, cnot, g_key};
ghost use Rattle.sc_deck.specs.Keys.{main_key};

use sc_base::{Class, Failed, List, Memory, Sink, Text};
use sc_count::tally_deck;
use sc_deck::{Arg, Body, Deck, Item, Key};
use sc_flat::prepare;
use sc_gate::{Gate, Kind, Times, Wire};
use sc_probe::Probe;
use std::alloc::Global;
use std::process::ExitCode;

''' + COUNTER_RT + '''
fn hadamard(number: u32) -> Gate
    ensures { result ≡ h number }
{
    Gate {
        kind: Kind::H,
        a: Wire::qubit(number),
        b: None,
        c: None,
    }
}

fn controlled_not(control: u32, target: u32) -> Gate
    ensures { result ≡ cnot control target }
{
    Gate {
        kind: Kind::Cnot,
        a: Wire::qubit(control),
        b: Some(Wire::qubit(target)),
        c: None,
    }
}

fn body_of_g(alloc: Global) -> Result<Body, Memory>
    ensures { IfOk result (λ b. b ≡ record { params = record { qubits = 1; cbits = 0 }; items = ITEMS }) }
{
    let mut body = Body::new(alloc, 1, 0);
PUSHES
    Ok(body)
}

fn body_of_main(alloc: Global) -> Result<Body, Memory>
    ensures { IfOk result (λ b. b ≡ record { params = record { qubits = 0; cbits = 0 }; items = Item.Fresh Class.Q 1 ∷ Item.Calls 0 (qubit 0 ∷ []) TURNS ∷ [] }) }
{
    let mut body = Body::new(alloc, 0, 0);
    body.push_fresh(Class::Q, 1)?;
    body.push_calls(0, &[Wire::qubit(0)], TURNS)?;
    Ok(body)
}

fn key_of_g(alloc: Global) -> Result<Key, Memory>
    ensures { IfOk result (λ k. k ≡ g_key) }
{
    let mut args = List::new(alloc);
    args.push(Arg::One(Class::Q))?;
    Ok(Key {
        name: Text::from_bytes(alloc, b"g")?,
        args,
    })
}

fn key_of_main(alloc: Global) -> Result<Key, Memory>
    ensures { IfOk result (λ k. k ≡ main_key) }
{
    Ok(Key {
        name: Text::from_bytes(alloc, b"main")?,
        args: List::new(alloc),
    })
}

fn deck_of_g(alloc: Global) -> Result<Deck, Memory> {
    let mut deck = Deck::new(alloc);
    deck.push_body(key_of_g(alloc)?, body_of_g(alloc)?)?;
    deck.push_body(key_of_main(alloc)?, body_of_main(alloc)?)?;
    Ok(deck)
}

fn bytes_of(alloc: Global, deck: &Deck) -> Option<u64> {
    if !deck.is_whole() {
        return None;
    }
    let tally = tally_deck(alloc, deck, &Times::ones()).ok()?;
    let mut expander = prepare(alloc, deck, &tally, 10_000_000).ok()?;
    let mut none: Vec<Box<dyn Probe>> = Vec::new(alloc);
    let mut out = Counter {
        bytes: 0,
        is_ended: false,
    };
    expander.write(deck, &mut out, none.as_mut_slice()).ok()?;
    Some(out.bytes)
}

fn main(rt: HostRuntime) -> ExitCode {
    let Ok(deck) = deck_of_g(rt.alloc()) else {
        return ExitCode::from(255);
    };
    match bytes_of(rt.alloc(), &deck) {
        Some(bytes) => ExitCode::from((bytes % 200) as u8),
        None => ExitCode::from(255),
    }
}
'''

FOUR = ('Item.Fresh Class.Q 1 ∷ Item.Gates (h 1) 3 ∷ Item.Gate (cnot 1 0) ∷ []',
        '    body.push_fresh(Class::Q, 1)?;\n    body.push_gates(hadamard(1), 3)?;\n    body.push_gate(controlled_not(1, 0))?;')
ONE = ('Item.Gate (h 0) ∷ []', '    body.push_gate(hadamard(0))?;')
WIDE = ('Item.Fresh Class.Q 65000 ∷ Item.Gate (h 1) ∷ []', '    body.push_fresh(Class::Q, 65000)?;\n    body.push_gate(hadamard(1))?;')
NONE = ('[]', '')
DECKS = {'calls': (FOUR, 2_500_000), 'turns': (ONE, 10_000_000), 'wide': (WIDE, 60_000), 'nothing': (NONE, 10_000_000)}


def header(qubits, gates):
    return f'flat 1\nqbits {qubits}\ncbits 0\ngates {gates}\n'


def expected(name):
    """How many bytes the text of a deck has."""
    if name == 'nothing':
        return len(header(1, 0))
    if name == 'turns':
        return len(header(1, 10_000_000)) + 10_000_000 * len('H q0\n')
    if name == 'wide':
        return len(header(3_900_000_001, 60_000)) + sum(len(f'H q{1 + 65000 * i}\n') for i in range(60_000))
    lines = sum(3 * len(f'H q{i}\n') + len(f'CNOT q{i},q0\n') for i in range(1, 2_500_001))
    return len(header(2_500_001, 10_000_000)) + lines


def measure(program):
    """The exit status of a program, the least seconds of processor time of three runs, and its peak memory in MB."""
    best = most = None
    for _ in range(3):
        child = subprocess.Popen([program], stdout=subprocess.DEVNULL)
        _, status, usage = os.wait4(child.pid, 0)
        seconds = usage.ru_utime + usage.ru_stime
        best = seconds if best is None else min(best, seconds)
        most = usage.ru_maxrss if most is None else max(most, usage.ru_maxrss)
    return os.waitstatus_to_exitcode(status), best, most * 1024 / 1e6


def main():
    with tempfile.TemporaryDirectory() as folder:
        folder = Path(folder)
        crates = folder / 'crates'
        below = {line.split(':')[0]: line for line in (top / 'crates.txt').read_text().splitlines() if ':' in line}
        names = ('sc_base', 'sc_gate', 'sc_deck', 'sc_count', 'sc_probe', 'sc_flat')
        lines = [below[name] for name in names]
        for name in names:
            shutil.copytree(top / 'crates' / name, crates / name, ignore=shutil.ignore_patterns('out'))
        (folder / 'HANDLES').write_text((top / 'HANDLES').read_text())
        for name, ((items, pushes), turns) in DECKS.items():
            text = MAIN_RT.replace('ITEMS', items).replace('PUSHES', pushes).replace('TURNS', str(turns))
            (crates / name / 'src').mkdir(parents=True)
            (crates / name / 'src/main.rt').write_text(text)
            lines.append(f'{name}: {" ".join(names)}')
        (folder / 'crates.txt').write_text('\n'.join(lines) + '\n')
        for name in DECKS:
            subprocess.run(['rt', 'run'], cwd=crates / name, stdout=subprocess.DEVNULL, stderr=subprocess.DEVNULL)
            status, seconds, memory = measure(crates / name / 'out' / name)
            print(f'{name}: {seconds:.2f} s, {memory:.1f} MB, bytes {"right" if status == expected(name) % 200 else "wrong"}')


main()
