#!/usr/bin/env python3
"""Times `cancel` at a quarter, a half and all of 4,194,304 gates, with the peak memory.

usage: bench/cancel.py [FORM..]
Builds a program in a folder that it drops again, on copies of sc_base, sc_gate, sc_probe and sc_cancel. The forms are the names in
FORMS, by default all of them. Each is first made and found to be well formed, and no more, and then also cancelled: the difference
is what `cancel` takes, and is printed.
"""
import os, shutil, subprocess, sys, tempfile
from pathlib import Path
from programs import TOP, WORDS_RT, lay_out

MOST = 4194304

# `undone` is X on one wire. In a mirrored list each gate of the first half undoes one of the second, from the middle on. The wires of the
# others are almost all too high for a table by number: they rise, or go over all numbers of 32 bits in no order. `three` is of Toffoli
# gates on wires of their own.
FORMS = ('apart', 'undone', 'mixed', 'mirrored', 'rising', 'rising_three', 'spread', 'spread_three', 'spread_mirrored')

CRATES = {'sc_base': 'itoa', 'sc_gate': 'sc_base itoa', 'sc_probe': 'sc_base sc_gate', 'sc_cancel': 'sc_base sc_gate sc_probe', 'shorter': 'sc_base sc_gate sc_cancel'}

MAIN_RT = r'''//! Makes gates of a form, and takes out the pairs that undo each other: the words are the form, the number of gates, and `made`
//! where they are only made.
#![tactic(auto)]

ghost use Rattle.std.specs.Prelude.{IsTrue};
ghost use Rattle.sc_gate.specs.Gates.{AreWellFormed};

use sc_cancel::cancel;
use sc_gate::{Gate, Kind, Wire, well_formed};
use std::alloc::{AllocError, Global};
use std::env;
use std::process::ExitCode;

/// Its multiples go over all numbers of 32 bits, in no order.
const SPREAD: u32 = 2_654_435_761;

fn spread(number: u32) -> u32 {
    number.wrapping_mul(SPREAD)
}

fn mixed(i: u32) -> Gate {
    let a = spread(i) / 4_294_968;
    match spread(i.wrapping_add(77)) / 536_870_912 {
        0 => Gate::one(Kind::X, Wire::qubit(a)),
        1 => Gate::one(Kind::T, Wire::qubit(a)),
        2 => Gate::one(Kind::Tdag, Wire::qubit(a)),
        3 => Gate::one(Kind::H, Wire::qubit(a)),
        _ => Gate::two(Kind::Cnot, Wire::qubit(a), Wire::qubit(a ^ 1)),
    }
}

/// A Toffoli on the wires that are so many times 3 i, 3 i + 1 and 3 i + 2.
fn three(i: u32, times: u32) -> Gate {
    let first = i.wrapping_mul(3).wrapping_mul(times);
    let second = first.wrapping_add(times);
    Gate::three(Kind::Toffoli, Wire::qubit(first), Wire::qubit(second), Wire::qubit(second.wrapping_add(times)))
}

/// The place from the nearer end of a list.
fn mirror(i: u32, count: u32) -> u32 {
    i.min(count.wrapping_sub(1).wrapping_sub(i))
}

/// Gate i of a form of so many gates.
fn gate(form: &str, i: u32, count: u32) -> Gate {
    match form {
        "apart" => Gate::one(Kind::H, Wire::qubit(i)),
        "undone" => Gate::one(Kind::X, Wire::qubit(0)),
        "mirrored" => Gate::two(Kind::Cnot, Wire::qubit(mirror(i, count) % 1000), Wire::qubit(1000)),
        "spread" => Gate::one(Kind::H, Wire::qubit(spread(i))),
        "rising" => Gate::one(Kind::H, Wire::qubit(i.wrapping_mul(1023))),
        "rising_three" => three(i, 341),
        "spread_three" => three(i, SPREAD),
        "spread_mirrored" => three(mirror(i, count), SPREAD),
        _ => mixed(i),
    }
}

fn make(alloc: Global, form: &str, count: u32) -> Result<Vec<Gate>, AllocError> {
    let mut gates = Vec::with_capacity(alloc, count as usize)?;
    for i in 0..count {
        gates.push(gate(form, i, count))?;
    }
    Ok(gates)
}

/// Whether all gates are well formed.
fn are_well_formed(gates: &[Gate]) -> bool
    ensures { IsTrue result → AreWellFormed gates.now }
{
    for gate in gates {
        let formed = well_formed(gate);
        if !formed {
            return false;
        }
    }
    true
}

/// How many gates stay.
fn count_kept(alloc: Global, gates: &[Gate], is_made: bool) -> Option<usize> {
    if gates.len() > 4_194_304 || !are_well_formed(gates) {
        return None;
    }
    if is_made {
        return Some(gates.len());
    }
    let kept = cancel(alloc, gates).ok()?;
    Some(kept.as_slice().len())
}

''' + WORDS_RT + r'''
fn main(rt: HostRuntime) -> ExitCode {
    let Some(words) = read_args(&rt) else {
        return ExitCode::from(3);
    };
    let count = word(&words, 2).parse::<u32>().unwrap_or(0);
    let Ok(gates) = make(rt.alloc(), word(&words, 1), count) else {
        return ExitCode::from(2);
    };
    let Some(kept) = count_kept(rt.alloc(), &gates, word(&words, 3) == "made") else {
        return ExitCode::from(1);
    };
    let _ = println!(rt; "{kept}");
    ExitCode::from(0)
}
'''


def add_program(crates):
    """Puts the program beside the crates below it, with the proof that a test of tests_low has of the same loop."""
    home = crates / 'shorter'
    (home / 'src').mkdir(parents=True)
    (home / 'src/main.rt').write_text(MAIN_RT)
    tested = TOP / 'crates/tests_low/proofs'
    (home / 'proofs/are_well_formed').mkdir(parents=True)
    shutil.copy(tested / 'Formed.antt', home / 'proofs')
    (home / 'proofs/Lib.antt').write_text('mod Formed\n')
    for path in (tested / 'cancel/are_well_formed').iterdir():
        (home / 'proofs/are_well_formed' / path.name).write_text(path.read_text().replace('tests_low.proofs.cancel', 'shorter.proofs').replace('tests_low', 'shorter'))
    return home


def build(home):
    built = subprocess.run(['rt', 'run'], cwd=home, capture_output=True, text=True)
    program = home / 'out/shorter'
    if not program.exists():
        sys.exit(built.stdout + built.stderr)
    return program


def measure(program, words):
    """What it answers, the least seconds of processor time of three runs, and the peak in MiB."""
    least = None
    for _ in range(3):
        child = subprocess.Popen([program, *map(str, words)], stdout=subprocess.PIPE)
        said = child.stdout.read().decode().strip()
        _, status, usage = os.wait4(child.pid, 0)
        busy = usage.ru_utime + usage.ru_stime
        least = busy if least is None else min(least, busy)
    return said if status == 0 else f'status {status}', least, usage.ru_maxrss // 1024


def main():
    with tempfile.TemporaryDirectory() as folder:
        program = build(add_program(lay_out(Path(folder), CRATES, 'shorter')))
        for form in sys.argv[1:] or FORMS:
            for count in (MOST // 4, MOST // 2, MOST):
                _, made, before = measure(program, (form, count, 'made'))
                kept, busy, peak = measure(program, (form, count))
                print(f'{form} {count}: {kept} stay, {busy - made:.2f} s of processor time, peak {peak} MiB, {before} of them for the gates', flush=True)


main()
