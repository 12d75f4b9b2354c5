#!/usr/bin/env python3
"""Times `schedule` at a quarter, a half and all of 4,194,304 gates, and `read_schedule` at texts of up to 128 MiB,
with the peak memory.

usage: bench/schedule.py [CASE..]
Builds a program in a folder that it drops again, on copies of sc_base, sc_gate, sc_sched and sc_check, with what is built of
them. The cases are the names in CASES and TEXTS, by default all of them. `gates` makes the gates and no schedule: what it
takes is part of each other case. A case of a text makes the text first; one that ends with `made` does no more.
"""
import shutil, sys, tempfile
from pathlib import Path
from programs import WORDS_RT, add_program, build, measure

top = Path(__file__).resolve().parent.parent

MOST = 4194304

# The form of the gates, k, d and the order.
CASES = {
    'gates': ('apart', 0, 1, 'rcp'),
    'apart_1_1': ('apart', 1, 1, 'rcp'),
    'apart_4_4': ('apart', 4, 4, 'rcp'),
    'apart_1000_1000': ('apart', 1000, 1000, 'rcp'),
    'wide_1_1': ('wide', 1, 1, 'rcp'),
    'wide_4_4': ('wide', 4, 4, 'lpfs'),
    'angles_4_4': ('angles', 4, 4, 'rcp'),
    'angles_1000_1000': ('angles', 1000, 1000, 'rcp'),
    'chains_4_4': ('chains', 4, 4, 'rcp'),
    'chains_4_4_lpfs': ('chains', 4, 4, 'lpfs'),
    'chains_1000_1000': ('chains', 1000, 1000, 'rcp'),
    'line_4_4': ('line', 4, 4, 'rcp'),
    'mixed_4_4': ('mixed', 4, 4, 'rcp'),
    'mixed_4_4_lpfs': ('mixed', 4, 4, 'lpfs'),
    'mixed_1000_1000': ('mixed', 1000, 1000, 'rcp'),
    # Numbers picked so that a hash table of the kit would put them into few of its groups. The two with k = 0 pick and make the gates alone.
    'picked_gates': ('picked', 0, 1, 'rcp'),
    'picked_4_4': ('picked', 4, 4, 'rcp'),
    'picked_angles_gates': ('picked_angles', 0, 1, 'rcp'),
    'picked_angles_4_4': ('picked_angles', 4, 4, 'rcp'),
}

# The greatest number of steps, and one of them.
TEXTS = {
    'one_gate_steps_made': (9586900, 'step;region 0;', 'gates'),
    'one_gate_steps': (9586900, 'step;region 0;'),
    'empty_steps': (26843500, 'step;'),
    'long_numbers': (4329600, 'step;region 0 4194303 1000000;'),
    'wide_steps': (134000, 'step;' + 110 * 'region 1;'),
}

MAIN_RT = r'''//! Makes gates of a form, and their schedule: the words are the form, the number of gates, k, d and the order. Or reads a text:
//! the words are `text`, the number of steps, a step with `;` for a line feed, and `gates` where the text is only made.
#![tactic(auto)]

use sc_base::{Class, Fixed};
use sc_gate::{Gate, Kind, Times, Wire};
use sc_check::read_schedule;
use sc_sched::{Lpfs, Plan, Rcp, schedule};
use std::alloc::{AllocError, Global};
use std::env;
use std::process::ExitCode;

fn qubit(number: u32) -> Wire {
    Wire {
        class: Class::Q,
        number,
    }
}

fn single(kind: Kind, number: u32) -> Gate {
    Gate {
        kind,
        a: qubit(number),
        b: None,
        c: None,
    }
}

fn cnot(control: u32, target: u32) -> Gate {
    Gate {
        kind: Kind::Cnot,
        a: qubit(control),
        b: Some(qubit(target)),
        c: None,
    }
}

/// A number from another, in no order.
fn mix(number: u32) -> u32 {
    let spread = number.wrapping_mul(2_654_435_761);
    (spread ^ (spread >> 15)).wrapping_mul(2_246_822_519) >> 7
}

/// One of several kinds on some of 1000 wires.
fn mixed(i: u32) -> Gate {
    let a = mix(i) % 1000;
    match mix(i.wrapping_add(77)) % 8 {
        0 => single(Kind::X, a),
        1 => single(Kind::T, a),
        2 => single(Kind::Tdag, a),
        3 => single(Kind::H, a),
        4 => single(Kind::Rz(Fixed(i as i64 % 1000)), a),
        _ => cnot(a, (a + 1 + mix(i.wrapping_add(5)) % 999) % 1000),
    }
}

/// Gate i of a form.
fn gate(form: &str, i: u32) -> Gate {
    match form {
        "apart" => single(Kind::H, i),
        "wide" => single(Kind::H, i % 65536),
        "angles" => single(Kind::Rz(Fixed(i as i64)), i),
        "chains" if i % 2 == 0 => single(Kind::H, i % 100),
        "chains" => cnot(i % 100, (i % 100 + 1 + i / 100 % 99) % 100),
        "line" => single(Kind::H, 0),
        _ => mixed(i),
    }
}

fn make(alloc: Global, form: &str, count: u32) -> Result<Vec<Gate>, AllocError> {
    let mut gates = Vec::with_capacity(alloc, count as usize)?;
    for i in 0..count {
        gates.push(gate(form, i))?;
    }
    Ok(gates)
}

/// A turn of the kit's hasher: its state after a number of so many bytes.
fn fold(state: u64, number: u64, size: u64) -> u64 {
    let factor = 0x9e37_79b9_7f4a_7c15u64 ^ (2 * size.min(8));
    let product = u128::from(state ^ number).wrapping_mul(u128::from(factor));
    let low = u64::try_from(product & 0xFFFF_FFFF_FFFF_FFFF).unwrap_or(0);
    let high = u64::try_from(product >> 64).unwrap_or(0);
    low ^ high
}

/// Whether the kit's hash map would begin its look-up in one group of 256, for a wire's number or an angle of Rz.
fn is_picked(x: u32, is_angle: bool) -> bool {
    let seed = 0x243f_6a88_85a3_08d3;
    let number = x as u64;
    let hash = if is_angle {
        fold(fold(seed, 13, 8), number, 8)
    } else {
        fold(seed, number | number << 32, 4)
    };
    (hash ^ (hash >> 32)) % 256 == 0
}

/// H on picked wires, or Rz of picked angles on wires of their own.
fn make_picked(alloc: Global, count: u32, is_angle: bool) -> Result<Vec<Gate>, AllocError> {
    let mut gates = Vec::with_capacity(alloc, count as usize)?;
    for x in 0..u32::MAX {
        if gates.len() >= count as usize {
            return Ok(gates);
        }
        if is_picked(x, is_angle) {
            let number = gates.len() as u32;
            gates.push(if is_angle {
                single(Kind::Rz(Fixed(x as i64)), number)
            } else {
                single(Kind::H, x)
            })?;
        }
    }
    Ok(gates)
}

fn make_form(alloc: Global, form: &str, count: u32) -> Result<Vec<Gate>, AllocError> {
    match form {
        "picked" => make_picked(alloc, count, false),
        "picked_angles" => make_picked(alloc, count, true),
        _ => make(alloc, form, count),
    }
}

/// The schedule by LPFS or RCP.
fn schedule_by(alloc: Global, gates: &[Gate], k: u32, d: u32, by_through: bool) -> Option<Plan> {
    if k < 1 || d < 1 {
        return None;
    }
    let times = Times::ones();
    if by_through {
        schedule(alloc, gates, k, d, &Lpfs, &times).ok()
    } else {
        schedule(alloc, gates, k, d, &Rcp, &times).ok()
    }
}

/// Whether there is a schedule; where k is 0, whether there are gates.
fn has_schedule(alloc: Global, gates: &[Gate], k: u32, d: u32, order: &str) -> bool {
    if k == 0 {
        return gates.len() > 0;
    }
    schedule_by(alloc, gates, k, d, order == "lpfs").is_some()
}

fn push_all(text: &mut Vec<u8>, more: &[u8]) -> Result<(), AllocError> {
    for byte in more {
        text.push(*byte)?;
    }
    Ok(())
}

fn make_text(alloc: Global, step: &str, head: &str, count: u32) -> Result<Vec<u8>, AllocError> {
    let mut text = Vec::with_capacity(alloc, 134_217_728)?;
    push_all(&mut text, head.as_bytes())?;
    for _ in 0..count {
        push_all(&mut text, step.as_bytes())?;
    }
    push_all(&mut text, b"end\n")?;
    Ok(text)
}

/// A word as a number; 0 where it is none.
fn number(words: &[String], i: usize) -> u32 {
    match words.get(i) {
        Some(word) => word.parse::<u32>().unwrap_or(0),
        None => 0,
    }
}

''' + WORDS_RT + r'''
/// Reads a text of so many steps, each of them `step` with `;` for a line feed.
fn has_text(rt: &HostRuntime, words: &[String]) -> bool {
    let Ok(step) = word(words, 3).replace(rt.alloc(), ";", "\n") else {
        return false;
    };
    let Ok(head) = format!(in rt.alloc(); "sched 1\nregions 1\nwidth 1\ngates 4194304\nsteps {}\n", number(words, 2)) else {
        return false;
    };
    let Ok(text) = make_text(rt.alloc(), &step, &head, number(words, 2)) else {
        return false;
    };
    if text.len() > 134_217_728 {
        return false;
    }
    word(words, 4) == "gates" || read_schedule(rt.alloc(), text.as_slice(), 4194304).is_ok()
}

fn main(rt: HostRuntime) -> ExitCode {
    let Some(words) = read_args(&rt) else {
        return ExitCode::from(3);
    };
    if word(&words, 1) == "text" {
        return ExitCode::from(if has_text(&rt, &words) { 0 } else { 1 });
    }
    let Ok(gates) = make_form(rt.alloc(), word(&words, 1), number(&words, 2)) else {
        return ExitCode::from(2);
    };
    if has_schedule(rt.alloc(), &gates, number(&words, 3), number(&words, 4), word(&words, 5)) {
        ExitCode::from(0)
    } else {
        ExitCode::from(1)
    }
}
'''


def without_checks(folder, names):
    """Of a crate's `out` the built library alone."""
    return [name for name in names if Path(folder).name == 'out' and name != 'rlib']


def main():
    names = sys.argv[1:] or [*CASES, *TEXTS]
    with tempfile.TemporaryDirectory() as folder:
        folder = Path(folder)
        crates = folder / 'crates'
        for name in ('sc_base', 'sc_gate', 'sc_sched', 'sc_check'):
            shutil.copytree(top / 'crates' / name, crates / name, ignore=without_checks)
        (folder / 'HANDLES').write_text((top / 'HANDLES').read_text())
        (folder / 'crates.txt').write_text('sc_base: itoa\nsc_gate: sc_base itoa\nsc_sched: sc_base sc_gate\nsc_check: sc_base sc_gate sc_sched\nsteps: sc_base sc_gate sc_sched sc_check\n')
        program = build(add_program(crates, 'steps', MAIN_RT))
        for name in names:
            is_text = name in TEXTS
            most = TEXTS[name][0] if is_text else MOST
            for count in (most // 4, most // 2, most):
                words = ('text', count, *TEXTS[name][1:]) if is_text else (CASES[name][0], count, *CASES[name][1:])
                status, busy, took, peak = measure(program, words)
                print(f'{name} {count}: status {status}, {busy:.2f} s of processor time, {took:.2f} s, peak {peak} MiB', flush=True)


main()
