#!/usr/bin/env python3
"""Times `write_gate` over ten million gates into a sink that counts bytes, beside the same loop in plain Rust.

usage: bench/write_gate.py
Builds both in a folder that it drops again: the first on copies of sc_base and sc_gate, the second with rustc -O.
"""
import os, shutil, subprocess, tempfile, time
from pathlib import Path
from programs import COUNTER_RT

top = Path(__file__).resolve().parent.parent

MAIN_RT = '''//! Writes ten million gate lines, and counts their bytes.
#![tactic(auto)]

use sc_base::{Class, Failed, Sink};
use sc_gate::{Gate, Kind, Wire, write_gate};
use std::process::ExitCode;

''' + COUNTER_RT + '''
fn qubit(number: u32) -> Wire {
    Wire {
        class: Class::Q,
        number,
    }
}

fn main(rt: HostRuntime) -> ExitCode {
    let mut out = Counter {
        bytes: 0,
        is_ended: false,
    };
    for i in 0u32..10_000_000 {
        let gate = if i % 2 == 0 {
            Gate {
                kind: Kind::H,
                a: qubit(i % 65536),
                b: None,
                c: None,
            }
        } else {
            Gate {
                kind: Kind::Cnot,
                a: qubit(i % 65536),
                b: Some(qubit((i / 7) % 65536)),
                c: None,
            }
        };
        if out.is_ended {
            break;
        }
        let _ = write_gate(&gate, &mut out);
    }
    let _ = rt;
    ExitCode::from((out.bytes % 200) as u8)
}
'''

MAIN_RS = '''// The same lines by hand: a buffer on the stack, and digits from the right.
use std::hint::black_box;

fn put(line: &mut [u8; 80], mut at: usize, mut number: u32) -> usize {
    let (mut digits, mut first) = ([0u8; 10], 10);
    loop {
        first -= 1;
        digits[first] = b'0' + (number % 10) as u8;
        number /= 10;
        if number == 0 {
            break;
        }
    }
    line[at..at + 10 - first].copy_from_slice(&digits[first..]);
    at += 10 - first;
    at
}

fn text(line: &mut [u8; 80], at: usize, piece: &[u8]) -> usize {
    line[at..at + piece.len()].copy_from_slice(piece);
    at + piece.len()
}

fn main() {
    let mut bytes = 0u64;
    for i in 0u32..10_000_000 {
        let mut line = [0u8; 80];
        let mut at = text(&mut line, 0, if i % 2 == 0 { b"H q" } else { b"CNOT q" });
        at = put(&mut line, at, i % 65536);
        if i % 2 == 1 {
            at = text(&mut line, at, b",q");
            at = put(&mut line, at, (i / 7) % 65536);
        }
        at = text(&mut line, at, b"\\n");
        bytes += black_box(&line[..at]).len() as u64;
    }
    std::process::exit((bytes % 200) as i32);
}
'''


def seconds(program):
    """The exit status of a program, and the least seconds of processor time of three runs."""
    best = None
    for _ in range(3):
        child = subprocess.Popen([program], stdout=subprocess.DEVNULL)
        _, status, usage = os.wait4(child.pid, 0)
        best = usage.ru_utime if best is None else min(best, usage.ru_utime)
    return os.waitstatus_to_exitcode(status), best


def main():
    with tempfile.TemporaryDirectory() as folder:
        folder = Path(folder)
        crates = folder / 'crates'
        for name in ('sc_base', 'sc_gate'):
            shutil.copytree(top / 'crates' / name, crates / name, ignore=shutil.ignore_patterns('out'))
        (folder / 'HANDLES').write_text((top / 'HANDLES').read_text())
        (folder / 'crates.txt').write_text('sc_base: itoa\nsc_gate: sc_base itoa\nlines: sc_base sc_gate\n')
        (crates / 'lines/src').mkdir(parents=True)
        (crates / 'lines/src/main.rt').write_text(MAIN_RT)
        (folder / 'main.rs').write_text(MAIN_RS)
        subprocess.run(['rt', 'run'], cwd=crates / 'lines', stdout=subprocess.DEVNULL, stderr=subprocess.DEVNULL)
        subprocess.run(['rustc', '-O', '-o', folder / 'plain', folder / 'main.rs'], check=True)
        ours, plain = seconds(crates / 'lines/out/lines'), seconds(folder / 'plain')
    print(f'write_gate {ours[1]:.2f} s, plain Rust {plain[1]:.2f} s; bytes {"alike" if ours[0] == plain[0] else "differ"}')


main()
