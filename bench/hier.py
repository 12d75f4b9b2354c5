#!/usr/bin/env python3
"""Times `write_hier` on texts of nearly 128 MiB, into a sink that counts bytes.

usage: bench/hier.py [CASE..]
Builds a program in a folder that it drops again, on copies of the crates that it needs. It reads a hierarchical text, and
writes the deck's text again where it is asked to; what reading alone takes is subtracted. The cases are the names in CASES,
by default all of them.
"""
import sys, tempfile
from pathlib import Path
from programs import COUNTER_RT, WORDS_RT, add_program, build, lay_out, measure
from read import MOST, bodies, calls

CRATES = {
    'sc_base': 'itoa',
    'sc_gate': 'sc_base itoa',
    'sc_deck': 'sc_base sc_gate indexmap smallvec',
    'sc_hier': 'sc_base sc_gate sc_deck',
    'sc_read': 'sc_base sc_gate sc_deck',
    'again': 'sc_base sc_hier sc_read',
}

MAIN_RT = '''//! Reads a hierarchical text, and writes it again: the words are what to do, and the file.
#![tactic(auto)]

use sc_base::{Failed, RealShelf, Sink, read_all};
use sc_hier::write_hier;
use sc_read::read_hier;
use std::alloc::Global;
use std::env;
use std::process::ExitCode;

''' + COUNTER_RT + '''
''' + WORDS_RT + '''
/// How many bytes the text of the deck has that the text is read as; all of them, where it is only read.
fn bytes_again(alloc: Global, form: &str, text: &[u8]) -> Option<u64> {
    if text.len() > 134217728 {
        return None;
    }
    let deck = read_hier(alloc, text).ok()?;
    if form != "write" {
        return Some(text.len() as u64);
    }
    let mut out = Counter {
        bytes: 0,
        is_ended: false,
    };
    write_hier(&deck, &mut out).ok()?;
    Some(out.bytes)
}

fn main(rt: HostRuntime) -> ExitCode {
    let alloc = rt.alloc();
    let Some(words) = read_args(&rt) else {
        return ExitCode::from(3);
    };
    let mut shelf = RealShelf::new(rt);
    let Ok(text) = read_all(alloc, &mut shelf, word(&words, 2).as_bytes(), 134217728) else {
        return ExitCode::from(2);
    };
    let text = text.as_bytes();
    match bytes_again(alloc, word(&words, 1), text) {
        Some(bytes) if bytes == text.len() as u64 => ExitCode::from(0),
        _ => ExitCode::from(1),
    }
}
'''

CASES = {
    'toffoli': lambda size: bodies('Toffoli q10000,q20000,q30000\n', size),
    'short': lambda size: bodies('X q0\n', size),
    'repeat': lambda size: bodies('repeat 18446744073709551615 X q0\n', size),
    'calls': lambda size: calls('repeat 1000000 ', size),
}


def main():
    names = sys.argv[1:] or list(CASES)
    with tempfile.TemporaryDirectory() as folder:
        folder = Path(folder)
        program = build(add_program(lay_out(folder, CRATES, 'again'), 'again', MAIN_RT))
        path = folder / 'text'
        for name in names:
            path.write_text(CASES[name](MOST))
            _, read, _, _ = measure(program, ('read', path))
            status, both, _, peak = measure(program, ('write', path))
            print(f'{name} {path.stat().st_size} bytes: status {status}, {both - read:.2f} s of processor time behind {read:.2f} s of reading, peak {peak} MiB', flush=True)


main()
