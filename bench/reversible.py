#!/usr/bin/env python3
"""Times the body of a 32 by 32 product (10,760 gates) and its bit run, in microseconds of processor time each.

usage: bench/reversible.py [--try]
Builds a program in a folder that it drops again, on copies of the crates: proved, or with `--try` unproved, with checks of bounds
and overflow. Without `--try` all the crates below are proved first, which takes minutes.
"""
import os, subprocess, sys, tempfile
from pathlib import Path
from programs import WORDS_RT, add_program, build, lay_out

CRATES = {
    'sc_base': 'itoa',
    'sc_gate': 'sc_base itoa',
    'sc_syntax': 'sc_base',
    'sc_parse': 'sc_base sc_syntax',
    'sc_word': 'sc_base sc_syntax',
    'sc_types': 'sc_base sc_syntax sc_word',
    'sc_deck': 'sc_base sc_gate indexmap smallvec',
    'sc_rev': 'sc_base sc_gate sc_syntax sc_word sc_deck',
    'product': 'sc_base sc_deck sc_syntax sc_parse sc_types sc_word sc_rev',
}

MAIN_RT = '''//! The gates of a product of two words of 32 bits. The words are how often its body is built, and how often its gates are run.
#![tactic(auto)]

use sc_deck::Body;
use sc_parse::parse;
use sc_rev::{reversible, run_bits};
use sc_syntax::lex;
use sc_types::{Checked, check};
use sc_word::TypedFn;
use std::alloc::Global;
use std::env;
use std::process::ExitCode;

const SOURCE: &str = "classical m(a[32], b[32]) : 32 { return a * b; } int main() { }";

fn checked(alloc: Global, source: &[u8]) -> Option<Checked> {
    if source.len() > 16_777_216 {
        return None;
    }
    let tokens = lex(alloc, source).ok()?;
    let tree = parse(alloc, source, &tokens).ok()?;
    check(alloc, tree).ok()
}

fn body_of(alloc: Global, function: &TypedFn) -> Option<Body> {
    if function.wires() > 65536 {
        return None;
    }
    reversible(alloc, function).ok()
}

/// Builds the body so many times more, and runs its gates so many times. Answers the number of its items.
fn work(alloc: Global, function: &TypedFn, builds: u32, runs: u32) -> Option<usize> {
    for _ in 0..builds {
        let _ = body_of(alloc, function)?;
    }
    let body = body_of(alloc, function)?;
    let mut bits = vec![in alloc; true; body.wires() as usize].ok()?;
    for _ in 0..runs {
        run_bits(&body, bits.as_mut_slice());
    }
    Some(body.items().len())
}

''' + WORDS_RT + '''
/// A word as a number; 0 where it is none.
fn number(words: &[String], i: usize) -> u32 {
    word(words, i).parse::<u32>().unwrap_or(0)
}

fn items(rt: &HostRuntime) -> Option<usize> {
    let words = read_args(rt)?;
    let source = checked(rt.alloc(), SOURCE.as_bytes())?;
    let function = source.word(0)?;
    work(rt.alloc(), function, number(&words, 1), number(&words, 2))
}

fn main(rt: HostRuntime) -> ExitCode {
    match items(&rt) {
        Some(10761) => ExitCode::from(0),
        Some(_) => ExitCode::from(2),
        None => ExitCode::from(1),
    }
}
'''


def busy(words):
    '''The seconds of processor time of a run.'''
    child = subprocess.Popen([str(word) for word in words], stdout=subprocess.DEVNULL, stderr=subprocess.DEVNULL)
    _, status, usage = os.wait4(child.pid, 0)
    if os.waitstatus_to_exitcode(status) != 0:
        sys.exit(f'{words}: status {os.waitstatus_to_exitcode(status)}')
    return usage.ru_utime + usage.ru_stime


def main():
    is_tried = '--try' in sys.argv[1:]
    with tempfile.TemporaryDirectory() as folder:
        folder = Path(folder)
        home = add_program(lay_out(folder, CRATES, 'product'), 'product', MAIN_RT)
        words = ['rt', 'try', '--'] if is_tried else [build(home)]
        os.chdir(home)
        least = busy([*words, 0, 0])
        print(f'built in {(busy([*words, 200, 0]) - least) / 200 * 1e6:.0f} us, run in {(busy([*words, 0, 1000]) - least) / 1000 * 1e6:.0f} us')


main()
