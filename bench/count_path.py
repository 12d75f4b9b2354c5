#!/usr/bin/env python3
"""Times the counts and the path tables of large programs, with the peak memory of each case.

usage: bench/count_path.py [CASE..]
Proves and builds a test of each case, in a folder that it drops again, on copies of the crates and of the modules of
`crates/tests_path` that build bodies. Prints, of three runs, how long the counts and the tables took, the processor time of the
whole program, which builds the bodies too, and its peak memory. The cases are the names in CASES, by default all of them. The
case `nothing` shows what a program takes.
"""
import os, shutil, subprocess, sys, tempfile
from pathlib import Path
from programs import TOP, lay_out

CRATES = {
    'sc_base': 'itoa',
    'sc_gate': 'sc_base itoa',
    'sc_deck': 'sc_base sc_gate indexmap smallvec',
    'sc_count': 'sc_base sc_gate sc_deck',
    'sc_path': 'sc_base sc_gate sc_deck smallvec',
    'tests_path': 'sc_base sc_gate sc_deck sc_count sc_path',
}

MODULES = ('bodies', 'known', 'large')

LIB_RT = '''//! Times of counts and path tables.
#![tactic(auto)]

#[cfg(test)]
mod bodies;
#[cfg(test)]
mod known;
#[cfg(test)]
mod large;
#[cfg(test)]
mod sizes;
'''

SIZES_RT = '''//! Large programs.
use crate::bodies::{Step, body_of, push_gate};
use crate::known::{last_counts, paths_of};
use crate::large::{many, wide};
use sc_deck::Body;
use sc_gate::{Gate, Kind, Wire};
use sc_path::critical;
use std::alloc::Global;
use std::process::Abort;
use std::test::Fail;
use std::time::Instant;

/// CNOTs of neighbours up and down so many parameters: a chain leads from each to each.
fn ladder(rt: &impl Abort, alloc: Global, n: u32) -> Result<Body, Fail> {
    let n = n.min(65536);
    let mut body = Body::new(alloc, n, 0);
    for i in 1..n {
        let (a, b) = (Wire::qubit(i - 1), Wire::qubit(i));
        push_gate(rt, &mut body, Gate::two(Kind::Cnot, a, b))?;
    }
    for j in 1..n {
        let (a, b) = (Wire::qubit(n - j), Wire::qubit(n - j - 1));
        push_gate(rt, &mut body, Gate::two(Kind::Cnot, a, b))?;
    }
    Ok(body)
}

/// So many gates on 1000 qubits.
fn long(rt: &impl Abort, alloc: Global, n: u32) -> Result<Body, Fail> {
    let mut body = Body::new(alloc, 1000, 0);
    for i in 0..n {
        push_gate(rt, &mut body, Gate::one(Kind::T, Wire::qubit(i % 1000)))?;
    }
    Ok(body)
}

/// X on a parameter, and then so many bodies that each call the one before it twice.
fn nested(rt: &impl Abort, alloc: Global, n: u32) -> Result<Vec<Body>, Fail> {
    let mut bodies = Vec::new(alloc);
    bodies.push(body_of(rt, alloc, 1, 0, &[Step::One(Kind::X, 0)])?)?;
    for callee in 0..n {
        let twice = Step::Calls {
            callee,
            qubits: &[0],
            cbits: 0,
            turns: 2,
        };
        bodies.push(body_of(rt, alloc, 1, 0, &[twice])?)?;
    }
    Ok(bodies)
}

/// Tells how long the counts and the tables of a program take.
fn tell(host: &HostRuntime, rt: &impl Abort, bodies: &[Body]) -> Result<(), Fail> {
    let begun = Instant::now(host)?;
    let counts = last_counts(rt, host.alloc(), &[], bodies)?;
    let counted = begun.elapsed(host)?.as_micros();
    let gates = counts.map(|counts| counts.gates).unwrap_or(0);
    let again = Instant::now(host)?;
    let paths = paths_of(rt, host.alloc(), &[], bodies)?;
    let tabled = again.elapsed(host)?.as_micros();
    let (n, path) = (bodies.len(), critical(&paths));
    println!(host; "SIZES {counted} {tabled} {n} {gates} {path}")?;
    Ok(())
}
TESTS'''

# What each case is: the program, and how it is lent.
CASES = {
    'nothing': '[body_of(&rt, rt.alloc(), 1, 0, &[])?]',
    'wide': 'wide(&rt, rt.alloc(), 20_000)?',
    'instances': 'many(&rt, rt.alloc(), 65_535)?',
    'ladder': '[ladder(&rt, rt.alloc(), 2_000)?]',
    'nested': 'nested(&rt, rt.alloc(), 100)?',
    'long': '[long(&rt, rt.alloc(), 1_000_000)?]',
}

TEST_RT = '''
#[test]
fn case_NAME(rt: HostRuntime) -> Result<(), Fail> {
    let bodies = PROGRAM;
    tell(&rt, &rt, bodies.as_slice())
}
'''


def build(folder, names):
    """Proves the tests of these cases, and answers the program that runs them."""
    crate = lay_out(folder, CRATES, 'tests_path') / 'tests_path'
    kept = TOP / 'crates/tests_path'
    shutil.copytree(kept / 'proofs', crate / 'proofs')
    (crate / 'src').mkdir()
    for module in MODULES:
        shutil.copy(kept / f'src/{module}.rt', crate / 'src')
    tests = ''.join(TEST_RT.replace('NAME', name).replace('PROGRAM', CASES[name]) for name in names)
    (crate / 'src/lib.rt').write_text(LIB_RT)
    (crate / 'src/sizes.rt').write_text(SIZES_RT.replace('TESTS', tests))
    said = subprocess.run(['rt', 'test'], cwd=crate, capture_output=True, text=True)
    program = crate / 'out/tests_path_tests'
    if not program.exists():
        sys.exit(said.stdout + said.stderr)
    return program


def measure(program, name):
    """Of three runs of a case: what the test tells, where the tables took least, the least seconds of processor time of the
    whole program, and its peak memory in MB."""
    told, seconds, most = [], [], 0
    for _ in range(3):
        child = subprocess.Popen([program, f'sizes::case_{name}'], stdout=subprocess.PIPE, text=True)
        told += [list(map(int, line.split()[1:])) for line in child.stdout if 'SIZES' in line]
        _, _, usage = os.wait4(child.pid, 0)
        seconds.append(usage.ru_utime + usage.ru_stime)
        most = max(most, usage.ru_maxrss * 1024 / 1e6)
    return min(told, key=lambda numbers: numbers[1]), min(seconds), most


def main():
    names = sys.argv[1:] or list(CASES)
    with tempfile.TemporaryDirectory() as folder:
        program = build(Path(folder), names)
        for name in names:
            (counts, tables, bodies, gates, path), seconds, memory = measure(program, name)
            print(f'{name}: {bodies} bodies, {gates} gates, critical path {path}; counts {counts / 1000:.1f} ms, tables {tables / 1000:.1f} ms; {seconds:.2f} s and {memory:.0f} MB in all')


main()
