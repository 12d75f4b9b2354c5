#!/usr/bin/env python3
"""Times `read_flat` and `read_hier` on texts of nearly 128 MiB and of half of that, with their peak memory.

usage: bench/read.py [CASE..]
Builds a program in a folder that it drops again, on copies of the readers' crates. The cases are the names in CASES, by
default all of them. `none` reads the file alone: what it takes is part of each other case.
"""
import sys, tempfile
from pathlib import Path
from programs import WORDS_RT, add_program, build, lay_out, measure

MOST = 134217728

CRATES = {
    'sc_base': 'itoa',
    'sc_gate': 'sc_base itoa',
    'sc_deck': 'sc_base sc_gate indexmap smallvec',
    'sc_read': 'sc_base sc_gate sc_deck',
    'reading': 'sc_base sc_read',
}

MAIN_RT = '''//! Reads a text: the words are what it is read as, and its file.
#![tactic(auto)]

use sc_base::{RealShelf, read_all};
use sc_read::{read_flat, read_hier};
use std::alloc::Global;
use std::env;
use std::process::ExitCode;

''' + WORDS_RT + '''
/// Whether the text is read; every text is, as none.
fn is_read(alloc: Global, form: &str, text: &[u8]) -> bool {
    if text.len() > 134217728 {
        return false;
    }
    match form {
        "flat" => read_flat(alloc, text).is_ok(),
        "hier" => read_hier(alloc, text).is_ok(),
        _ => true,
    }
}

fn main(rt: HostRuntime) -> ExitCode {
    let alloc = rt.alloc();
    let Some(words) = read_args(&rt) else {
        return ExitCode::from(3);
    };
    let mut shelf = RealShelf::new(rt);
    let Ok(text) = read_all(alloc, &mut shelf, word(&words, 2).as_bytes(), 134217728) else {
        return ExitCode::from(2);
    };
    if is_read(alloc, word(&words, 1), text.as_bytes()) {
        ExitCode::from(0)
    } else {
        ExitCode::from(1)
    }
}
'''


def gates(line, size):
    """A flat text of about this size, of such lines."""
    count = min(4194304, (size - 100) // len(line))
    return f'flat 1\nqbits 1000000\ncbits 1000000\ngates {count}\n' + line * count


def bodies(line, size):
    """A hierarchical text of about this size: modules with as many such lines as are allowed, which main calls."""
    count = (size - 10000) // len(line)
    parts, calls = ['hier 2\n'], []
    while count > 0:
        items = min(1048574, count)
        number = len(calls)
        parts.append(f'module {number} f({number})\nqbit 65000\ncbit 1\n' + line * items + 'end\n')
        calls.append(f'call {number}\n')
        count -= items
    parts.append(f'module {len(calls)} main()\n' + ''.join(calls) + 'end\n')
    return ''.join(parts)


def calls(front, size):
    """Calls of a module of 65,536 wires with all its wires, each behind these words."""
    line = front + 'call 0 ' + ','.join(f'q{i}' for i in range(65536)) + '\n'
    count = (size - 100) // len(line)
    return 'hier 2\nmodule 0 f(q[65536])\nend\nmodule 1 main()\nqbit 65536\n' + line * count + 'end\n'


# The form of the text, and its maker.
CASES = {
    'none': ('none', lambda size: gates('Toffoli q100000,q200000,q30000\n', size)),
    'flat_toffoli': ('flat', lambda size: gates('Toffoli q100000,q200000,q30000\n', size)),
    'flat_angle': ('flat', lambda size: gates('Rz q999999,-1234567.000000000001\n', size)),
    'flat_comments': ('flat', lambda size: gates('X q0\n', 1000) + '# comment\n' * ((size - 2000) // 10)),
    'hier_toffoli': ('hier', lambda size: bodies('Toffoli q10000,q20000,q30000\n', size)),
    'hier_short': ('hier', lambda size: bodies('X q0\n', size)),
    'hier_dagger': ('hier', lambda size: bodies('Sdag q0\n', size)),
    'hier_cnot': ('hier', lambda size: bodies('CNOT q0,q1\n', size)),
    'hier_repeat': ('hier', lambda size: bodies('repeat 18446744073709551615 X q0\n', size)),
    'hier_calls': ('hier', lambda size: calls('', size)),
    'hier_repeated_calls': ('hier', lambda size: calls('repeat 1000000 ', size)),
}


def main():
    names = sys.argv[1:] or list(CASES)
    with tempfile.TemporaryDirectory() as folder:
        folder = Path(folder)
        program = build(add_program(lay_out(folder, CRATES, 'reading'), 'reading', MAIN_RT))
        path = folder / 'text'
        for name in names:
            form, make = CASES[name]
            for size in (MOST // 2, MOST):
                path.write_text(make(size))
                status, busy, took, peak = measure(program, (form, path))
                print(f'{name} {path.stat().st_size} bytes: status {status}, {busy:.2f} s of processor time, {took:.2f} s, peak {peak} MiB', flush=True)


if __name__ == '__main__':
    main()
