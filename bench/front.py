#!/usr/bin/env python3
"""Times the front end on one source: tokens, tree and types apart, the peak of memory, and the least stack.

usage: bench/front.py [PROGRAM]
PROGRAM is `crates/scaff/out/scaff` where none is given. The sources are 45,100 small modules of 93 tokens, which is as
many as are allowed, once as they are and once with spaces up to 16 MiB. Each is run three times: refused behind its last token, so that only tokens are read; refused at its
last token, so that a tree is made too; and with no `main`, so that types are checked too. Each line is the least of three
runs. The last lines are the least stack, by `ulimit -s`, on which 126 nested parentheses are read.
"""
import os, resource, subprocess, sys, tempfile
from pathlib import Path

top = Path(__file__).resolve().parent.parent
program = sys.argv[1] if len(sys.argv) > 1 else top / 'crates/scaff/out/scaff'

# a module of 93 tokens
TOKENS = 93
MODULE = ('module m{}(qbit a, qbit b[], int n) {{\n'
          '  H(a); CNOT(a, b[0]);\n'
          '  for (int i = 0; i < n; i++) {{ T(b[i + 1]); Tdag(b[2 * i]); }}\n'
          '  if (n > 1) X(b[n - 1]); else Rz(a, 0.5 * n);\n'
          '}}\n')


def modules(count, size):
    """So many modules, with spaces for the rest of the size."""
    lines = [MODULE.format(i) for i in range(count)]
    gap = ' ' * max(0, (size - sum(map(len, lines))) // count)
    return ''.join(line[:-1] + gap + '\n' for line in lines)


def measure(text, stack=None):
    """The status, what is said, the seconds of processor time, and the peak in MiB of the best of three runs."""
    best = None
    for _ in range(3):
        with tempfile.NamedTemporaryFile('w', suffix='.scf') as file, tempfile.TemporaryFile() as said:
            file.write(text)
            file.flush()
            limit = (lambda: resource.setrlimit(resource.RLIMIT_STACK, (stack, stack))) if stack else None
            child = subprocess.Popen([program, 'flat', file.name], stdout=subprocess.DEVNULL, stderr=said, preexec_fn=limit)
            _, status, usage = os.wait4(child.pid, 0)
            said.seek(0)
            run = (usage.ru_utime + usage.ru_stime, usage.ru_maxrss // 1024, status, said.read().decode().strip())
        best = run if best is None else (min(best[0], run[0]), min(best[1], run[1]), *run[2:])
    return best


def least_stack(before):
    """The least stack in KiB on which 126 nested parentheses behind this text are read."""
    text = before + '(' * 126 + '0' + ')' * 126 + '; }\n'
    low, high = 16, 8192
    while low + 16 < high:
        middle = (low + high) // 2
        if os.WIFEXITED(measure(text, middle * 1024)[2]):
            high = middle
        else:
            low = middle
    return high


def main():
    count = 4194303 // TOKENS
    for name, size in (('4,194,304 tokens', 0), ('16 MiB', (16 << 20) - 4)):
        text = modules(count, size)
        before = 0.0
        for what, source in (('tokens', text + '@\n'), ('tree', text + ')\n'), ('types', text)):
            took, peak, status, said = measure(source)
            print(f'{name}: {len(source)} bytes, {count} modules, up to {what} {took:.2f} s (+{took - before:.2f}), peak {peak} MiB; {said}')
            before = took
    for where, before in (('an expression', 'int main() { int x = '), ('a classical function', 'classical f(a) : 4 { return ')):
        print(f'126 nested parentheses in {where}: {least_stack(before)} KiB of stack')


main()
