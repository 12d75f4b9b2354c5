#!/usr/bin/env python3
"""Times the reading of tokens: sources of many tokens and of many defined names, at a quarter, a half and all of the size.

usage: bench/lexing.py
Each source is refused behind its last token, so the time is that of the tokens. Prints it with the peak memory.
"""
import os, subprocess, tempfile
from pathlib import Path

top = Path(__file__).resolve().parent.parent
program = top / 'crates/scaff/out/scaff'


def many_tokens(count):
    """So many tokens in 16 MiB: brackets and names."""
    return ('q1[ ' * (count // 2)) + '\n'


def many_names(count):
    """So many defined names, each used once."""
    defines = ''.join(f'#define name{i} {i}\n' for i in range(count))
    return defines + ' '.join(f'name{i}' for i in range(count)) + '\n'


def measure(path):
    """The status, the seconds of processor time, and the peak in bytes of a run."""
    child = subprocess.Popen([program, 'flat', path], stdout=subprocess.DEVNULL, stderr=subprocess.DEVNULL)
    _, status, usage = os.wait4(child.pid, 0)
    return os.waitstatus_to_exitcode(status), usage.ru_utime + usage.ru_stime, usage.ru_maxrss * 1024


def main():
    for make, most in ((many_tokens, 4194304), (many_names, 400000)):
        for count in (most // 4, most // 2, most):
            with tempfile.NamedTemporaryFile('w', suffix='.scf') as file:
                text = make(count)
                file.write(text)
                file.flush()
                status, took, peak = measure(file.name)
            beside = (peak - len(text)) / count
            print(f'{make.__name__} {count}: {len(text)} bytes, status {status}, {took:.2f} s, {beside:.1f} bytes a token beside the source')


main()
