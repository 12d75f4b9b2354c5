#!/usr/bin/env python3
"""Refuses the built program its memory, one number at a time, for each mode.

    memory.py PROGRAM [--jobs J]

Each request is carried out once to count how often it asks for memory, and then again for each of these numbers, twice: with that one
refused, and with that one and all later ones refused. Rules:

- the answer is the request's own, or status 4;
- with status 4 the fault line is `scaff: Memory`, and the output is empty; where the program has none for its words, its probes and its
  sinks, before all that, it writes nothing;
- in `flat` with a probe that is asked for, the output may also be exactly the flat text;
- no run ends by a signal.

What refuses is a small library that is loaded before the C library, so a C compiler is wanted. The last line is `N numbers, M runs, L
behind the flat text, K broken`, and the exit status is 1 where K is not 0.
"""
import argparse
import concurrent.futures
import os
import subprocess
import sys
import tempfile

LIBRARY = r"""
#include <stddef.h>
#include <stdio.h>
#include <stdlib.h>
#include <unistd.h>
extern void *__libc_malloc(size_t size);
extern void *__libc_realloc(void *block, size_t size);
static unsigned long calls, first, last;
static int is_refused(void) { calls += 1; return first <= calls && calls <= last; }
void *malloc(size_t size) { return is_refused() ? NULL : __libc_malloc(size); }
void *realloc(void *block, size_t size) { return is_refused() ? NULL : __libc_realloc(block, size); }
__attribute__((constructor)) static void begin(void) {
  const char *from = getenv("REFUSED_FIRST"), *to = getenv("REFUSED_LAST");
  calls = 0;
  first = from ? strtoul(from, NULL, 10) : 0;
  last = to ? strtoul(to, NULL, 10) : 0;
}
__attribute__((destructor)) static void tell(void) {
  char line[32];
  const char *told = getenv("REFUSED_TOLD");
  int size = snprintf(line, sizeof line, "%lu\n", calls);
  if (told && write(atoi(told), line, size) != size) _exit(99);
}
"""
PAIR = "int main() { qbit q[2]; H(q[0]); CNOT(q[0],q[1]); return 0; }\n"
CALLS = "module g(qbit a) { qbit t; H(t); H(t); H(t); CNOT(t, a); } int main() { qbit q; g(q); g(q); }\n"
SEARCH = """// search for 3 over two qubits
#include "gates.h"
#define N 2
classical isthree(a[N]) : 1 { return a == 3; }
module diffuse(qbit a[N]) {
  for (int i = 0; i < N; i++) { H(a[i]); X(a[i]); }
  H(a[1]); CNOT(a[0], a[1]); H(a[1]);
  for (int i = 0; i < N; i++) { X(a[i]); H(a[i]); }
}
int main() {
  qbit x[N]; qbit flag; cbit r[N];
  X(flag); H(flag);
  for (int i = 0; i < N; i++) H(x[i]);
  isthree(x, flag);
  diffuse(x);
  for (int i = 0; i < N; i++) r[i] = MeasZ(x[i]);
  return 0;
}
"""
TOFFOLI = "int main() { qbit q[3]; Toffoli(q[0],q[1],q[2]); }\n"
MANY = """classical f(a[3], b[3]) : 3 { t = a * b - (a & 5); u = a < b ? t : ~b; return u ^ (t << 1); }
module k(qbit q, int n, double d) { Rz(q, d / 3); PrepX(q, n % 2); if (n > 0) { k(q, n - 1, d * 2); k(q, n - 1, d); } else X(q); }
int main() {
  qbit a[3], b[3], c[3]; cbit r[2];
  for (int i = 0; i < 3; i++) k(a[i], i, 0.125);
  f(a, b, c); f(b, c, a);
  for (int i = 0; i < 40; i++) { T(b[i % 3]); CNOT(a[i % 3], b[i % 3]); }
  Fredkin(a[0], b[1], c[2]); r[0] = MeasX(a[0]); r[1] = MeasZ(b[0]); MeasZ(c[0]);
}
"""
FILES = {"pair": PAIR, "calls": CALLS, "search": SEARCH, "toffoli": TOFFOLI, "many": MANY, "none": "int main() { qbit q; H(r); }\n"}
MADE = {  # texts that the program writes of them
    "pair.flat": "flat pair", "calls.hier": "hier calls", "search.hier": "hier search", "many.hier": "hier many", "search.flat": "flat search",
    "search.sched": "schedule --regions 2 --width 3 search", "search.open": "open search", "many.open": "open many",
}
REQUESTS = """
hier pair|hier calls|hier search|hier --keep many
flat pair|flat calls|flat search|flat many|flat --kinds --burst --window --reach toffoli|flat --kinds --reach --keep many
count pair|count calls|count search|count --times H=3,T=10 many
schedule --regions 1 --width 2 pair|schedule --regions 2 --width 3 search|schedule --regions 2 --width 2 --order lpfs --times T=5 many
expand calls.hier|expand search.hier|expand many.hier
check search.flat search.sched|check pair.flat search.sched
drill 1|drill 12
coarse --regions 1 --width 2 calls|coarse --regions 2 --width 3 search|coarse --regions 2 --width 3 --order lpfs --keep many
open pair|open calls|open search|open many
reopen search.open|reopen many.open
cancel calls|cancel search|cancel --kinds --burst --window --reach many
flat|flat nothing|flat none|flat --limit 1 pair|schedule --regions 1 --width 1 pair|expand pair|hier search.hier
"""


def made_library(folder):
    """Compiles the library that refuses."""
    source, library = os.path.join(folder, "refuse.c"), os.path.join(folder, "refuse.so")
    with open(source, "w", encoding="utf-8") as file:
        file.write(LIBRARY)
    subprocess.run(["cc", "-O1", "-shared", "-fPIC", "-o", library, source], check=True)
    return library


class Trial:
    """A request, run in a folder with the library."""

    def __init__(self, program, folder, library, words):
        self.program, self.folder, self.library, self.words = program, folder, library, words

    def run(self, first, last):
        """Runs it with these numbers refused: its answer, and how often it asked for memory."""
        told, tells = os.pipe()
        env = {"LD_PRELOAD": self.library, "REFUSED_FIRST": str(first), "REFUSED_LAST": str(last), "REFUSED_TOLD": str(tells)}
        done = subprocess.run([self.program, *self.words], cwd=self.folder, env=env, stdin=subprocess.DEVNULL, capture_output=True,
                              pass_fds=[tells], timeout=60)
        os.close(tells)
        with os.fdopen(told) as pipe:
            line = pipe.read()
        return (done.returncode, done.stdout, done.stderr), int(line or -1)

    def late(self, out):
        """What may stand in the output when memory is refused: nothing, or the flat text where a probe is asked for."""
        asked = self.words[0] == "flat" and any(it in self.words for it in ("--kinds", "--burst", "--window", "--reach"))
        flat = b"".join(it for it in out.splitlines(keepends=True) if not it.startswith(b"#"))
        return (b"", flat) if asked else (b"",)

    def tries(self):
        """Refuses each number: how many there are, how often that came behind the flat text, and what is broken."""
        answer, count = self.run(0, 0)
        broken, late = [], 0
        for last_of in (lambda number: number, lambda number: count + 1000000):
            silent = True
            for number in range(1, count + 1):
                (status, out, err), _ = self.run(number, last_of(number))
                silent = silent and (status, out, err) == (4, b"", b"")
                refused = status == 4 and out in self.late(answer[1]) and (err == b"scaff: Memory\n" or silent)
                late += status == 4 and out != b""
                if (status, out, err) != answer and not refused:
                    broken.append(f"{' '.join(self.words)}: {number} refused: status {status}, {len(out)} bytes, {err!r}")
        return answer[0], count, late, broken


def main():
    asked = argparse.ArgumentParser(description="refuses the program its memory")
    asked.add_argument("program")
    asked.add_argument("--jobs", type=int, default=os.cpu_count())
    asked = asked.parse_args()
    program = os.path.abspath(asked.program)
    numbers = behind = broken = 0
    with tempfile.TemporaryDirectory() as folder, concurrent.futures.ThreadPoolExecutor(asked.jobs) as pool:
        for name, text in FILES.items():
            with open(os.path.join(folder, name), "w", encoding="utf-8") as file:
                file.write(text)
        for name, words in MADE.items():
            with open(os.path.join(folder, name), "wb") as file:
                subprocess.run([program, *words.split()], cwd=folder, stdout=file, check=True)
        library = made_library(folder)
        trials = [Trial(program, folder, library, it.split()) for it in REQUESTS.replace("\n", "|").split("|") if it]
        for trial, (status, count, late, told) in zip(trials, pool.map(Trial.tries, trials)):
            print(f"{' '.join(trial.words)}: status {status}, {count} numbers, {late} runs end behind the flat text", *told, sep="\n  ", flush=True)
            numbers, behind, broken = numbers + count, behind + late, broken + len(told)
    print(f"{numbers} numbers, {2 * numbers} runs, {behind} behind the flat text, {broken} broken")
    return 1 if broken else 0


if __name__ == "__main__":
    sys.exit(main())
