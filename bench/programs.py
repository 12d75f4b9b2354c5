'''What the programs of several benches have in common.'''
import os, shutil, subprocess, sys, time
from pathlib import Path

TOP = Path(__file__).resolve().parent.parent

# A sink that counts the bytes.
COUNTER_RT = '''#[derive(Drop)]
struct Counter {
    bytes: u64,
    is_ended: bool,
}

impl Sink for Counter {
    ghost use Rattle.std.specs.Prelude.{false, []};

    ghost tells = { λ _. false };

    ghost bytes = { λ _. [] };

    ghost faults = { λ _. 0 };

    ghost is_ended = { λ s. s.is_ended };

    fn write(&mut self, piece: &[u8]) -> Result<usize, Failed> {
        self.bytes = self.bytes.wrapping_add(piece.len() as u64);
        Ok(piece.len())
    }

    fn finish(&mut self) -> Result<(), Failed> {
        self.is_ended = true;
        Ok(())
    }

    fn ended(&self) -> bool {
        self.is_ended
    }
}
'''

# The words after the program's name.
WORDS_RT = '''fn word(words: &[String], i: usize) -> &str {
    match words.get(i) {
        Some(word) => word.as_str(),
        None => "",
    }
}

fn read_args(rt: &HostRuntime) -> Option<Vec<String>> {
    let args = env::args(rt).ok()?;
    let mut words = Vec::new(rt.alloc());
    for word in args {
        words.push(word).ok()?;
    }
    Some(words)
}
'''


def lay_out(folder, crates, program):
    '''Copies the crates below a program into a folder, with the list of them all, and answers where they stand. `crates` has
    what each crate stands on by its name; the program itself is not copied.'''
    for name in crates:
        if name != program:
            shutil.copytree(TOP / 'crates' / name, folder / 'crates' / name, ignore=shutil.ignore_patterns('out'))
    (folder / 'HANDLES').write_text((TOP / 'HANDLES').read_text())
    (folder / 'crates.txt').write_text(''.join(f'{name}: {below}\n' for name, below in crates.items()))
    return folder / 'crates'


def add_program(crates, program, text):
    '''Puts a program of this text beside the crates below it, and answers its folder.'''
    home = crates / program
    (home / 'src').mkdir(parents=True)
    (home / 'src/main.rt').write_text(text)
    return home


def build(home):
    '''Builds the program of this folder, proved, and answers where it stands; what `rt` says ends the bench where it was not built.'''
    built = subprocess.run(['rt', 'run'], cwd=home, capture_output=True, text=True)
    path = home / 'out' / home.name
    if not path.exists():
        sys.exit(built.stdout + built.stderr)
    return path


def measure(program, words):
    '''The status, the seconds of processor time and of the clock, and the peak in MiB of a run.'''
    begun = time.time()
    child = subprocess.Popen([program, *map(str, words)])
    _, status, usage = os.wait4(child.pid, 0)
    return os.waitstatus_to_exitcode(status), usage.ru_utime + usage.ru_stime, time.time() - begun, usage.ru_maxrss // 1024
