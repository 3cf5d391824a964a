"""What the scripts of this folder share: where the programs are, how they are built, and what one run of them takes."""
import os, subprocess, sys, time
from collections import namedtuple

TOP = os.path.dirname(os.path.dirname(os.path.realpath(__file__)))
# The program that makes calls which no command of `aranyad` reaches.
BENCHES = f"{TOP}/crates/benches/out/benches"
ARANYAD = f"{TOP}/crates/aranyad/out/aranyad"

# The seconds by the clock, the processor seconds, the greatest memory in MiB, the exit status, and what was printed, as bytes.
Run = namedtuple("Run", "seconds processor memory status text")


def build_benches():
    """Proves and builds `benches` where it is old, and makes its stored run."""
    made = subprocess.run(["rt", "run"], cwd=f"{TOP}/crates/benches", stdin=subprocess.DEVNULL, stdout=subprocess.DEVNULL, stderr=subprocess.DEVNULL)
    if made.returncode:
        sys.exit("benches could not be proved and built")


def build_aranyad():
    """Proves and builds `aranyad` where it is old."""
    subprocess.run([f"{TOP}/aranyad"], stdin=subprocess.DEVNULL, stdout=subprocess.DEVNULL)


def build_plain(folder, source=f"{TOP}/bench/plain/plain.rs"):
    """Builds the plain Rust program in this folder, and answers its path."""
    options = ["-O", "-C", "target-cpu=x86-64-v2", "--edition", "2024"]
    subprocess.run(["rustc", *options, "-o", f"{folder}/plain", source], check=True)
    return f"{folder}/plain"


def run(program, *words, status=0, begins=b""):
    """One run. It ends this script where the run ends with another status, or prints something that begins otherwise."""
    start = time.monotonic()
    child = subprocess.Popen([program, *map(str, words)], stdin=subprocess.DEVNULL, stdout=subprocess.PIPE)
    text = child.stdout.read()
    _, ended, used = os.wait4(child.pid, 0)
    seconds = time.monotonic() - start
    ended = os.waitstatus_to_exitcode(ended)
    if (status is not None and ended != status) or not text.startswith(begins):
        sys.exit(f"another end of {words}: status {ended}, {text[:200]!r}")
    return Run(seconds, used.ru_utime + used.ru_stime, used.ru_maxrss / 1024, ended, text)


def least(count, program, *words, **want):
    """Of so many runs the least times, the greatest memory, and the end of the last."""
    runs = [run(program, *words, **want) for _ in range(count)]
    return runs[-1]._replace(seconds=min(it.seconds for it in runs), processor=min(it.processor for it in runs), memory=max(it.memory for it in runs))
