"""What bench/run and bench/program share: the programs built, the instructions of a run counted, its time taken."""
import os
import re
import resource
import subprocess
import sys

FOLDER = "target/bench"
COUNTS = f"{FOLDER}/callgrind.out"
ROUNDS = 9


def build(crate, programs):
    """The proved program, once its proofs are checked, and programs of C files and archives, whose paths are given for each."""
    os.makedirs(FOLDER, exist_ok=True)
    said = subprocess.run(["rt", "check", crate], capture_output=True, text=True)
    if said.returncode != 0:
        sys.exit(said.stdout + said.stderr)
    for program, parts in programs.items():
        subprocess.run(["gcc", "-O2", "-Wall", "-Wextra", "-Iinclude", "-o", program, *parts], check=True)


def counted(run, program):
    """The instructions of a whole run. `run` takes the words of a command and gives what was said."""
    words = ["valgrind", "--tool=callgrind", f"--callgrind-out-file={COUNTS}", program]
    return int(re.search(r"Collected : (\d+)", run(words).stderr).group(1))


def timed(run, program):
    """The nanoseconds of a whole run: the best of several, in the process's own time, since the machine may be shared."""
    best = None
    for _ in range(ROUNDS):
        before = resource.getrusage(resource.RUSAGE_CHILDREN)
        run([program])
        after = resource.getrusage(resource.RUSAGE_CHILDREN)
        took = after.ru_utime + after.ru_stime - before.ru_utime - before.ru_stime
        best = took if best is None else min(best, took)
    return best * 1e9
