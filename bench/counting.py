"""How many instructions a program runs, which valgrind counts."""
import re
import subprocess


def instructions(program, *words):
    """The exit status of a run and the instructions it took. Its output goes nowhere, and valgrind leaves no file."""
    command = ["valgrind", "--tool=callgrind", "--callgrind-out-file=/dev/null", program, *words]
    done = subprocess.run(command, stdin=subprocess.DEVNULL, stdout=subprocess.DEVNULL, stderr=subprocess.PIPE, check=False)
    told = re.search(rb"Collected : (\d+)", done.stderr)
    if not told:
        raise SystemExit(done.stderr.decode(errors="replace"))
    return done.returncode, int(told[1])
