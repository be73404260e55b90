#!/usr/bin/env python3
"""Tries the wrong bodies in the crates' folders `wrong`: wrong_bodies.py [--jobs N] [--folder FOLDER] [CRATE...]

An edit there is written as one of `must-fail`, and the prover must refuse it as well: a line 'file: src/lib.rt', and pairs of lines
'old: TEXT' and 'new: TEXT'. `rt ci` tries those of `must-fail`, and proves their crate once more for it. Those of `wrong` are tried
over what scripts/prove.py has left in the checkout: that costs no proof of the crate, but one for each edit. So they are those of the
crates of libpetool, which bindings/test proves. The crates are those that are named, or all that have the folder.

Each crate is tried by `rt must-fail` in a copy of the sources, where its edits stand in place of those of `must-fail`; what is not
proved there is proved first. A crate whose edits were refused is not tried again while they, its sources and those of the crates below
it, and the kit are the same. The marks of that are in FOLDER/tried. N and FOLDER are those of scripts/prove.py; a run waits for one of
it with the same FOLDER. The last line is 'N passed, M failed', which counts edits; all edits of a crate that `rt` could not try count
as failed.
"""

import argparse
import hashlib
import os
import pathlib
import shutil
import subprocess
import sys
import time

sys.dont_write_bytecode = True

from prove import CRATES, Kept, copy, locked, prepare, read_crates, take_folder, take_sources

FOLDER = "wrong"
REFUSED = ": refused, as it must be"


class Trial:
    """A run of `rt` over the wrong bodies of a crate, in a copy of the sources."""

    def __init__(self, crate, folder, kept):
        self.crate, self.edits = crate, sorted((CRATES / crate.name / FOLDER).glob("*.edit"))
        self.folder, self.kept = folder, kept
        total = hashlib.sha256(crate.sum.encode())
        for edit in self.edits:
            total.update(f"\n{edit.name} {hashlib.sha256(edit.read_bytes()).hexdigest()}".encode())
        self.mark = folder / "tried" / total.hexdigest()
        self.log = folder / "logs" / f"{crate.name}.{FOLDER}.log"

    def begin(self):
        self.room = prepare(self.crate, self.folder / "sources", self.folder / "trials", self.kept)
        copy(CRATES / self.crate.name / FOLDER, self.room / "crates" / self.crate.name / "must-fail")
        with open(self.log, "w") as out:
            words = ["rt", "must-fail", self.crate.name]
            self.process = subprocess.Popen(words, cwd=self.room, stdin=subprocess.DEVNULL, stdout=out, stderr=out)

    def failed(self):
        """How many edits were not refused, once the run has ended; None before."""
        status = self.process.poll()
        if status is None:
            return None
        lines = self.log.read_text(errors="replace").splitlines()
        refused = sum(f"/{edit.name}{REFUSED}" in line for edit in self.edits for line in lines)
        failed = len(self.edits) - min(refused, len(self.edits))
        if status != 0 and failed == 0:
            failed = len(self.edits)
        if failed:
            print("\n".join(line for line in lines if REFUSED not in line), flush=True)
        else:
            self.mark.touch()
        shutil.rmtree(self.room)
        return failed


def run_all(trials, slots):
    """Runs trials, so many at a time, and returns how many edits were not refused."""
    waiting, running, failed = list(trials), [], 0
    while waiting or running:
        while waiting and len(running) < slots:
            trial = waiting.pop(0)
            trial.begin()
            running.append(trial)
        time.sleep(0.2)
        for trial in list(running):
            count = trial.failed()
            if count is not None:
                running.remove(trial)
                failed += count
                print(f"{trial.crate.name}: {len(trial.edits) - count} of {len(trial.edits)} wrong bodies refused", flush=True)
    return failed


def main():
    there = sorted(it.parent.name for it in CRATES.glob(f"*/{FOLDER}"))
    parser = argparse.ArgumentParser(description=__doc__.partition("\n")[0])
    parser.add_argument("--jobs", type=int, default=len(os.sched_getaffinity(0)))
    parser.add_argument("--folder", type=pathlib.Path)
    parser.add_argument("crates", metavar="CRATE", nargs="*", help="a crate that has the folder wrong; none: all of these")
    given = parser.parse_args()
    for name in given.crates:
        if name not in there:
            parser.error(f"crates/{name}/{FOLDER} is not there")
    folder = take_folder(given.folder)
    with locked(CRATES), locked(folder):
        (folder / "tried").mkdir(exist_ok=True)
        take_sources(folder / "sources")
        crates, kept = read_crates(folder / "sources"), Kept(folder / "kept")
        trials = [Trial(crates[name], folder, kept) for name in given.crates or there]
        count = sum(len(trial.edits) for trial in trials)
        left = [trial for trial in trials if not trial.mark.exists()]
        failed = run_all(sorted(left, key=lambda trial: -len(trial.edits)), max(given.jobs, 1))
    print(f"{count - failed} passed, {failed} failed")
    return 1 if failed else 0


if __name__ == "__main__":
    sys.exit(main())
