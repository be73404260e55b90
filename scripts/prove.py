#!/usr/bin/env python3
"""Proves crates and all that they stand on, each once, side by side: prove.py [--jobs N] [--folder FOLDER] CRATE...

A run of `rt` locks the crates of its checkout that its own crate uses, so no two of these are proved at the same time. Here each
crate is proved in a copy of the sources in FOLDER/copies. The copy gets, as hard links, the libraries made from the crates below,
so `rt` starts at the crate's own functions. The results go into the checkout's crates/*/out, where later runs of `rt` find them.

A crate whose sources and kit are those of its last proof is not proved again. Its results are also kept in FOLDER/kept, under the
sum of these, and copied to any other checkout with the same sources and kit. The results used last are kept, up to 10 GB, and none
are added if less than 5 GB are free. After a run that was stopped, the next one continues, also with the crates that were not
finished. A second run in the same checkout, or with the same FOLDER, waits for the first. FOLDER is ~/.cache/petool if none is
given, or petool-build-UID among temporary files if that cannot be made; only the user may write there, since its contents count as
proved. N is by default the number of cores; a crate gets one job, and more if cores would be idle.

This relies on behaviour that `rt help` does not describe. If that changes, more is proved again, and nothing counts that was not
proved:

- A library is valid by the stamp that `rt` writes next to it in out/rlib, a sum of the sources and of the kit, wherever it is and
  whenever it was made. What `rt` does not accept by its stamp, it proves again, in the copy of each crate above.
- `rt` clears out/rlib before it makes the library again. So the mark that is put there is removed too, and a copy is no longer
  linked with the checkout. If the mark stayed, the stamp next to it would not be accepted. Kept results are copied and never
  linked.
- `rt` locks a crate's folder by flock while it works there, and so does this script while it copies out of it. Of the crates below
  it copies only results with a mark, which a finished run left; unfinished work of a crate in its own copy is done again by `rt`.
- A program, an archive and a module have no known stamp: the mark next to them has their own sum, and with another sum they are made
  again.
"""

import argparse
import contextlib
import fcntl
import hashlib
import os
import pathlib
import re
import resource
import shutil
import signal
import stat
import subprocess
import sys
import tempfile
import time

TOP = pathlib.Path(__file__).resolve().parent.parent
CRATES = TOP / "crates"
PARTS = ("src", "specs", "proofs")
SHARED = ("crates.txt", "HANDLES")
# the first estimate of a proof's seconds, for the time that is left: so many, plus so many for each line of its source
SECONDS, SECONDS_A_LINE = 15, 0.15
# bytes of memory that must be free before another proof begins while others run
MEMORY_OF_A_PROOF = 3 << 30
# the bytes of disk that kept results may take, and those that must be free before more is kept
KEPT_BYTES, FREE_BYTES = 10 << 30, 5 << 30


class Crate:
    """A line of crates.txt: its sources are in a folder of crates, and its results go into the checkout's."""

    def __init__(self, name, kind, libraries, folder):
        self.name, self.kind, self.libraries, self.folder = name, kind, libraries, folder / name
        self.below = []
        self.sum = ""
        self.out = CRATES / name / "out"
        is_program = (self.folder / "src" / "main.rt").is_file()
        of_kind = {"staticlib": f"lib{name}.a", "wasm64": f"{name}.wasm"}
        self.made = name if is_program else of_kind.get(kind, f"rlib/{name}.rlib")
        # next to the result: `rt` clears a library's folder before it makes it again, and `rt ci` keeps only that folder
        self.mark = (self.out / self.made).with_name("proved")
        self.command = ["run", "--", "--version"] if is_program else ["lib"]
        lines = sum(len(it.read_bytes().splitlines()) for it in (self.folder / "src").rglob("*.rt"))
        self.seconds = SECONDS + SECONDS_A_LINE * lines

    def sources(self):
        """The files that the crate's proof reads, in order."""
        return sorted(it for part in PARTS for it in (self.folder / part).rglob("*") if it.is_file())

    def told(self, out):
        """The contents of the mark: the sum of the sources and the kit, and that of a program or an archive itself."""
        made = out / self.made
        return f"{self.sum} {hashlib.sha256(made.read_bytes()).hexdigest()}" if made.is_file() else self.sum

    def stands(self):
        """Whether the result is of a proof of these sources with this kit."""
        return (self.out / self.made).exists() and self.mark.is_file() and self.mark.read_text() == self.told(self.out)

    def parts(self):
        """The results of the crate in its out: the mark, without which nothing is valid, and the rest."""
        return [self.mark.relative_to(self.out), pathlib.PurePath(self.made).parts[0]]


def read_crates(top):
    """The crates of crates.txt by name, each with those below it and the sum of all that its proof depends on."""
    crates = {}
    for line in (top / "crates.txt").read_text().splitlines():
        head, colon, libraries = line.partition("#")[0].partition(":")
        if colon:
            name, *kind = head.split()
            crates[name] = Crate(name, "".join(kind), libraries.split(), top / "crates")
    of_kit = subprocess.run(["rt", "version"], stdout=subprocess.PIPE, check=True).stdout

    def complete(crate):
        if crate.sum:
            return
        total = hashlib.sha256(of_kit + repr((crate.name, crate.kind, crate.libraries)).encode())
        for library in crate.libraries:
            if library in crates:
                complete(crates[library])
                crate.below += [it for it in [*crates[library].below, crates[library]] if it not in crate.below]
                total.update(crates[library].sum.encode())
        for source in crate.sources():
            total.update(f"\n{source.relative_to(top)} {hashlib.sha256(source.read_bytes()).hexdigest()}".encode())
        crate.sum = total.hexdigest()

    for crate in crates.values():
        complete(crate)
    return crates


@contextlib.contextmanager
def locked(folder):
    """Holds a folder's lock; `rt` takes the same lock of a crate's folder."""
    held = os.open(folder, os.O_RDONLY)
    try:
        try:
            fcntl.flock(held, fcntl.LOCK_EX | fcntl.LOCK_NB)
        except BlockingIOError:
            print(f"prove: waiting for another run in {folder}", flush=True)
            fcntl.flock(held, fcntl.LOCK_EX)
        yield
    finally:
        os.close(held)


def copy(source, target, linked=False):
    """Copies a file or a folder, as hard links if that is requested and possible."""
    target.parent.mkdir(parents=True, exist_ok=True)
    words = ["cp", "-a", "--reflink=auto", source, target]
    if not linked or subprocess.run(["cp", "-al", source, target], stderr=subprocess.DEVNULL).returncode:
        shutil.rmtree(target, ignore_errors=True)
        subprocess.run(words, check=True)


def take_sources(target):
    """Copies what proofs read, so that edits of the checkout do not affect them."""
    shutil.rmtree(target, ignore_errors=True)
    for name in SHARED:
        copy(TOP / name, target / name)
    for crate in CRATES.iterdir():
        for part in PARTS:
            if (crate / part).is_dir():
                copy(crate / part, target / "crates" / crate.name / part)


def prepare(crate, sources, copies, kept):
    """Makes the copy in which a crate is proved. It continues what a stopped run had begun of the crate."""
    room = copies / crate.name
    begun, out = copies / f"{crate.name}.begun", room / "crates" / crate.name / "out"
    if out.is_dir():
        shutil.rmtree(begun, ignore_errors=True)
        out.rename(begun)
    shutil.rmtree(room, ignore_errors=True)
    copy(sources, room, linked=True)
    for other in crate.below:
        with locked(other.out.parent):
            # another run of `rt` may have cleared it meanwhile; if it is not kept either, `rt` proves it again
            if other.stands() or kept.hand(other):
                copy(other.out / "rlib", room / "crates" / other.name / "out" / "rlib", linked=True)
    if begun.is_dir():
        begun.rename(out)
    elif crate.out.is_dir():
        with locked(crate.out.parent):
            copy(crate.out, out)
    return room


def remove(path):
    """Removes a file or a folder, if there is one."""
    if path.is_dir():
        shutil.rmtree(path)
    else:
        path.unlink(missing_ok=True)


def replace(crate, bring, more=()):
    """Replaces the results of a crate, and more in its out, with what `bring` puts into a folder. That is complete before the old
    results are removed; the folder is inside out, which git ignores."""
    fresh = crate.out / "fresh"
    crate.out.mkdir(exist_ok=True)
    remove(fresh)
    bring(fresh)
    for old in [*crate.parts(), *more]:
        remove(crate.out / old)
    for it in list(fresh.iterdir()):
        it.rename(crate.out / it.name)
    fresh.rmdir()


def sum_of(folder):
    """The sum of a folder's files and of their names."""
    total = hashlib.sha256()
    for file in sorted(it for it in folder.rglob("*") if it.is_file()):
        total.update(f"\n{file.relative_to(folder)} {hashlib.sha256(file.read_bytes()).hexdigest()}".encode())
    return total.hexdigest()


def is_whole(entry):
    """Whether kept results are unchanged."""
    told = entry / "sum"
    return told.is_file() and told.read_text() == sum_of(entry / "made")


class Kept:
    """Kept results of crates, each in a folder named by the sum of its sources and the kit, with the sum of the contents."""

    def __init__(self, folder):
        self.folder = folder
        folder.mkdir(exist_ok=True)
        for unfinished in folder.glob("*.new"):
            remove(unfinished)

    def entry(self, crate):
        return self.folder / crate.sum

    def hand(self, crate):
        """Copies a crate's kept results to the checkout: whether it has them then. The caller holds the lock of its folder."""
        entry = self.entry(crate)
        if not entry.is_dir():
            return False
        if not is_whole(entry):
            print(f"prove: what was kept of {crate.name} is not whole, and goes", flush=True)
            remove(entry)
            return False
        try:
            replace(crate, lambda fresh: copy(entry / "made", fresh))
        except (OSError, subprocess.CalledProcessError) as error:
            print(f"prove: what was kept of {crate.name} is not taken: {error}", flush=True)
            remove(crate.out / "fresh")
        return crate.stands()

    def keep(self, crate):
        """Keeps a crate's results from the checkout, or marks them as used. A failure is only reported."""
        entry = self.entry(crate)
        fresh = entry.with_suffix(".new")
        if entry.is_dir():
            os.utime(entry)
        elif shutil.disk_usage(self.folder).free >= FREE_BYTES:
            try:
                self.copy_made(crate, fresh)
                fresh.rename(entry)
            except (OSError, subprocess.CalledProcessError) as error:
                print(f"prove: {crate.name} is not kept for other checkouts: {error}", flush=True)
                remove(fresh)

    def copy_made(self, crate, target):
        with locked(crate.out.parent):
            if not crate.stands():
                raise FileNotFoundError("it was cleared meanwhile")
            # the mark last; for a library it is in its folder already
            for part in reversed(crate.parts()):
                copy(crate.out / part, target / "made" / part)
        (target / "sum").write_text(sum_of(target / "made"))

    def bound(self):
        """Removes the results that were unused for the longest time, until the rest fits the limit."""
        total = 0
        for entry in sorted(self.folder.iterdir(), key=lambda it: it.stat().st_mtime, reverse=True):
            total += sum(it.stat().st_size for it in entry.rglob("*") if it.is_file())
            if total > KEPT_BYTES:
                remove(entry)


class Proof:
    """A run of `rt` over one crate in its copy."""

    def __init__(self, crate, jobs, room, log):
        self.crate, self.jobs, self.room, self.log = crate, jobs, room, log
        self.began = time.monotonic()
        words = ["rt", crate.command[0], "--jobs", str(jobs), *crate.command[1:]]
        folder = room / "crates" / crate.name
        with open(log, "w") as out:
            self.process = subprocess.Popen(
                words, cwd=folder, stdin=subprocess.DEVNULL, stdout=out, stderr=out, start_new_session=True
            )

    def elapsed(self):
        return time.monotonic() - self.began

    def ended(self):
        """Whether the run ended; then its results are in the checkout. A run that failed ends the program."""
        if self.process.poll() is None:
            return False
        if self.process.returncode:
            lines = self.log.read_text(errors="replace").splitlines()
            sys.exit("\n".join([*lines[-40:], f"prove: {self.crate.name} is not proved; all that rt said is in {self.log}"]))
        proved, out = self.room / "crates" / self.crate.name / "out", self.crate.out
        if not (proved / self.crate.made).exists():
            sys.exit(f"prove: rt has proved {self.crate.name}, but there is no {proved / self.crate.made}")
        (proved / self.crate.mark.relative_to(out)).write_text(self.crate.told(proved))
        with locked(out.parent):
            olds = [it.name for it in out.iterdir()] if out.is_dir() else []
            replace(self.crate, lambda fresh: shutil.move(proved, fresh), olds)
        shutil.rmtree(self.room)
        shutil.rmtree(self.room.with_name(f"{self.crate.name}.begun"), ignore_errors=True)
        return True

    def stop(self):
        with contextlib.suppress(ProcessLookupError):
            os.killpg(self.process.pid, signal.SIGTERM)
        self.process.wait()


class Plan:
    """The crates to be proved, those that are, and those that run."""

    def __init__(self, crates, wanted, slots, folder):
        self.slots, self.folder = slots, folder
        self.kept = Kept(folder / "kept")
        tops = [crates[name] for name in wanted]
        self.all = [it for it in crates.values() if it in tops or any(it in top.below for top in tops)]
        self.done = [it for it in self.all if self.is_made(it)]
        self.running = []
        # seconds estimated and seconds taken, of the proofs that ended
        self.told, self.taken = 0, 0
        self.ways = {}

    def is_made(self, crate):
        """Whether a crate's results are in the checkout, or were kept and are copied to it."""
        stands = crate.stands()
        if not stands and self.kept.entry(crate).is_dir():
            with locked(crate.out.parent):
                stands = self.kept.hand(crate)
            if stands:
                print(f"{crate.name}: proved before, from the same sources", flush=True)
        if stands:
            self.kept.keep(crate)
        return stands

    def way(self, crate):
        """The seconds of a crate and of the longest path of crates above it."""
        if crate not in self.ways:
            above = [self.way(it) for it in self.all if crate in it.below]
            self.ways[crate] = crate.seconds + max(above, default=0)
        return self.ways[crate]

    def ready(self):
        at_work = [it.crate for it in self.running]
        waiting = [it for it in self.all if it not in self.done and it not in at_work]
        return sorted((it for it in waiting if all(low in self.done for low in it.below)), key=self.way, reverse=True)

    def minutes_left(self):
        """The estimated minutes until all is proved: the plan simulated with estimated seconds, scaled by the ended proofs."""
        rate = self.taken / self.told if self.told else 1
        now, done = 0, set(self.done)
        ends = {it.crate: max(it.crate.seconds * rate - it.elapsed(), 1) for it in self.running}
        waiting = sorted((it for it in self.all if it not in done and it not in ends), key=self.way, reverse=True)
        while ends or waiting:
            for crate in [it for it in waiting if done.issuperset(it.below)][: max(self.slots - len(ends), 0)]:
                ends[crate] = now + crate.seconds * rate
                waiting.remove(crate)
            first = min(ends, key=ends.get)
            now = ends.pop(first)
            done.add(first)
        return round(now / 60)

    def say(self, text):
        print(f"{text} ({len(self.done)} of {len(self.all)} crates, about {self.minutes_left()} minutes left)", flush=True)

    def begin(self):
        """Begins what can be begun: the longest path first, with more jobs if no other crate needs the cores."""
        ready = self.ready()
        for at, crate in enumerate(ready):
            free = self.slots - sum(it.jobs for it in self.running)
            if free <= 0 or (self.running and free_memory() < MEMORY_OF_A_PROOF):
                return
            jobs = max(-(-free // (len(ready) - at)), 1)
            room = prepare(crate, self.folder / "sources", self.folder / "copies", self.kept)
            self.running.append(Proof(crate, jobs, room, self.folder / "logs" / f"{crate.name}.log"))
            self.say(f"{crate.name}: begun")

    def take_ended(self):
        for proof in [it for it in self.running if it.ended()]:
            self.running.remove(proof)
            self.done.append(proof.crate)
            self.told += proof.crate.seconds
            self.taken += proof.elapsed()
            self.kept.keep(proof.crate)
            self.say(f"{proof.crate.name}: proved in {proof.elapsed():.0f} seconds")

    def run(self):
        while len(self.done) < len(self.all):
            self.begin()
            time.sleep(0.2)
            self.take_ended()


def free_memory():
    """The bytes of memory that the system has available, or more than any proof takes if it does not say."""
    told = re.search(r"MemAvailable:\s+(\d+)", pathlib.Path("/proc/meminfo").read_text())
    return int(told[1]) << 10 if told else sys.maxsize


def stop_on_signal(number, frame):
    sys.exit(f"prove: stopped by signal {number}; the next run goes on from here")


def folders_of_user():
    """The folders to use if none is named: the first that is possible."""
    for cache in (os.environ.get("XDG_CACHE_HOME", ""), os.path.expanduser("~/.cache")):
        if os.path.isabs(cache):
            yield pathlib.Path(cache, "petool")
    yield pathlib.Path(tempfile.gettempdir(), f"petool-build-{os.getuid()}")


def own(folder):
    """Makes a folder, or uses an existing one if only this user can write there. OSError if neither is possible."""
    folder.mkdir(mode=0o700, parents=True, exist_ok=True)
    found = folder.lstat()
    if not stat.S_ISDIR(found.st_mode) or found.st_uid != os.getuid() or found.st_mode & 0o022:
        raise OSError(f"{folder} is not a folder in which this user alone may write")
    (folder / "logs").mkdir(exist_ok=True)
    return folder


def take_folder(named):
    """The folder of copies, logs and kept results. Ends the program if there is none."""
    complaints = []
    for folder in [named.resolve()] if named else folders_of_user():
        try:
            return own(folder)
        except OSError as error:
            complaints.append(str(error))
    sys.exit("\n".join(f"prove: {it}" for it in complaints))


def read_words():
    parser = argparse.ArgumentParser(description=__doc__.partition("\n")[0])
    parser.add_argument("--jobs", type=int, default=len(os.sched_getaffinity(0)))
    parser.add_argument("--folder", type=pathlib.Path)
    parser.add_argument("crates", nargs="+")
    return parser.parse_args()


def main():
    given = read_words()
    folder = take_folder(given.folder)
    for number in (signal.SIGINT, signal.SIGTERM, signal.SIGHUP):
        signal.signal(number, stop_on_signal)
    with locked(CRATES), locked(folder):
        take_sources(folder / "sources")
        plan = Plan(read_crates(folder / "sources"), given.crates, max(given.jobs, 1), folder)
        to_prove = len(plan.all) - len(plan.done)
        began = time.monotonic()
        try:
            plan.run()
        finally:
            for proof in plan.running:
                proof.stop()
            plan.kept.bound()
        if to_prove:
            used = resource.getrusage(resource.RUSAGE_CHILDREN)
            minutes = (used.ru_utime + used.ru_stime) / 60
            clock = (time.monotonic() - began) / 60
            print(f"{to_prove} crates proved in {clock:.0f} minutes, {minutes:.0f} of processor time")
    return 0


if __name__ == "__main__":
    sys.exit(main())
