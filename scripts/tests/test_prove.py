"""Tests scripts/prove.py over a small repository, with an `rt` that only records how it is called."""

import fcntl
import os
import pathlib
import re
import shutil
import signal
import subprocess
import tempfile
import time
import unittest

PROVE = pathlib.Path(__file__).resolve().parents[1] / "prove.py"
CRATES = "low: bytes\nother:\nhigh: low bytes\ncalls staticlib: high other\nprogram: high\n"
# it records which crates below it must prove again, or got unfinished; it ends as the crate's file `fails` or a file of the kit
# says, and otherwise leaves a made crate
RT = """#!/bin/sh
if [ "$1" = version ]; then cat "$KIT/version"; exit; fi
crate=$(basename "$PWD")
echo "$crate $1 $(ls out/incremental 2>/dev/null)" >>"$KIT/log"
stamp() { cat "$1"/src/*.rt "$KIT/version" "$KIT/stamps" | cksum; }
for library in $(sed -n "s/^$crate\\( staticlib\\)*: *//p" ../../crates.txt); do
    [ "$library" = bytes ] || [ "$(cat "../$library/out/rlib/stamp")" = "$(stamp "../$library")" ] || echo "$library again" >>"$KIT/log"
    [ ! -e "../$library/out/rlib/half" ] || echo "$library half" >>"$KIT/log"
done
mkdir -p out/incremental
touch out/incremental/begun
if grep -q fails src/*.rt; then echo 'it is refused'; exit 1; fi
if [ -e "$KIT/waits" ]; then sleep 60; fi
if [ -e "$KIT/leaves-nothing" ]; then exit; fi
case $crate in
calls) echo calls >out/libcalls.a ;;
program) echo program >out/program ;;
*) rm -rf out/rlib && mkdir -p "out/rlib/$crate.rlib" && stamp . >out/rlib/stamp && printf %1000s "$crate" >"out/rlib/$crate.rlib/code" ;;
esac
"""
# this `cp` refuses to copy what is to be kept
CP = """#!/bin/sh
case $* in */kept/*) echo 'cp: No space left on device' >&2; exit 1 ;; esac
exec /bin/cp "$@"
"""
LIMITS = "KEPT_BYTES, FREE_BYTES = 10 << 30, 5 << 30"


class TestProve(unittest.TestCase):
    def setUp(self):
        self.room = pathlib.Path(tempfile.mkdtemp())
        self.addCleanup(shutil.rmtree, self.room)
        self.top, self.kit = self.room / "top", self.room / "kit"
        for name in ("low", "other", "high", "calls", "program"):
            source = self.top / "crates" / name / "src" / ("main.rt" if name == "program" else "lib.rt")
            source.parent.mkdir(parents=True)
            source.write_text(name)
        (self.top / "crates.txt").write_text(CRATES)
        (self.top / "HANDLES").write_text("Handles allowed: none.\n")
        (self.top / "scripts").mkdir()
        shutil.copy(PROVE, self.top / "scripts")
        # whatever free space the disk of this machine has
        self.limit(10 << 30, 0)
        self.kit.mkdir()
        (self.kit / "version").write_text("kit")
        (self.kit / "stamps").write_text("")
        self.script("rt", RT)
        self.folder = ["--folder", self.room / "folder"]
        self.environment = {}

    def script(self, name, text):
        (self.kit / name).write_text(text)
        (self.kit / name).chmod(0o755)

    def limit(self, kept, free):
        """Sets the bytes that may be kept, and those that must be free."""
        text = PROVE.read_text()
        self.assertEqual(text.count(LIMITS), 1)
        (self.top / "scripts" / "prove.py").write_text(text.replace(LIMITS, f"KEPT_BYTES, FREE_BYTES = {kept}, {free}"))

    def clone(self, name):
        """Switches to another checkout of the repository, in which nothing was made."""
        clone = self.room / name
        shutil.copytree(self.top, clone, ignore=shutil.ignore_patterns("out"))
        self.top = clone

    def kept(self):
        """The folder of the kept results of the crate low."""
        return next(it.parents[3] for it in (self.room / "folder" / "kept").glob("*/made/rlib/low.rlib/code"))

    def begin(self, *words):
        path = f"{self.kit}:{os.environ['PATH']}"
        command = [self.top / "scripts" / "prove.py", "--jobs", "3", *self.folder, *words]
        return subprocess.Popen(
            command, env={**os.environ, "PATH": path, "KIT": str(self.kit), **self.environment}, text=True,
            stdout=subprocess.PIPE, stderr=subprocess.STDOUT,
        )

    def prove(self, *words):
        """The status, what was printed, and the crates that were proved, of one run."""
        (self.kit / "log").write_text("")
        run = self.begin(*words)
        said, _ = run.communicate(timeout=60)
        return run.returncode, said, self.log()

    def prove_beside(self, crate, act, *words):
        """What a run records that reaches the folder of a crate while another run, which does `act` there, holds its lock."""
        (self.kit / "log").write_text("")
        held = os.open(self.top / "crates" / crate, os.O_RDONLY)
        try:
            fcntl.flock(held, fcntl.LOCK_EX)
            run = self.begin(*words)
            self.assertIn(f"waiting for another run in {self.top / 'crates' / crate}", run.stdout.readline())
            act()
        finally:
            os.close(held)
        said, _ = run.communicate(timeout=60)
        self.assertEqual(run.returncode, 0, said)
        return (self.kit / "log").read_text().splitlines()

    def log(self):
        return [line.split()[0] for line in (self.kit / "log").read_text().splitlines()]

    def wait_until(self, is_so):
        end = time.monotonic() + 30
        while not is_so():
            self.assertLess(time.monotonic(), end)
            time.sleep(0.05)

    def test_each_crate_is_proved_once_behind_those_below_it(self):
        status, said, proved = self.prove("program", "calls")
        self.assertEqual((status, sorted(proved)), (0, ["calls", "high", "low", "other", "program"]), said)
        self.assertLess(proved.index("low"), proved.index("high"))
        self.assertTrue((self.top / "crates/program/out/program").is_file())
        self.assertTrue((self.top / "crates/calls/out/libcalls.a").is_file())

    def test_only_what_is_wanted_is_proved(self):
        self.assertEqual(self.prove("program")[2], ["low", "high", "program"])

    def test_each_step_tells_how_far_the_whole_is(self):
        said = re.sub(r"\d+ (seconds|minutes|of processor)", r"N \1", self.prove("high")[1])
        self.assertEqual(said.splitlines(), [
            "low: begun (0 of 2 crates, about N minutes left)", "low: proved in N seconds (1 of 2 crates, about N minutes left)",
            "high: begun (1 of 2 crates, about N minutes left)", "high: proved in N seconds (2 of 2 crates, about N minutes left)",
            "2 crates proved in N minutes, N of processor time",
        ])

    def test_what_was_proved_is_not_proved_again(self):
        self.prove("program", "calls")
        self.assertEqual(self.prove("program", "calls")[2], [])

    def test_a_source_that_was_copied_is_no_other(self):
        self.prove("program")
        source = self.top / "crates/low/src/lib.rt"
        shutil.copy(source, self.room / "kept")
        shutil.copy(self.room / "kept", source)
        self.assertEqual(self.prove("program")[2], [])

    def test_an_edit_concerns_what_stands_on_the_crate(self):
        self.prove("program", "calls")
        (self.top / "crates/other/src/lib.rt").write_text("edited")
        self.assertEqual(self.prove("program", "calls")[2], ["other", "calls"])

    def test_a_source_that_was_removed_is_an_edit(self):
        more = self.top / "crates/high/src/more.rt"
        more.write_text("")
        self.prove("program")
        more.unlink()
        self.assertEqual(self.prove("program")[2], ["high", "program"])

    def test_another_kit_proves_anew(self):
        self.prove("low")
        (self.kit / "version").write_text("another kit")
        self.assertEqual(self.prove("low")[2], ["low"])

    def test_what_is_made_that_was_removed_is_made_again(self):
        self.prove("program")
        (self.top / "crates/program/out/program").unlink()
        shutil.rmtree(self.room / "folder" / "kept")
        self.assertEqual(self.prove("program")[2], ["program"])

    def test_what_another_run_made_in_its_place_does_not_stand(self):
        self.prove("program")
        program = self.top / "crates/program/out/program"
        program.write_text("of other sources")
        self.assertEqual((self.prove("program")[2], program.read_text()), ([], "program\n"))

    def test_a_refused_crate_is_told_with_what_rt_said(self):
        (self.top / "crates/high/src/lib.rt").write_text("fails")
        status, said, proved = self.prove("program")
        self.assertEqual((status, proved), (1, ["low", "high"]))
        self.assertIn("it is refused", said)
        self.assertIn("high is not proved", said)
        (self.top / "crates/high/src/lib.rt").write_text("mended")
        self.assertEqual(self.prove("program")[2], ["high", "program"])

    def test_a_run_that_was_stopped_goes_on_with_what_it_had(self):
        (self.kit / "waits").touch()
        run = self.begin("high")
        self.wait_until((self.room / "folder/copies/low/crates/low/out/incremental/begun").exists)
        run.send_signal(signal.SIGTERM)
        self.assertIn("goes on from here", run.communicate(timeout=30)[0])
        self.assertNotEqual(run.returncode, 0)
        (self.kit / "waits").unlink()
        self.prove("high")
        self.assertEqual((self.kit / "log").read_text(), "low lib begun\nhigh lib \n")

    def test_a_second_run_waits_and_proves_nothing_again(self):
        (self.kit / "waits").touch()
        first = self.begin("low")
        self.wait_until((self.kit / "log").exists)
        second = self.begin("low")
        time.sleep(0.5)
        (self.kit / "waits").unlink()
        first.send_signal(signal.SIGTERM)
        first.communicate(timeout=30)
        self.assertIn("waiting for another run", second.communicate(timeout=60)[0])
        self.assertEqual((second.returncode, self.log()), (0, ["low", "low"]))

    def test_another_checkout_is_handed_what_was_proved(self):
        self.prove("program", "calls")
        self.clone("clone")
        status, said, proved = self.prove("program", "calls")
        self.assertEqual((status, proved), (0, []), said)
        self.assertEqual((self.top / "crates/program/out/program").read_text(), "program\n")
        self.assertEqual((self.top / "crates/calls/out/libcalls.a").read_text(), "calls\n")
        self.assertEqual(sorted(it.name for it in (self.top / "crates/high/out/rlib").iterdir()), ["high.rlib", "proved", "stamp"])

    def test_another_checkout_proves_what_it_has_otherwise(self):
        self.prove("program", "calls")
        self.clone("clone")
        (self.top / "crates/high/src/lib.rt").write_text("edited")
        self.assertEqual(sorted(self.prove("program", "calls")[2]), ["calls", "high", "program"])

    def test_what_was_proved_before_an_edit_is_kept_too(self):
        self.prove("high")
        source = self.top / "crates/low/src/lib.rt"
        source.write_text("edited")
        self.prove("high")
        source.write_text("low")
        self.assertEqual(self.prove("high")[2], [])

    def test_what_is_kept_stays_as_it_was_whatever_a_checkout_does(self):
        self.prove("low")
        self.clone("second")
        self.prove("low")
        with open(self.top / "crates/low/out/rlib/low.rlib/code", "a") as code:
            code.write("written over")
        self.clone("third")
        self.assertEqual(self.prove("low")[2], [])
        self.assertEqual((self.top / "crates/low/out/rlib/low.rlib/code").read_text().strip(), "low")

    def test_what_is_not_kept_whole_is_proved_again(self):
        self.prove("high")
        (self.kept() / "made/rlib/low.rlib/code").write_text("")
        self.clone("second")
        status, said, proved = self.prove("high")
        self.assertEqual((status, proved), (0, ["low"]), said)
        self.clone("third")
        self.assertEqual(self.prove("high")[2], [])
        (self.kept() / "sum").unlink()
        self.clone("fourth")
        self.assertEqual(self.prove("high")[2], ["low"])

    def test_what_a_run_left_unfinished_is_not_taken(self):
        self.prove("low")
        self.kept().rename(self.kept().with_suffix(".new"))
        (self.room / "folder" / "kept" / "another.new").mkdir()
        self.clone("second")
        self.assertEqual(self.prove("low")[2], ["low"])
        self.assertEqual(list((self.room / "folder" / "kept").iterdir()), [self.kept()])

    def test_where_nothing_can_be_kept_all_else_goes_on(self):
        self.script("cp", CP)
        status, said, proved = self.prove("high")
        self.assertEqual((status, proved), (0, ["low", "high"]), said)
        self.assertIn("low is not kept for other checkouts", said)
        self.assertEqual(list((self.room / "folder" / "kept").iterdir()), [])
        self.assertEqual(self.prove("high")[2], [])

    def test_nothing_is_kept_on_a_disk_that_is_almost_full(self):
        self.limit(10 << 30, 1 << 62)
        self.prove("low")
        self.clone("clone")
        self.assertEqual(self.prove("low")[2], ["low"])

    def test_what_was_longest_unused_goes(self):
        # room for two of these libraries
        self.limit(3000, 0)
        self.prove("low")
        self.prove("other")
        self.prove("high")
        self.clone("clone")
        self.assertEqual(self.prove("high", "other")[2], ["other"])

    def test_what_rt_does_not_take_is_proved_again_by_it(self):
        self.prove("low")
        (self.kit / "stamps").write_text("of another form")
        self.clone("clone")
        self.prove("high")
        self.assertEqual((self.kit / "log").read_text(), "high lib \nlow again\n")

    def test_what_rt_does_not_leave_is_told(self):
        (self.kit / "leaves-nothing").touch()
        status, said, _ = self.prove("low")
        self.assertEqual(status, 1)
        self.assertIn("there is no", said)

    def test_a_copy_of_what_was_begun_waits_for_the_run_that_works_there(self):
        begun = self.top / "crates/low/out/incremental"
        begun.mkdir(parents=True)
        (begun / "half").touch()
        self.assertEqual(self.prove_beside("low", lambda: (begun / "half").rename(begun / "whole"), "low"), ["low lib whole"])

    def clear_low(self):
        """What a run of `rt` has done that makes the library low again and has not ended."""
        folder = self.top / "crates/low/out/rlib"
        stamp = (folder / "stamp").read_text()
        shutil.rmtree(folder)
        (folder / "low.rlib").mkdir(parents=True)
        (folder / "stamp").write_text(stamp)
        (folder / "half").touch()

    def test_of_a_crate_below_no_half_library_is_taken_but_what_is_kept(self):
        self.prove("low")
        self.assertEqual(self.prove_beside("low", self.clear_low, "high"), ["high lib "])

    def test_of_a_crate_below_no_half_library_is_taken(self):
        self.prove("low")
        shutil.rmtree(self.kept())
        self.assertEqual(self.prove_beside("low", self.clear_low, "high"), ["high lib ", "low again"])

    def test_a_folder_in_which_others_may_write_is_refused(self):
        (self.room / "folder").mkdir()
        (self.room / "folder").chmod(0o777)
        status, said, proved = self.prove("low")
        self.assertEqual((status, proved), (1, []))
        self.assertIn("in which this user alone may write", said)

    def test_the_folder_is_the_users_own_where_none_is_named(self):
        self.folder = []
        cache, home, made = self.room / "cache", self.room / "home", self.room / "made"
        made.mkdir()
        chosen = [
            ({"XDG_CACHE_HOME": str(cache), "HOME": str(home)}, cache / "petool"),
            ({"XDG_CACHE_HOME": "", "HOME": str(home)}, home / ".cache" / "petool"),
            ({"XDG_CACHE_HOME": "/dev/null/no", "HOME": "/dev/null", "TMPDIR": str(made)}, made / f"petool-build-{os.getuid()}"),
        ]
        for self.environment, folder in chosen:
            with self.subTest(folder=folder):
                self.assertFalse(folder.exists())
                self.assertEqual(self.prove("low")[0], 0)
                self.assertEqual((len(list((folder / "kept").iterdir())), folder.stat().st_mode & 0o777), (1, 0o700))


if __name__ == "__main__":
    unittest.main()
