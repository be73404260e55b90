"""Tests scripts/wrong_bodies.py over a small repository, with an `rt` that only tells what it finds."""

import os
import pathlib
import shutil
import subprocess
import tempfile
import unittest

SCRIPTS = pathlib.Path(__file__).resolve().parents[1]
# it tells each call, with the edits that it would try, the sources and libraries that are there and what was kept of the crate itself;
# it refuses each edit but those whose text is `right`
RT = """#!/bin/sh
[ "$1" != version ] || { echo kit; exit; }
status=0
for it in crates/*/must-fail/*.edit crates/*/src/lib.rt crates/*/out/rlib/* crates/*/out/kept; do
    [ ! -e "$it" ] || echo "$* $it: $(cat "$it")" >>"$KIT/called"
done
for it in crates/$2/must-fail/*.edit; do
    name=$2/$(basename "$it")
    if grep -q right "$it"; then
        echo "rt: must-fail $name: NOT REFUSED"
        status=1
    else
        echo "rt: must-fail $name: refused, as it must be: an error"
    fi
done
pwd >>"$KIT/rooms"
exit $status
"""
FILES = {
    "crates.txt": "low:\nhigh: low\nother:\n",
    "HANDLES": "Handles allowed: none.\n",
    "crates/low/src/lib.rt": "low",
    "crates/low/must-fail/of_the_gate.edit": "gate",
    "crates/low/wrong/a_byte_is_lost.edit": "lost",
    "crates/low/out/kept": "what was proved",
    "crates/high/src/lib.rt": "high",
    "crates/high/wrong/bytes_go_last.edit": "last",
    "crates/high/wrong/bytes_go_first.edit": "first",
    "crates/other/src/lib.rt": "other",
}


class TestWrongBodies(unittest.TestCase):
    def setUp(self):
        self.room = pathlib.Path(tempfile.mkdtemp())
        self.addCleanup(shutil.rmtree, self.room)
        self.top, self.kit = self.room / "top", self.room / "kit"
        for name, text in FILES.items():
            path = self.top / name
            path.parent.mkdir(parents=True, exist_ok=True)
            path.write_text(text)
        (self.top / "scripts").mkdir()
        for name in ("wrong_bodies.py", "prove.py"):
            shutil.copy(SCRIPTS / name, self.top / "scripts")
        self.kit.mkdir()
        (self.kit / "rt").write_text(RT)
        (self.kit / "rt").chmod(0o755)

    def run_script(self, *names):
        """The status, the last line, and what `rt` was called with and found."""
        (self.kit / "called").write_text("")
        environment = {**os.environ, "PATH": f"{self.kit}:{os.environ['PATH']}", "KIT": str(self.kit)}
        words = [self.top / "scripts" / "wrong_bodies.py", "--folder", self.room / "folder", *names]
        run = subprocess.run(words, env=environment, capture_output=True, text=True)
        self.told = run.stdout
        return run.returncode, run.stdout.splitlines()[-1:], sorted((self.kit / "called").read_text().splitlines())

    def found(self, name, *edits):
        """What `rt` finds if it is to try these edits of a crate: each source, and what was kept of the crate low if it is that."""
        found = [f"crates/{name}/must-fail/{edit}" for edit in edits] + [f"crates/{it}/src/lib.rt" for it in ("low", "high", "other")]
        found += ["crates/low/out/kept"] if name == "low" else []
        return [f"must-fail {name} {it}: {FILES[it.replace('must-fail', 'wrong')]}" for it in found]

    def test_the_bodies_of_all_crates_are_tried_and_not_those_of_the_gate(self):
        calls = self.found("low", "a_byte_is_lost.edit") + self.found("high", "bytes_go_first.edit", "bytes_go_last.edit")
        self.assertEqual(self.run_script(), (0, ["3 passed, 0 failed"], sorted(calls)))

    def test_those_of_a_named_crate_alone(self):
        self.assertEqual(self.run_script("low"), (0, ["1 passed, 0 failed"], sorted(self.found("low", "a_byte_is_lost.edit"))))

    def test_what_was_refused_is_not_tried_again_until_something_changes(self):
        self.run_script()
        self.assertEqual(self.run_script(), (0, ["3 passed, 0 failed"], []))
        changes = {
            "crates/high/wrong/bytes_go_last.edit": {"high"}, "crates/high/src/lib.rt": {"high"}, "crates/low/src/lib.rt": {"low", "high"},
            "crates/other/src/lib.rt": set(),
        }
        for name, tried in changes.items():
            with self.subTest(name):
                (self.top / name).write_text("changed")
                status, last, calls = self.run_script()
                self.assertEqual((status, last, {call.split(" ")[1] for call in calls}), (0, ["3 passed, 0 failed"], tried))

    def test_a_body_that_is_proved(self):
        (self.top / "crates/high/wrong/bytes_go_last.edit").write_text("right")
        for _ in range(2):
            status, last, calls = self.run_script()
            self.assertEqual((status, last), (1, ["2 passed, 1 failed"]))
            self.assertIn("rt: must-fail high/bytes_go_last.edit: NOT REFUSED\n", self.told)
            self.assertTrue(calls)

    def test_a_crate_that_rt_cannot_try(self):
        (self.kit / "rt").write_text(RT.replace("exit $status", "exit 2"))
        self.assertEqual(self.run_script("high")[:2], (1, ["0 passed, 2 failed"]))

    def test_nothing_is_left_and_nothing_of_the_checkout_changed(self):
        self.run_script()
        for room in (self.kit / "rooms").read_text().split():
            self.assertFalse(pathlib.Path(room).exists())
        found = {str(it.relative_to(self.top)): it.read_text() for it in self.top.rglob("*") if it.is_file() and "scripts" not in it.parts}
        self.assertEqual(found, FILES)

    def test_a_crate_without_wrong_bodies(self):
        self.assertEqual(self.run_script("other"), (2, [], []))


if __name__ == "__main__":
    unittest.main()
