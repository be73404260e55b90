"""Tests `make install` and `make uninstall`, with the program of PETOOL_PROGRAM, the archive of the calls of PETOOL_CALLS, and the
libpetool.a of PETOOL_LIB_DIR; and what is proved for it, in a small repository whose `rt` only records how it is called."""

import os
import pathlib
import re
import shutil
import subprocess
import tempfile
import unittest

TOP = pathlib.Path(__file__).resolve().parents[2]
PROGRAM, CALLS = os.environ.get("PETOOL_PROGRAM"), os.environ.get("PETOOL_CALLS")
LIBRARY = pathlib.Path(os.environ.get("PETOOL_LIB_DIR", ""), "libpetool.a")
FILES = {
    "bin/petool",
    "include/petool.h",
    "lib/libpetool.a",
    "lib/libpetool.so",
    "lib/libpetool.so.2",
    "lib/pkgconfig/petool.pc",
    "share/bash-completion/completions/petool",
    "share/fish/vendor_completions.d/petool.fish",
    "share/man/man1/petool.1",
    "share/man/man3/petool.h.3",
    "share/zsh/site-functions/_petool",
    "share/doc/petool/README.md",
    *(f"share/doc/petool/docs/{page}.md" for page in ("C", "FAULTS", "FORMAT", "GUIDE", "JSON", "LIBRARIES", "PROVED")),
    "share/doc/petool/docs/page.png",
}
# what a tree has besides its crates for `make install`
INSTALLED_FROM = ("Makefile", "VERSION", "HANDLES", "README.md", "docs", "man", "describe", "scripts", "bindings/c", "bindings/js", "page")
CRATES = "low:\npetool: low\npetool_c staticlib: low\n"
# it records each crate that it proves, and leaves what it makes of it
RT = """#!/bin/sh
crate=$(basename "$PWD")
case $1 in
version) echo kit; exit ;;
doc) echo "$KIT/doc.md"; exit ;;
esac
echo "$crate" >>"$KIT/log"
mkdir -p out
case $crate in
petool) echo program >out/petool ;;
petool_c) ar rc out/libpetool_c.a ;;
*) mkdir -p "out/rlib/$crate.rlib" && touch out/rlib/stamp ;;
esac
"""
#: The bytes of disk that prove.py leaves free, and those of a copy that keeps results on any disk.
FREE, NO_FREE = "KEPT_BYTES, FREE_BYTES = 10 << 30, 5 << 30", "KEPT_BYTES, FREE_BYTES = 10 << 30, 0"
NO_KIT = "#!/bin/sh\necho 'no rt is needed' >&2\nexit 1\n"


def script(path, text):
    path.parent.mkdir(parents=True)
    path.write_text(text)
    path.chmod(0o755)


class Room(unittest.TestCase):
    """A test with a folder, in which `make` builds and installs."""

    def setUp(self):
        self.room = pathlib.Path(tempfile.mkdtemp())
        self.addCleanup(shutil.rmtree, self.room)
        # not the variables of a make that runs this
        self.environment = {name: it for name, it in os.environ.items() if name not in ("MAKEFLAGS", "MAKELEVEL", "O", "CALLS")}

    def make(self, goal, *words, top=TOP, page=("WEBPAGE=",), status=0):
        """Runs make, which by default installs no page unless the words name one, and returns what it says."""
        folders = [f"O={self.room / 'made'}", f"PREFIX={self.room / 'at'}"]
        command = ["make", "-C", top, goal, *folders, *page, *words]
        run = subprocess.run(command, env=self.environment, stdout=subprocess.PIPE, stderr=subprocess.STDOUT, text=True)
        self.assertEqual(run.returncode, status, run.stdout)
        return run.stdout

    def find_first(self, kit):
        self.environment["PATH"] = f"{kit}:{self.environment['PATH']}"

    def lose(self, command):
        """Leaves PATH all commands but one."""
        kept = self.room / "kept"
        kept.mkdir()
        for folder in filter(os.path.isdir, self.environment["PATH"].split(":")):
            for name in set(os.listdir(folder)) - {command, *os.listdir(kept)}:
                (kept / name).symlink_to(os.path.join(folder, name))
        self.environment["PATH"] = str(kept)

    def installed(self, folder="at"):
        at = self.room / folder
        return {str(it.relative_to(at)) for it in at.rglob("*") if not it.is_dir()}


@unittest.skipUnless(PROGRAM, "left out without program: PETOOL_PROGRAM names none")
@unittest.skipUnless(shutil.which("make"), "left out without make")
class Install(Room):
    @unittest.skipUnless(CALLS, "left out without calls: PETOOL_CALLS names none")
    def test_all_files_are_installed_and_removed_again(self):
        self.make("install", f"PROGRAM={PROGRAM}", f"CALLS={CALLS}")
        self.assertEqual(self.installed(), FILES)
        (self.room / "at" / "bin" / "other").touch()
        self.make("uninstall")
        self.assertEqual(self.installed(), {"bin/other"})

    @unittest.skipUnless(LIBRARY.is_file(), "left out without calls: PETOOL_LIB_DIR has no libpetool.a")
    def test_a_program_and_a_library_are_installed_without_the_kit(self):
        script(self.room / "kit" / "rt", NO_KIT)
        self.find_first(self.room / "kit")
        self.make("install", f"PROGRAM={PROGRAM}", f"LIBRARY={LIBRARY}")
        self.assertEqual(self.installed(), FILES)
        self.assertEqual((self.room / "at" / "lib" / "libpetool.a").read_bytes(), LIBRARY.read_bytes())

    @unittest.skipUnless(LIBRARY.is_file(), "left out without calls: PETOOL_LIB_DIR has no libpetool.a")
    def test_the_page_is_installed_and_removed_again(self):
        page = self.room / "page.html"
        page.write_text("<!doctype html>")
        self.make("install", f"PROGRAM={PROGRAM}", f"LIBRARY={LIBRARY}", f"WEBPAGE={page}")
        self.assertEqual(self.installed(), FILES | {"share/petool/petool.html"})
        self.assertEqual((self.room / "at/share/petool/petool.html").read_text(), page.read_text())
        self.make("uninstall")
        self.assertEqual(self.installed(), set())

    @unittest.skipUnless(LIBRARY.is_file(), "left out without calls: PETOOL_LIB_DIR has no libpetool.a")
    def test_other_folders_get_the_files_and_lose_them_again(self):
        folders = [f"DESTDIR={self.room / 'root'}", "PREFIX=/usr", "LIBDIR=/usr/lib/many", "ZSHDIR=/usr/share/zsh/vendor"]
        moved = {f"usr/{it}".replace("usr/lib/", "usr/lib/many/").replace("site-functions", "vendor") for it in FILES}
        self.make("install", f"PROGRAM={PROGRAM}", f"LIBRARY={LIBRARY}", *folders)
        self.assertEqual(self.installed("root"), moved)
        self.assertIn("\nlibdir=${prefix}/lib/many\n", (self.room / "root/usr/lib/many/pkgconfig/petool.pc").read_text())
        self.make("uninstall", *folders)
        self.assertEqual(self.installed("root"), set())

    @unittest.skipUnless(LIBRARY.is_file(), "left out without calls: PETOOL_LIB_DIR has no libpetool.a")
    def test_links_of_installed_pages_lead_to_installed_pages(self):
        self.make("install", f"PROGRAM={PROGRAM}", f"LIBRARY={LIBRARY}")
        for page in (self.room / "at" / "share" / "doc" / "petool").rglob("*.md"):
            for link in re.findall(r"\]\(([^)#\s]+)", page.read_text()):
                self.assertTrue(link.startswith("http") or (page.parent / link).exists(), f"{page.name}: {link}")


@unittest.skipUnless(shutil.which("make"), "left out without make")
class Proofs(Room):
    def setUp(self):
        super().setUp()
        self.kit = self.room / "kit"
        script(self.kit / "rt", RT)
        (self.kit / "c").mkdir()
        subprocess.run(["ar", "rc", self.kit / "c" / "liblibc_c.a"], check=True)
        self.find_first(self.kit)
        self.environment.update(KIT=str(self.kit), XDG_CACHE_HOME=str(self.room / "cache"))
        self.top = self.room / "top"
        self.top.mkdir()
        for name in INSTALLED_FROM:
            (shutil.copytree if (TOP / name).is_dir() else shutil.copy)(TOP / name, self.top / name)
        prove = self.top / "scripts" / "prove.py"
        self.assertEqual(prove.read_text().count(FREE), 1)
        prove.write_text(prove.read_text().replace(FREE, NO_FREE))
        (self.top / "crates.txt").write_text(CRATES)
        for crate in ("low", "petool", "petool_c"):
            for part in ("src", "specs", "proofs"):
                (self.top / "crates" / crate / part).mkdir(parents=True)
            (self.top / "crates" / crate / "src" / ("main.rt" if crate == "petool" else "lib.rt")).write_text(crate)

    def proved(self):
        """The crates that are proved when the tree is installed."""
        (self.kit / "log").write_text("")
        self.make("install", top=self.top)
        return sorted((self.kit / "log").read_text().split())

    def copy(self, *left_out):
        """Goes on in a copy of the tree, where what was made is older than the sources."""
        copied = self.room / "copied"
        shutil.copytree(self.top, copied, ignore=shutil.ignore_patterns(*left_out), copy_function=shutil.copyfile)
        for name in ("scripts/prove.py", "scripts/completions.py"):
            (copied / name).chmod(0o755)
        for made in copied.glob("crates/*/out/**/*"):
            os.utime(made, (0, 0))
        self.top = copied

    def test_each_crate_is_proved_once(self):
        self.assertEqual(self.proved(), ["low", "petool", "petool_c"])
        self.assertEqual(self.proved(), [])
        self.assertEqual(self.installed(), FILES)

    def test_without_wasm_opt_the_page_is_left_out_with_words_at_the_beginning_and_at_the_end(self):
        self.lose("wasm-opt")
        said = self.make("install", top=self.top, page=()).splitlines()
        words = "the page for browsers is left out: it needs wasm-opt of binaryen"
        self.assertEqual([at for at, line in enumerate(said) if line == words], [1, len(said) - 2], said)
        self.assertEqual(self.installed(), FILES)
        self.assertNotIn(words, self.make("install", top=self.top))

    def test_without_wasm_opt_nothing_is_proved_for_the_page(self):
        self.lose("wasm-opt")
        said = self.make("page", top=self.top, page=(), status=2)
        self.assertIn("\nthe page needs wasm-opt of binaryen\n", said)
        self.assertFalse((self.kit / "log").exists())

    def test_nothing_is_proved_again_in_a_copied_tree(self):
        self.proved()
        self.copy()
        self.assertEqual(self.proved(), [])

    def test_nothing_is_proved_again_in_another_checkout(self):
        self.proved()
        self.copy("out")
        self.assertEqual(self.proved(), [])

    def test_what_differs_in_a_copied_tree_is_proved(self):
        self.proved()
        self.copy()
        (self.top / "crates" / "petool" / "src" / "main.rt").write_text("edited")
        self.assertEqual(self.proved(), ["petool"])


if __name__ == "__main__":
    unittest.main()
