"""The installer, the installed command, and the clone's command where the sources are not those of the released program."""
import os
import pathlib
import shutil
import subprocess
import tempfile
import unittest

from common import PROGRAM, TOP, needs

PROGRAM_OF_SHELL = """#!/bin/sh
[ "${1-}" != --settings ] || { shift; printf '%s\\n' "$GLIBC_TUNABLES" "$@"; exit; }
read -r line
[ "$line" = '+/⍳10' ] && echo 55
"""
LIST = "share/aplcalc/installed"
PLACES = {
    "tools/launch": "bin/aplcalc",
    "tools/apl": "bin/apl",
    "tools/aplrun": "bin/aplrun",
    "release/aplcalc": "lib/aplcalc/aplcalc",
    "tools/python/aplcalc/__init__.py": "lib/aplcalc/python/aplcalc/__init__.py",
    "tools/aplcalc.1": "share/man/man1/aplcalc.1",
    "tools/completions/aplcalc.bash": "share/bash-completion/completions/aplcalc",
    "tools/completions/_aplcalc": "share/zsh/site-functions/_aplcalc",
    "tools/completions/aplcalc.fish": "share/fish/vendor_completions.d/aplcalc.fish",
    "docs/MANUAL.md": "share/doc/aplcalc/docs/MANUAL.md",
    "release/THIRD-PARTY.md": "share/doc/aplcalc/release/THIRD-PARTY.md",
    "examples/first.apl": "share/doc/aplcalc/examples/first.apl",
    "contrib/inputrc": "share/aplcalc/inputrc",
    "contrib/words": "share/aplcalc/words",
    "contrib/XCompose": "share/aplcalc/XCompose",
    "contrib/vim/keymap/aplcalc.vim": "share/vim/vimfiles/keymap/aplcalc.vim",
    "contrib/emacs/aplcalc.el": "share/emacs/site-lisp/aplcalc.el",
}


def run(command, folder=None, typed="", **variables):
    """Runs a command with these variables besides those of the machine; a variable that is None is taken away."""
    environment = {**os.environ, **variables}
    environment = {name: str(value) for name, value in environment.items() if value is not None}
    environment.pop("DESTDIR", None)
    return subprocess.run([str(word) for word in command], cwd=folder, env=environment, input=typed, capture_output=True, text=True,
                          encoding="utf-8", timeout=60, check=False)


def snapshot(folder):
    """What is in a folder: each path below it, with the text of a file."""
    return {str(path.relative_to(folder)): None if path.is_dir() else path.read_bytes() for path in folder.rglob("*")}


class InstallTest(unittest.TestCase):
    """Shared by the tests below: a temporary folder with a blank in its name."""

    def setUp(self):
        folder = tempfile.TemporaryDirectory(prefix="aplcalc tools ")
        self.addCleanup(folder.cleanup)
        self.folder = pathlib.Path(folder.name).resolve()
        self.prefix = self.folder / "the prefix"
        self.clone = self.folder / "clone"

    def small_clone(self, program=PROGRAM_OF_SHELL):
        """A clone with few files, whose released program is a shell script."""
        for name in ["aplcalc", "install", "LICENSE", "CHANGELOG.md", "crates.txt", "HANDLES", "release/sources", "release/version",
                     "tools/launch", "tools/aplcalc.1", "crates/aplcalc/src"]:
            place = self.clone / name
            place.parent.mkdir(parents=True, exist_ok=True)
            copy = shutil.copytree if (TOP / name).is_dir() else shutil.copy
            copy(TOP / name, place)
        self.write_program(self.clone / "release/aplcalc", program)
        digests = run([self.clone / "release/sources"]).stdout
        (self.clone / "release/sources.sha256").write_text(digests, encoding="utf-8")
        return self.clone / "install"

    @staticmethod
    def write_program(path, text):
        """Writes a program of shell."""
        path.parent.mkdir(parents=True, exist_ok=True)
        path.write_text(text, encoding="utf-8")
        path.chmod(0o755)

    def path_with(self, name, text):
        """A PATH on which a program of shell comes before the machine's."""
        self.write_program(self.folder / "before/bin" / name, text)
        return "%s:%s" % (self.folder / "before/bin", os.environ["PATH"])

    def succeed(self, command, **options):
        """Runs a command that must succeed in silence on standard error, and answers its output."""
        done = run(command, **options)
        self.assertEqual((done.returncode, done.stderr), (0, ""), done.stdout)
        return done.stdout

    def refuse(self, command, status, *words, **options):
        """Runs a command that must end with a status, and say some words on standard error."""
        done = run(command, **options)
        self.assertEqual((done.returncode, done.stdout), (status, ""), done.stderr)
        for word in words:
            self.assertIn(word, done.stderr)


class Installed(InstallTest):
    """The released program, installed whole."""

    def test_session_listing_and_removal(self):
        self.prefix.mkdir()
        told = self.succeed([TOP / "install", self.prefix])
        self.assertIn("is installed in %s:\n  bin/:" % self.prefix, told)
        command = self.prefix / "bin/aplcalc"
        self.assertEqual(self.succeed([command, "--workers", "2"], typed="+/31 4 15\n", folder="/"), "50\n")
        link = self.folder / "link"
        link.symlink_to(command)
        self.assertEqual(self.succeed([link], typed="6×7\n"), "42\n")
        typed = (TOP / "examples/first.apl").read_text(encoding="utf-8")
        self.assertEqual(self.succeed([command], typed=typed), self.succeed([PROGRAM], typed=typed))
        self.check_files()
        self.succeed([TOP / "install", "--remove", self.prefix])
        self.assertEqual(snapshot(self.prefix), {})

    def check_files(self):
        """Whether each file is where one looks for it, as it is in this repository, and listed."""
        for source, place in PLACES.items():
            if (TOP / source).exists():
                self.assertEqual((self.prefix / place).read_bytes(), (TOP / source).read_bytes())
                self.assertEqual(os.access(self.prefix / place, os.X_OK), os.access(TOP / source, os.X_OK), place)
        files = [path for path in snapshot(self.prefix) if not (self.prefix / path).is_dir()]
        listed = (self.prefix / LIST).read_text(encoding="utf-8").split("\n")
        self.assertEqual(sorted(files), sorted(path for path in listed if path and not path.endswith("/")))


class Placing(InstallTest):
    """Where files come to be, what is said of it, and what is left alone."""

    def test_the_folder_without_a_prefix_is_the_home_directory(self):
        install = self.small_clone()
        home = self.folder / "home"
        told = self.succeed([install], HOME=home)
        self.assertTrue((home / ".local/bin/aplcalc").exists())
        self.assertIn("%s/.local/bin is not on your PATH" % home, told)
        self.succeed([install, "--remove"], HOME=home)
        self.assertEqual(snapshot(home), {})

    def test_a_prefix_is_relative_to_where_one_is(self):
        install = self.small_clone()
        (self.folder / "here").mkdir()
        self.succeed([install, "../the prefix/"], folder=self.folder / "here")
        self.assertTrue((self.prefix / "bin/aplcalc").exists())

    def test_the_line_that_is_told_puts_the_command_on_the_path(self):
        told = self.succeed([self.small_clone(), self.prefix])
        line = next(line for line in told.split("\n") if line.startswith("  export PATH="))
        found = self.succeed(["bash", "-c", line + "\ncommand -v aplcalc"])
        self.assertEqual(found, "%s/bin/aplcalc\n" % self.prefix)
        told = self.succeed([self.clone / "install", self.prefix], PATH="%s/bin:%s" % (self.prefix, os.environ["PATH"]))
        self.assertIn("%s/bin is on your PATH" % self.prefix, told)
        self.assertNotIn("But ", told)
        path = "%s:%s/bin" % (self.path_with("aplcalc", ""), self.prefix)
        told = self.succeed([self.clone / "install", self.prefix], PATH=path)
        self.assertIn("But %s/before/bin/aplcalc comes before %s/bin/aplcalc on your PATH." % (self.folder, self.prefix), told)

    def test_removal_leaves_what_others_put_there(self):
        install = self.small_clone()
        mine = [self.prefix / "bin/mine", self.prefix / "share/man/man1/mine.1", self.prefix / "share/aplcalc/mine"]
        mine[0].parent.mkdir(parents=True)
        mine[0].write_text("mine", encoding="utf-8")
        self.succeed([install, self.prefix])
        for path in mine[1:]:
            path.write_text("mine", encoding="utf-8")
        (self.prefix / "share/empty").mkdir()
        self.succeed([install, "--remove", self.prefix])
        left = {path for path in self.prefix.rglob("*")}
        self.assertEqual(left, set(mine) | {folder for path in mine for folder in path.parents if self.prefix in folder.parents}
                         | {self.prefix / "share/empty"})

    def test_removal_takes_what_python_made_of_the_module(self):
        install = self.small_clone()
        self.write_program(self.clone / "tools/python/aplcalc/calculator.py", "")
        self.succeed([install, self.prefix])
        kept = self.prefix / "lib/aplcalc/python/aplcalc/__pycache__"
        kept.mkdir()
        (kept / "calculator.cpython-311.pyc").write_text("", encoding="utf-8")
        self.succeed([install, "--remove", self.prefix])
        self.assertFalse(self.prefix.exists())

    def test_an_installation_replaces_an_older_one(self):
        install = self.small_clone()
        self.succeed([install, self.prefix])
        fresh = snapshot(self.prefix)
        (self.prefix / "bin/aplcalc").write_text("older", encoding="utf-8")
        older = self.prefix / "share/older/page"
        older.parent.mkdir()
        older.write_text("older", encoding="utf-8")
        with open(self.prefix / LIST, "a", encoding="utf-8") as listed:
            listed.write("share/older/\nshare/older/page\n")
        self.succeed([install, self.prefix])
        self.assertEqual(snapshot(self.prefix), fresh)
        self.succeed([install, "--remove", self.prefix])
        self.assertFalse(self.prefix.exists())

    def test_the_folder_of_a_package_gets_no_list(self):
        install = self.small_clone()
        command = ["env", "DESTDIR=%s" % (self.folder / "package"), install, "/usr"]
        self.assertEqual(self.succeed(command), "")
        self.assertTrue((self.folder / "package/usr/bin/aplcalc").exists())
        self.assertFalse((self.folder / "package/usr" / LIST).exists())

    def test_printed_pages_are_installed_if_they_are_of_these_pages(self):
        install = self.small_clone()
        page, printed = self.clone / "docs/MANUAL.md", self.clone / "docs/out/manual.html"
        for path in (page, printed):
            path.parent.mkdir(parents=True, exist_ok=True)
            path.write_text(path.name, encoding="utf-8")
        for later, expected in ((1, True), (-1, False)):
            time = page.stat().st_mtime + later
            os.utime(printed, (time, time))
            self.succeed([install, self.prefix])
            self.assertEqual((self.prefix / "share/doc/aplcalc/manual.html").exists(), expected)
            self.assertTrue((self.prefix / "share/doc/aplcalc/docs/MANUAL.md").exists())

    def test_wrong_usage(self):
        install = self.small_clone()
        for words in (["--wrong"], ["--remove", "--wrong"], [self.prefix, self.prefix], ["--remove", self.prefix, "x"], [""]):
            self.refuse([install, *words], 2, "install: ", "--help")
        self.refuse([install], 2, "PREFIX", HOME=None)
        self.assertIn("Usage: ./install [PREFIX]", self.succeed([install, "--help"]))
        self.assertFalse(self.prefix.exists())


class Refused(InstallTest):
    """What stops the installer, which leaves everything as it was."""

    def leaves_all(self, command, *words, status=1, **options):
        """Runs a command that fails and changes nothing."""
        before = snapshot(self.folder)
        self.refuse(command, status, *words, **options)
        self.assertEqual(snapshot(self.folder), before)

    def test_another_machine(self):
        install = self.small_clone()
        fakes = [("uname", "#!/bin/sh\necho Darwin arm64\n", "Linux x86_64, and this is Darwin arm64"),
                 ("uname", "#!/bin/sh\necho Linux aarch64\n", "this is Linux aarch64"),
                 ("getconf", "#!/bin/sh\necho glibc 2.31\n", "glibc 2.34 or later, and this is glibc 2.31"),
                 ("getconf", "#!/bin/sh\necho glibc 2.4\n", "this is glibc 2.4"),
                 ("getconf", "#!/bin/sh\nexit 1\n", "glibc 2.34 or later, which is not here")]
        for name, text, words in fakes:
            with self.subTest(words):
                path = self.path_with(name, text)
                self.leaves_all([install, self.prefix / "a/b"], "can't run the program", words, PATH=path)
                (self.folder / "before/bin" / name).unlink()

    def test_features_of_the_processor(self):
        known = "flags\t\t: fpu pni ssse3 cx16 sse4_1 sse4_2 popcnt lahf_lm\nflags\t\t: fpu\n"
        ask = ["bash", "-c", '. "$1"; missing_features', "bash", TOP / "install"]
        self.assertEqual(self.succeed(ask, typed="processor\t: 0\n" + known), "")
        self.assertEqual(self.succeed(ask, typed=known.replace(" popcnt", "").replace(" pni", "")), " popcnt pni")
        self.assertEqual(self.succeed(ask, typed="").split(), "cx16 lahf_lm popcnt pni sse4_1 sse4_2 ssse3".split())

    def test_a_program_that_does_not_run(self):
        install = self.small_clone(program="#!/bin/sh\necho '/lib/libc.so.6: version not found' >&2\nexit 1\n")
        self.leaves_all([install, self.prefix / "a/b"], "does not run on this machine", "version not found")

    def test_other_sources(self):
        install = self.small_clone()
        (self.clone / "crates/aplcalc/src/more.rt").write_text("", encoding="utf-8")
        self.leaves_all([install, self.prefix], "not of these sources")

    def test_a_prefix_that_is_a_file(self):
        install = self.small_clone()
        self.prefix.write_text("mine", encoding="utf-8")
        self.leaves_all([install, self.prefix], "making the folder %s failed" % self.prefix)
        self.leaves_all([install, self.prefix / "below"], "making the folder %s/below failed" % self.prefix)

    def test_a_folder_that_is_a_file_takes_everything_back(self):
        install = self.small_clone()
        self.succeed([install, self.prefix])
        (self.prefix / "bin/aplcalc").write_text("older", encoding="utf-8")
        self.write_program(self.clone / "contrib/words", "newer")
        (self.prefix / "share/vim").write_text("mine", encoding="utf-8")
        self.write_program(self.clone / "contrib/vim/syntax/aplcalc.vim", "")
        self.leaves_all([install, self.prefix], "making the folder of %s/share/vim/" % self.prefix)

    def test_a_copy_that_fails(self):
        install = self.small_clone(program=PROGRAM_OF_SHELL + "# a long line of comment\n" * 5000)
        self.leaves_all(["bash", "-c", 'ulimit -f 64; "$@"', "bash", install, self.prefix / "a/b"], "copying release/aplcalc failed")

    def test_a_signal_takes_everything_back(self):
        install = self.small_clone()
        path = self.path_with("mv", '#!/bin/sh\ncase "$*" in */bin/aplcalc) kill -TERM "$PPID" ;; esac\nexec /bin/mv "$@"\n')
        self.leaves_all([install, self.prefix], status=130, PATH=path)

    def test_a_file_of_another(self):
        install = self.small_clone()
        self.write_program(self.prefix / "bin/aplcalc", "mine")
        self.leaves_all([install, self.prefix], "%s/bin/aplcalc is there" % self.prefix)

    def test_nothing_to_remove(self):
        install = self.small_clone()
        self.leaves_all([install, "--remove", self.prefix], "nothing is installed in %s" % self.prefix)

    def test_a_list_of_files_elsewhere(self):
        install = self.small_clone()
        self.succeed([install, self.prefix])
        listed = self.prefix / LIST
        for path in ("../mine", "/mine", "bin/../../mine", ""):
            with self.subTest(path):
                listed.write_text("bin/aplcalc\n%s\n" % path, encoding="utf-8")
                (self.folder / "mine").write_text("mine", encoding="utf-8")
                for words in (["--remove"], []):
                    self.leaves_all([install, *words, self.prefix], "names '%s', which is not below" % path)


class Clone(InstallTest):
    """The command of a clone, which runs the released program where it is of these sources alone."""

    def answer(self):
        """What the clone's command answers, on a machine without the toolchain."""
        return run([self.clone / "aplcalc"], typed="+/⍳10\n", PATH="/usr/bin:/bin")

    def test_settings_are_those_of_the_installed_command(self):
        install = self.small_clone()
        self.succeed([install, self.prefix])
        for settings in (None, "glibc.malloc.check=3", ""):
            told = [self.succeed([command, "--settings", "a b", ""], GLIBC_TUNABLES=settings)
                    for command in (self.clone / "aplcalc", self.prefix / "bin/aplcalc")]
            self.assertEqual(told[0], told[1])
            self.assertEqual(told[0].split("\n")[1:], ["a b", "", ""])
            self.assertEqual("hugetlb" in told[0], settings is None)

    @needs("sha256sum")
    def test_other_sources_are_not_answered_for(self):
        self.small_clone()
        self.assertEqual(self.answer().stdout, "55\n")
        source = next((self.clone / "crates/aplcalc/src").glob("*.rt"))
        text, times = source.read_bytes(), (source.stat().st_atime, source.stat().st_mtime)
        other = text[:-2] + bytes([text[-2] ^ 1]) + text[-1:]
        changes = [lambda: source.write_bytes(other), lambda: (source.write_bytes(other), os.utime(source, times)), source.unlink,
                   lambda: (source.parent / "more.rt").write_bytes(b""), lambda: source.rename(source.with_name("other.rt")),
                   lambda: (self.clone / "HANDLES").write_text("", encoding="utf-8")]
        for number, change in enumerate(changes):
            with self.subTest(number):
                change()
                done = self.answer()
                self.assertEqual((done.returncode, done.stdout), (127, ""))
                self.assertIn("not of these sources", done.stderr)
            shutil.rmtree(self.clone)
            self.small_clone()
            self.assertEqual(self.answer().stdout, "55\n")


if __name__ == "__main__":
    unittest.main()
