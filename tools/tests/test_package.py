"""The Debian package: its bytes, its files, and a session by the program in it."""
import concurrent.futures
import email.utils
import gzip
import hashlib
import os
import pathlib
import subprocess
import sys
import tempfile
import unittest

from common import TOP, needs

FILES = ["bin/aplcalc", "lib/aplcalc/aplcalc", "share/man/man1/aplcalc.1.gz", "share/bash-completion/completions/aplcalc",
         "share/zsh/vendor-completions/_aplcalc", "share/fish/vendor_completions.d/aplcalc.fish", "share/doc/aplcalc/copyright",
         "share/doc/aplcalc/changelog.gz", "share/doc/aplcalc/docs/MANUAL.md", "share/doc/aplcalc/release/THIRD-PARTY.md",
         "share/doc/aplcalc/examples/first.apl"]


def output(*command, typed=None, **variables):
    """What a command writes that must succeed."""
    environment = {**os.environ, **variables}
    environment.pop("SOURCE_DATE_EPOCH", None)
    return subprocess.run([str(word) for word in command], env=environment, input=typed, capture_output=True, text=True,
                          encoding="utf-8", timeout=120, check=True).stdout


@needs("dpkg-deb", "xz")
class Package(unittest.TestCase):
    """A package that is made twice, in two folders, time zones, languages and masks of modes, and unpacked once."""

    @classmethod
    def setUpClass(cls):
        folder = tempfile.TemporaryDirectory(prefix="aplcalc package ")
        cls.addClassCleanup(folder.cleanup)
        cls.folder = pathlib.Path(folder.name)
        settings = [(TOP, "022", {"TZ": "UTC", "LC_ALL": "C"}), ("/", "077", {"TZ": "Asia/Tokyo", "LC_ALL": "C.UTF-8"})]
        with concurrent.futures.ThreadPoolExecutor() as pool:
            cls.packages = list(pool.map(cls.make, ("one", "two"), settings))
        cls.root = cls.folder / "unpacked"
        output("dpkg-deb", "-x", cls.packages[0], cls.root)

    @classmethod
    def make(cls, name, setting):
        """Makes the package in a folder of its own, and answers its path."""
        where, mask, variables = setting
        script = 'cd "$1" && umask "$2" && "$3" "$4"'
        told = output("bash", "-c", script, "bash", where, mask, TOP / "release/package", cls.folder / name, **variables)
        return pathlib.Path(told.rstrip("\n"))

    def field(self, name):
        """A field of the package's description."""
        return output("dpkg-deb", "-f", self.packages[0], name).rstrip("\n")

    def test_the_same_sources_make_the_same_bytes(self):
        self.assertNotEqual(*self.packages)
        self.assertEqual(*(hashlib.sha256(package.read_bytes()).hexdigest() for package in self.packages))

    def test_a_session_runs_from_the_unpacked_files(self):
        command = self.root / "usr/bin/aplcalc"
        self.assertEqual(output(command, typed="+/31 4 15\n6×7\n"), "50\n42\n")
        self.assertEqual((self.root / "usr/lib/aplcalc/aplcalc").read_bytes(), (TOP / "release/aplcalc").read_bytes())

    @unittest.skipUnless((TOP / "tools/aplrun").exists(), "tools/aplrun: not found")
    def test_scripts_and_python_find_the_unpacked_program(self):
        alone = {"PATH": "/usr/bin:/bin", "PYTHONDONTWRITEBYTECODE": "1", "APLCALC": ""}
        self.assertEqual(output(sys.executable, self.root / "usr/bin/aplrun", "-e", "6×7", **alone), "42\n")
        asked = "import aplcalc\nwith aplcalc.Calculator() as apl: print(apl('+/31 4 15'))"
        packages = self.root / "usr/lib/python3/dist-packages"
        self.assertEqual(output(sys.executable, "-c", asked, PYTHONPATH=str(packages), **alone), "50\n")

    def test_version_and_dependencies(self):
        version, date = output(TOP / "release/version").split()
        self.assertEqual(self.packages[0].name, "aplcalc_%s_amd64.deb" % version)
        self.assertEqual([self.field(name) for name in ("Package", "Version", "Architecture", "Depends", "Recommends")],
                         ["aplcalc", version, "amd64", "libc6 (>= 2.34)", "rlwrap, python3"])
        newest = gzip.decompress((self.root / "usr/share/doc/aplcalc/changelog.gz").read_bytes()).decode("utf-8").split("\n\n -- ")[0:2]
        self.assertTrue(newest[0].startswith("aplcalc (%s) unstable; urgency=medium\n\n  * " % version))
        written = email.utils.parsedate_to_datetime(newest[1].split("\n")[0].split("  ")[1])
        self.assertEqual(written.date().isoformat(), date)

    def test_owners_modes_and_times(self):
        date = output(TOP / "release/version").split()[1]
        programs = {"./usr/bin/aplcalc", "./usr/lib/aplcalc/aplcalc", "./usr/bin/apl", "./usr/bin/aplrun"}
        for line in output("dpkg-deb", "-c", self.packages[0], TZ="UTC").splitlines():
            mode, owner, _, day, hour, path = line.split(None, 5)
            self.assertEqual((owner, day, hour), ("root/root", date, "00:00"), line)
            self.assertIn(mode, ("drwxr-xr-x", "lrwxrwxrwx", "-rw-r--r--", "-rwxr-xr-x"), line)
            if path in programs:
                self.assertEqual(mode, "-rwxr-xr-x", line)

    def test_files_and_their_digests(self):
        for name in FILES:
            self.assertTrue((self.root / "usr" / name).is_file(), name)
        self.assertFalse((self.root / "usr/share/aplcalc/installed").exists())
        output("dpkg-deb", "-e", self.packages[0], self.folder / "control")
        listed = dict(reversed(line.split("  ", 1)) for line in (self.folder / "control/md5sums").read_text("utf-8").splitlines())
        found = {str(path.relative_to(self.root)): hashlib.md5(path.read_bytes()).hexdigest()
                 for path in self.root.rglob("*") if path.is_file()}
        self.assertEqual(listed, found)
        self.assertIn("Expat", (self.root / "usr/share/doc/aplcalc/copyright").read_text("utf-8"))

    @needs("dpkg-parsechangelog")
    def test_the_changelog_is_one_of_debian(self):
        text = self.folder / "changelog"
        text.write_bytes(gzip.decompress((self.root / "usr/share/doc/aplcalc/changelog.gz").read_bytes()))
        versions = [line[3:].split()[0] for line in (TOP / "CHANGELOG.md").read_text("utf-8").splitlines() if line.startswith("## ")]
        parsed = output("dpkg-parsechangelog", "-l", text, "--all", "--show-field", "Version").splitlines()
        self.assertEqual(parsed[0], versions[0])
        entries = output("dpkg-parsechangelog", "-l", text, "--all", "--format", "rfc822").splitlines()
        self.assertEqual([line.split()[1] for line in entries if line.startswith("Version: ")], versions)

    def test_wrong_usage_and_a_folder_that_cannot_be_made(self):
        for words in (["--wrong"], ["a", "b"], [""]):
            done = subprocess.run([TOP / "release/package", *words], capture_output=True, text=True, check=False)
            self.assertEqual((done.returncode, done.stdout, done.stderr[:6]), (2, "", "Usage:"))
        blocked = self.folder / "file"
        blocked.write_text("mine", encoding="utf-8")
        done = subprocess.run([TOP / "release/package", blocked], capture_output=True, text=True, check=False)
        self.assertEqual((done.returncode, done.stdout), (1, ""))
        self.assertIn("package: making the folder %s failed" % blocked, done.stderr)
        self.assertEqual(blocked.read_text(encoding="utf-8"), "mine")
        self.assertIn("Usage: release/package [FOLDER]", output(TOP / "release/package", "--help"))


if __name__ == "__main__":
    unittest.main()
