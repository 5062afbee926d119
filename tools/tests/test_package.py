"""Tests of tools/package, and of the manual page and the completions in tools/package.d.

    python3 -m unittest tools/tests/test_package.py

The packages of most tests hold a small program of the system in place of the built one. Those of class Real hold the built program:
LORRY_PLAN_PROGRAM, or crates/lorry_plan/out/lorry_plan. A test that installs in a clean root needs one, named by LORRY_PLAN_CLEAN_ROOT:
`debootstrap --variant=minbase bookworm ROOT` makes it. What a machine lacks is skipped, and a line says what to install."""
import glob
import gzip
import hashlib
import importlib.machinery
import importlib.util
import os
import re
import shutil
import subprocess
import sys
import tarfile
import tempfile
import unittest

TOP = os.path.dirname(os.path.dirname(os.path.dirname(os.path.abspath(__file__))))
PARTS = os.path.join(TOP, "tools", "package.d")
BUILT = os.environ.get("LORRY_PLAN_PROGRAM") or os.path.join(TOP, "crates", "lorry_plan", "out", "lorry_plan")
CLEAN_ROOT = os.environ.get("LORRY_PLAN_CLEAN_ROOT")
MAINTAINER = ["--maintainer", "A Packager <packager@example.org>"]

sys.dont_write_bytecode = True
sys.path.insert(0, os.path.join(TOP, "tools"))
from lorry_tools.packages import manual
from lorry_tools.packages.commands import COMMANDS, Commands
from lorry_tools.packages.completions import differences_of_completions
from lorry_tools.packages.texts import read

NIGHT_CLOSURE = b"""pairs 2
pair 26563920 360.000
drive 1
wait 120
drive 2
pair 26563980 300.000
drive 3
"""


def lacks(*names):
    return next((name for name in names if not shutil.which(name)), None)


for absent in ["dpkg-deb", "lintian", "mandoc", "man", "zsh", "fish"]:
    if lacks(absent):
        package = {"dpkg-deb": "dpkg", "man": "man-db"}.get(absent, absent)
        print(f"test_package: what needs {absent} is skipped: apt-get install {package}", file=sys.stderr)
if not os.access(BUILT, os.X_OK):
    print("test_package: what runs the built program is skipped: ./lorry_plan builds it", file=sys.stderr)


def content(path):
    with open(path, "rb") as file:
        return file.read()


@unittest.skipUnless(importlib.util.find_spec("jinja2"), "python3-jinja2 is missing")
class Packages(unittest.TestCase):
    """Packages made in a temporary folder."""

    def setUp(self):
        self.folder = tempfile.mkdtemp(prefix="package-test-")
        self.addCleanup(shutil.rmtree, self.folder, True)

    def path(self, *names):
        return os.path.join(self.folder, *names)

    def package(self, *words, top=TOP):
        """Runs tools/package; the program is /bin/true where none is named."""
        named = [] if top != TOP or "--program" in words else ["--program", shutil.which("true")]
        words = [sys.executable, os.path.join(top, "tools", "package"), *MAINTAINER, "--out", self.path("out"), *named, *words]
        return subprocess.run(words, stdout=subprocess.PIPE, stderr=subprocess.PIPE)

    def made(self, *words):
        """The paths of the packages that are made."""
        done = self.package(*words)
        self.assertEqual(done.returncode, 0, done.stderr.decode())
        return done.stdout.decode().split()

    def unpacked(self, *words):
        """The folder of an unpacked archive."""
        (path,) = self.made("--only", "tar", *words)
        with tarfile.open(path) as archive:
            self.assertEqual({(info.uid, info.gid) for info in archive}, {(0, 0)})
            archive.extractall(self.path("tar"))
        (top,) = glob.glob(self.path("tar", "*"))
        return top


class Archive(Packages):
    def test_contents(self):
        top = self.unpacked()
        self.assertEqual(content(os.path.join(top, "bin", "lorry_plan")), content(shutil.which("true")))
        documents = os.path.join(top, "share", "doc", "lorry-plan")
        for name in ["README.md", "CHANGES.md", "docs/COMMANDS.md", "docs/FORMATS.md", "examples/night-closure/graph.gr"]:
            self.assertEqual(content(os.path.join(documents, name)), content(os.path.join(TOP, name)))
        for name in ["INSTALL", "share/man/man1/lorry_plan.1", "share/bash-completion/completions/lorry_plan",
                     "share/zsh/site-functions/_lorry_plan", "share/fish/vendor_completions.d/lorry_plan.fish"]:  # fmt: skip
            self.assertTrue(os.path.isfile(os.path.join(top, name)), name)
        self.assertIn(b"none has been chosen yet", content(os.path.join(documents, "copyright")))
        self.assertNotIn(b"@VERSION@", content(os.path.join(top, "share/man/man1/lorry_plan.1")))
        modes = {os.path.relpath(path, top): os.stat(path).st_mode & 0o777 for path in glob.glob(top + "/**", recursive=True)}
        self.assertEqual({name for name, mode in modes.items() if mode == 0o755 and os.path.isfile(os.path.join(top, name))}, {"bin/lorry_plan"})
        self.assertLessEqual(set(modes.values()), {0o755, 0o644})

    def test_what_was_proved(self):
        """PROVED.md has the program's digest, the kit, the commit, and what README says; of a program that was named it claims no proof."""
        page = content(os.path.join(self.unpacked(), "share", "doc", "lorry-plan", "PROVED.md")).decode()
        self.assertIn(hashlib.sha256(content(shutil.which("true"))).hexdigest(), page)
        self.assertIn("**It isn't known that this is the proved program**", page)
        with open(os.path.join(TOP, "README.md"), encoding="utf-8") as readme:
            proved = re.search(r"## What is proved\n(.*?)\n## ", readme.read(), re.S).group(1)
        self.assertIn(proved.strip(), page)
        self.assertIn("git checkout ", page)

    def test_same_bytes(self):
        first = {os.path.basename(path): content(path) for path in self.made("--only", "tar")}
        self.assertEqual({os.path.basename(path): content(path) for path in self.made("--only", "tar")}, first)

    def test_words(self):
        tool = os.path.join(TOP, "tools", "package")
        self.assertEqual(subprocess.run([sys.executable, tool, "--help"], stdout=subprocess.DEVNULL).returncode, 0)
        for words in [["--only", "rpm"], ["--maintainer", "nobody"]]:
            self.assertEqual(self.package(*words).returncode, 2)
        self.write("text", "no program")
        for program in [self.path("absent"), self.path("text")]:
            done = self.package("--program", program)
            self.assertEqual((done.returncode, done.stdout), (1, b""))
            self.assertEqual(done.stderr.count(b"\n"), 1)

    def write(self, name, text):
        os.makedirs(os.path.dirname(self.path(name)), exist_ok=True)
        with open(self.path(name), "w", encoding="utf-8") as file:
            file.write(text)

    def test_built_program(self):
        """The built program is taken where it is newer than each source and its build is at an end, as ./lorry_plan judges it."""
        top = self.path("repository")
        for name in ["tools/package", "README.md", "CHANGES.md", "crates.txt"]:
            os.makedirs(os.path.dirname(os.path.join(top, name)), exist_ok=True)
            shutil.copy(os.path.join(TOP, name), os.path.join(top, name))
        for name in ["docs", "examples", "tools/package.d", "tools/lorry_tools"]:
            shutil.copytree(os.path.join(TOP, name), os.path.join(top, name))
        self.write("repository/crates/lorry_plan/src/main.rt", "")
        out = os.path.join(top, "crates", "lorry_plan", "out")

        def expect(status, said):
            done = self.package("--only", "tar", top=top)
            self.assertEqual(done.returncode, status, done.stderr.decode())
            self.assertIn(said, done.stderr.decode())

        expect(1, "there is no built program")
        os.makedirs(out)
        shutil.copyfile(shutil.which("true"), os.path.join(out, "lorry_plan"))
        os.chmod(os.path.join(out, "lorry_plan"), 0o755)
        self.write("repository/crates/lorry_plan/out/build.begun", "")
        expect(1, "there is no built program")
        os.remove(os.path.join(out, "build.begun"))
        expect(0, "")
        (path,) = glob.glob(self.path("out", "*.tar.gz"))
        with tarfile.open(path) as archive:
            (name,) = [name for name in archive.getnames() if name.endswith("/PROVED.md")]
            page = archive.extractfile(name).read().decode()
        self.assertIn("It was taken from `crates/lorry_plan/out`", page)
        self.assertNotIn("It isn't known", page)
        later = os.stat(os.path.join(out, "lorry_plan")).st_mtime + 10
        self.write("repository/crates/lorry_plan/proofs/Late.antt", "")
        os.utime(os.path.join(top, "crates/lorry_plan/proofs/Late.antt"), (later, later))
        expect(1, "the built program is older than crates/lorry_plan/proofs")


@unittest.skipIf(lacks("dpkg-deb"), "apt-get install dpkg")
class Debian(Packages):
    def test_package(self):
        (path,) = self.made("--only", "deb")
        subprocess.run(["dpkg-deb", "-R", path, self.path("root")], check=True)
        control = content(self.path("root", "DEBIAN", "control")).decode()
        self.assertIn("Package: lorry-plan\n", control)
        self.assertRegex(control, r"\nDepends: libc6 \(>= 2\.\d+\)\n")
        checked = subprocess.run(["md5sum", "--quiet", "-c", "DEBIAN/md5sums"], cwd=self.path("root"))
        self.assertEqual(checked.returncode, 0)
        files = {os.path.relpath(os.path.join(inner, name), self.path("root")) for inner, _, names in os.walk(self.path("root")) for name in names}
        for name in ["usr/bin/lorry_plan", "usr/share/man/man1/lorry_plan.1.gz", "usr/share/zsh/vendor-completions/_lorry_plan",
                     "usr/share/doc/lorry-plan/copyright", "usr/share/doc/lorry-plan/PROVED.md"]:  # fmt: skip
            self.assertIn(name, files)
        self.assertIn(b"none has been chosen yet", content(self.path("root", "usr/share/doc/lorry-plan/copyright")))

    def test_same_bytes(self):
        first = [content(path) for path in self.made("--only", "deb")]
        self.assertEqual([content(path) for path in self.made("--only", "deb")], first)

    @unittest.skipIf(lacks("lintian"), "apt-get install lintian")
    def test_lintian(self):
        (path,) = self.made("--only", "deb", *(["--program", BUILT] if os.access(BUILT, os.X_OK) else []))
        done = subprocess.run(["lintian", "--fail-on", "error", path], stdout=subprocess.PIPE, stderr=subprocess.DEVNULL)
        self.assertEqual((done.returncode, re.findall(rb"^[EW]: .*", done.stdout, re.M)), (0, []), done.stdout.decode())


@unittest.skipIf(lacks("dpkg-deb"), "apt-get install dpkg")
class Tools(Packages):
    """The package of the tools."""

    COMMANDS = [f"lorry-plan-{it}" for it in ("batch-over-machines", "examples", "from-osm", "holidays", "laws", "lint", "look", "route", "trip", "why-empty", "zones")] + ["lorry-serve"]

    def unpacked(self):
        (path,) = self.made("--only", "tools")
        self.assertEqual(os.path.basename(path).rpartition("_")[2], "all.deb")
        subprocess.run(["dpkg-deb", "-R", path, self.path("root")], check=True)
        return path

    def test_contents(self):
        self.unpacked()
        control = content(self.path("root", "DEBIAN", "control")).decode()
        for line in ("Package: lorry-plan-tools", "Architecture: all", "Depends: lorry-plan, python3 (>= 3.9), python3-jinja2"):
            self.assertIn(line + "\n", control)
        self.assertRegex(control, r"\nSuggests: .*python3-pyosmium.*\n")
        self.assertRegex(control, r"\nRecommends: .*python3-fastapi.*\n")
        self.assertEqual(sorted(os.listdir(self.path("root", "usr/bin"))), self.COMMANDS)
        self.assertEqual(sorted(os.listdir(self.path("root", "usr/share/man/man1"))), [f"{it}.1.gz" for it in self.COMMANDS])
        self.assertEqual(subprocess.run(["md5sum", "--quiet", "-c", "DEBIAN/md5sums"], cwd=self.path("root")).returncode, 0)

    def test_commands(self):
        """Each command says how it is called, by its own name."""
        self.unpacked()
        for name in self.COMMANDS:
            command = self.path("root", "usr/bin", name)
            done = subprocess.run([sys.executable, command, "--help"], stdout=subprocess.PIPE, stderr=subprocess.PIPE)
            self.assertEqual(done.returncode, 0, done.stderr.decode())
            self.assertIn(f"    {name} ", done.stdout.decode())
            self.assertNotRegex(done.stdout.decode(), r"\btools/[a-z]")
        names = [name for _, _, names in os.walk(self.path("root")) for name in names]
        self.assertFalse([it for it in names if it.endswith(".pyc")])

    def test_examples(self):
        self.unpacked()
        command = [sys.executable, self.path("root", "usr/bin", "lorry-plan-examples")]
        source = os.path.join(TOP, "examples")
        # (where the library looks for those of a repository)
        shutil.copytree(source, self.path("root", "usr", "share", "examples"))
        done = subprocess.run([*command, self.path("own")], stdout=subprocess.PIPE, stderr=subprocess.PIPE)
        self.assertEqual(done.returncode, 0, done.stderr.decode())
        made = self.path("own", "night-closure", "graph.gr")
        self.assertEqual(content(made), content(os.path.join(source, "night-closure", "graph.gr")))
        self.assertEqual(os.stat(made).st_mode & 0o777, 0o644)
        again = subprocess.run([*command, self.path("own")], stdout=subprocess.PIPE, stderr=subprocess.PIPE)
        self.assertEqual(again.returncode, 2)
        self.assertIn(b"expected is a folder without the examples", again.stderr)

    @unittest.skipIf(lacks("mandoc"), "apt-get install mandoc")
    def test_manual_pages(self):
        self.unpacked()
        for name in self.COMMANDS:
            page = gzip.decompress(content(self.path("root", "usr/share/man/man1", f"{name}.1.gz")))
            done = subprocess.run(["mandoc", "-Tlint", "-Wwarning"], input=page, stdout=subprocess.PIPE)
            self.assertEqual(done.stdout, b"", name)
            shown = subprocess.run(["mandoc", "-Tascii"], input=page, stdout=subprocess.PIPE).stdout
            self.assertIn(name.encode(), re.sub(b".\b", b"", shown))

    def test_same_bytes(self):
        first = [content(path) for path in self.made("--only", "tools")]
        self.assertEqual([content(path) for path in self.made("--only", "tools")], first)

    @unittest.skipIf(lacks("lintian"), "apt-get install lintian")
    def test_lintian(self):
        path = self.unpacked()
        done = subprocess.run(["lintian", "--fail-on", "error", path], stdout=subprocess.PIPE, stderr=subprocess.DEVNULL)
        self.assertEqual((done.returncode, re.findall(rb"^[EW]: .*", done.stdout, re.M)), (0, []), done.stdout.decode())


@unittest.skipUnless(os.access(BUILT, os.X_OK), "there is no built program: ./lorry_plan builds it")
class Real(Packages):
    EXAMPLE = ["any", "1", "3", "2020-07-04T00:00Z", "2020-07-04T06:40Z"]

    @unittest.skipIf(os.getuid() or lacks("ldd", "chroot"), "a chroot is entered by root only")
    def test_empty_root(self):
        """The archive runs in a root that has nothing but it and the libraries that it asks for."""
        top = self.unpacked("--program", BUILT)
        listed = subprocess.run(["ldd", BUILT], stdout=subprocess.PIPE, check=True).stdout.decode()
        for library in re.findall(r"(/\S+)", listed):
            os.makedirs(top + os.path.dirname(library), exist_ok=True)
            shutil.copy(library, top + library)
        words = ["chroot", top, "/bin/lorry_plan", "plan", "/share/doc/lorry-plan/examples/night-closure", *self.EXAMPLE]
        self.assertEqual(subprocess.run(words, stdout=subprocess.PIPE).stdout, NIGHT_CLOSURE)

    @unittest.skipUnless(CLEAN_ROOT, "debootstrap --variant=minbase bookworm ROOT makes a clean root: name it by LORRY_PLAN_CLEAN_ROOT")
    def test_clean_root(self):
        """The package is installed in a clean root, runs there, and leaves nothing when it is removed."""
        (path,) = self.made("--only", "deb", "--program", BUILT)
        shutil.copy(path, os.path.join(CLEAN_ROOT, "tmp", "lorry-plan.deb"))

        def inside(*words):
            done = subprocess.run(["chroot", CLEAN_ROOT, *words], stdout=subprocess.PIPE, stderr=subprocess.STDOUT, stdin=subprocess.DEVNULL)
            return done.returncode, done.stdout

        self.assertNotEqual(inside("sh", "-c", "command -v rt python3 gcc")[0], 0)
        self.assertEqual(inside("dpkg", "-i", "/tmp/lorry-plan.deb")[0], 0)
        self.assertEqual(inside("lorry_plan", "plan", "/usr/share/doc/lorry-plan/examples/night-closure", *self.EXAMPLE), (0, NIGHT_CLOSURE))
        self.assertEqual(inside("lorry_plan", "--help"), (2, b"refused usage\n"))
        self.assertEqual(inside("dpkg", "--verify", "lorry-plan"), (0, b""))
        self.assertEqual(inside("dpkg", "-r", "lorry-plan")[0], 0)
        self.assertFalse(os.path.exists(os.path.join(CLEAN_ROOT, "usr/bin/lorry_plan")))


class Manual(unittest.TestCase):
    def setUp(self):
        self.text = read(COMMANDS)

    def test_no_difference(self):
        self.assertEqual(manual.differences(), [])

    def test_each_change_is_found(self):
        """A command, an option, a value or a status of COMMANDS that the manual page or a completion lacks is found."""
        for old, new, found in [
            ("| `bans DIR", "| `more DIR NUMBER [--less N]` | does more |\n| `bans DIR", ["other commands", "other options", "'usages'", "'commands'"]),
            ("[--workers N]`", "[--helpers N]`", ["other options", "'usages'", "'commands'"]),
            ("| plans a trip with driver breaks |", "| plans a trip with breaks |", ["'commands'"]),
            ("- N is the number of workers that plan at once, from 1 to 64;", "- N is the number of workers, from 1 to 32;", ["'values'"]),
            ("- F is `plain`, `table`, `csv` or `json`,", "- F is `plain`, `table` or `json`,", ["for bash has other forms", "for zsh has other forms", "for fish has other forms", "'values'"]),
            ("each at most once.", "each at most twice.", ["'words'"]),
            ("| 7 | BadRequest |", "| 8 | BadRequest |", ["'statuses'"]),
            ("| 6 | NoMemory | out of memory;", "| 6 | NoMemory | no memory;", ["'statuses'"]),
            ("The first step that fails decides the answer.", "The last step that fails decides the answer.", ["'order'"]),
        ]:
            with self.subTest(new=new):
                self.assertEqual(self.text.count(old), 1)
                commands = Commands(self.text.replace(old, new))
                differences = [*differences_of_completions(commands), *manual.differences_of_manual(commands)]
                for part in found:
                    self.assertIn(part, " ".join(differences))

    def test_other_form(self):
        for old, new in [("| Words | Does |", "| Words |"), ("| Status | Name | When |", "| Status |")]:
            with self.assertRaises(ValueError):
                Commands(self.text.replace(old, new))

    @unittest.skipIf(lacks("mandoc"), "apt-get install mandoc")
    def test_mandoc(self):
        page = content(manual.MANUAL).replace(b"@DATE@", b"2026-11-29")
        done = subprocess.run(["mandoc", "-Tlint", "-Wwarning"], input=page, stdout=subprocess.PIPE)
        self.assertEqual((done.returncode, done.stdout), (0, b""))

    @unittest.skipIf(lacks("man", "groff"), "apt-get install man-db groff")
    def test_man(self):
        done = subprocess.run(["man", "--warnings", "-l", manual.MANUAL], stdout=subprocess.PIPE, stderr=subprocess.PIPE)
        self.assertEqual((done.returncode, done.stderr), (0, b""))
        self.assertIn(b"EXIT STATUS", done.stdout)


# What zsh offers behind a line: each match that is added is printed, and then the shell ends.
CAPTURE = r"""
zmodload zsh/zpty
zpty z zsh -f -i
init='
PROMPT=""
autoload -Uz compinit
fpath=('$1' $fpath)
compinit -u -D
bindkey "^M" undefined; bindkey "^J" undefined; bindkey "^I" complete-word
mark () { print -r -- "===" }
compprefuncs=(mark); comppostfuncs=(mark exit)
zstyle ":completion:*" insert-tab false
compadd () {
  if [[ ${@[1,(i)(-|--)]} == *-(O|A|D)\ * ]]; then builtin compadd "$@"; return $?; fi
  local -a hits; builtin compadd -A hits "$@"
  local hit; for hit in $hits; print -r -- "hit $hit"
}
print ready
'
zpty -w z "source =(print -r -- ${(qq)init})"
while zpty -r z line; do [[ $line == ready* ]] && break; done
zpty -w z "$2"$'\t'
all=""; while zpty -r z line; do all+=$line; done
print -r -- $all | tr -d '\r' | sed -n 's/^hit //p'
"""


class Completions(unittest.TestCase):
    """What is offered behind a line, in a folder with two examples."""

    LINES = [
        ("lorry_plan ", {"plan", "check", "bans", "batch", "gen", "latest", "tour", "breaks", "explain"}),
        ("lorry_plan b", {"bans", "batch", "breaks"}),
        ("lorry_plan plan w", {"weekend", "weekday"}),
        ("lorry_plan gen weeke", {"weekend"}),
        ("lorry_plan plan weekend ", {"any", "truck", "van"}),
        ("lorry_plan bans weekend t", {"truck"}),
        ("lorry_plan plan weekend any 1 ", set()),
        ("lorry_plan plan weekend any 1 3 2020-07-04T00:00Z 2020-07-04T06:40Z --", {"--form", "--certificate"}),
        ("lorry_plan plan weekend any 1 3 2020-07-04T00:00Z 2020-07-04T06:40Z --form ", {"plain", "table", "csv", "json"}),
        ("lorry_plan plan --form=csv weekend ", {"any", "truck", "van"}),
        ("lorry_plan plan --form csv weekend v", {"van"}),
        ("lorry_plan plan weekday --certificate ", {"forged.cert", "plan.cert"}),
        ("lorry_plan check weekday any 1 3 2020-07-04T00:00Z 2020-07-04T06:40Z ", {"forged.cert", "plan.cert"}),
        ("lorry_plan batch weekday ", {"closures.csv", "parking.csv", "ratings.csv"}),
        ("lorry_plan batch weekday closures.csv --", {"--workers"}),
        ("lorry_plan breaks weekday any 1 2 3 4 --", {"--drive", "--rest"}),
        ("lorry_plan tour weekday any 1 2 3 4 c", {"closures.csv"}),
        ("lorry_plan explain weekday any 1 2 3 4 p", {"parking.csv", "plan.cert"}),
    ]

    def setUp(self):
        self.folder = tempfile.mkdtemp(prefix="completion-test-")
        self.addCleanup(shutil.rmtree, self.folder, True)
        shutil.copytree(os.path.join(TOP, "examples", "weekend-ban"), os.path.join(self.folder, "weekend"))
        shutil.copytree(os.path.join(TOP, "examples", "certified-trip"), os.path.join(self.folder, "weekday"))

    def expect(self, offered):
        for line, wanted in self.LINES:
            with self.subTest(line=line):
                self.assertEqual({word.rstrip("/") for word in offered(line)}, wanted)

    def output(self, *words):
        return subprocess.run(words, cwd=self.folder, stdin=subprocess.DEVNULL, stdout=subprocess.PIPE, timeout=60).stdout.decode()

    @unittest.skipIf(lacks("bash"), "apt-get install bash")
    def test_bash(self):
        script = f"""compopt() {{ :; }}
. {PARTS}/lorry_plan.bash
COMP_LINE=$1 COMP_POINT=${{#1}}
_lorry_plan
printf '%s\\n' "${{COMPREPLY[@]}}" """
        self.expect(lambda line: self.output("bash", "-c", script, "bash", line).split())

    @unittest.skipIf(lacks("bash"), "apt-get install bash")
    def test_bash_with_blanks(self):
        shutil.copytree(os.path.join(self.folder, "weekend"), os.path.join(self.folder, "week end"))
        script = f"""compopt() {{ :; }}
. {PARTS}/lorry_plan.bash
COMP_LINE='lorry_plan plan week\\ end ' COMP_POINT=26
_lorry_plan
printf '%s\\n' "${{COMPREPLY[@]}}" """
        self.assertEqual(self.output("bash", "-c", script).split(), ["any", "truck", "van"])

    @unittest.skipIf(lacks("zsh"), "apt-get install zsh")
    def test_zsh(self):
        self.expect(lambda line: self.output("zsh", "-f", "-c", CAPTURE, "zsh", PARTS, line).split())

    @unittest.skipIf(lacks("fish"), "apt-get install fish")
    def test_fish(self):
        source = f"source {PARTS}/lorry_plan.fish; complete -C "
        self.expect(lambda line: [it.partition("\t")[0] for it in self.output("fish", "--no-config", "-c", f"{source}'{line}'").splitlines()])


if __name__ == "__main__":
    unittest.main()
