"""Tests of tools/batch_over_machines: cutting, putting together, parts that fail, runs that go on, refusals, ssh and Slurm.

    python3 -m unittest tools/tests/test_batch_over_machines.py

Most tests run a stand-in for the program, which can be told to fail. Those of class Real run a built program: LORRY_PLAN_PROGRAM, or
crates/lorry_plan/out/lorry_plan. What a machine lacks is skipped, and a line says what to install: a temporary sshd and a temporary Slurm of one
machine are started here, on ports of their own of 127.0.0.1, and end with the tests."""
import getpass
import os
import random
import re
import shutil
import signal
import socket
import subprocess
import sys
import tempfile
import time
import unittest

TOP = os.path.dirname(os.path.dirname(os.path.dirname(os.path.abspath(__file__))))
TOOL = os.path.join(TOP, "tools", "batch_over_machines")
BUILT = os.environ.get("LORRY_PLAN_PROGRAM") or os.path.join(TOP, "crates", "lorry_plan", "out", "lorry_plan")
SBIN = "/usr/sbin:/sbin:" + os.environ["PATH"]

# The gate runs a short form.
long_test = unittest.skipIf(os.environ.get("LORRY_PLAN_TESTS") == "short", "it takes long: its file runs it by itself")

sys.dont_write_bytecode = True
sys.path.insert(0, os.path.dirname(TOOL))
from lorry_tools import files
from lorry_tools.batches import judging, main, table, work

# A program that answers as `batch` does, with a text of its own for each row; `plan` beside its copy tells it to fail.
STAND_IN = r'''#!PYTHON
import csv, io, os, re, sys, time
words = sys.argv[1:]
TELL = "FOLDER"


def end(text, status=0):
    sys.stdout.write(text)
    sys.stdout.flush()
    os._exit(status)


def told(part, what):
    """Whether this part is told to do so once more."""
    path = os.path.join(TELL, what + "-" + part)
    if not os.path.exists(path):
        return False
    left = int(open(path).read())
    if left == 0:
        return False
    with open(path, "w") as file:
        file.write(str(left - 1))
    return True


if words[:1] != ["batch"] or not re.fullmatch(r"[\w.][\w.-]{0,63}", words[2]):
    end("refused usage\n", 2)
folder, table = words[1:3]
if not os.path.exists(os.path.join(folder, "graph.gr")):
    end("refused input graph.gr 0 Missing\n", 3)
path = os.path.join(folder, table)
if not os.path.exists(path):
    end("refused input jobs 0 Missing\n", 3)
if open(os.path.join(folder, "graph.gr")).read() == "bad":
    end("refused input graph.gr 1 BadForm\n", 3)
rows = list(csv.reader(io.StringIO(open(path, newline="").read())))
rows = [row for row in rows if row]
if rows and rows[0] != ["vehicle", "from", "to", "depart", "until"]:
    end("refused input jobs 1 BadHeader\n", 3)
for number, row in enumerate(rows[1:], 2):
    if len(row) != 5:
        end(f"refused input jobs {number} FieldCount\n", 3)
    if number > 10001:
        end(f"refused input jobs {number} SizeLimit\n", 3)
    if not row[1].isdigit():
        end(f"refused input jobs {number} BadField\n", 3)
part = re.sub(r"\D", "", table)
with open(os.path.join(TELL, "runs"), "a") as file:
    file.write(part + "\n")
if told(part, "fail"):
    end("", 6)
texts = [f"job {k}\npairs 1\npair {int(row[1]) + int(row[2])} 1.000\ndrive {row[0]}\n" for k, row in enumerate(rows[1:], 1)]
if told(part, "tear"):
    end("".join(texts)[:-5])
if told(part, "lose"):
    end("".join(texts[:-1]))
if told(part, "wait"):
    time.sleep(600)
time.sleep(0.05)
end("".join(texts))
'''


def lacks(*names):
    return next((name for name in names if not shutil.which(name, path=SBIN)), None)


def say_what_is_skipped():
    """One line for each kind of tests that can't be run here."""
    for kind, packages, names in [
        ("all runs", "parallel", ["parallel"]),
        ("runs over ssh", "parallel openssh-server rsync", ["parallel", "sshd", "ssh", "ssh-keygen", "rsync"]),
        ("runs over Slurm", "slurm-wlm munge", ["sbatch", "slurmctld", "slurmd", "munged"]),
    ]:
        if lacks(*names):
            print(f"test_batch_over_machines: {kind} are skipped: apt-get install {packages}", file=sys.stderr)
    if not os.access(BUILT, os.X_OK):
        print("test_batch_over_machines: runs of the built program are skipped: ./lorry_plan builds it", file=sys.stderr)


say_what_is_skipped()


def free_port():
    with socket.socket() as it:
        it.bind(("127.0.0.1", 0))
        return it.getsockname()[1]


class Records(unittest.TestCase):
    """The records of a table are those that the program's reader finds."""

    def test_records(self):
        for text, records in [
            (b"", []),
            (b"\r\n\n\r", []),
            (b"a,b\nc,d\n", [b"a,b", b"c,d"]),
            (b"a,b\r\nc,d", [b"a,b", b"c,d"]),
            (b"a,b\rc,d\r\r\n\n", [b"a,b", b"c,d"]),
            (b'a,"b\nc"\nd,e\n', [b'a,"b\nc"', b"d,e"]),
            (b'a,"b""\n""c"x\nd,e\n', [b'a,"b""\n""c"x', b"d,e"]),
            (b'a,b"c\nd"\n', [b'a,b"c', b'd"']),
            (b'a,"b"c"\nd\n', [b'a,"b"c"', b"d"]),
            (b'a,"b\nc', [b'a,"b\nc"']),
            (b'a,"', [b'a,""']),
            (b'a,"b""', [b'a,"b"""']),
            (b'a,"b"', [b'a,"b"']),
            (b",,\n ,\n", [b",,", b" ,"]),
            (b"\xef\xbb\xbfa\nb", [b"\xef\xbb\xbfa", b"b"]),
            (b'""\n"",""\n', [b'""', b'"",""']),
        ]:
            with self.subTest(text=text):
                self.assertEqual(table.records_of(text), records)

    def test_records_as_a_machine(self):
        """The same over drawn tables, by a reader that goes byte by byte."""
        draws = random.Random(1)
        for _ in range(20_000):
            text = bytes(draws.choice(b'a,",\n\r"') for _ in range(draws.randint(0, 12)))
            records = table.records_of(text)
            self.assertEqual([fields_of(record) for record in records], machine(text), text)
            # Records that are written on lines of their own are read as they were.
            self.assertEqual(machine(b"".join(record + b"\n" for record in records)), machine(text), text)

    def test_cut(self):
        for count in range(1, 60):
            for most in range(1, 60):
                cut = table.cut_of(count, most)
                self.assertEqual([row for first, behind in cut for row in range(first, behind)], list(range(count)))
                sizes = [behind - first for first, behind in cut]
                self.assertTrue(max(sizes) <= most and max(sizes) - min(sizes) <= 1 and len(cut) == -(-count // most))

    def test_files(self):
        """The files of the network are those that docs/FORMATS.md lists."""
        with open(os.path.join(TOP, "docs", "FORMATS.md"), encoding="utf-8") as page:
            self.assertEqual(["graph.gr", *re.findall(r"^\| `(\w+\.csv)` \|", page.read(), re.M)], list(files.NETWORK))

    def test_limits(self):
        with open(os.path.join(TOP, "docs", "LIMITS.md"), encoding="utf-8") as page:
            page = page.read()
        self.assertIn(f"| a table of jobs | {judging.MOST_JOBS:,} |", page)
        self.assertIn(f"| a file of the folder, a table of jobs or stops | {main.LONGEST_FILE:,} bytes |", page)
        self.assertIn(f"| workers of a batch | 1 to {work.MOST_WORKERS} |", page)


def machine(table):
    """The records of a table, by the states of csv-core."""
    records, fields, field, state = [], [], b"", "record"
    for byte in (bytes([it]) for it in table):
        if state == "quoted":
            if byte == b'"':
                state = "quote"
            else:
                field += byte
            continue
        if state == "quote" and byte == b'"':
            field, state = field + byte, "quoted"
        elif byte in b"\r\n":
            if state != "record":
                records.append([*fields, field])
                fields, field, state = [], b"", "record"
        elif byte == b",":
            fields, field, state = [*fields, field], b"", "field"
        elif byte == b'"' and state in ("record", "field"):
            state = "quoted"
        else:
            field, state = field + byte, "inside"
    return records if state == "record" else [*records, [*fields, field]]


def fields_of(record):
    found = machine(record)
    return found[0] if found else []


class Runs(unittest.TestCase):
    """Runs of the tool in a temporary folder."""

    def setUp(self):
        self.folder = tempfile.mkdtemp(prefix="batch-test-")
        self.addCleanup(shutil.rmtree, self.folder, True)
        self.net = self.path("net")
        os.mkdir(self.net)
        self.write("net/graph.gr", "p sp 1 0\n")
        self.write("net/tolls.csv", "arc,toll\n")
        self.program = self.path("stand_in")
        self.write("stand_in", STAND_IN.replace("PYTHON", sys.executable).replace("FOLDER", self.folder))
        os.chmod(self.program, 0o755)
        self.environment = dict(os.environ, PARALLEL_HOME=self.path("parallel"), PATH=SBIN)

    def path(self, *names):
        return os.path.join(self.folder, *names)

    def write(self, name, text):
        with open(self.path(name), "w", encoding="utf-8", newline="") as file:
            file.write(text)

    def read(self, name):
        with open(self.path(name), encoding="utf-8", newline="") as file:
            return file.read()

    def write_jobs(self, count, end="\n"):
        rows = [f"truck,{number},{number * 7 % 11},1,2" for number in range(1, count + 1)]
        self.write("net/jobs.csv", end.join(["vehicle,from,to,depart,until", *rows, ""]))

    def words(self, *options, jobs="jobs.csv"):
        return [sys.executable, TOOL, self.net, jobs, "--program", self.program, *options]

    def call(self, *options, jobs="jobs.csv"):
        return subprocess.run(
            self.words(*options, jobs=jobs), cwd=self.folder, env=self.environment, stdout=subprocess.PIPE, stderr=subprocess.PIPE, timeout=580
        )

    def one_batch(self, jobs="jobs.csv"):
        done = subprocess.run([self.program, "batch", self.net, jobs], stdout=subprocess.PIPE)
        if os.path.exists(self.path("runs")):
            os.remove(self.path("runs"))
        return done

    def expect_same(self, *options, jobs="jobs.csv"):
        """The tool prints what one batch prints, ends with its status, and leaves nothing behind."""
        one, many = self.one_batch(jobs), self.call(*options, jobs=jobs)
        self.assertEqual((many.returncode, many.stdout), (one.returncode, one.stdout), many.stderr.decode())
        self.assertFalse([name for name in os.listdir(self.folder) if name.endswith(".work")])
        return many

    def said(self, done):
        """The lines on the standard error, without those that say how far it is."""
        return [it for it in done.stderr.decode().splitlines() if not re.search(r": \d+ of \d+ parts$", it)]

    def runs(self):
        """The parts that were run, in the order of their numbers."""
        if not os.path.exists(self.path("runs")):
            return []
        with open(self.path("runs"), encoding="utf-8") as file:
            return sorted(file.read().split())


@unittest.skipIf(lacks("parallel"), "apt-get install parallel")
class OverParallel(Runs):
    def test_same_text(self):
        for count, rows in [(1, 500), (7, 1), (23, 5), (23, 23), (24, 23)]:
            with self.subTest(count=count, rows=rows):
                self.write_jobs(count)
                self.expect_same("--rows", str(rows), "--jobs", "4")
                self.assertEqual(self.runs(), [f"{part:05}" for part in range(1, -(-count // rows) + 1)])

    def test_odd_tables(self):
        head = "vehicle,from,to,depart,until"
        for table in [
            f"{head}\r\ntruck,1,2,3,4\r\n\r\ntruck,2,2,3,4\r\n",
            f'{head}\n"truck","1",2,3,4\n"a\nb",2,2,3,4\ntruck,3,3,3,3\n',
            f'{head}\ntruck,1,2,3,4\ntruck,1,2,3,"4',
            f"{head}\ntruck,1,2,3,4\n\n\ntruck,1,2,3,5",
            "",
            f"{head}\n",
        ]:
            with self.subTest(table=table):
                self.write("net/jobs.csv", table)
                self.expect_same("--rows", "1", "--jobs", "4")

    def test_refusals(self):
        """Each refusal is that of one batch, before any part is run."""
        head, row = "vehicle,from,to,depart,until\n", "truck,1,2,3,4\n"
        for table in [
            "vehicle,from\n" + row * 3,
            head + row * 5 + "truck,x,2,3,4\n" + row * 5,
            head + row * 5 + "truck,x,2,3,4\n" + "truck,1,2\n",
            head + row * 5 + "truck,1,2\n" + "truck,x,2,3,4\n",
            head + row * 10 + "truck,x,2,3,4",
            head + row * 10_001,
            head + row * 10_000 + "truck,1\n",
        ]:
            self.write("net/jobs.csv", table)
            self.expect_same("--rows", "2")
            self.assertEqual(self.runs(), [])
        self.write("net/jobs.csv", head + row)
        self.expect_same(jobs="absent.csv")
        self.expect_same(jobs="../net/jobs.csv")
        self.write("net/graph.gr", "bad")
        self.expect_same()
        os.remove(self.path("net/graph.gr"))
        self.expect_same()

    def test_long_table(self):
        self.write_jobs(10_001)
        many = self.call("--long-table", "--rows", "5000")
        self.assertEqual(many.returncode, 0, many.stderr.decode())
        self.assertEqual(re.findall(rb"^job (\d+)$", many.stdout, re.M), [b"%d" % number for number in range(1, 10_002)])
        with open(self.path("net/jobs.csv"), "a", encoding="utf-8") as file:
            file.write("truck,1,2,3,4\ntruck,x,2,3,4\n")
        many = self.call("--long-table")
        self.assertEqual((many.returncode, many.stdout), (3, b"refused input jobs 10004 BadField\n"))

    def test_bad_rows_are_skipped_and_listed(self):
        self.write("net/jobs.csv", "vehicle,from,to,depart,until\ntruck,1,7,1,2\none\ntruck,2,3,1,2\ntruck,x,3,1,2\ntruck,4,3,1,2\n")
        many = self.call("--rows", "1", "--skip-bad")
        texts = [f"job {job}\npairs 1\npair {pair} 1.000\ndrive truck\n" for job, pair in ((1, 8), (3, 5), (5, 7))]
        self.assertEqual((many.returncode, many.stdout.decode()), (1, "".join(texts)), many.stderr.decode())
        self.assertEqual(
            self.said(many),
            [
                "batch_over_machines: jobs.csv row 3: FieldCount: one",
                "batch_over_machines: jobs.csv row 5, column from: BadField: truck,x,3,1,2",
                "batch_over_machines: 3 trips: 3 planned, 0 empty, 0 refused, 2 rows skipped",
            ],
        )
        self.assertEqual(self.call().returncode, 3)

    def test_all_rows_are_bad(self):
        self.write("net/jobs.csv", "vehicle,from,to,depart,until\none\ntwo\n")
        many = self.call("--skip-bad")
        self.assertEqual((many.returncode, many.stdout), (1, b""))
        self.assertIn("0 trips: 0 planned, 0 empty, 0 refused, 2 rows skipped", many.stderr.decode())

    def test_the_last_line_counts_trips(self):
        self.write_jobs(7)
        self.assertEqual(self.said(self.call("--rows", "2")), ["batch_over_machines: 7 trips: 7 planned, 0 empty, 0 refused"])

    def test_parts_that_fail(self):
        """A part that fails, that loses a job or whose text is cut short is run again; nothing is lost or doubled."""
        self.write_jobs(20)
        for what, times in [("fail-00002", 2), ("lose-00004", 2), ("tear-00001", 1)]:
            self.write(what, str(times))
        many = self.call("--rows", "5")
        self.assertEqual(self.runs(), ["00001"] * 2 + ["00002"] * 3 + ["00003"] + ["00004"] * 3)
        one = self.one_batch()
        self.assertEqual((many.returncode, many.stdout), (0, one.stdout), many.stderr.decode())

    @long_test
    def test_parts_that_go_on_failing(self):
        self.write_jobs(20)
        self.write("fail-00003", "1000")
        many = self.call("--rows", "5", "--tries", "2")
        self.assertEqual((many.returncode, many.stdout), (75, b""))
        self.assertIn("part 3, rows 12 to 16: ", many.stderr.decode())
        self.assertIn("the program ended with status 6", many.stderr.decode())
        self.assertEqual(self.runs(), ["00001", "00002", "00003", "00003", "00004"])
        # The same words go on: only the part that is left is run.
        os.remove(self.path("runs"))
        self.write("fail-00003", "0")
        many = self.call("--rows", "7")
        self.assertEqual(self.runs(), ["00003"])
        self.assertEqual((many.returncode, many.stdout), (0, self.one_batch().stdout), many.stderr.decode())
        self.assertIn("goes on: 3 of 4 parts were done before", many.stderr.decode())

    @long_test
    def test_texts_that_were_changed(self):
        """A text that isn't as its part wrote it isn't taken."""
        self.write_jobs(20)
        self.write("fail-00003", "1000")
        self.call("--rows", "5", "--tries", "1")
        texts = self.path("jobs.csv.work", "texts")
        for name, change in [
            ("00001", lambda text: text.replace("drive truck", "drive other", 1)),
            ("00002", lambda text: text[: len(text) // 2]),
        ]:
            with open(os.path.join(texts, name), encoding="utf-8") as file:
                text = file.read()
            with open(os.path.join(texts, name), "w", encoding="utf-8") as file:
                file.write(change(text))
        shutil.copyfile(os.path.join(texts, "00004"), os.path.join(texts, "00003"))
        os.remove(self.path("runs"))
        self.write("fail-00003", "0")
        many = self.call("--rows", "5")
        self.assertEqual(self.runs(), ["00001", "00002", "00003"])
        self.assertEqual((many.returncode, many.stdout), (0, self.one_batch().stdout), many.stderr.decode())

    @long_test
    def test_other_files(self):
        """Parts of other files, of another table or program are never put together."""
        self.write_jobs(20)
        self.write("fail-00003", "1000")
        for name, text in [("net/graph.gr", "p sp 2 0\n"), ("net/rules.csv", ""), ("net/jobs.csv", None), ("stand_in", None),
                           ("jobs.csv.work/net/graph.gr", "p sp 2 0\n"), ("jobs.csv.work/program", "")]:  # fmt: skip
            with self.subTest(name=name):
                before = {it: self.read(it) for it in ["net/graph.gr", "net/jobs.csv", "stand_in"]}
                self.assertEqual(self.call("--rows", "5", "--tries", "1").returncode, 75)
                self.write(name, before[name] + "\n" if text is None else text)
                many = self.call("--rows", "5")
                self.assertEqual((many.returncode, many.stdout), (2, b""))
                self.assertRegex(many.stderr.decode(), "has parts of other files|the copies in .* were changed")
                for it, held in before.items():
                    self.write(it, held)
                shutil.rmtree(self.path("jobs.csv.work"))

    @long_test
    def test_interrupted(self):
        for sign in (signal.SIGTERM, signal.SIGINT, signal.SIGKILL):
            with self.subTest(sign=sign):
                self.write_jobs(20)
                self.write("wait-00003", "1")
                with open(self.path("errors"), "wb") as errors:
                    run = subprocess.Popen(self.words("--rows", "5", "--jobs", "2"), cwd=self.folder, env=self.environment,
                                           stdout=subprocess.PIPE, stderr=errors, start_new_session=True)  # fmt: skip
                    until = time.monotonic() + 120
                    while self.runs() != ["00001", "00002", "00003", "00004"] and time.monotonic() < until:
                        time.sleep(0.1)
                    time.sleep(2)
                    run.send_signal(sign)
                    printed = run.communicate(timeout=60)[0]
                self.assertEqual((run.returncode, printed), (-sign if sign == signal.SIGKILL else 128 + sign, b""))
                os.remove(self.path("runs"))
                many = self.call("--rows", "5")
                self.assertEqual(self.runs(), ["00003"])
                self.assertEqual((many.returncode, many.stdout), (0, self.one_batch().stdout), many.stderr.decode())

    @long_test
    def test_two_calls_at_once(self):
        self.write_jobs(10)
        self.write("wait-00001", "1")
        with subprocess.Popen(self.words("--rows", "5"), cwd=self.folder, env=self.environment, stderr=subprocess.DEVNULL) as run:
            until = time.monotonic() + 120
            while not self.runs() and time.monotonic() < until:
                time.sleep(0.1)
            many = self.call("--rows", "5")
            self.assertEqual((many.returncode, many.stdout), (75, b""))
            self.assertIn("another call is at work", many.stderr.decode())
            run.send_signal(signal.SIGTERM)

    @long_test
    def test_timeout(self):
        self.write_jobs(10)
        self.write("wait-00001", "1")
        many = self.call("--rows", "5", "--timeout", "3")
        self.assertEqual((many.returncode, many.stdout), (0, self.one_batch().stdout), many.stderr.decode())

    def test_out_and_keep(self):
        self.write_jobs(10)
        many = self.call("--rows", "3", "--out", "text", "--keep", "--work", "work here")
        self.assertEqual((many.returncode, many.stdout), (0, b""), many.stderr.decode())
        with open(self.path("text"), "rb") as file:
            self.assertEqual(file.read(), self.one_batch().stdout)
        self.assertTrue(os.path.isdir(self.path("work here")))
        # A folder with other files is left as it is.
        many = self.call("--work", self.net)
        self.assertEqual((many.returncode, many.stdout), (2, b""))
        self.assertEqual(sorted(os.listdir(self.net)), ["graph.gr", "jobs.csv", "tolls.csv"])

    def test_words(self):
        self.assertEqual(subprocess.run([sys.executable, TOOL, "--help"], stdout=subprocess.DEVNULL).returncode, 0)
        self.write_jobs(1)
        for options in [["--rows", "0"], ["--workers", "65"], ["--slurm", "--send"], ["--send"], ["--machines", "absent"], ["--tries", "x"]]:
            self.assertEqual(self.call(*options).returncode, 2)
        self.program = self.path("absent")
        self.assertEqual(self.call().returncode, 69)


class WithoutPackages(Runs):
    def test_nothing_is_installed(self):
        """One line says what to install."""
        self.write_jobs(3)
        self.environment["PATH"] = self.path("empty")
        for options, package in [([], "parallel"), (["--slurm"], "slurm-client")]:
            many = self.call(*options)
            self.assertEqual((many.returncode, many.stdout), (69, b""))
            self.assertRegex(many.stderr.decode(), rf"\A[^\n]*apt-get install {package}[^\n]*\n\Z")


@unittest.skipIf(lacks("parallel", "sshd", "ssh", "ssh-keygen", "rsync"), "apt-get install parallel openssh-server rsync")
class OverSsh(Runs):
    """Over ssh to this machine, by an sshd of the test's own."""

    def setUp(self):
        super().setUp()
        for name in ("host_key", "user_key"):
            subprocess.run(["ssh-keygen", "-q", "-t", "ed25519", "-N", "", "-f", self.path(name)], check=True)
        port, dead = free_port(), free_port()
        shutil.copyfile(self.path("user_key.pub"), self.path("authorized_keys"))
        if os.getuid() == 0:
            os.makedirs("/run/sshd", exist_ok=True)
        self.write("sshd_config", f"""Port {port}
ListenAddress 127.0.0.1
HostKey {self.path("host_key")}
AuthorizedKeysFile {self.path("authorized_keys")}
StrictModes no
UsePAM no
PasswordAuthentication no
PidFile none
MaxStartups 100
""")  # fmt: skip
        self.write("ssh_config", f"""Host node1 node2 dead
  HostName 127.0.0.1
  Port {port}
  User {getpass.getuser()}
  IdentityFile {self.path("user_key")}
  IdentitiesOnly yes
  UserKnownHostsFile {self.path("known_hosts")}
  StrictHostKeyChecking accept-new
  LogLevel ERROR
""".replace(" dead", "") + f"Host dead\n  HostName 127.0.0.1\n  Port {dead}\n")  # fmt: skip
        with open(self.path("sshd.log"), "wb") as log:
            self.server = subprocess.Popen([shutil.which("sshd", path=SBIN), "-D", "-e", "-f", self.path("sshd_config")], stderr=log)
        self.addCleanup(self.server.wait)
        self.addCleanup(self.server.terminate)
        until = time.monotonic() + 60
        while subprocess.run(self.login("node1").split() + ["true"], stderr=subprocess.DEVNULL).returncode and time.monotonic() < until:
            time.sleep(0.2)

    def login(self, name):
        return f"ssh -F {self.path('ssh_config')} {name}"

    def sent(self):
        # (other tests at work have folders of other names there)
        return sorted(name for name in os.listdir("/tmp") if re.fullmatch("lorry_plan-[0-9a-f]{16}", name))

    @long_test
    def test_shared_folder(self):
        self.write_jobs(20)
        self.expect_same("--rows", "5", "--sshlogin", self.login("node1"), "--sshlogin", self.login("node2"))
        self.assertEqual(self.runs(), ["00001", "00002", "00003", "00004"])

    def test_send(self):
        self.write_jobs(20)
        before = self.sent()
        self.write("machines", f"{self.login('node1')}\n# another\n2/{self.login('node2')}\n:\n")
        self.expect_same("--rows", "2", "--machines", "machines", "--send")
        self.assertEqual(self.runs(), [f"{part:05}" for part in range(1, 11)])
        self.assertEqual(self.sent(), before)

    @long_test
    def test_failures(self):
        """A machine that can't be reached is left out, and a part that fails is run again."""
        self.write_jobs(20)
        self.write("fail-00002", "1")
        many = self.call("--rows", "5", "--sshlogin", self.login("node1"), "--sshlogin", self.login("dead"), "--send")
        self.assertEqual((many.returncode, many.stdout), (0, self.one_batch().stdout), many.stderr.decode())
        self.assertRegex(many.stderr.decode(), "dead can't be reached: .*Connection refused")
        self.write_jobs(21)
        many = self.call("--sshlogin", self.login("dead"))
        self.assertEqual((many.returncode, many.stdout), (75, b""))
        self.assertIn("no machine can be reached", many.stderr.decode())

    @long_test
    def test_a_machine_that_is_lost(self):
        """The run goes on with the others, and says which one was lost."""
        self.write_jobs(60)
        words = self.words("--rows", "1", "--send", "--sshlogin", self.login("node1"), "--sshlogin", ":")
        run = subprocess.Popen(words, cwd=self.folder, env=self.environment, stdout=subprocess.PIPE, stderr=subprocess.PIPE)
        until = time.monotonic() + 120
        while len(self.runs()) < 3 and time.monotonic() < until:
            time.sleep(0.05)
        told = subprocess.run(["ps", "--ppid", str(self.server.pid), "-o", "pid="], stdout=subprocess.PIPE).stdout
        self.server.kill()
        for child in told.split():
            os.kill(int(child), signal.SIGKILL)
        printed, said = run.communicate(timeout=300)
        self.assertEqual((run.returncode, printed), (0, self.one_batch().stdout), said.decode())
        self.assertRegex(said.decode(), r"node1 was lost: .*; : took its parts")

    @long_test
    def test_other_files_on_a_machine(self):
        """A machine that sees other files under the same path gives no part."""
        self.write_jobs(10)
        self.write("fail-00001", "1000")
        self.call("--rows", "5", "--tries", "1")
        with open(self.path("jobs.csv.work", "net", "tolls.csv"), "a", encoding="utf-8") as file:
            file.write("1,2\n")
        # The tool reads its copies anew: so the machine's own check is what is tried here.
        done = subprocess.run(["sh", "run_part", "00001", "5", "0" * 64, "1"], cwd=self.path("jobs.csv.work"), stdout=subprocess.PIPE,
                              stderr=subprocess.PIPE)  # fmt: skip
        self.assertEqual((done.returncode, done.stdout), (66, b""))
        self.assertIn(b"are others than those of this batch", done.stderr)


SLURM = """ClusterName=test
SlurmctldHost={host}(127.0.0.1)
SlurmUser={user}
SlurmdUser={user}
AuthType=auth/munge
AuthInfo=socket={folder}/munge.socket
CryptoType=crypto/munge
SlurmctldPort={controller}
SlurmdPort={daemon}
StateSaveLocation={folder}/state
SlurmdSpoolDir={folder}/spool
SlurmctldPidFile={folder}/slurmctld.pid
SlurmdPidFile={folder}/slurmd.pid
SlurmctldLogFile={folder}/slurmctld.log
SlurmdLogFile={folder}/slurmd.log
ProctrackType=proctrack/linuxproc
TaskPlugin=task/none
JobAcctGatherType=jobacct_gather/none
AccountingStorageType=accounting_storage/none
SelectType=select/cons_tres
SelectTypeParameters=CR_CPU
ReturnToService=2
MpiDefault=none
MaxArraySize=4
SchedulerParameters=sched_interval=2,batch_sched_delay=0
NodeName={host} NodeAddr=127.0.0.1 CPUs=2 State=UNKNOWN
PartitionName=test Nodes={host} Default=YES MaxTime=INFINITE State=UP
"""


@unittest.skipIf(lacks("sbatch", "slurmctld", "slurmd", "munged"), "apt-get install slurm-wlm munge")
@unittest.skipIf(os.getuid(), "a Slurm of one machine is started by root only")
class OverSlurm(Runs):
    """Over a Slurm of one machine, with a controller, a daemon and a munge of the test's own."""

    def start(self, *words):
        with open(self.path(f"{words[0]}.out"), "wb") as log:
            server = subprocess.Popen([shutil.which(words[0], path=SBIN), *words[1:]], stdout=log, stderr=log, env=self.environment)
        self.addCleanup(server.wait)
        self.addCleanup(server.terminate)

    def setUp(self):
        super().setUp()
        os.chmod(self.folder, 0o755)
        for name in ("state", "spool"):
            os.mkdir(self.path(name))
        with open(self.path("munge.key"), "wb") as key:
            key.write(os.urandom(1024))
        os.chmod(self.path("munge.key"), 0o600)
        host = socket.gethostname().split(".")[0]
        self.write("slurm.conf", SLURM.format(host=host, user=getpass.getuser(), folder=self.folder, controller=free_port(), daemon=free_port()))
        self.environment["SLURM_CONF"] = self.path("slurm.conf")
        self.start("munged", "--foreground", "--force", "--key-file", self.path("munge.key"), "--socket", self.path("munge.socket"), "--pid-file",
                   self.path("munged.pid"), "--log-file", self.path("munged.log"), "--seed-file", self.path("munged.seed"))  # fmt: skip
        until = time.monotonic() + 60
        while not os.path.exists(self.path("munge.socket")) and time.monotonic() < until:
            time.sleep(0.2)
        self.start("slurmctld", "-D", "-f", self.path("slurm.conf"))
        self.start("slurmd", "-D", "-f", self.path("slurm.conf"), "-N", host)
        until = time.monotonic() + 90
        while b"idle" not in self.nodes() and time.monotonic() < until:
            time.sleep(0.5)
        if b"idle" not in self.nodes():
            self.skipTest(f"a Slurm of one machine couldn't be started here: {self.nodes()}")

    def nodes(self):
        return subprocess.run(["sinfo", "-h", "-o", "%T"], env=self.environment, stdout=subprocess.PIPE, stderr=subprocess.STDOUT).stdout

    def test_array(self):
        self.write_jobs(23)
        self.expect_same("--rows", "5", "--slurm", "--workers", "1", "--slurm-option=--partition=test")
        self.assertEqual(self.runs(), ["00001", "00002", "00003", "00004", "00005"])

    @long_test
    def test_failures(self):
        self.write_jobs(10)
        self.write("fail-00002", "1")
        many = self.call("--rows", "5", "--slurm")
        self.assertEqual((many.returncode, many.stdout), (0, self.one_batch().stdout), many.stderr.decode())
        self.assertIn("1 parts failed, and are run again", many.stderr.decode())

    @long_test
    def test_interrupted(self):
        """An interrupt takes the array away, and the same words go on."""
        self.write_jobs(10)
        self.write("wait-00002", "1")
        with open(self.path("errors"), "wb") as errors:
            run = subprocess.Popen(self.words("--rows", "5", "--slurm"), cwd=self.folder, env=self.environment, stdout=subprocess.PIPE, stderr=errors)
            until = time.monotonic() + 120
            while self.runs() != ["00001", "00002"] and time.monotonic() < until:
                time.sleep(0.1)
            time.sleep(2)
            run.send_signal(signal.SIGTERM)
            self.assertEqual((run.communicate(timeout=60)[0], run.returncode), (b"", 143))
        os.remove(self.path("runs"))
        many = self.call("--rows", "5", "--slurm")
        self.assertEqual(self.runs(), ["00002"])
        self.assertEqual((many.returncode, many.stdout), (0, self.one_batch().stdout), many.stderr.decode())


def take_network(case):
    """Takes the roads of an example, with trips that wait and trips that are refused, for the built program."""
    case.program = BUILT
    shutil.rmtree(case.net)
    shutil.copytree(os.path.join(TOP, "examples", "night-closure"), case.net)
    draws = random.Random(3)
    rows = []
    for _ in range(40):
        depart = 26563680 + draws.randint(0, 120)
        rows.append(f"{draws.choice(['any', 'any', 'x'])},{draws.randint(1, 2)},{draws.randint(1, 4)},{depart},{depart + draws.randint(0, 500)}")
    case.write("net/jobs.csv", "\n".join(["vehicle,from,to,depart,until", *rows, ""]))


@unittest.skipUnless(os.access(BUILT, os.X_OK), "there is no built program: ./lorry_plan builds it")
class Real(OverParallel):
    """The built program prints the same over all machines as one batch of it."""

    def setUp(self):
        super().setUp()
        take_network(self)

    def test_same_text(self):
        many = self.expect_same("--rows", "7", "--jobs", "2")
        self.assertIn(b"refused request UnknownVehicle", many.stdout)
        self.assertIn(b"wait ", many.stdout)

    @long_test
    def test_odd_tables(self):
        head = "vehicle,from,to,depart,until"
        for table in [
            f"\ufeff{head}\r\nany,1,2,26563680,26564080\r\n\r\nany,2,2,26563680,26564080\r\n",
            f'{head}\n"any","1",02,2020-07-04T00:00Z,26564080\nany,3,"3",26563680,26563680\n',
            f'{head}\nany,1,2,26563680,26564080\nany,1,2,26563680,"26564080',
            f"{head}\n\n\nany,1,2,26563680,26564080\n\n\nany,1,2,26563680,26564081",
            "",
            f"{head}\n",
        ]:
            with self.subTest(table=table):
                self.write("net/jobs.csv", table)
                self.expect_same("--rows", "1", "--jobs", "2")

    @long_test
    def test_refusals(self):
        head, row = "vehicle,from,to,depart,until\n", "any,1,2,26563680,26564080\n"
        for table in [
            "vehicle,from\n" + row * 3,
            head + row * 5 + "any,x,2,3,4\n" + row * 5,
            head + row * 5 + "any,1,2\n" + "any,x,2,3,4\n",
            head + row * 10 + 'any,1,2,26563680,"26564080\n',
            head + row * 10_001,
            head + row * 10_000 + "any,1\n",
        ]:
            self.write("net/jobs.csv", table)
            self.assertEqual(self.expect_same("--rows", "2").returncode, 3)
        self.write("net/jobs.csv", head + row)
        self.expect_same(jobs="absent.csv")
        self.expect_same(jobs="../net/jobs.csv")
        self.write("net/tolls.csv", "arc\n")
        self.expect_same()
        os.remove(self.path("net/graph.gr"))
        self.expect_same()

    def test_bad_rows_are_skipped_and_listed(self):
        head, row = "vehicle,from,to,depart,until\n", "any,1,2,26563680,26564080\n"
        self.write("net/jobs.csv", head + row * 2 + "any,1,2,2020-13-01T00:00Z,26564080\n" + row + "any,1\n" + row)
        many = self.call("--rows", "2", "--skip-bad")
        self.assertEqual(many.returncode, 1, many.stderr.decode())
        self.write("net/good.csv", head + row * 4)
        one = self.one_batch("good.csv").stdout.replace(b"job 4\n", b"job 6\n").replace(b"job 3\n", b"job 4\n")
        self.assertEqual(many.stdout, one)
        self.assertEqual(self.said(many)[:2], [
            "batch_over_machines: jobs.csv row 4, column depart: BadField: any,1,2,2020-13-01T00:00Z,26564080",
            "batch_over_machines: jobs.csv row 6: FieldCount: any,1",
        ])  # fmt: skip

    def test_the_last_line_counts_trips(self):
        done = self.expect_same("--rows", "7")
        jobs, empty, refused = (len(re.findall(it, done.stdout, re.M)) for it in (rb"^job ", rb"^pairs 0$", rb"^refused"))
        line = f"batch_over_machines: {jobs} trips: {jobs - empty - refused} planned, {empty} empty, {refused} refused"
        self.assertEqual(self.said(done)[-1], line)

    test_all_rows_are_bad = None
    test_long_table = test_parts_that_fail = test_parts_that_go_on_failing = test_texts_that_were_changed = None
    test_other_files = test_interrupted = test_two_calls_at_once = test_timeout = test_out_and_keep = test_words = None


@unittest.skipUnless(os.access(BUILT, os.X_OK), "there is no built program: ./lorry_plan builds it")
class RealOverSsh(OverSsh):
    @long_test
    def test_send(self):
        take_network(self)
        self.expect_same("--rows", "7", "--sshlogin", self.login("node1"), "--sshlogin", self.login("node2"), "--send")

    test_shared_folder = test_failures = test_other_files_on_a_machine = None


@unittest.skipUnless(os.access(BUILT, os.X_OK), "there is no built program: ./lorry_plan builds it")
class RealOverSlurm(OverSlurm):
    @long_test
    def test_array(self):
        take_network(self)
        self.expect_same("--rows", "7", "--slurm")

    test_failures = test_interrupted = None


if __name__ == "__main__":
    unittest.main()
