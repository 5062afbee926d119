"""Tests of tools/serve over HTTP: answers, limits, folders that change, faults of the program, many clients, and its end.

    python3 -m unittest tools/tests/test_serve.py

The service runs in a process of its own, over a copy of examples/liechtenstein, with the built program. With LORRY_PLAN_TESTS=short tests that need
minutes ask less."""
import concurrent.futures
import contextlib
import csv
import http.client
import io
import json
import os
import re
import shutil
import signal
import socket
import subprocess
import sys
import tempfile
import threading
import time
import unittest
import xml.dom.minidom

sys.path.insert(0, os.path.dirname(os.path.abspath(__file__)))
import beside
from beside import PROGRAM, TOOLS, TOP

beside.say_what_is_skipped("test_serve")

from lorry_tools.answers import read_plain
from lorry_tools.instants import minute_of

TESTS = os.path.join(TOOLS, "tests")
EXAMPLE = os.path.join(TOP, "examples", "liechtenstein")
SCHEMA = os.path.join(TOOLS, "lorry_tools", "service", "openapi.json")
SHORT = os.environ.get("LORRY_PLAN_TESTS") == "short"
STARTS_WITHIN = 120  # seconds, on a machine that is busy
YARD = {"from": "Yard", "to": "Balzers", "lorry": "artic40", "leave": "2026-07-10 21:45"}
TOUR = {
    **YARD,
    "to": "Yard",
    "lorry": "artic40d",
    "leave": "2026-07-07 07:00",
    "stops": [{"place": "Balzers", "minutes": 30, "window_from": "08:00", "window_to": "10:00"}, {"place": "Schaan", "minutes": 20}],
}


def python_with(packages):
    """Returns a Python that has these packages: this one, or the system's own."""
    for python in (sys.executable, "/usr/bin/python3"):
        if os.path.exists(python) and subprocess.run([python, "-c", f"import {packages}"], stderr=subprocess.DEVNULL).returncode == 0:
            return python
    return None


PYTHON = python_with("fastapi, jinja2, uvicorn")
HYPOTHESIS = python_with("hypothesis, jsonschema")
needs_service = unittest.skipUnless(PYTHON, "python3-fastapi, python3-jinja2 or python3-uvicorn is missing")
needs_hypothesis = unittest.skipUnless(HYPOTHESIS, "python3-hypothesis or python3-jsonschema is missing")


class Served:
    """A service in a process of its own, and a client."""

    def __init__(self, *words, temporary=None, environment=()):
        self.temporary = temporary or tempfile.gettempdir()
        words = [PYTHON, os.path.join(TOOLS, "serve"), *words, "--port", "0"]
        environment = {**os.environ, "TMPDIR": self.temporary, "PYTHONDONTWRITEBYTECODE": "1", **dict(environment)}
        self.log = tempfile.TemporaryFile("w+")
        self.process = subprocess.Popen(words, env=environment, stdout=subprocess.PIPE, stderr=self.log, universal_newlines=True)
        timer = threading.Timer(STARTS_WITHIN, self.process.kill)
        timer.start()
        self.said = self.process.stdout.readline()
        timer.cancel()
        found = re.search(r"http://127\.0\.0\.1:(\d+)", self.said)
        if not found:
            self.close()
            self.log.seek(0)
            raise AssertionError(self.said + self.log.read())
        self.port = int(found[1])

    def close(self):
        """Ends the service, and returns its status."""
        if self.process.poll() is None:
            self.process.terminate()
        try:
            self.process.wait(60)
        except subprocess.TimeoutExpired:
            self.process.kill()
            self.process.wait()
        self.process.stdout.close()
        return self.process.returncode

    def errors(self):
        self.log.seek(0)
        return self.log.read()

    def send(self, method, path, body=None, headers=(), timeout=120):
        """Returns the status, the headers and the bytes of an answer."""
        connection = http.client.HTTPConnection("127.0.0.1", self.port, timeout=timeout)
        try:
            kind = {"Content-Type": "application/json"} if body is not None else {}
            text = body if body is None or isinstance(body, (bytes, str)) else json.dumps(body)
            connection.request(method, path, text, {**kind, **dict(headers)})
            answer = connection.getresponse()
            return answer.status, answer.headers, answer.read()
        finally:
            connection.close()

    def get(self, path):
        return json.loads(self.send("GET", path)[2])

    def ask(self, question, body, folder="liechtenstein", query=""):
        """Returns the status of a question about a trip, and its answer."""
        status, _, text = self.send("POST", f"/api/folders/{folder}/{question}{query}", body)
        return status, json.loads(text)

    def memory(self):
        """Returns the kilobytes of memory that the service has."""
        with open(f"/proc/{self.process.pid}/status", encoding="ascii") as file:
            return next(int(line.split()[1]) for line in file if line.startswith("VmRSS:"))


def copy_of_example(place):
    """Copies the example, where it may be written into, and returns its path."""
    return shutil.copytree(EXAMPLE, os.path.join(place, "liechtenstein"))


@needs_service
@beside.needs_program
class Answers(unittest.TestCase):
    """One service over the example for all of these tests."""

    @classmethod
    def setUpClass(cls):
        cls.served = Served(EXAMPLE, "--program", PROGRAM)

    @classmethod
    def tearDownClass(cls):
        cls.served.close()
        assert "Traceback" not in cls.served.errors(), cls.served.errors()

    def trip(self, *words):
        """Returns what tools/trip answers as JSON."""
        done = subprocess.run(
            [sys.executable, os.path.join(TOOLS, "trip"), EXAMPLE, *words, "--json", "--program", PROGRAM], stdout=subprocess.PIPE, check=True
        )
        return json.loads(done.stdout)

    def same(self, answer, expected):
        """Compares an answer with that of tools/trip, but for the folder's name, the commands and a certificate's text."""
        status, found = answer
        self.assertEqual(status, 200, found)
        for value in (found, expected):
            del value["folder"], value["commands"]
        self.assertEqual(found, expected)

    def test_answers_are_those_of_trip(self):
        ask, words = self.served.ask, ["Yard", "Balzers", "--lorry", "artic40", "--leave", "2026-07-10 21:45"]
        self.same(ask("plan", YARD), self.trip(*words))
        late = {**YARD, "leave": None, "by": "2026-07-13 08:00"}
        self.same(ask("latest", late), self.trip(*words[:4], "--latest", "--by", "2026-07-13 08:00"))
        self.same(ask("breaks", YARD), self.trip(*words, "--breaks"))
        self.same(ask("explain", {**YARD, "over": ["Zollstrasse"]}), self.trip(*words, "--why", "Zollstrasse"))
        stops = ["--stop", "Balzers, 30 min, 08:00-10:00", "--stop", "Schaan, 20 min"]
        tour = ["Yard", "Yard", "--lorry", "artic40d", "--leave", "2026-07-07 07:00", *stops]
        self.same(ask("tour", TOUR), self.trip(*tour))
        self.same(ask("tour", {**TOUR, "breaks": True}), self.trip(*tour, "--breaks"))
        rule = ["--breaks", "--drive", "20", "--rest", "15"]
        expected = self.trip(*tour, *rule)
        self.assertIn("break", {reason["kind"] for it in expected["options"][0]["parts"] for reason in it["for"]})
        self.same(ask("tour", {**TOUR, "breaks": True, "drive": 20, "rest": 15}), expected)
        self.same(ask("breaks", {**YARD, "drive": 20, "rest": 15}), self.trip(*words, *rule))
        empty = {**YARD, "leave": "2026-07-11 22:00", "within": 1}
        expected = self.trip(*words[:4], "--leave", "2026-07-11 22:00", "--within", "1")
        self.assertTrue(expected["causes"])
        self.same(ask("why-empty", {**empty, "reasons": False}), expected)
        quick = ask("plan", {**empty, "reasons": False})[1]
        self.assertEqual((quick["options"], quick["causes"]), ([], []))

    def test_a_certificate_is_judged_and_handed_out(self):
        status, found = self.served.ask("plan", {**YARD, "certificate": True})
        self.assertEqual(status, 200)
        self.assertEqual({key: found["certificate"][key] for key in ("name", "accepted", "number")}, {"name": "trip.cert", "accepted": True, "number": 2})
        with tempfile.TemporaryDirectory() as place:
            path = copy_of_example(place)
            with open(os.path.join(path, "trip.cert"), "w", encoding="ascii") as file:
                file.write(found["certificate"]["text"])
            words = ["artic40", "146", "135", found["departure"]["utc"], found["until"]["utc"]]
            done = subprocess.run([PROGRAM, "check", path, *words, "trip.cert"], stdout=subprocess.PIPE)
            self.assertEqual(done.stdout, b"accepted 2\n")
        self.assertFalse(os.path.exists(os.path.join(EXAMPLE, "trip.cert")))

    def test_the_commands_of_an_answer_give_it_again(self):
        _, found = self.served.ask("plan", YARD)
        with tempfile.TemporaryDirectory() as place:
            copy_of_example(place)
            command = found["commands"][0].replace("lorry_plan", PROGRAM, 1)
            done = subprocess.run(["bash", "-c", command], cwd=place, stdout=subprocess.PIPE, check=True)
        pairs = read_plain(done.stdout.decode().splitlines())
        self.assertEqual([(it.minute, it.cost) for it in pairs], [(minute_of(it["arrival"]["utc"]), it["cost_thousandths"]) for it in found["options"]])

    def test_forms(self):
        for form, kind, check in (
            ("csv", "text/csv; charset=utf-8", lambda text: self.assertEqual(len(list(csv.reader(io.StringIO(text)))), 19)),
            ("geojson", "application/geo+json", lambda text: self.assertEqual(len(json.loads(text)["features"]), 16)),
            ("gpx", "application/gpx+xml", lambda text: self.assertEqual(len(xml.dom.minidom.parseString(text).getElementsByTagName("trk")), 2)),
            ("svg", "image/svg+xml", lambda text: self.assertEqual(xml.dom.minidom.parseString(text).documentElement.tagName, "svg")),
        ):
            with self.subTest(form=form):
                status, headers, text = self.served.send("POST", f"/api/folders/liechtenstein/plan?form={form}", YARD)
                self.assertEqual((status, headers["Content-Type"]), (200, kind), text[:300])
                check(text.decode())
        _, found = self.served.ask("plan", {**YARD, "geometry": True})
        lines = [it for it in found["geometry"]["features"] if it["geometry"]["type"] == "LineString"]
        self.assertEqual(lines[0]["properties"]["what"], "Landstrasse")
        self.assertEqual(len(lines), 14)

    def test_places_roads_lorries_and_bans(self):
        get, base = self.served.get, "/api/folders/liechtenstein"
        folder = get("/api/folders")["folders"][0]
        self.assertEqual((folder["name"], folder["nodes"], folder["arcs"], folder["trouble"]), ("liechtenstein", 189, 1636, None))
        self.assertEqual(get(base), folder)
        self.assertEqual([it["name"] for it in get(f"{base}/vehicles")["vehicles"]][:2], ["any", "van35"])
        self.assertEqual(get(f"{base}/places?name=BALZ")["places"][0]["node"], 135)
        self.assertEqual(get(f"{base}/places?name=Balzrs")["places"][0]["node"], 135)
        self.assertEqual(len(get(f"{base}/places?name=a&most=3")["places"]), 3)
        self.assertEqual(get(f"{base}/nearest?latitude=47.0669&longitude=9.5034")["name"], "Balzers")
        self.assertIn("Zollstrasse", get(f"{base}/streets?name=zoll")["streets"])
        roads = get(f"{base}/roads")
        self.assertEqual(sorted(arc for it in roads["features"] for arc in it["properties"]["arcs"]), list(range(1, 1637)))
        some = get(f"{base}/roads?west=9.50&south=47.05&east=9.52&north=47.08&most=20")
        self.assertEqual((len(some["features"]), some["left_out"] > 0), (20, True))
        # A box that has all roads has the longest ones first, as the whole folder has.
        west, south, east, north = folder["bounds"]
        whole = get(f"{base}/roads?west={west}&south={south}&east={east}&north={north}&most=5")
        self.assertEqual(whole, get(f"{base}/roads?most=5"))
        longest = sorted((it["properties"]["metres"] for it in roads["features"]), reverse=True)[:5]
        self.assertEqual(sorted((it["properties"]["metres"] for it in whole["features"]), reverse=True), longest)
        self.assertEqual(whole["left_out"], len(roads["features"]) - 5)
        body = {"lorry": "artic40", "arcs": [1345, 1], "from": "2026-07-10 21:00", "until": "2026-07-11 06:00"}
        status, bans = self.served.ask("bans", body)
        self.assertEqual(status, 200)
        self.assertEqual([(it["from"]["local"], it["until"]["local"]) for it in bans["roads"][0]["closed"]], [("2026-07-10T22:00+02:00", "2026-07-11T05:00+02:00")])

    def test_roads_are_sent_once(self):
        path = "/api/folders/liechtenstein/roads"
        status, headers, _ = self.served.send("GET", path)
        self.assertEqual(status, 200)
        status, _, text = self.served.send("GET", path, headers={"If-None-Match": headers["ETag"]})
        self.assertEqual((status, text), (304, b""))

    def test_what_cannot_be_read_is_a_problem(self):
        for body, detail in (
            ({**YARD, "from": "Yrd"}, "from 'Yrd' is no name of liechtenstein/nodes.csv: expected is such a name"),
            ({**YARD, "to": "Industriestrasse"}, "to 'Industriestrasse' is the name of 3 nodes"),
            ({**YARD, "lorry": "bike"}, "lorry 'bike' is no lorry of liechtenstein/vehicles.csv"),
            ({**YARD, "leave": "2026-10-25 02:30"}, "leave '2026-10-25 02:30' is shown twice"),
            ({**YARD, "leave": None}, "leave is missing"),
            ({**YARD, "by": "2026-07-09 08:00"}, "is before the departure"),
            ({**YARD, "within": 61}, "body.within: ensure this value is less than or equal to 60"),
            ({**YARD, "speed": 80}, "body.speed: extra fields not permitted"),
            ({"from": "Yard"}, "body.to: field required"),
            ([], "body"),
        ):
            status, problem = self.served.ask("plan", body)
            self.assertEqual((status, problem["status"], problem["line"]), (422, 422, None), problem)
            self.assertIn(detail, problem["detail"])
        for body, detail in (
            ({**TOUR, "drive": 270}, "drive is for breaks: expected is breaks beside it"),
            ({**TOUR, "breaks": True, "rest": 1441}, "body.rest: ensure this value is less than or equal to 1440"),
            ({**TOUR, "breaks": 1}, "body.breaks: value is not a valid boolean"),
        ):
            status, problem = self.served.ask("tour", body)
            self.assertEqual((status, problem["status"], problem["line"]), (422, 422, None), problem)
            self.assertIn(detail, problem["detail"])
        _, problem = self.served.ask("plan", {**YARD, "to": "Industriestrasse"})
        self.assertEqual([it["node"] for it in problem["choices"]], [52, 53, 175])
        status, problem = self.served.ask("explain", YARD)
        self.assertEqual((status, problem["detail"]), (422, "a way has either `over` or `legs`"))

    def test_requests_that_are_none(self):
        send, plan = self.served.send, "/api/folders/liechtenstein/plan"
        for expected, words in (
            (404, ("GET", "/api/folders/austria")),
            (404, ("GET", "/api/folders/../../etc/passwd")),
            (404, ("GET", "/desk/../main.py")),
            (404, ("GET", "/nothing")),
            (405, ("GET", plan)),
            (405, ("DELETE", plan)),
            (413, ("POST", plan, "x" * 70_000)),
            (415, ("POST", plan, "{}", {"Content-Type": "text/plain"})),
            (421, ("GET", "/api/folders", None, {"Host": "evil.example.org"})),
            (422, ("POST", plan, "{")),
            (422, ("POST", plan, b"\xff\xfe")),
        ):
            status, headers, text = send(*words)
            self.assertEqual((status, headers["Content-Type"]), (expected, "application/problem+json"), words)
            self.assertEqual(json.loads(text)["status"], expected)

    def test_headers_of_pages(self):
        for path in ("/api/folders", "/", "/openapi.json"):
            _, headers, _ = self.served.send("GET", path)
            self.assertIn("default-src 'none'", headers["Content-Security-Policy"])
            self.assertIn("frame-ancestors 'none'", headers["Content-Security-Policy"])
            self.assertEqual((headers["X-Frame-Options"], headers["X-Content-Type-Options"]), ("DENY", "nosniff"))
        self.assertIn("for this machine alone", self.served.said)

    def test_the_schema_is_the_one_that_is_kept(self):
        with open(SCHEMA, encoding="utf-8") as file:
            self.assertEqual(self.served.get("/openapi.json"), json.load(file), "tools/serve --openapi > tools/lorry_tools/service/openapi.json")

    @needs_hypothesis
    def test_random_questions(self):
        words = [HYPOTHESIS, os.path.join(TESTS, "random_questions"), f"http://127.0.0.1:{self.served.port}", EXAMPLE, PROGRAM, "120" if SHORT else "5000"]
        done = subprocess.run(words, stdout=subprocess.PIPE, stderr=subprocess.STDOUT, universal_newlines=True)
        self.assertEqual(done.returncode, 0, done.stdout[-4000:])
        self.assertGreater(int(done.stdout.split()[-1]), 3 if SHORT else 100, done.stdout)


class FaultTest(unittest.TestCase):
    """A service over a copy of the example, whose program has faults when it is told to."""

    words = ()

    def setUp(self):
        place = tempfile.TemporaryDirectory(prefix="served-")
        self.addCleanup(place.cleanup)
        self.place, self.folder = place.name, copy_of_example(place.name)
        self.temporary = os.path.join(self.place, "temporary")
        os.mkdir(self.temporary)
        self.mode("good")
        self.program = shutil.copy(os.path.join(TESTS, "faulty_program"), self.place)
        environment = {"FAULTS": self.place, "PROGRAM": PROGRAM}
        self.served = Served(self.folder, "--program", self.program, *self.words, temporary=self.temporary, environment=environment)
        self.addCleanup(self.served.log.close)
        self.addCleanup(self.served.close)

    def mode(self, mode):
        with open(os.path.join(self.place, "mode.new"), "w", encoding="ascii") as file:
            file.write(mode)
        os.replace(os.path.join(self.place, "mode.new"), os.path.join(self.place, "mode"))

    def calls(self):
        """Returns the commands that were run since the last call."""
        path = os.path.join(self.place, "calls")
        with contextlib.suppress(FileNotFoundError), open(path, encoding="ascii") as file:
            found = file.read().split()
            os.remove(path)
            return found
        return []

    def write(self, name, change):
        path = os.path.join(self.folder, name)
        with open(path, encoding="utf-8") as file:
            text = file.read()
        with open(path + ".new", "w", encoding="utf-8") as file:
            file.write(change(text))
        os.replace(path + ".new", path)

    def wait_for(self, what, seconds=60):
        end = time.monotonic() + seconds
        while not what():
            self.assertLess(time.monotonic(), end, self.served.get("/api/folders"))
            time.sleep(0.2)

    def together(self, count, work):
        with concurrent.futures.ThreadPoolExecutor(count) as pool:
            return list(pool.map(work, range(count)))


@needs_service
@beside.needs_program
class Faults(FaultTest):
    words = ("--seconds", "4", "--requests", "40", "--memory", "500")

    def test_faults_of_the_program(self):
        quick = {**YARD, "reasons": False}
        good = self.served.ask("plan", quick)
        self.assertEqual(good[0], 200)
        for mode, status, detail in (
            ("killed", 503, "ended by signal 9"),
            ("memory", 503, "out of memory"),
            ("greedy", 503, "the program ended with status 1"),
            ("nonsense", 503, "printed what these tools don't know"),
            ("limit", 503, "printed what these tools don't know: '512000'"),
            ("endless", 503, "the answer is larger than 64 MB"),
            ("hanging", 504, "the answer took more than 4 seconds"),
        ):
            self.mode(mode)
            for question, body in (("plan", quick), ("tour", TOUR)):
                with self.subTest(mode=mode, question=question):
                    found, problem = self.served.ask(question, body)
                    self.assertEqual(found, status, problem)
                    self.assertIn(detail, problem["detail"])
        self.mode("good")
        os.rename(self.program, self.program + ".away")
        status, problem = self.served.ask("plan", quick)
        self.assertEqual((status, problem["detail"]), (503, "the program can't be run: No such file or directory"))
        os.rename(self.program + ".away", self.program)
        self.assertEqual(self.served.ask("plan", quick), good)

    def test_plans_of_a_batch_that_is_killed_are_planned_one_by_one(self):
        quick = {**YARD, "reasons": False}
        good = self.served.ask("plan", quick)
        self.mode("batch-killed")
        self.calls()
        self.assertEqual(self.served.ask("plan", quick), good)
        self.assertEqual(self.calls(), ["batch", "plan"])

    def test_too_many_at_once(self):
        self.mode("slow")
        found = self.together(60, lambda _: self.served.ask("plan", {**YARD, "reasons": False}))
        counts = {status: sum(it[0] == status for it in found) for status, _ in found}
        self.assertEqual(set(counts), {200, 429})
        self.assertGreaterEqual(counts[200], 40)
        self.mode("good")
        self.assertEqual(self.served.ask("plan", YARD)[0], 200)

    def test_a_signal_lets_open_requests_end_and_leaves_nothing(self):
        self.mode("slow")
        with concurrent.futures.ThreadPoolExecutor() as pool:
            asked = [pool.submit(self.served.ask, "plan", {**YARD, "reasons": False}) for _ in range(5)]
            time.sleep(0.5)
            self.assertEqual(self.served.close(), 0)
            self.assertEqual({it.result()[0] for it in asked}, {200})
        self.assertEqual(os.listdir(self.temporary), [])
        self.assertEqual(self.served.errors(), "")


@needs_service
@beside.needs_program
class Stopping(FaultTest):
    def test_a_signal_ends_runs_that_hang(self):
        self.mode("hanging")
        with concurrent.futures.ThreadPoolExecutor() as pool:
            asked = pool.submit(self.served.ask, "plan", YARD)
            time.sleep(1)
            self.assertEqual(self.served.close(), 0)
            status, problem = asked.result()
        self.assertEqual((status, problem["detail"]), (503, "the service is being stopped"))
        self.assertEqual(os.listdir(self.temporary), [])


@needs_service
@beside.needs_program
class Folders(FaultTest):
    """Folders that change while they are served."""

    def version(self):
        return self.served.get("/api/folders")["folders"][0]["version"]

    def trouble(self):
        return self.served.get("/api/folders")["folders"][0]["trouble"]

    def test_a_change_is_used_once_it_has_no_fault(self):
        quick = {**YARD, "reasons": False}
        first, good = self.version(), self.served.ask("plan", quick)
        self.write("rules.csv", lambda text: text + 'area:li,hgv:conditional,"no @ (25:00-26:00)"\n')
        self.wait_for(self.trouble)
        self.assertRegex(self.trouble(), r"liechtenstein: refused input rules.csv \d+ \w+: the fault is in row \d+ of rules.csv")
        self.assertEqual((self.version(), self.served.ask("plan", quick)), (first, good))
        # Without rules nothing is closed.
        self.write("rules.csv", lambda text: "scope,key,value\n")
        self.wait_for(lambda: self.version() != first)
        self.assertIsNone(self.trouble())
        status, found = self.served.ask("plan", quick)
        self.assertEqual(status, 200, found)
        self.assertEqual(found["options"][0]["waiting_minutes"], 0)
        self.assertEqual(len(os.listdir(os.path.join(self.temporary, os.listdir(self.temporary)[0]))), 1)

    def test_a_folder_that_goes_is_served_on(self):
        quick = {**YARD, "reasons": False}
        good = self.served.ask("plan", quick)
        os.rename(self.folder, self.folder + ".away")
        self.wait_for(self.trouble)
        self.assertEqual(self.served.ask("plan", quick), good)
        os.rename(self.folder + ".away", self.folder)
        self.wait_for(lambda: self.trouble() is None)
        os.rename(os.path.join(self.folder, "rules.csv"), os.path.join(self.folder, "rules.away"))
        os.mkdir(os.path.join(self.folder, "rules.csv"))
        self.wait_for(self.trouble)
        self.assertEqual(self.served.ask("plan", quick), good)

    def test_no_answer_is_half_of_the_old_and_half_of_the_new_files(self):
        """Two files change together, twice. Each version has one answer, and no version has one file of the old and one of the new."""
        quick = {**YARD, "reasons": False}
        seen, is_over = {}, threading.Event()

        def ask(_):
            while not is_over.is_set():
                status, headers, text = self.served.send("POST", "/api/folders/liechtenstein/plan", quick)
                self.assertEqual(status, 200)
                value = json.loads(text)
                key = headers["Folder-Version"], tuple(it["arrival"]["utc"] for it in value["options"])
                seen[key] = seen.get(key, 0) + 1

        with concurrent.futures.ThreadPoolExecutor(4) as pool:
            clients = [pool.submit(ask, it) for it in range(4)]
            for hours in ("21:00-05:00", "20:00-04:00"):
                before = self.version()
                self.write("rules.csv", lambda text: re.sub(r"no @ \(\d\d:00-\d\d:00 AND weight>3.5\)", f"no @ ({hours} AND weight>3.5)", text))
                self.write("graph.gr", lambda text: re.sub(r"^(a \d+ \d+) (\d+)$", lambda it: f"{it[1]} {int(it[2]) + 1}", text, flags=re.M))
                self.wait_for(lambda: self.version() != before)
                time.sleep(0.5)
            is_over.set()
            for client in clients:
                client.result()
        versions = {version: arrivals for version, arrivals in seen}
        self.assertEqual(len(seen), len(versions), seen)
        self.assertEqual(len(set(versions.values())), 3, seen)


@needs_service
@beside.needs_program
class Load(FaultTest):
    words = ("--gather", "30")

    def test_requests_that_arrive_together_are_planned_together(self):
        quick = {**YARD, "reasons": False}
        single = self.served.ask("plan", quick)
        lorries = ["van35", "artic40", "any"]
        expected = {it: self.served.ask("plan", {**quick, "lorry": it}) for it in lorries}
        self.calls()
        found = self.together(60, lambda it: (lorries[it % 3], self.served.ask("plan", {**quick, "lorry": lorries[it % 3]})))
        for lorry, answer in found:
            self.assertEqual(answer, expected[lorry])
        runs = self.calls()
        self.assertEqual(set(runs), {"batch"})
        self.assertLess(len(runs), 40)
        self.assertEqual(single[0], 200)

    def test_two_hundred_clients(self):
        """For a minute, or for some seconds in the short form: nothing is lost, and memory is steady."""
        seconds, quick = (4 if SHORT else 60), {**YARD, "reasons": False}
        good = self.served.send("POST", "/api/folders/liechtenstein/plan", quick)[2]
        counts, end = [0] * 200, time.monotonic() + seconds

        def client(number):
            connection = http.client.HTTPConnection("127.0.0.1", self.served.port, timeout=120)
            while time.monotonic() < end:
                connection.request("POST", "/api/folders/liechtenstein/plan", json.dumps(quick), {"Content-Type": "application/json"})
                answer = connection.getresponse()
                self.assertEqual((answer.status, answer.read()), (200, good))
                counts[number] += 1
                if counts[number] == 1:
                    start[number] = self.served.memory() if number == 0 else 0
            connection.close()

        start = [0] * 200
        self.together(200, client)
        self.assertTrue(all(counts), counts)
        if not SHORT:
            self.assertLess(self.served.memory(), start[0] + 60_000)
        self.assertNotIn("Traceback", self.served.errors())

    def test_clients_that_hang(self):
        plan = b"POST /api/folders/liechtenstein/plan HTTP/1.1\r\nHost: localhost\r\nContent-Type: application/json\r\nContent-Length: 100\r\n\r\n{"
        with contextlib.ExitStack() as held:
            sockets = [held.enter_context(socket.create_connection(("127.0.0.1", self.served.port), timeout=60)) for _ in range(150)]
            again = held.enter_context(socket.create_connection(("127.0.0.1", self.served.port), timeout=60))
            again.sendall(b"GET /nothing HTTP/1.1\r\nHost: localhost\r\n\r\n")
            self.assertEqual(again.recv(12), b"HTTP/1.1 404")
            again.sendall(b"GET /noth")
            for number, one in enumerate(sockets):
                one.sendall((b"", b"POST /api", plan)[number % 3])
            begun = time.monotonic()
            self.assertEqual(self.served.ask("plan", YARD)[0], 200)
            self.assertLess(time.monotonic() - begun, 8)
            texts = [one.recv(4096) for one in sockets]
            while again.recv(4096):
                pass
        self.assertEqual({it[:12] for it in texts[0::3] + texts[1::3]}, {b""})
        self.assertEqual({it[:12] for it in texts[2::3]}, {b"HTTP/1.1 408"})
        self.assertEqual(self.served.ask("plan", YARD)[0], 200)


@needs_service
class Bodies(unittest.TestCase):
    """Over the stand-in for the program, which knows no batch: each plan is planned by itself."""

    def test_a_body_alone_is_read_as_one_with_other_words_beside_it(self):
        quick = {**YARD, "reasons": False}
        bodies = [quick, {**quick, "zone": "UTC"}, {**quick, "from": 146, "within": 1.5}, {**quick, "speed": 80}, {"from": "Yard"}, {**quick, "from": [1]}]
        texts = [*map(json.dumps, bodies), "[]", "{", "null", "", '[["from", "Yard"]]', json.dumps(list(quick.items())), "[" * 20_000, b"\xff\xfe"]
        with tempfile.TemporaryDirectory() as place:
            served = Served(copy_of_example(place), "--program", beside.STAND_IN)
            try:
                for text in texts:
                    with self.subTest(text=text[:80]):
                        (status, _, alone), (other, _, beside_it) = (
                            served.send("POST", f"/api/folders/liechtenstein/plan{query}", text) for query in ("", "?form=json")
                        )
                        self.assertEqual((status, alone), (other, beside_it))
                        self.assertIn(status, (200, 400, 422))
                self.assertEqual(served.ask("plan", quick)[0], 200)
            finally:
                served.close()
        self.assertNotIn("Traceback", served.errors())
        served.log.close()


@needs_service
class Words(unittest.TestCase):
    def run_tool(self, *words):
        done = subprocess.run(
            [PYTHON, os.path.join(TOOLS, "serve"), *words], stdout=subprocess.PIPE, stderr=subprocess.PIPE, universal_newlines=True, timeout=STARTS_WITHIN
        )
        return done.returncode, done.stdout, done.stderr

    def test_words_that_are_none(self):
        for words, said in (
            ([], "expected is a folder"),
            (["x", "--port", "70000"], "--port is from 0 to 65535"),
            (["x", "--gather", "51"], "--gather is from 0 to 50"),
            (["x", "--runs", "0"], "--runs is above 0"),
        ):
            status, _, error = self.run_tool(*words)
            self.assertEqual(status, 2)
            self.assertIn(said, error)

    def test_the_schema_is_printed(self):
        status, printed, _ = self.run_tool("--openapi")
        self.assertEqual(status, 0)
        with open(SCHEMA, encoding="utf-8") as file:
            self.assertEqual(printed, file.read(), "tools/serve --openapi > tools/lorry_tools/service/openapi.json")

    @beside.needs_program
    def test_folders_and_ports_that_cannot_be_used(self):
        status, _, error = self.run_tool("/nowhere/at/all", "--program", PROGRAM)
        self.assertEqual((status, error), (2, "serve: /nowhere/at/all is not a folder\n"))
        with socket.socket() as taken:
            taken.bind(("127.0.0.1", 0))
            taken.listen()
            port = taken.getsockname()[1]
            status, _, error = self.run_tool(EXAMPLE, "--program", PROGRAM, "--port", str(port))
        self.assertEqual((status, error), (2, f"serve: 127.0.0.1 port {port} can't be used: Address already in use\n"))
        with tempfile.TemporaryDirectory() as place:
            path = copy_of_example(place)
            with open(os.path.join(path, "rules.csv"), "a", encoding="utf-8") as file:
                file.write("one field\n")
            status, _, error = self.run_tool(path, "--program", PROGRAM)
        self.assertEqual(status, 3)
        self.assertRegex(error, r"serve: liechtenstein: refused input rules.csv \d+ FieldCount")
        status, _, error = self.run_tool(EXAMPLE, "--program", "/nowhere/lorry_plan")
        self.assertEqual((status, error), (69, "serve: there is no program /nowhere/lorry_plan\n"))


if __name__ == "__main__":
    unittest.main()
