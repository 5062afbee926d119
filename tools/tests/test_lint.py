"""Tests of tools/lint and of the notation that it reads: each finding, and random rules against the program where it is built.

    python3 -m unittest tools/tests/test_lint.py"""
import datetime
import os
import random
import sys
import unittest

sys.path.insert(0, os.path.dirname(os.path.abspath(__file__)))
import beside
from beside import graph

beside.say_what_is_skipped("test_lint")

from lorry_tools import lint, rule_texts
from lorry_tools.folder import Folder
from lorry_tools.instants import minute_of, moment_of
from lorry_tools.program import Program

# July 2026, in which the 5th is a Sunday.
WINDOW = ["--window", "2026-07-01T00:00Z", "2026-08-01T00:00Z"]

ZONES = "zone,from,offset\nberlin,2026-03-29T01:00Z,+02:00\nberlin,2026-10-25T01:00Z,+01:00\n"
AREAS = "area,zone\nland,berlin\n"
TRUCK = "truck,hgv,40000,11500,400,255,1650,5,through,\n"


class Findings(beside.FolderTest):
    def setUp(self):
        super().setUp()
        self.write(graph=graph(3, (1, 2, 60), (2, 3, 60), (3, 1, 60)), zones=ZONES, areas=AREAS, vehicles=beside.VEHICLES + TRUCK)

    def findings(self, *words, window=True):
        status, printed, complained = beside.run("lint", self.folder, *(WINDOW if window else []), *words)
        self.assertEqual(complained, "")
        lines = printed.splitlines()
        self.assertEqual(status, 0 if lines == ["nothing found"] else 1, printed)
        return [] if status == 0 else lines

    def rules(self, *rows):
        self.write(rules="scope,key,value\n" + "".join(f"{it}\n" for it in rows))

    def test_nothing(self):
        self.assertEqual(self.findings(), [])
        self.rules("area:land,hgv:conditional,no @ (weight>7.5 AND Su)", "arc:1,hgv:conditional,no @ (height>3.9)")
        self.assertEqual(self.findings(), [])

    def test_rows_that_are_passed_over(self):
        self.rules(
            "area:land,hgv,yes", "arc:1,maxweight,7.5", "arc:2,maxweight,3.5", "arc:1,HGV,no", "arc:1,hgv:forward,no", "arc:3,hazmat,no", "arc:3,x,2"
        )
        self.assertEqual(
            self.findings(),
            [
                "rules.csv 3 passed-over: 2 rows with the key maxweight, such as arc:1,maxweight,7.5; "
                "a limit is a rule such as hgv:conditional with no @ (weight>N)",
                "rules.csv 5 passed-over: 1 row with the key HGV, such as arc:1,HGV,no; perhaps hgv is meant",
                "rules.csv 6 passed-over: 1 row with the key hgv:forward, such as arc:1,hgv:forward,no; "
                "an arc goes one way, so its key has no direction",
                "rules.csv 7 passed-over: 1 row with the key hazmat, such as arc:3,hazmat,no; "
                "as a rule: hgv:conditional with no @ (hazmat), for vehicles with this flag",
                "rules.csv 8 passed-over: 1 row with the key x, such as arc:3,x,2",
            ],
        )

    def test_a_road_that_lifts_the_ban_of_its_area(self):
        self.rules("area:land,hgv:conditional,no @ (weight>7.5 AND Su 00:00-22:00)", "arc:2,hgv,designated")
        self.assertEqual(
            self.findings(),
            ["rules.csv 3 lifted-ban: arc:2 hgv designated lets truck in where the rules of area land don't, first on 2026-07-05 00:00 local time"],
        )

    def test_a_road_whose_rule_does_not_lift_the_ban(self):
        ban = "no @ (weight>7.5 AND Su 00:00-22:00)"
        for rows in (
            ["arc:2,access,yes"],  # the key of the ban is more special
            ["arc:2,bus,yes"],  # another class
            ["arc:2,hgv,designated", f"arc:2,hgv:conditional,{ban}"],  # the law is repeated
            ["arc:2,hgv,designated", "arc:2,hgv:conditional,no @ (Sa-Mo)"],  # a longer ban
            ["arc:2,hgv:conditional,yes @ (weight<=7.5)"],  # holds for no vehicle of the ban
            ["arc:2,hgv:conditional,yes @ (Mo-Sa)"],  # other days
            ["arc:2,hgv,destination"],  # the truck doesn't deliver
        ):
            self.rules(f"area:land,hgv:conditional,{ban}", *rows)
            self.assertEqual([it for it in self.findings() if "lifted-ban" in it], [], rows)

    def test_the_conditional_rule_that_lifts_a_ban_is_named(self):
        self.rules("area:land,access,no", "arc:2,hgv,no", "arc:2,hgv:conditional,yes @ (Mo-Fr 06:00-20:00); no @ (We)")
        self.assertEqual(
            self.findings(),
            [
                "rules.csv 4 lifted-ban: arc:2 hgv:conditional yes @ (Mo-Fr 06:00-20:00); no @ (We) lets any and truck in where the rules of area "
                "land don't, first on 2026-07-02 06:00 local time"
            ],
        )

    def test_whom_a_rule_lets_in(self):
        self.write(vehicles=beside.VEHICLES + TRUCK + TRUCK.replace("truck", "twin") + "shop,hgv,18000,,,,,,delivery,\nvan,goods,3500,,,,,,,\n")
        self.rules("area:land,access,no", "arc:2,hgv,destination", "arc:3,goods,yes")
        self.assertEqual(
            self.findings(),
            [
                "rules.csv 3 lifted-ban: arc:2 hgv destination lets shop in where the rules of area land don't, at all minutes",
                "rules.csv 4 lifted-ban: arc:3 goods yes lets van in where the rules of area land don't, at all minutes",
            ],
        )

    def test_vehicles_that_no_rule_speaks_of(self):
        self.write(vehicles=beside.VEHICLES + TRUCK + "coach,bus,18000,,,,,,,\nvan,hgv,3500,,,,,,,\nnew,hgv,,,,,,,,\n")
        self.rules("area:land,hgv:conditional,no @ (weight>7.5 AND Su)")
        self.assertEqual(
            self.findings(),
            [
                "vehicles.csv 3 no-rule: coach is of the class bus, and no rule has one of its keys (access, vehicle, motor_vehicle, bus)",
                "vehicles.csv 4 no-rule: no rule ever holds for van: the one rule for its class asks for other sizes or flags",
                "vehicles.csv 5 unknown-size: new has no weight_kg, so comparisons with it in rules.csv 2 never hold",
                "vehicles.csv 5 no-rule: no rule ever holds for new: the one rule for its class asks for other sizes or flags",
            ],
        )

    def test_flags_that_no_vehicle_has(self):
        self.write(vehicles=beside.VEHICLES + TRUCK + "tank,hgv,40000,,,,,,,hazmat\n")
        self.rules("area:land,hgv:conditional,no @ (hazmat); no @ (mo); no @ (wet)")
        self.assertEqual(
            [it for it in self.findings() if "flag" in it and "no-rule" not in it],
            [
                "rules.csv 2 unknown-flag: area:land hgv:conditional speaks of the flag mo, which no vehicle has; "
                "Mo is written with a capital letter",
                "rules.csv 2 unknown-flag: area:land hgv:conditional speaks of the flag wet, which no vehicle has",
            ],
        )

    def test_parking(self):
        self.write(graph=graph(4, (1, 2, 60), (2, 3, 60), (4, 1, 5)), ratings="rating,weight\nr,1\n", parking="node,rating\n2,r\n4,r\n5,r\n0,r\n")
        self.assertEqual(
            self.findings(),
            [
                "parking.csv 3 no-road-there: no road leads to node 4, so only a trip that begins there can wait there",
                "parking.csv 4 no-such-node: node 5 isn't in graph.gr, whose nodes are 1 to 4; the program will refuse the folder",
                "parking.csv 5 no-such-node: node 0 isn't in graph.gr, whose nodes are 1 to 4; the program will refuse the folder",
            ],
        )

    def test_hours_in_utc(self):
        self.rules("area:land,hgv:conditional,no @ (22:00-06:00)", "arc:1,hgv:conditional,no @ (Su)")
        self.write(areas="area,zone\nland,UTC\n")
        self.assertEqual(self.findings(), ["areas.csv 2 utc-hours: area land is in the zone UTC, and has hours: 2 rows, the first in rules.csv 2"])
        self.rules("area:default,hgv:conditional,no @ (22:00-06:00)")
        os.remove(self.path("areas.csv"))
        self.assertEqual(self.findings(), ["areas.csv 0 utc-hours: there is no area, so hours are read in UTC: a row, the first in rules.csv 2"])
        self.rules("area:default,hgv:conditional,no @ (weight>40)")
        self.assertEqual([it for it in self.findings() if "utc-hours" in it], [])

    def test_zones_without_a_change_for_the_window(self):
        self.rules("area:land,hgv:conditional,no @ (22:00-06:00)")
        self.assertEqual(
            self.findings("--window", "2028-07-01T00:00Z", "2028-08-01T00:00Z", window=False),
            ["zones.csv 3 old-zone: the last change of berlin is on 2026-10-25, long before the window ends, on 2028-08-01"],
        )
        self.assertEqual(
            self.findings("--window", "2025-07-01T00:00Z", "2025-08-01T00:00Z", window=False),
            ["zones.csv 2 old-zone: the first change of berlin is on 2026-03-29, after the window begins, on 2025-07-01"],
        )
        self.write(zones="zone,from,offset\nberlin,1971-01-01T00:00Z,+02:00\n")
        self.assertEqual(self.findings(), [])

    def test_holidays(self):
        self.rules('area:land,hgv:conditional,"no @ (Su,PH 00:00-22:00)"', "arc:1,hgv:conditional,no @ (SH)")
        self.write(holidays="area,kind,date\nland,SH,2026-12-24\nland,PH,2025-12-25\nother,PH,2026-01-01\n")
        said = "rules.csv 2 no-holidays: area:land hgv:conditional speaks of PH, and holidays.csv has none of area land in 2026"
        self.assertEqual(self.findings(), [said])

    def test_files_that_are_never_read(self):
        names = ["Rules.csv", "closure.csv", "ban.csv", "jobs.csv", "my-stops.csv", "README.md", "nodes.csv", "trip.cert", "way.txt", "prices.csv"]
        texts = {"ban.csv": "scope,key,value\r\narea:land,hgv,no\n", "jobs.csv": "vehicle,from,to,depart,until\n"}
        texts.update({"my-stops.csv": "node,service,from,to\n", "graph.gr.old": ""})
        names.append("graph.gr.old")
        for name in names:
            with open(self.path(name), "w", encoding="utf-8") as file:
                file.write(texts.get(name, ""))
        with open(self.path("way"), "w", encoding="utf-8") as file:
            file.write("drive 1\nwait 5\n")
        self.assertEqual(
            self.findings(),
            [
                "Rules.csv 0 never-read: no command reads it; perhaps rules.csv is meant",
                "ban.csv 0 never-read: it has the header of rules.csv, but not its name",
                "closure.csv 0 never-read: no command reads it; perhaps closures.csv is meant",
                "graph.gr.old 0 never-read: no command reads it; perhaps graph.gr is meant",
                "prices.csv 0 never-read: no command reads it",
            ],
        )

    def test_closures_that_have_passed(self):
        self.write(closures="arc,from,to\n2,2026-06-01T00:00Z,2026-07-01T00:00Z\n2,2026-06-01T00:00Z,2026-07-01T00:01Z\n")
        self.assertEqual(self.findings(), ["closures.csv 2 past-closure: arc 2 is closed until 2026-07-01T00:00Z, before the window"])
        self.assertEqual(self.findings(window=False), [])

    def test_values_that_are_not_understood(self):
        self.rules("area:land,hgv:conditional,no @ (weight>7.5 AND Su", "arc:1,hgv,maybe", "arc:2,hgv:conditional,no @ (sunrise-sunset)")
        self.write(vehicles=beside.VEHICLES + TRUCK + "heavy,hgv,40 t,,,,,,,\ntram,rail,,,,,,,,\n", holidays="area,kind,date\nland,PH,2026-02-30\n")
        found = [it.split(": ")[0] for it in self.findings()]
        rows = ["rules.csv 2", "rules.csv 3", "rules.csv 4", "vehicles.csv 3", "vehicles.csv 4", "holidays.csv 2"]
        self.assertEqual(sorted(found), sorted(f"{it} not-read" for it in rows))

    def test_a_finding_is_one_line(self):
        self.rules('area:land,"max\nspeed\x1b[2J",80')
        self.assertEqual(self.findings(), ["rules.csv 2 passed-over: 1 row with the key max?speed?[2J, such as area:land,max?speed?[2J,80"])

    def test_many_findings_of_one_name(self):
        self.write(parking="node,rating\n" + "".join(f"{it},r\n" for it in range(10, 40)))
        lines = self.findings("--most", 3)
        self.assertEqual((len(lines), lines[-1]), (4, "no-such-node: 27 more"))

    def test_a_folder_that_is_not_there(self):
        status, printed, complained = beside.run("lint", self.path("nowhere"))
        self.assertEqual((status, printed), (2, ""))
        self.assertIn("is not a folder", complained)

    def test_a_window_that_is_none(self):
        status, _, complained = beside.run("lint", self.folder, "--window", "2026-07-01T00:00Z", "2026-07-01T00:00Z")
        self.assertEqual(status, 2)
        self.assertIn("--window has two instants", complained)


class Notation(unittest.TestCase):
    """The texts that docs/FORMATS.md shows."""

    def test_hours_that_are_read(self):
        for text in (
            "24/7", "off", "Mo", "Mo-Fr 08:00-12:00; Mo 13:00-17:00", "Mo-Fr 22:00-06:00; PH off", "Jul: Mo 8:00-12:00, 13:00-17:00 open",
            "Sa 22:00-Su 24:00", "Jul12:00-13:00", "Jul 12 12:00-13:00", "24/7open", "Jul:", "Jul: open", "Su[1],Su[3]", "Fr[-1]", "PH,Mo",
            "Jul 05-29: 08:00-12:00", "Jul 1-Aug 7", "Jan 01,Jan 06", "Nov-Feb", "Feb 30", "Mo 08:00-Mo 08:00", "22:00-30:00",
        ):  # fmt: skip
            rule_texts.read_hours(text)

    def test_hours_that_are_refused(self):
        for text in (
            "", "Mo 08:00-12:00;", "Mo 08:00-12:00 off", "mo", "24:00-25:00", "08:60-09:00", "17:00+", "sunrise-sunset", "Su[01]", "Su[6]",
            "Su[1] 22:00-Mo 06:00", "week 1-2", "2024 Jul", "easter", " Mo", "Mo ", "PH Mo", "Su[1,3]", "Jan 01,06", "Jul-Aug 7", "open",
            "Mo 08:00-12:00,Tu 09:00-10:00", "Jul 05-29:08:00-12:00", "Jul 32", "08:00", "08:00-49:00",
        ):  # fmt: skip
            with self.assertRaises(rule_texts.NotRead, msg=text):
                rule_texts.read_hours(text)

    def test_conditional_values(self):
        for text in (
            "no@weight > 7.5t and Sa 7:00-20:00; permit@hazmat", "no @ (Mo 22:00-06:00; PH off)", "no @ axles>=3", "no @ height>3.9m", "no @ off",
        ):  # fmt: skip
            rule_texts.read_conditional(text)
        for text in (
            "no", "no @ hazmat;", "No @ (24/7)", "no @ ((hazmat))", "no @ (two words)", "no @ (a And b)", "no @ weight>7,5", "no @ axles>=3t",
            "no @ 7.5<weight", "no @ speed>80", "no @ Mo 22:00-06:00; PH off", "no @ (weight>7.5", "maybe @ (Su)", "no @ ", "no @ height>3.999",
        ):  # fmt: skip
            with self.assertRaises(rule_texts.NotRead, msg=text):
                rule_texts.read_conditional(text)

    def test_comparisons_to_the_kilogram_and_the_centimetre(self):
        (clause,) = rule_texts.read_conditional("no @ (weight>7.5 AND height>=3.9m AND axles=3)")
        self.assertEqual(clause.comparisons, [("weight_kg", ">", 7500), ("height_cm", ">=", 390), ("axles", "=", 3)])

    def test_the_days_that_hours_match(self):
        def days(text, first, count):
            window = rule_texts.Window(first, count)
            minutes = window.covered(rule_texts.read_hours(text), {})
            return [k for k in range(count) if minutes >> (k * 1440 + 720) & 1]

        self.assertEqual(days("We[-1]", datetime.date(2026, 6, 1), 30), [23])
        self.assertEqual(days("Fr[-1]", datetime.date(2026, 7, 1), 31), [30])
        self.assertEqual(days("Fr[-5]", datetime.date(2026, 7, 1), 31), [2])
        self.assertEqual(days("Su[1]", datetime.date(2026, 7, 1), 31), [4])
        self.assertEqual(days("Nov-Feb", datetime.date(2026, 10, 31), 3), [1, 2])
        self.assertEqual(days("Nov-Feb", datetime.date(2027, 2, 27), 3), [0, 1])
        self.assertEqual(days("Dec 31-Jan 1", datetime.date(2026, 12, 30), 4), [1, 2])
        self.assertEqual(days("Sa-Mo", datetime.date(2026, 7, 6), 7), [0, 5, 6])

    def test_a_span_that_ends_when_it_starts(self):
        window = rule_texts.Window(datetime.date(2026, 7, 6), 2)
        self.assertEqual(window.covered(rule_texts.read_hours("Mo 08:00-08:00"), {}), ((1 << 1440) - 1) << 480)

    def test_minutes_of_the_days_before(self):
        window = rule_texts.Window(datetime.date(2026, 7, 6), 1)  # a Monday
        self.assertEqual(window.covered(rule_texts.read_hours("Su 22:00-06:00"), {}), (1 << 360) - 1)
        self.assertEqual(window.covered(rule_texts.read_hours("Mo 08:00-Mo 07:00"), {}), window.whole & ~(((1 << 60) - 1) << 420))


def random_hours(draw):
    """Returns a text of hours, nearly always within the notation."""

    def time(most=23):
        return f"{draw.randint(0, most):02}:{draw.choice(['00', '30', '59'])}"

    def rule():
        months, days = rule_texts.MONTHS, rule_texts.WEEKDAYS
        month, day = lambda: draw.choice(months), lambda: draw.choice(days)
        dates = draw.choice(["", "", "", f"{month()} ", f"{month()}-{month()} ", f"Jul {draw.randint(1, 31)}-Aug {draw.randint(1, 31)} "])
        if draw.random() < 0.15:
            return f"{dates}{day()} {time()}-{day()} {time()}"
        items = draw.choice(["", f"{day()}-{day()} ", f"{day()},PH ", f"{day()}[{draw.choice([1, 2, 3, 4, 5, -1, -2])}] ", "SH "])
        spans = draw.choice(["", "off", f"{time()}-{time(47)}", f"{time()}-{time()},{time()}-{time()}"])
        return (dates + items + spans).strip() or "24/7"

    return "; ".join(rule() for _ in range(draw.choice([1, 1, 2, 3])))


def random_value(draw, conditional):
    if not conditional:
        return draw.choice(list(rule_texts.VALUES))
    clauses = []
    for _ in range(draw.randint(1, 3)):
        parts = [draw.choice(["weight>7.5", "weight<=18", "height>=3.9m", "axles>2", "hazmat", "trailer"])] if draw.random() < 0.6 else []
        if draw.random() < 0.7 or not parts:
            parts.append(random_hours(draw))
        clauses.append(f"{draw.choice(list(rule_texts.VALUES))} @ ({' AND '.join(parts)})")
    return "; ".join(clauses)


class AgainstTheProgram(beside.FolderTest):
    """Random rules, in UTC, so that local minutes are those of the program."""

    @beside.needs_program
    def test_the_closed_minutes_of_random_rules(self):
        draw, start, days = random.Random(7), minute_of("2026-06-20T00:00Z"), 45
        vehicles = beside.VEHICLES + TRUCK + "tank,hgv_articulated,24000,,,,,3,,hazmat\nshop,goods,7500,,380,,,2,delivery,\ncoach,bus,,,390,,,,,\n"
        self.write(graph=graph(2, (1, 2, 60), (2, 1, 60)), areas="area,zone\nland,UTC\n", vehicles=vehicles)
        self.write(holidays="area,kind,date\nland,PH,2026-06-24\nland,PH,2026-07-14\nland,SH,2026-07-20\nland,SH,2026-07-21\n")
        program, compared, refused = Program(beside.PROGRAM), 0, 0
        for _ in range(40):
            rows = {}
            for _ in range(draw.randint(1, 6)):
                conditional = draw.random() < 0.75
                key = draw.choice(lint.KEYS) + (":conditional" if conditional else "")
                rows[draw.choice(["area:land", "arc:1"]), key] = random_value(draw, conditional)
            self.write(rules="scope,key,value\n" + "".join(f'{scope},{key},"{value}"\n' for (scope, key), value in rows.items()))
            moments = moment_of(start), moment_of(start + days * 1440 - 1)
            found = lint.Lint(Folder(self.folder), moments, False, 20)
            found.read_rules()
            vehicle = draw.choice(found.vehicles)
            words = ["bans", self.folder, vehicle["name"], 1, start, start + days * 1440]
            status, _ = program.run(words)
            self.assertEqual(status == 3, found.counts["not-read"] > 0, rows)
            refused += status == 3
            if status == 0:
                compared += 1
                let_in, _ = found.decided(found.in_order(found.rules, vehicle), vehicle, "land")
                for low, high in program.bans(*words[1:]):
                    run = ((1 << high - low) - 1) << low - start
                    self.assertEqual(let_in & run, 0, (rows, vehicle))
                    let_in |= run
                self.assertEqual(let_in, found.window.whole, (rows, vehicle))
        self.assertGreater(compared, 25)


if __name__ == "__main__":
    unittest.main()
