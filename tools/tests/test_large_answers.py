"""Tests of large answers: no clause says that memory suffices, so these runs of the built program show that it does. Each runs under a limit of
address space that a table by minutes exceeds, and each answer is compared with one that is worked out here from the network's form.

    python3 -m unittest tools/tests/test_large_answers.py"""
import os
import resource
import subprocess
import sys
import unittest

sys.path.insert(0, os.path.dirname(os.path.abspath(__file__)))
import beside
from beside import PROGRAM, graph

beside.say_what_is_skipped("test_large_answers")

# 2020-07-04T00:00Z as a Unix minute, and the most minutes of a trip.
START, LONGEST = 26_563_680, 86_400

MEGABYTE = 1_000_000


def road(nodes):
    """Returns the graph of a straight road whose arcs take a minute each: arc k leads from node k to the next."""
    return graph(nodes, *((node, node + 1, 1) for node in range(1, nodes)))


def cost(thousandths):
    return f"{thousandths // 1_000}.{thousandths % 1_000:03}"


@beside.needs_program
class LargeAnswers(beside.FolderTest):
    def run_within(self, megabytes, command, *words):
        """Returns the text that the program prints, in a process with this many megabytes of address space."""

        def limited():
            resource.setrlimit(resource.RLIMIT_AS, (megabytes * MEGABYTE, megabytes * MEGABYTE))

        line = [PROGRAM, command, self.folder, *(str(word) for word in words)]
        done = subprocess.run(line, stdout=subprocess.PIPE, stderr=subprocess.PIPE, preexec_fn=limited, check=False, encoding="ascii")
        self.assertEqual((done.returncode, done.stderr), (0, ""), line)
        return done.stdout

    def assert_lines(self, printed, lines):
        """Tells only the first line that differs: the texts are long."""
        found = printed.splitlines()
        for number, (one, other) in enumerate(zip(found, lines), 1):
            self.assertEqual(one, other, f"line {number}")
        self.assertEqual(len(found), len(lines))

    def test_a_front_of_128_pairs(self):
        """A straight road of 1,000 minutes, and then seven hops, each with a toll road and a free one that takes 1, 2, 4 .. minutes more and
        saves 1.500 for each of them."""
        hops, before = 7, 1_000
        arcs, tolls = [(node, node + 1, 1) for node in range(1, before + 1)], []
        for hop in range(hops):
            node = before + 1 + hop
            arcs += [(node, node + 1, 60), (node, node + 1, 60 + 2**hop)]
            tolls.append((before + 2 * hop + 1, cost(1_500 * 2**hop)))
        self.write(graph=graph(before + hops + 1, *arcs), tolls="arc,toll\n" + "".join(f"{arc},{toll}\n" for arc, toll in tolls))
        lines = [f"pairs {2**hops}"]
        for later in range(2**hops):
            minutes = before + 60 * hops + later
            lines.append(f"pair {START + minutes} {cost(1_000 * minutes + 1_500 * (2**hops - 1 - later))}")
            lines += [f"drive {arc}" for arc in range(1, before + 1)]
            lines += [f"drive {before + 2 * hop + 1 + (later >> hop & 1)}" for hop in range(hops)]
        self.assert_lines(self.run_within(100, "plan", "any", 1, before + hops + 1, START, START + LONGEST), lines)

    def test_an_itinerary_of_66_000_legs(self):
        legs = 66_000
        self.write(graph=road(legs + 1))
        lines = ["pairs 1", f"pair {START + legs} {cost(1_000 * legs)}", *(f"drive {arc}" for arc in range(1, legs + 1))]
        self.assert_lines(self.run_within(200, "plan", "any", 1, legs + 1, START, START + LONGEST), lines)

    def test_the_latest_departure_over_80_000_nodes(self):
        legs, until = 79_999, START + LONGEST - 1
        self.write(graph=road(legs + 1))
        lines = ["pairs 1", f"leave {until - legs} {cost(1_000 * legs)}", *(f"drive {arc}" for arc in range(1, legs + 1))]
        self.assert_lines(self.run_within(300, "latest", "any", 1, legs + 1, START, until), lines)

    def test_an_explained_itinerary_of_66_000_legs(self):
        legs = 66_000
        self.write(graph=road(legs + 1))
        with open(self.path("itinerary"), "w", encoding="ascii") as file:
            file.writelines(f"drive {arc}\n" for arc in range(1, legs + 1))
        printed = self.run_within(200, "explain", "any", 1, legs + 1, START, START + LONGEST, "itinerary")
        self.assertEqual(printed, f"lawful {START + legs} {cost(1_000 * legs)}\nundominated\n")

    def test_a_batch_of_2_000_trips(self):
        nodes, trips = 2_001, 2_000
        self.write(graph=road(nodes))
        rows = "".join(f"any,{trip},{trip + 1},{START + trip},{START + LONGEST}\n" for trip in range(1, trips + 1))
        self.write(jobs="vehicle,from,to,depart,until\n" + rows)
        lines = []
        for trip in range(1, trips + 1):
            lines += [f"job {trip}", "pairs 1", f"pair {START + trip + 1} 1.000", f"drive {trip}"]
        self.assert_lines(self.run_within(200, "batch", "jobs.csv"), lines)

    def test_a_tour_of_50_stops_over_20_000_nodes(self):
        nodes, stops, service = 20_000, 50, 10
        self.write(graph=road(nodes))
        self.write(stops="node,service,from,to\n" + "".join(f"{400 * stop},{service},{START},{START + LONGEST}\n" for stop in range(1, stops + 1)))
        lines = ["pairs 1", f"pair {START + nodes - 1 + stops * service} {cost(1_000 * (nodes - 1))}"]
        for node in range(1, nodes + 1):
            lines += [f"serve {node // 400}"] if node % 400 == 0 else []
            lines += [f"drive {node}"] if node < nodes else []
        self.assert_lines(self.run_within(600, "tour", "any", 1, nodes, START, START + LONGEST, "stops.csv"), lines)

    def test_breaks_over_a_million_states(self):
        """A road of 3,999 minutes with parking at each node asks for 14 breaks of 45 minutes, at 0.500 a minute."""
        nodes, drive, rest = 4_000, 270, 45
        self.write(graph=road(nodes), ratings="rating,weight\nr,0.500\n", parking="node,rating\n" + "".join(f"{node},r\n" for node in range(1, nodes + 1)))
        printed = self.run_within(600, "breaks", "any", 1, nodes, START, START + 10_080).splitlines()
        minutes, breaks = nodes - 1, (nodes - 2) // drive
        self.assertEqual(printed[:2], ["pairs 1", f"pair {START + minutes + breaks * rest} {cost(1_000 * minutes + 500 * breaks * rest)}"])
        drives = [line for line in printed[2:] if line.startswith("drive")]
        waits = [line for line in printed[2:] if not line.startswith("drive")]
        self.assertEqual(drives, [f"drive {arc}" for arc in range(1, nodes)])
        self.assertEqual(waits, [f"wait {rest}"] * breaks)


if __name__ == "__main__":
    unittest.main()
