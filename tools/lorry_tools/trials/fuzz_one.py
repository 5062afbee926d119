"""Runs the built program over a small folder in which the bytes of one file are given, for a
fuzzer.

    tools/fuzz_one [--program PROGRAM] FILE [PATH]
    tools/fuzz_one [--program PROGRAM] [--seed S] --draw N FILE
    tools/fuzz_one [--program PROGRAM] --corpus DIR

FILE is graph.gr, one of the tables, jobs.csv, stops.csv, itinerary.txt or plan.cert. Its bytes are
those of PATH, or of the standard input. The folder is that of tools/hostile; each command that
reads the file is run, and the script aborts where a run ends in a way that no bytes may cause,
which a fuzzer takes for a crash. PROGRAM is crates/lorry_plan/out/lorry_plan if it isn't named.

--corpus writes a folder for each FILE into DIR, with texts to begin with: those of the examples and
of the small folder. --draw is for who has no fuzzer: it changes such texts N times by draws from
the number S, 1 if it isn't given, and runs each."""
from __future__ import annotations

import argparse
import collections
import glob
import os
import random
import sys
import tempfile
from typing import Iterator, Optional

from lorry_tools.running import TOP
from lorry_tools.trials import one_run, small_folder
from lorry_tools.trials.one_run import Runner

# Pieces that draws put into a text: those that mean something in some file.
PIECES = [
    b"\n",
    b"\r\n",
    b"\0",
    b'"',
    b'""',
    b",",
    b";",
    b" ",
    b"\t",
    b"-",
    b":",
    b"@",
    b"(",
    b")",
    b".",
    b"0",
    b"9",
    b"+",
    b"\xff",
    b"\xef\xbb\xbf",
    b"18446744073709551616",
    b"4294967296",
    b"999999999999999999",
    b"500000",
    b"26563680",
    b"120968639",
    b"-1",
    b"a 1 2 60\n",
    b"p sp 2 1\n",
    b" AND ",
    b"24/7",
    b"PH off",
    b"Mo-Su 00:00-48:00",
    b"Sa 22:00-Su 22:00",
    b"weight>7.5",
    b"no @ ",
    b"Feb 30",
    b"2199-12-31T23:59Z",
    b"1971-01-01T00:00Z",
    b"drive 1\n",
    b"wait 1\n",
    b"drive 4294967295\n",
    b"wait 86400\n",
    b"piece 1 26563680 26563680 0 0\n",
    b"bound 1 0 0\n",
]


def texts_of_examples(name: str) -> Iterator[bytes]:
    """The texts of this kind of file in the examples."""
    pattern = {small_folder.CERTIFICATE: "*.cert", small_folder.ITINERARY: "*.txt"}.get(name, name)
    for path in sorted(glob.glob(os.path.join(TOP, "examples", "*", pattern))):
        with open(path, "rb") as file:
            yield file.read()


def texts_of(name: str, folder: str) -> list[bytes]:
    """The texts to begin with, each once: that of the small folder, and those of the examples."""
    return list(dict.fromkeys([small_folder.read_files(folder)[name], *texts_of_examples(name)]))


def write_corpus(runner: Runner, corpus: str) -> int:
    with tempfile.TemporaryDirectory() as folder:
        small_folder.make(runner, folder)
        for name in small_folder.KINDS:
            kind = os.path.join(corpus, name)
            os.makedirs(kind, exist_ok=True)
            small_folder.write_files(
                kind, {f"text{number}": text for number, text in enumerate(texts_of(name, folder))}
            )
    return 0


def runs_over(
    runner: Runner, folder: str, name: str, text: bytes
) -> Iterator[tuple[int, Optional[str]]]:
    """Runs each command that reads the file with this text: the status, and what wasn't lawful with
    which words, or None."""
    small_folder.write_files(folder, {name: text})
    for words, lawful in small_folder.readers_of(name, folder):
        run = runner.run(words)
        wrong = one_run.wrong_answer(words[0], run, lawful)
        yield run.status, wrong and f"{' '.join(words)}: {wrong}"


def run_one(runner: Runner, name: str, path: Optional[str]) -> int:
    """Aborts where the bytes lead to a run that isn't lawful."""
    text = read_bytes(path)
    with tempfile.TemporaryDirectory() as folder:
        small_folder.make(runner, folder)
        wrongs = [wrong for _, wrong in runs_over(runner, folder, name, text) if wrong]
    if wrongs:
        print(f"fuzz_one: {wrongs[0]}", file=sys.stderr, flush=True)
        os.abort()
    return 0


def read_bytes(path: Optional[str]) -> bytes:
    if path is None:
        return sys.stdin.buffer.read()
    with open(path, "rb") as file:
        return file.read()


# ---- Draws ----


def drawn_span(draws: random.Random, text: bytes) -> tuple[int, int]:
    begin = draws.randint(0, len(text))
    return begin, min(len(text), begin + draws.choice((1, 1, 2, 4, 16, 64)))


def changed_once(draws: random.Random, text: bytes, others: list[bytes]) -> bytes:
    """The text with a span taken out, doubled, set to a piece, or set to a span of another text."""
    begin, end = drawn_span(draws, text)
    other = draws.choice(others)
    from_other = slice(*drawn_span(draws, other))
    middle = draws.choice(
        (
            b"",
            text[begin:end] * 2,
            draws.choice(PIECES),
            other[from_other],
            bytes([draws.randrange(256)]),
        )
    )
    return text[:begin] + middle + text[draws.choice((begin, end)) :]


def changed(draws: random.Random, texts: list[bytes]) -> bytes:
    text = draws.choice(texts)
    for _ in range(draws.choice((1, 1, 2, 3, 5, 8))):
        text = changed_once(draws, text, texts)
    return text


def run_draws(runner: Runner, name: str, count: int, seed: int) -> int:
    """Runs drawn texts, and prints those that lead to a run that isn't lawful, and the numbers of
    runs by their status."""
    draws, found = random.Random(seed), 0
    statuses: collections.Counter[int] = collections.Counter()
    with tempfile.TemporaryDirectory() as folder:
        small_folder.make(runner, folder)
        texts = texts_of(name, folder)
        for _ in range(count):
            text = changed(draws, texts)
            for status, wrong in runs_over(runner, folder, name, text):
                statuses[status] += 1
                if wrong:
                    found += 1
                    print(f"unlawful: {wrong}: over {text!r}", flush=True)
    by_status = ", ".join(
        f"{runs:,} with status {status}" for status, runs in sorted(statuses.items())
    )
    print(
        f"{name}: {count:,} texts from the seed {seed}: {by_status}; {found:,} runs weren't lawful",
        flush=True,
    )
    return 1 if found else 0


def arguments() -> argparse.Namespace:
    parser = argparse.ArgumentParser(
        description=__doc__, formatter_class=argparse.RawDescriptionHelpFormatter
    )
    parser.add_argument("--program", default=one_run.PROGRAM, help="a built program")
    parser.add_argument("--corpus", metavar="DIR", help="write texts to begin with into DIR")
    parser.add_argument("--draw", type=int, metavar="N", help="run N texts that are drawn")
    parser.add_argument(
        "--seed", type=int, metavar="S", default=1, help="the number from which texts are drawn (1)"
    )
    parser.add_argument(
        "file",
        nargs="?",
        choices=small_folder.KINDS,
        metavar="FILE",
        help="the file whose bytes are given",
    )
    parser.add_argument(
        "path",
        nargs="?",
        metavar="PATH",
        help="where the bytes are; the standard input if it isn't named",
    )
    words = parser.parse_args()
    if (words.file is None) == (words.corpus is None):
        parser.error("either a file or --corpus has to be named")
    if not os.access(words.program, os.X_OK):
        parser.error(f"there is no program {words.program}: ./lorry_plan builds it")
    return words


def main() -> int:
    words = arguments()
    runner = one_run.Runner(words.program)
    if words.corpus is not None:
        return write_corpus(runner, words.corpus)
    if words.draw is not None:
        return run_draws(runner, words.file, words.draw, words.seed)
    return run_one(runner, words.file, words.path)
