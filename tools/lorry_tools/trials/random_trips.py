"""Compares the built program with the definitions of docs/MODEL.md over many random small folders.

    tools/random_trips [--seed S] [--folders N] [--only COMMAND] [--workers N] [--program PROGRAM]
                       [--keep DIR] [--first N]
    tools/random_trips [--program PROGRAM] --limits
    tools/random_trips [--program PROGRAM] --words COMMAND DIR ...

For each of plan, latest, tour, breaks and explain it draws N folders, 1,000 if N isn't given, and a
trip over each, and runs PROGRAM. The answer is worked out minute by minute from the definitions
(tools/lorry_tools/second). Pairs, explanations and refusals have to be equal; printed legs are
followed step by step, and have to be lawful and those of their pair's first itinerary.

The seed is printed first; the folder of a number depends on the seed, the command and the number
alone, and --first begins at a later number. Counts by command come at the end. Where an answer
differs the folder is kept in DIR, by default a new temporary one, and the status is 1. --limits
compares a few trips whose states or bytes are at their limits or one beyond; --words the answers
over a folder that is there. PROGRAM is ./lorry_plan of the repository if it isn't named."""
from __future__ import annotations

import argparse
import collections
import multiprocessing
import os
import random
import shlex
import shutil
import sys
import tempfile
import time
from typing import Iterator, Optional

from lorry_tools.running import TOP
from lorry_tools.second import random_folder, trip_answers
from lorry_tools.second.trip_answers import COMMANDS, DONE, Due
from lorry_tools.trials import one_run
from lorry_tools.trials.one_run import Run, Runner

Counts = collections.Counter[tuple[str, str]]
# The program, the seed, where folders are kept, the command, and the numbers of its folders.
Task = tuple[str, int, str, str, range]

LAUNCHER = os.path.join(TOP, "lorry_plan")

# How many folders a worker goes through before it reports.
PART = 25

# After so many wrong answers the script ends.
MOST_WRONG = 20

# The most seconds of a run, also where many other processes want the processor.
one_run.PATIENCE = 300


def compare(runner: Runner, words: list[str]) -> tuple[Due, Run, Optional[str]]:
    """Runs the program; gives what was due, what was printed, and how the answer is wrong, if it
    is."""
    due = trip_answers.answer_due(words)
    run = runner.run(words)
    wrong = one_run.wrong_end(run) or trip_answers.wrong_answer(
        words[0], due, run.status, run.printed
    )
    return due, run, wrong


def count_answer(counts: Counts, command: str, due: Due, run: Run) -> None:
    counts[command, "folders"] += 1
    text = due.text or b""
    if due.pairs is not None:
        legs = sum(len(legs) for _, legs in trip_answers.routes_of(run.printed))
        counts[command, "pairs"] += len(due.pairs)
        counts[command, "legs"] += legs
        counts[command, f"{min(len(due.pairs), 3)} pairs"] += 1
    elif due.status != DONE:
        counts[command, "refusals"] += 1
        counts[
            command, text.decode("ascii").strip() if b"input" not in text else refused_cause(text)
        ] += 1
    else:
        words = text.decode("ascii").split()
        counts[command, f"{words[0]} {words[3]}"] += 1


def refused_cause(text: bytes) -> str:
    words = text.decode("ascii").split()
    return f"refused input {words[2]} {words[4]}"


def draw_part(task: Task) -> tuple[Counts, list[str]]:
    """Goes through some folders; gives counts and the wrong answers."""
    program, seed, keep, command, numbers = task
    runner, counts = one_run.Runner(program), Counts()
    wrongs: list[str] = []
    with tempfile.TemporaryDirectory() as top:
        folder = os.path.join(top, "folder")
        for number in numbers:
            os.mkdir(folder)
            words = random_folder.draw_trip(
                random.Random(f"{seed} {command} {number}"), command, folder
            )
            due, run, wrong = compare(runner, words)
            count_answer(counts, command, due, run)
            if wrong:
                kept = keep_folder(keep, f"{command}{number}", folder)
                words = [word.replace(folder, kept) for word in words]
                wrongs.append(
                    f"{shlex.join(words)}\n  {wrong}\n  printed with status {run.status}:"
                    f" {run.printed!r}"
                )
            shutil.rmtree(folder)
    return counts, wrongs


def keep_folder(keep: str, name: str, folder: str) -> str:
    kept = os.path.join(keep, name)
    shutil.rmtree(kept, ignore_errors=True)
    shutil.copytree(folder, kept)
    return kept


def tasks(words: argparse.Namespace, commands: list[str], keep: str) -> Iterator[Task]:
    for begin in range(words.first, words.first + words.folders, PART):
        numbers = range(begin, min(begin + PART, words.first + words.folders))
        for command in commands:
            yield words.program, words.seed, keep, command, numbers


def draw_all(words: argparse.Namespace, commands: list[str]) -> tuple[Counts, int]:
    """Goes through all folders; gives the counts and the number of wrong answers."""
    keep = words.keep or tempfile.mkdtemp(prefix="random_trips-")
    os.makedirs(keep, exist_ok=True)
    counts = Counts()
    wrong_count, begin, told = 0, time.monotonic(), 0.0
    with multiprocessing.Pool(words.workers) as pool:
        for part, wrongs in pool.imap_unordered(draw_part, tasks(words, commands, keep)):
            counts.update(part)
            wrong_count += len(wrongs)
            for wrong in wrongs:
                print(f"mismatch: {wrong}", flush=True)
            if time.monotonic() - told > 5:
                told = time.monotonic()
                done = sum(counts[command, "folders"] for command in commands)
                print(
                    (
                        f"{done:,} of {words.folders * len(commands):,} folders,"
                        f" {told - begin:.0f} s, {wrong_count} mismatches"
                    ),
                    file=sys.stderr,
                )
            if wrong_count >= MOST_WRONG:
                pool.terminate()
                break
    if wrong_count:
        print(f"their folders are in {keep}")
    else:
        os.rmdir(keep)
    return counts, wrong_count


def compare_limits(runner: Runner) -> int:
    """Goes through the trips at their limits; gives the number of wrong answers."""
    wrong_count = 0
    with tempfile.TemporaryDirectory() as folder:
        for name, words in random_folder.limit_trips(folder):
            if words[0] == "explain" and not knows_explain(runner):
                continue
            due, run, wrong = compare(runner, words)
            answer = f"status {run.status}, {run.busy:.1f} s, {run.peak:.0f} MB"
            print(f"{name}: {answer}, {wrong or 'as due'}", flush=True)
            wrong_count += wrong is not None
    return wrong_count


def show(counts: Counts, commands: list[str]) -> None:
    print(
        "| Command | Folders | Fronts of 0, 1, 2, more pairs | Pairs | Legs followed | Refusals |"
    )
    print("|---|---|---|---|---|---|")
    for command in commands:
        fronts = (
            ", ".join(f"{counts[command, f'{size} pairs']:,}" for size in range(4))
            if counts[command, "legs"]
            else "-"
        )
        numbers = [counts[command, name] for name in ("folders", "pairs", "legs", "refusals")]
        print(
            f"| {command} | {numbers[0]:,} | {fronts} | {numbers[1]:,} | {numbers[2]:,} |"
            f" {numbers[3]:,} |"
        )
    for command in commands:
        others = sorted(
            (name, count)
            for (of, name), count in counts.items()
            if of == command and " " in name and not name.endswith("pairs")
        )
        if others:
            print(f"{command}: " + "; ".join(f"{name} {count:,}" for name, count in others))


def knows_explain(runner: Runner) -> bool:
    """Whether the program has the command: words that are none are refused as usage before any file
    is read."""
    with tempfile.TemporaryDirectory() as folder:
        return (
            runner.run(["explain", folder, "any", "1", "1", "525600", "525600", "x"]).status
            != trip_answers.USAGE
        )


def compare_words(runner: Runner, words: list[str]) -> int:
    due, run, wrong = compare(runner, words)
    print(f"due: status {due.status}, {(due.text if due.pairs is None else due.pairs)!r}")
    sys.stdout.write(f"printed, with status {run.status}:\n{run.printed.decode('latin-1')}")
    print(wrong or "0 mismatches")
    return 1 if wrong else 0


def arguments() -> argparse.Namespace:
    parser = argparse.ArgumentParser(
        description=__doc__, formatter_class=argparse.RawDescriptionHelpFormatter
    )
    parser.add_argument("--seed", type=int, default=1, help="the number that all draws begin with")
    parser.add_argument("--folders", type=int, default=1_000, help="folders for each command")
    parser.add_argument("--first", type=int, default=1, help="the number of the first folder")
    parser.add_argument("--only", choices=COMMANDS, help="this command alone")
    parser.add_argument("--workers", type=int, default=1, help="processes at once")
    parser.add_argument("--program", default=LAUNCHER, help="a built program")
    parser.add_argument("--keep", help="where folders with wrong answers are kept")
    parser.add_argument("--limits", action="store_true", help="a few trips at their limits alone")
    parser.add_argument(
        "--words", nargs=argparse.REMAINDER, help="the words of one run over a folder that is there"
    )
    words = parser.parse_args()
    if not os.access(words.program, os.X_OK):
        parser.error(f"there is no program {words.program}")
    return words


def main() -> int:
    words = arguments()
    runner = one_run.Runner(words.program)
    if words.words:
        return compare_words(runner, words.words)
    if words.limits:
        wrong_count = compare_limits(runner)
        print(f"{wrong_count} mismatches")
        return 1 if wrong_count else 0
    print(f"seed {words.seed}", flush=True)
    commands = [words.only] if words.only else list(COMMANDS)
    if "explain" in commands and not knows_explain(runner):
        print("the program has no command explain", flush=True)
        commands.remove("explain")
    counts, wrong_count = draw_all(words, commands)
    show(counts, commands)
    print(f"{wrong_count} mismatches")
    return 1 if wrong_count else 0
