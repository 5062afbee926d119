#!/usr/bin/env python3
"""Runs the commands that the documents show, and compares what they print. Then it runs the tests of the tools.

A document shows a command in a fenced block of the kind `console`: a line that begins with `$ ` is a command, and the
lines below it, up to the next command or the block's end, are its whole standard output. A command with `<<'EOF'` goes on
to the line `EOF`. A last line `[status N]` says that it ends with status N, otherwise it ends with 0. Each command runs at
the top of the repository, in the order of the document.

The page of NEEDED is passed over where one of its packages is missing, and a line says so.

A block whose kind is followed by a path, such as `rust crates/uses/src/plans.rt`, has to be that whole file, and with `part` before the path whole lines
of it.

The manual page and the completions of tools/package.d have to agree with docs/COMMANDS.md.

The library tools/lorry_tools passes black, flake8 and mypy, where these are installed.

Tests in tools/tests run in their short form, in which those that need minutes try less. Those whose packages aren't installed are skipped, and a line
says which."""
import collections
import concurrent.futures
import glob
import os
import re
import shutil
import signal
import subprocess
import sys
import tempfile

TOP = os.path.dirname(os.path.dirname(os.path.abspath(__file__)))

# The library of the tools leaves no compiled files in the repository.
sys.dont_write_bytecode = True
sys.path.insert(0, os.path.join(TOP, "tools"))

from lorry_tools.packages import manual

BLOCK = re.compile(r"^```console\n(.*?)^```$", re.M | re.S)
QUOTED = re.compile(r"^```\w+ (part )?(\S+)\n(.*?)^```$", re.M | re.S)
HERE_DOCUMENT = re.compile(r".*<<'EOF'\n(?s:.*?)^EOF\n", re.M)
STATUS = re.compile(r"^\[status (\d+)\]\n", re.M)
PASSED = re.compile(r"(?:^|\.\.\. )ok$", re.M)
FAILED = re.compile(r"(?:^|\.\.\. )(?:FAIL|ERROR)$", re.M)
SKIPPED = re.compile(r"\.\.\. skipped ['\"](.*)['\"]$", re.M)
# What a page needs beside the program: commands, and modules of the system's own Python, which the tool that it shows goes on in.
NEEDED = {"docs/SERVE.md": (["curl"], ["fastapi", "jinja2", "uvicorn"])}
LONGEST_TESTS = 900  # (seconds: the gate takes no longer for a file of them)


def documents():
    names = ["README.md"]
    for pattern in ("docs/*.md", "examples/**/*.md"):
        names += [os.path.relpath(path, TOP) for path in glob.glob(os.path.join(TOP, pattern), recursive=True)]
    return sorted(names)


def commands(text):
    """The commands of a document, each with the output and the status that it shows."""
    for block in BLOCK.findall(text):
        for part in re.split(r"^\$ ", block, flags=re.M)[1:]:
            here = HERE_DOCUMENT.match(part)
            end = here.end() if here else part.index("\n") + 1
            command, shown = part[:end], part[end:]
            status = STATUS.search(shown)
            yield command, STATUS.sub("", shown), int(status.group(1)) if status else 0


def lacks(name):
    """What a page needs and this machine doesn't have."""
    commands, modules = NEEDED.get(name, ([], []))
    missing = [it for it in commands if not shutil.which(it)]
    for module in modules:
        words = ["/usr/bin/python3", "-c", f"import {module}"]
        if not os.path.exists(words[0]) or subprocess.run(words, stderr=subprocess.DEVNULL).returncode:
            missing.append(module)
    return missing


def differs(command, shown, status):
    """How the command differs from what the document shows; None where it doesn't."""
    done = subprocess.run(["bash", "-c", command], cwd=TOP, stdout=subprocess.PIPE, stdin=subprocess.DEVNULL)
    printed = done.stdout.decode("utf-8", "replace")
    if done.returncode != status:
        return f"status {done.returncode} in place of {status}"
    return None if printed == shown else f"printed {printed!r} in place of {shown!r}"


def differs_from_file(part, path, shown):
    """How the text differs from the file, or if it is a part of it, from all lines there; None if it doesn't."""
    try:
        with open(os.path.join(TOP, path), encoding="utf-8") as file:
            text = file.read()
    except OSError as error:
        return error.strerror
    if part:
        return None if "\n" + shown in "\n" + text else "the file has no such lines"
    return None if text == shown else "the file has another text"


def output_of_tests(path, folder):
    """Runs a file of tests with a folder for temporary files. Returns what it printed, and its status, or None where it took too long."""
    words = [sys.executable, "-m", "unittest", "-v", os.path.relpath(path, TOP)]
    environment = {**os.environ, "PYTHONDONTWRITEBYTECODE": "1", "TMPDIR": folder, "LORRY_PLAN_TESTS": "short"}
    with tempfile.TemporaryFile("w+", errors="replace") as log:
        how = {"stdin": subprocess.DEVNULL, "stdout": log, "stderr": subprocess.STDOUT, "start_new_session": True}
        run = subprocess.Popen(words, cwd=TOP, env=environment, **how)
        try:
            status = run.wait(LONGEST_TESTS)
        except subprocess.TimeoutExpired:
            # (with the servers that the tests have started)
            os.killpg(run.pid, signal.SIGKILL)
            run.wait()
            status = None
        log.seek(0)
        return log.read(), status


def tested(path):
    """Runs a file of tests. Returns how many passed and failed, why others were skipped, and what it printed."""
    with tempfile.TemporaryDirectory(prefix="lorry_plan-tests-") as folder:
        printed, status = output_of_tests(path, folder)
    passed, failed, skipped = len(PASSED.findall(printed)), len(FAILED.findall(printed)), SKIPPED.findall(printed)
    if status is None:
        skipped.append(f"{os.path.relpath(path, TOP)} was stopped after {LONGEST_TESTS} seconds: run it by itself")
    return passed, failed or int(bool(status)), skipped, printed


def test_tools():
    """Runs all tests of the tools, several files at once, as they mostly wait. Returns how many failed."""
    paths = sorted(glob.glob(os.path.join(TOP, "tools", "tests", "test_*.py")))
    passed, failed, reasons = 0, 0, collections.Counter()
    with concurrent.futures.ThreadPoolExecutor() as pool:
        for path, (good, bad, skipped, printed) in zip(paths, pool.map(tested, paths)):
            passed, failed = passed + good, failed + bad
            reasons.update(skipped)
            if bad:
                print(f"{os.path.relpath(path, TOP)}:\n{printed}")
    print(f"tools: {passed} passed, {failed} failed, {sum(reasons.values())} skipped")
    for reason, count in reasons.most_common():
        print(f"  {count} skipped: {reason}")
    return failed


def lint_tools():
    """Runs the linters over the library of the tools. Returns how many of them found something."""
    failed = 0
    with tempfile.TemporaryDirectory(prefix="lorry_plan-lint-") as cache:
        for words in (["black", "--check", "--quiet", "lorry_tools"], ["flake8", "lorry_tools"], ["mypy", "--cache-dir", cache]):
            if not shutil.which(words[0]):
                print(f"tools: {words[0]} is skipped: apt-get install {words[0]}")
                continue
            done = subprocess.run(words, cwd=os.path.join(TOP, "tools"), stdin=subprocess.DEVNULL, stdout=subprocess.PIPE, stderr=subprocess.STDOUT)
            if done.returncode:
                failed += 1
                print(f"tools: {words[0]}: {done.stdout.decode('utf-8', 'replace').strip()[-2000:] or 'it would change a file'}")
    return failed


def main():
    found = manual.differences()
    passed, failed = int(not found), len(found)
    for difference in found:
        print(difference)
    for name in documents():
        with open(os.path.join(TOP, name), encoding="utf-8") as document:
            text = document.read()
            for part, path, shown in QUOTED.findall(text):
                difference = differs_from_file(part, path, shown)
                if difference is None:
                    passed += 1
                else:
                    failed += 1
                    print(f"{name}: {path}: {difference}")
            missing = lacks(name)
            if missing:
                print(f"{name} is skipped: {', '.join(missing)} is missing")
            for command, shown, status in commands(text) if not missing else ():
                difference = differs(command, shown, status)
                if difference is None:
                    passed += 1
                else:
                    failed += 1
                    print(f"{name}: {command.splitlines()[0]}: {difference}")
    print(f"documents: {passed} passed, {failed} failed")
    failed += lint_tools()
    failed += test_tools()
    return 1 if failed or not passed else 0


sys.exit(main())
