"""What runs the parts of a batch: GNU parallel, on this machine or over ssh, or an array of
Slurm."""
from __future__ import annotations

import contextlib
import ctypes
import dataclasses
import os
import re
import shlex
import shutil
import signal
import subprocess
import time
from typing import IO, Callable, Optional, Sequence

from lorry_tools.batches.work import Work, last_line, read_file, say, write_file
from lorry_tools.problems import LEFT, NO_PROGRAM, Problem


@dataclasses.dataclass
class Machines:
    """What the words say of the machines, and how parts run on them."""

    sshlogin: list[str]
    machines: Optional[str]
    send: bool
    remote_folder: str
    slurm_option: list[str]
    jobs: int
    workers: int
    tries: int
    timeout: Optional[int]


def end_with_parent() -> None:
    """Asks the system to end this process by SIGTERM where its parent is killed outright."""
    ctypes.CDLL(None).prctl(1, signal.SIGTERM)


class Child:
    """A program that runs in a process group of its own, and is ended with this one."""

    def __init__(self, words: Sequence[str], folder: str, errors: IO[bytes]):
        self.process = subprocess.Popen(
            words,
            cwd=folder,
            stdin=subprocess.DEVNULL,
            stdout=subprocess.DEVNULL,
            stderr=errors,
            start_new_session=True,
            preexec_fn=end_with_parent,
        )

    def wait(self, progress: Callable[[], None]) -> int:
        while True:
            with contextlib.suppress(subprocess.TimeoutExpired):
                return self.process.wait(timeout=2)
            progress()

    def end(self) -> None:
        """Ends it where it still runs; GNU parallel then ends its jobs. A signal that comes before
        these have begun is lost: so there are two."""
        for end in (self.process.terminate, self.process.terminate, self.process.kill):
            if self.process.poll() is None:
                end()
                with contextlib.suppress(subprocess.TimeoutExpired):
                    self.process.wait(timeout=5)


class Progress:
    """Says now and then how many parts have ended; the seconds between two lines grow."""

    def __init__(self, work: Work, before: list[int], token: str):
        self.work, self.before, self.token = work, before, token
        self.said: Optional[int] = None
        self.pause: float = 2
        self.at = time.monotonic()

    def __call__(self) -> None:
        if time.monotonic() < self.at + self.pause:
            return
        # Only the last lines of the new texts are looked at here.
        ended = sum(1 for number in self.before if self.has_ended(number))
        done = len(self.work.cut) - len(self.before) + ended
        if done != self.said:
            say(f"{done} of {len(self.work.cut)} parts")
            self.said = done
        self.at, self.pause = time.monotonic(), min(60, self.pause * 1.5)

    def has_ended(self, number: int) -> bool:
        path = self.work.attempt(number, self.token)
        try:
            with open(path, "rb") as file:
                file.seek(max(0, os.path.getsize(path) - 200))
                return re.search(rb"^end \d+ 0 ", file.read(), re.M) is not None
        except OSError:
            return False


def logins_of(words: Machines) -> list[str]:
    """The machines that were named, each once; this one where none was."""
    logins = list(words.sshlogin)
    if words.machines:
        text = read_file(words.machines).decode("utf-8", "replace")
        lines = [line.strip() for line in text.splitlines()]
        logins += [line for line in lines if line and not line.startswith("#")]
    return list(dict.fromkeys(logins)) or [":"]


def unreachable(logins: list[str]) -> dict[str, str]:
    """Those of the machines on which no command can be run now, each with what is said of it."""
    found = {}
    for first in range(0, len(logins), 32):
        asked = [
            subprocess.Popen(
                ["parallel", "--sshlogin", login, "--nonall", "--timeout", "60", "true"],
                stdin=subprocess.DEVNULL,
                stdout=subprocess.DEVNULL,
                stderr=subprocess.PIPE,
            )
            for login in logins[first : first + 32]
        ]
        for login, child in zip(logins[first : first + 32], asked):
            complaint = child.communicate()[1].decode("utf-8", "replace").strip()
            if child.returncode:
                found[login] = complaint.splitlines()[-1] if complaint else "no answer"
    return found


def reachable(logins: list[str]) -> list[str]:
    """Those of the machines on which a command can be run now. One that can't be reached would fail
    every part that it is given."""
    if logins == [":"]:
        return logins
    lost = unreachable(logins)
    for login, complaint in lost.items():
        say(f"{login} can't be reached: {complaint}")
    if len(lost) == len(logins):
        raise Problem("no machine can be reached; the same words go on", LEFT)
    return [it for it in logins if it not in lost]


class Parallel:
    """GNU parallel, on this machine or over ssh."""

    # GNU parallel tries a part again by itself, on another machine if there is one.
    rounds = 1

    def __init__(self, words: Machines, work: Work):
        self.words, self.work = words, work
        self.reached = reachable(logins_of(words))
        self.logins = []
        for login in self.reached:
            self.logins += ["--sshlogin", login]
        self.remote = (
            os.path.join(words.remote_folder, f"lorry_plan-{work.token}") if words.send else None
        )

    @staticmethod
    def check(words: Machines) -> None:
        version = b""
        if shutil.which("parallel"):
            asked = ["parallel", "--version"]
            done = subprocess.run(asked, stdout=subprocess.PIPE, stderr=subprocess.DEVNULL)
            version = done.stdout
        if b"GNU parallel" not in version:
            raise Problem("there is no GNU parallel: apt-get install parallel", NO_PROGRAM)
        if words.send and not shutil.which("rsync"):
            raise Problem(
                (
                    "there is no rsync, which --send needs here and on the machines: apt-get"
                    " install rsync"
                ),
                NO_PROGRAM,
            )

    def run(self, undone: list[int], token: str, progress: Callable[[], None]) -> None:
        tasks = os.path.join(self.work.folder, "tasks")
        lines = ["\t".join(self.work.task(number)) for number in undone]
        write_file(tasks, "".join(f"{it}\n" for it in lines).encode())
        shown = [
            "parallel",
            *self.logins,
            *("--jobs", str(self.words.jobs)),
            *("--retries", str(self.words.tries)),
            *("--colsep", r"\t"),
            *("--arg-file", tasks),
            *("--results", os.path.join(self.work.texts, "{1}." + token)),
            *("--joblog", os.path.join(self.work.folder, "log")),
        ]
        if self.words.timeout:
            shown += ["--timeout", str(self.words.timeout)]
        run_part = f"sh ./run_part {{1}} {{2}} {{3}} {self.words.workers}"
        if self.remote:
            # For this machine, which a list of machines may name as `:`, nothing is sent.
            shutil.rmtree(self.remote, ignore_errors=True)
            unsent = shutil.ignore_patterns("texts", "*.lock", "tasks", "log*")
            shutil.copytree(self.work.folder, self.remote, ignore=unsent)
            for file in ["program", "run_part", *self.work.files()]:
                shown += ["--basefile", file]
            shown += ["--transferfile", "net/part-{1}.csv", "--workdir", self.remote, run_part]
        else:
            shown.append(f"cd {shlex.quote(self.work.folder)} && {run_part}")
        self.start(shown, progress)

    def start(self, words: list[str], progress: Callable[[], None]) -> None:
        path = os.path.join(self.work.folder, "log.errors")
        with open(path, "wb") as errors:
            child = Child(words, self.work.folder, errors)
            try:
                child.wait(progress)
            finally:
                child.end()
                self.remove_remote()
        lines = dict.fromkeys(read_file(path).decode("utf-8", "replace").splitlines())
        told = [it for it in lines if it.startswith(("parallel: Error", "ssh: ", "rsync: "))]
        for line in told[:10]:
            say(line)
        self.tell_lost()

    def remove_remote(self) -> None:
        """Removes what was sent, also where a machine can't be asked now: then it stays there."""
        if self.remote and os.path.exists(self.remote):
            words = ["parallel", *self.logins, "--nonall", f"rm -rf {shlex.quote(self.remote)}"]
            with contextlib.suppress(subprocess.TimeoutExpired):
                subprocess.run(
                    words,
                    stdin=subprocess.DEVNULL,
                    stdout=subprocess.DEVNULL,
                    stderr=subprocess.DEVNULL,
                    timeout=120,
                )
            shutil.rmtree(self.remote, ignore_errors=True)

    def tell_lost(self) -> None:
        """Says which machines were lost on the way."""
        if len(self.reached) == 1:
            return
        lost = unreachable([it for it in self.reached if it != ":"])
        rest = [it for it in self.reached if it not in lost]
        for login, complaint in lost.items():
            took = f"; {' and '.join(rest)} took its parts" if rest else ""
            say(f"{login} was lost: {complaint}{took}")


class Slurm:
    """An array of Slurm, whose machines see the work folder under the same path."""

    def __init__(self, words: Machines, work: Work):
        self.words, self.work = words, work
        self.rounds = words.tries

    @staticmethod
    def check(words: Machines) -> None:
        if not shutil.which("sbatch"):
            raise Problem(
                "there is no sbatch: apt-get install slurm-client, and set it up for your cluster",
                NO_PROGRAM,
            )

    def run(self, undone: list[int], token: str, progress: Callable[[], None]) -> None:
        asked = ["scontrol", "show", "config"]
        shown = subprocess.run(asked, stdout=subprocess.PIPE, stderr=subprocess.DEVNULL).stdout
        size = re.search(rb"^MaxArraySize\s*=\s*(\d+)", shown, re.M)
        most = max(1, int(size.group(1)) - 1) if size else 1000
        for first in range(0, len(undone), most):
            self.run_array(undone[first : first + most], token, progress)

    def run_array(self, parts: list[int], token: str, progress: Callable[[], None]) -> None:
        lines = [" ".join(self.work.task(number)) for number in parts]
        tasks = os.path.join(self.work.folder, f"tasks-{token}")
        write_file(tasks, "".join(f"{it}\n" for it in lines).encode())
        script = f"""#!/bin/sh
cd {shlex.quote(self.work.folder)} || exit 66
set -- $(sed -n "${{SLURM_ARRAY_TASK_ID}}p" tasks-{token})
sh ./run_part "$1" "$2" "$3" {self.words.workers} >"texts/$1.{token}" 2>"texts/$1.{token}.err"
"""
        path = os.path.join(self.work.folder, f"array-{token}")
        write_file(path, script.encode())
        words = [
            *("sbatch", "--wait"),
            *("--job-name", f"lorry_plan-{token}"),
            *("--array", f"1-{len(parts)}"),
            *("--output", "/dev/null"),
            *("--error", "/dev/null"),
        ]
        if self.words.workers:
            words += ["--cpus-per-task", str(self.words.workers)]
        if self.words.timeout:
            words += ["--time", str(-(-self.words.timeout // 60))]
        self.start(token, [*words, *self.words.slurm_option, path], progress)

    def start(self, token: str, words: list[str], progress: Callable[[], None]) -> None:
        log = os.path.join(self.work.folder, "log.errors")
        with open(log, "wb") as errors:
            child = Child(words, self.work.folder, errors)
            try:
                status = child.wait(progress)
            except BaseException:
                cancel = ["scancel", "--name", f"lorry_plan-{token}"]
                subprocess.run(cancel, stdin=subprocess.DEVNULL, stderr=subprocess.DEVNULL)
                raise
            finally:
                child.end()
        complaint = last_line(log)
        if status and complaint:
            say(complaint)
