"""What a package of the program says: which program it is, what it needs, and what was proved."""
from __future__ import annotations

import contextlib
import hashlib
import os
import re
import struct
import subprocess
import time
from typing import Iterator, Optional

from lorry_tools.problems import Problem
from lorry_tools.running import TOP
from lorry_tools.templates import rendered

PARTS = os.path.join(TOP, "tools", "package.d")
BUILT = os.path.join(TOP, "crates", "lorry_plan", "out", "lorry_plan")
PACKAGE = "lorry-plan"
DOCUMENTS = f"share/doc/{PACKAGE}"

# The notices of the kit's crates, by crate and by the file's name.
Notices = dict[str, dict[str, str]]

# Debian's packages of the libraries that a program may ask for, each with its least version;
# libc6's is that of the program.
LIBRARIES = {
    "libgcc_s.so.1": "libgcc-s1 (>= 3.0)",
    **dict.fromkeys(
        [
            "libc.so.6",
            "libm.so.6",
            "libpthread.so.0",
            "libdl.so.2",
            "librt.so.1",
            "ld-linux-x86-64.so.2",
        ],
        "libc6",
    ),
}

DESCRIPTION = """route planner for lorries under driving bans, with proved answers
 lorry_plan plans a lorry's trip when waiting is one of the choices: it lists
 every option worth considering between two places, each later arrival only if
 it is cheaper, with the roads to drive and the places to wait. It obeys
 closures and driving bans by weekday, hour, date, public holiday and size, in
 local time.
 .
 The program is written in Rattle, Rust with machine-checked contracts.
 PROVED.md says what was proved of it, and by which kit."""


def stopped(words: str) -> Problem:
    """Returns what ends the run with a message."""
    return Problem(words, 1)


def read(path: str) -> str:
    with open(path, encoding="utf-8") as file:
        return file.read()


def read_bytes(path: str) -> bytes:
    with open(path, "rb") as file:
        return file.read()


def output_of(*words: str) -> Optional[str]:
    """What a program prints, or None where it fails or isn't there."""
    try:
        done = subprocess.run(
            words,
            cwd=TOP,
            stdin=subprocess.DEVNULL,
            stdout=subprocess.PIPE,
            stderr=subprocess.DEVNULL,
        )
    except OSError:
        return None
    return done.stdout.decode("utf-8", "replace").strip() if done.returncode == 0 else None


# ---- The program ----


class Elf:
    """What a program of Linux on x86-64 asks of the system: the libraries and the versions of their
    symbols."""

    def __init__(self, path: str):
        self.bytes = read_bytes(path)
        is_elf = self.bytes[:6] == b"\x7fELF\x02\x01"
        if not is_elf or struct.unpack_from("<H", self.bytes, 18)[0] != 62:
            raise stopped(f"{path} isn't a program for Linux on x86-64")
        table = struct.unpack_from("<Q", self.bytes, 40)[0]
        size, count = struct.unpack_from("<HH", self.bytes, 58)
        self.sections = [
            struct.unpack_from("<IIQQQQIIQQ", self.bytes, table + size * number)
            for number in range(count)
        ]

    def text(self, strings: int, at: int) -> str:
        start: int = self.sections[strings][4] + at
        end = self.bytes.index(b"\0", start)
        return self.bytes[start:end].decode()

    def libraries(self) -> Iterator[str]:
        for _, kind, _, _, start, size, link, *_ in self.sections:
            if kind == 6:
                for at in range(start, start + size, 16):
                    tag, value = struct.unpack_from("<QQ", self.bytes, at)
                    if tag == 1:
                        yield self.text(link, value)

    def versions(self) -> Iterator[str]:
        for _, kind, _, _, start, _, link, count, *_ in self.sections:
            for _ in range(count if kind == 0x6FFFFFFE else 0):
                _, names, _, first, following = struct.unpack_from("<HHIII", self.bytes, start)
                at = start + first
                for _ in range(names):
                    _, _, _, name, step = struct.unpack_from("<IHHII", self.bytes, at)
                    yield self.text(link, name)
                    at += step
                start += following

    def depends(self) -> str:
        """The packages of Debian that it needs, as a control file has them."""
        needed = set()
        for library in self.libraries():
            if library not in LIBRARIES:
                raise stopped(
                    f"the program asks for {library}: tools/package doesn't know its package"
                )
            needed.add(LIBRARIES[library])
        known = [it for it in self.versions() if re.fullmatch(r"GLIBC_[\d.]+", it)]
        glibc = [tuple(map(int, version[6:].split("."))) for version in known]
        if "libc6" in needed:
            needed.remove("libc6")
            least = ".".join(map(str, max(glibc))) if glibc else ""
            needed.add(f"libc6 (>= {least})" if least else "libc6")
        return ", ".join(sorted(needed))


def check_built() -> None:
    """Stops where the built program is missing, unfinished or older than a source: the test of
    ./lorry_plan."""
    out = os.path.dirname(BUILT)
    if not os.access(BUILT, os.X_OK) or os.path.exists(os.path.join(out, "build.begun")):
        raise stopped(
            "there is no built program: ./lorry_plan builds it, and --program names another one"
        )
    built = os.stat(BUILT).st_mtime_ns
    sources = [os.path.join(TOP, "crates.txt")]
    for crate in os.scandir(os.path.join(TOP, "crates")):
        for kind in ("src", "specs", "proofs"):
            for folder, _, names in os.walk(os.path.join(crate.path, kind)):
                sources += [folder, *(os.path.join(folder, name) for name in names)]
    newer = [path for path in sources if os.stat(path).st_mtime_ns > built]
    if newer:
        raise stopped(
            f"the built program is older than {os.path.relpath(newer[0], TOP)}: ./lorry_plan builds"
            " it anew"
        )


# ---- The texts ----


def version_and_date() -> tuple[str, str]:
    changes = read(os.path.join(TOP, "CHANGES.md"))
    found = re.search(r"^## (\d[\w.~+]*) \((\d{4}-\d\d-\d\d)\)$", changes, re.M)
    if not found:
        raise stopped("CHANGES.md has no version with a date")
    return found[1], found[2]


def section(page: str, title: str) -> str:
    """A section of a page of Markdown, without its title."""
    found = re.search(rf"^## {title}\n+(.*?)(?=^## |\Z)", page, re.M | re.S)
    if not found:
        raise stopped(f"README.md has no section '{title}'")
    return found.group(1).strip() + "\n"


def proved(program: str, named: bool, version: str) -> str:
    """PROVED.md: which program this is, where it is from, what was proved, by which kit, and how to
    prove it again."""
    readme = read(os.path.join(TOP, "README.md"))
    kit = output_of("rt", "version")
    logic = re.search(r"\blogic ([0-9a-f]+)", readme)
    return rendered(
        "proved.md",
        version=version,
        digest=hashlib.sha256(read_bytes(program)).hexdigest(),
        commit=output_of("git", "rev-parse", "HEAD") or "unknown",
        changed=output_of("git", "status", "--porcelain", "--", "crates", "crates.txt", "HANDLES"),
        named=named,
        kit=kit,
        other_logic=logic[1] if kit and logic and logic[1] not in kit.split() else None,
        sections=[
            (title, section(readme, title))
            for title in (
                "What is proved",
                "What is only tested, and what is not checked",
                "What is trusted",
            )
        ],
    )


def kit_crates() -> tuple[Optional[str], list[str]]:
    """The crates of the Rattle kit that are built into the program, and the kit's folder; None
    where there is no kit."""
    guide = output_of("rt", "doc")
    if not guide:
        return None, []
    kit = os.path.dirname(guide.splitlines()[0])
    uses = {}
    for line in read(os.path.join(TOP, "crates.txt")).splitlines():
        if line and not line.startswith("#"):
            name, _, below = line.partition(":")
            uses[name.split()[0]] = below.split()
    found: set[str] = set()
    to_do = ["lorry_plan"]
    while to_do:
        name = to_do.pop()
        if name not in found:
            found.add(name)
            if name in uses:
                to_do += uses[name]
            else:
                with contextlib.suppress(OSError):
                    form = read(os.path.join(kit, "rlibs", f"{name}.rlib", "format"))
                    to_do += [it[4:] for it in form.splitlines() if it.startswith("dep ")]
    return kit, sorted(name for name in found if name not in uses)


def licence_files() -> Optional[Notices]:
    """The notices of the kit's crates that are in the program; None where there is no kit."""
    kit, crates = kit_crates()
    if kit is None:
        return None
    notices = {}
    for crate in crates:
        folder = os.path.join(kit, "rattle", crate)
        names = sorted(os.listdir(folder)) if os.path.isdir(folder) else []
        held = [it for it in names if it.startswith(("LICENSE", "COPYING", "NOTICE", "UNLICENSE"))]
        notices[crate] = {name: read(os.path.join(folder, name)) for name in held}
    return notices


def copyright_text(notices: Optional[Notices]) -> str:
    """Returns the file `copyright` of a package; without a notice of the kit where it was
    packed."""
    return rendered(
        "copyright.txt",
        notices=notices,
        bare=[crate for crate, held in (notices or {}).items() if not held],
    )


def changelog(package: str, version: str, seconds: int, maintainer: str) -> str:
    date = time.strftime("%a, %d %b %Y %H:%M:%S +0000", time.gmtime(seconds))
    return rendered(
        "changelog.txt", package=package, version=version, date=date, maintainer=maintainer
    )
