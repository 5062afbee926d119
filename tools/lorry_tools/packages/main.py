"""Makes Debian packages and a tar archive, so that their users need no toolchain.

    tools/package [--program PATH] [--maintainer 'NAME <MAIL>'] [--only KIND] [--out FOLDER]

lorry-plan and the archive hold the built program, its manual page, completions for bash, zsh and
fish, the documents and the examples, and PROVED.md: what was proved, by which kit, and how to prove
it again. lorry-plan-tools holds the tools that users call, with a command and a manual page for
each. PROGRAM is crates/lorry_plan/out/lorry_plan, which ./lorry_plan builds; of another one
PROVED.md says that it isn't known to be proved. The version is that of CHANGES.md. The same inputs
give the same bytes. docs/TOOLS.md says how to install them. It needs jinja2 (python3-jinja2 on
Debian).

It ends with status 1 where something is missing or stale, and says what."""
from __future__ import annotations

import argparse
import calendar
import dataclasses
import os
import re
import subprocess
import time
from typing import Optional

from lorry_tools.packages import tools
from lorry_tools.packages.making import Control, Tree, make_deb, make_tar, zipped
from lorry_tools.packages.texts import (
    BUILT,
    DOCUMENTS,
    PACKAGE,
    PARTS,
    Elf,
    Notices,
    changelog,
    check_built,
    copyright_text,
    licence_files,
    output_of,
    proved,
    read,
    read_bytes,
    stopped,
    version_and_date,
)
from lorry_tools.problems import Problem
from lorry_tools.running import TOP
from lorry_tools.templates import rendered

DESCRIPTION = """route planner for lorries under driving bans, with proved answers
 lorry_plan plans a lorry's trip when waiting is one of the choices: it lists
 every option worth considering between two places, each later arrival only if
 it is cheaper, with the roads to drive and the places to wait. It obeys
 closures and driving bans by weekday, hour, date, public holiday and size, in
 local time.
 .
 The program is written in Rattle, Rust with machine-checked contracts.
 PROVED.md says what was proved of it, and by which kit."""

# Why lintian's complaint is no fault.
OVERRIDES = """# The program is packed byte for byte as the kit built it, so that its SHA-256 can
# be compared with that of PROVED.md and of another build.
lorry-plan: unstripped-binary-or-object [usr/bin/lorry_plan]
"""


@dataclasses.dataclass
class Facts:
    """What all packages of a run share."""

    version: str
    date: str
    seconds: int
    maintainer: str
    depends: str
    notices: Optional[Notices]


def documents() -> list[str]:
    """The pages and the examples by their paths: those that git knows, or all where this is no
    clone."""
    listed = output_of("git", "ls-files", "README.md", "CHANGES.md", "docs", "examples")
    if listed:
        return listed.splitlines()
    found = ["README.md", "CHANGES.md"]
    for top in ("docs", "examples"):
        for folder, _, names in os.walk(os.path.join(TOP, top)):
            found += [os.path.relpath(os.path.join(folder, name), TOP) for name in names]
    return sorted(found)


def tree_of(program: str, named: bool, facts: Facts) -> Tree:
    """The files that both kinds of package of the program have, by their paths below /usr."""
    manual = read(os.path.join(PARTS, "lorry_plan.1"))
    manual = manual.replace("@VERSION@", facts.version).replace("@DATE@", facts.date)
    bash, fish = "lorry_plan.bash", "lorry_plan.fish"
    tree = {
        "bin/lorry_plan": read_bytes(program),
        "share/man/man1/lorry_plan.1": manual.encode(),
        "share/bash-completion/completions/lorry_plan": read_bytes(os.path.join(PARTS, bash)),
        f"share/fish/vendor_completions.d/{fish}": read_bytes(os.path.join(PARTS, fish)),
        f"{DOCUMENTS}/PROVED.md": proved(program, named, facts.version).encode(),
    }
    for name in documents():
        tree[f"{DOCUMENTS}/{name}"] = read_bytes(os.path.join(TOP, name))
    return tree


def notes_of(package: str, facts: Facts) -> Tree:
    """The files that every Debian package has."""
    place = f"usr/share/doc/{package}"
    changes = changelog(package, facts.version, facts.seconds, facts.maintainer)
    return {
        f"{place}/copyright": copyright_text(facts.notices).encode(),
        f"{place}/changelog.gz": zipped(changes.encode()),
    }


def deb_of_program(out: str, tree: Tree, facts: Facts) -> str:
    files = {f"usr/{name}": content for name, content in tree.items()}
    manual = files.pop("usr/share/man/man1/lorry_plan.1")
    files["usr/share/man/man1/lorry_plan.1.gz"] = zipped(manual)
    zsh = read_bytes(os.path.join(PARTS, "_lorry_plan"))
    files["usr/share/zsh/vendor-completions/_lorry_plan"] = zsh
    files.update(notes_of(PACKAGE, facts))
    if b".symtab\0" in tree["bin/lorry_plan"]:
        files[f"usr/share/lintian/overrides/{PACKAGE}"] = OVERRIDES.encode()
    control = Control(PACKAGE, facts.version, "amd64", facts.maintainer, facts.depends, DESCRIPTION)
    return make_deb(out, files, {"usr/bin/lorry_plan"}, control, facts.seconds)


def deb_of_tools(out: str, facts: Facts) -> str:
    files, programs = tools.tree_of_tools(facts.version, facts.date)
    files.update(notes_of(tools.PACKAGE, facts))
    control = Control(
        tools.PACKAGE,
        facts.version,
        "all",
        facts.maintainer,
        tools.DEPENDS,
        tools.DESCRIPTION,
        tools.SUGGESTS,
        tools.RECOMMENDS,
    )
    return make_deb(out, files, programs, control, facts.seconds)


def tar_of_program(out: str, tree: Tree, facts: Facts) -> str:
    files = dict(tree)
    zsh = read_bytes(os.path.join(PARTS, "_lorry_plan"))
    files["share/zsh/site-functions/_lorry_plan"] = zsh
    files[f"{DOCUMENTS}/copyright"] = copyright_text(facts.notices).encode()
    for crate, held in (facts.notices or {}).items():
        for name, notice in held.items():
            files[f"{DOCUMENTS}/licences/{crate}/{name}"] = notice.encode()
    install = rendered(
        "INSTALL.txt", version=facts.version, depends=facts.depends, documents=DOCUMENTS
    )
    files["INSTALL"] = install.encode()
    manual = files["share/man/man1/lorry_plan.1"]
    files["share/man/man1/lorry_plan.1"] = manual.replace(
        b"/usr/share/doc", b"/usr/local/share/doc"
    )
    top = f"lorry_plan-{facts.version}-linux-x86_64"
    return make_tar(out, top, files, {"bin/lorry_plan"}, facts.seconds)


def arguments() -> argparse.Namespace:
    parser = argparse.ArgumentParser(
        description=__doc__, formatter_class=argparse.RawDescriptionHelpFormatter
    )
    add = parser.add_argument
    add("--program", metavar="PATH", help="another program than the built one")
    add(
        "--maintainer",
        metavar="'NAME <MAIL>'",
        help="who makes the Debian packages (git's user)",
    )
    add(
        "--only",
        choices=["deb", "tools", "tar"],
        help="only the Debian package of the program, only that of the tools, or only the archive",
    )
    add("--out", metavar="FOLDER", default=".", help="where to write them (the current folder)")
    words = parser.parse_args()
    if words.maintainer is None:
        name, mail = (output_of("git", "config", f"user.{it}") for it in ("name", "email"))
        words.maintainer = f"{name} <{mail}>"
    form = r"[^<>\n]*[^<>\s] <[^<>@\s]+@[^<>@\s]+>"
    if words.only != "tar" and not re.fullmatch(form, words.maintainer):
        parser.error("a Debian package names who made it: --maintainer 'NAME <MAIL>'")
    return words


def facts_of(words: argparse.Namespace, program: str) -> Facts:
    version, date = version_and_date()
    return Facts(
        version,
        date,
        calendar.timegm(time.strptime(date, "%Y-%m-%d")),
        words.maintainer,
        "" if words.only == "tools" else Elf(program).depends(),
        licence_files(),
    )


def make(words: argparse.Namespace) -> None:
    program = words.program or BUILT
    if words.only != "tools":
        if words.program is None:
            check_built()
        if not os.path.isfile(program):
            raise stopped(f"there is no program {program}")
    facts = facts_of(words, program)
    os.makedirs(words.out, exist_ok=True)
    if words.only != "tools":
        tree = tree_of(program, words.program is not None, facts)
        if words.only != "tar":
            print(deb_of_program(words.out, tree, facts))
        if words.only != "deb":
            print(tar_of_program(words.out, tree, facts))
    if words.only in (None, "tools"):
        print(deb_of_tools(words.out, facts))


def main() -> int:
    words = arguments()
    try:
        make(words)
    except (OSError, subprocess.CalledProcessError) as error:
        raise Problem(str(error), 1) from error
    return 0
