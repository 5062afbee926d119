"""Lists the lemmas that are in more than one file of `proofs/`.

    tools/twice [--crates] [WORD..]

Two lemmas are the same if their statements are, whatever the names of the lemmas and variables and
the order of their arguments, and whether an argument is in braces. A lemma of a module is compared
with those parameters of the module that it names, but not with what the module assumes of them, so
that a group can be of lemmas that differ. A definition is compared with its equations, and
constants are left out. With --crates it prints only what is in two crates or more, and with WORDs
only the groups in which a name has one of them. The lemmas that all crates share are in
crates/route_base/proofs: Logic (tests and options), Items, Lists and Numbered (lists),
DecimalDigits, Arcs and Walking."""
from __future__ import annotations

import argparse
import collections
import glob
import os
import re
from typing import Iterable, Iterator, Mapping

from lorry_tools.running import TOP

TOKEN = re.compile(r"[(){},;]|\.(?=\s)|[^\s(){},;]+?(?=\.\s|[\s(){},;]|$)")
NAME = re.compile(r"[^\W\d][^\s(){},;]*$")
OTHERS = {"use", "open", "mod", "ruleset", "data", "end"}
RELATIONS = set("≡≢≤<⊎×⊥↔")


def items(text: str) -> Iterator[tuple[int, list[str], list[str]]]:
    """Yields each item of a file: its line, the heads of the modules around it, and its own lines
    without indentation."""
    around: list[tuple[int, str]] = []
    item: list[str] = []
    start = depth = 0
    for number, line in enumerate(text.splitlines() + ["end"], 1):
        words, indent = line.strip(), len(line) - len(line.lstrip())
        if not words or words.startswith("--"):
            continue
        if item and (indent > depth or words[0] in ")}]"):
            item.append(words)
        else:
            if item:
                yield start, [head for _, head in around], item
            while around and indent <= around[-1][0]:
                around.pop()
            item, start, depth = [words], number, indent
        if item[0].startswith("module ") and words.endswith("where"):
            around.append((depth, " ".join(item)))
            item = []


def closing(words: list[str]) -> int:
    """Returns the place behind the bracket that closes the first word."""
    depth = 0
    for place, word in enumerate(words):
        depth += (word in "({") - (word in ")}")
        if depth == 0:
            return place + 1
    return len(words)


def binders(words: list[str]) -> tuple[list[str], list[str]]:
    """Returns the words with each argument in brackets of its own, without the arrows behind
    arguments, and the names that they bind."""
    names: list[str] = []
    out: list[str] = []
    place = 0
    while place < len(words):
        first = end = place + 1
        while end < len(words) and NAME.match(words[end]):
            end += 1
        if words[place] in "({" and first < end < len(words) and words[end] == ":":
            begin, after = end + 1, place + closing(words[place:])
            last = after - 1
            kind, inner = binders(words[begin:last])
            for name in words[first:end]:
                out += ["(", name, ":"] + kind + [")"]
            names += words[first:end] + inner
            place = after + int(after < len(words) and words[after] == "→")
        elif words[place] == "λ":
            names += words[first:end]
            out += words[place:end]
            place = end
        else:
            out.append(words[place])
            place += 1
    return out, names


def bare(words: list[str]) -> list[str]:
    """Returns the words without brackets around a whole side of an equation."""
    place = 0
    while place < len(words):
        end = place + closing(words[place:])
        last, behind = place - 1, end + 1
        before, after = "".join(words[last:place]), "".join(words[end:behind])
        side = (
            before == "≡"
            and after in {"", "→", "×", "⊎", ")"}
            or after == "≡"
            and before in {"", "→", "×", "⊎", "("}
        )
        if words[place] == "(" and side:
            first, closed = place + 1, end - 1
            words = words[:place] + words[first:closed] + words[end:]
        else:
            place += 1
    return words


def arguments(words: list[str]) -> tuple[list[list[str]], list[str]]:
    """Returns the arguments with which the words begin, and the others."""
    found = []
    while words[:1] == ["("] and words[2:3] == [":"]:
        end = closing(words)
        found.append(words[:end])
        words = words[end:]
    return found, words


def normal(words: list[str], names: set[str], own: Mapping[str, str]) -> str:
    """Returns a statement with its arguments in the order in which it uses them, and with numbers
    for the names that it binds."""
    first, rest = arguments(words)
    rest = bare(rest)
    used = [word.partition(".")[0] for word in rest]
    first.sort(key=lambda it: used.index(it[1]) if it[1] in used else len(used))
    numbers: dict[str, int] = {}
    out: list[str] = []
    for word in rest + sum((["where"] + it for it in first), []):
        # (a field of a variable keeps its name)
        name, dot, field = word.partition(".")
        name = (
            f"#{numbers.setdefault(name, len(numbers))}" if name in names else own.get(name, name)
        )
        out.append(name + dot + field)
    return " ".join(out)


def within(heads: Iterable[str], words: list[str]) -> list[str]:
    """Returns the words behind those parameters of the modules around them that they use."""
    parameters: list[list[str]] = []
    for head in heads:
        tokens = TOKEN.findall(head)
        begins = [place for place, word in enumerate(tokens) if word in "({"]
        first = min(begins, default=len(tokens))
        parameters += arguments(binders(tokens[first:-1])[0])[0]
    for parameter in reversed(parameters):
        if parameter[1] in {it.partition(".")[0] for it in words}:
            words = parameter + words
    return words


def statements(path: str, text: str) -> Iterator[tuple[int, str, str]]:
    """Yields the statement of each lemma, definition and record of a file: its line, its name and
    the statement."""
    found: list[tuple[int, list[str], str, list[str]]] = []
    equations: dict[str, list[list[str]]] = collections.defaultdict(list)
    own: dict[str, str] = {}
    for line, heads, item in items(text):
        words = [it for it in " ".join(item).split() if it != "pub"]
        kind, words = (words[0], words[1:]) if words[0] in ("abbrev", "record") else ("", words)
        if kind == "record" or words[1:2] == [":"]:
            found.append((line, heads, kind, words))
            own[words[0]] = f"{path}.{words[0]}"
        elif words[0] not in OTHERS:
            equations[words[0]].append(TOKEN.findall(" ".join(item)))
    for line, heads, kind, words in found:
        first = 1 if kind == "record" else 2
        name, rest = words[0], TOKEN.findall(" ".join(words[first:]))
        stated, names = binders(within(heads, rest))
        if kind == "abbrev" or not names and not RELATIONS & set(stated):
            for equation in equations[name]:
                equals = equation.index("=")
                names += [it for it in equation[1:equals] if NAME.match(it) and it[0].islower()]
                stated = stated + [";"] + equation
            if not names:
                continue
        # (an answer to a goal of a function is no lemma)
        if not any(it.startswith("goal.") for it in stated):
            yield line, name, normal(stated, set(names) - {"_"}, {**own, name: "it"})


def main() -> int:
    parser = argparse.ArgumentParser(
        description=__doc__, formatter_class=argparse.RawDescriptionHelpFormatter
    )
    parser.add_argument("--crates", action="store_true", help="only what is in two crates or more")
    parser.add_argument("words", nargs="*", metavar="WORD", help="a part of a lemma's name")
    asked = parser.parse_args()
    groups: dict[str, list[tuple[str, int, str]]] = collections.defaultdict(list)
    for path in sorted(
        glob.glob(os.path.join(TOP, "crates", "*", "proofs", "**", "*.antt"), recursive=True)
    ):
        with open(path, encoding="utf-8") as file:
            for line, name, statement in statements(path, file.read()):
                groups[statement].append((os.path.relpath(path, TOP), line, name))
    printed = 0
    for statement, places in groups.items():
        files = {path.split(os.sep)[1] if asked.crates else path for path, _, _ in places}
        if len(files) > 1 and (
            not asked.words or any(word in name for word in asked.words for _, _, name in places)
        ):
            printed += 1
            print(statement)
            for path, line, name in places:
                print(f"    {name}  {path}:{line}")
    print(f"{printed} groups")
    return 0
