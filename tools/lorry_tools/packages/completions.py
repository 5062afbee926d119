"""What the completions of tools/package.d name: commands, their options, and the forms of a
report."""
from __future__ import annotations

import os
import re
import subprocess
from typing import Iterator

from lorry_tools.packages.commands import Commands
from lorry_tools.packages.texts import PARTS, read

# The commands, the options of each, and the forms.
Named = tuple[list[str], dict[str, list[str]], list[str]]


def bash_completes(line: str) -> list[str]:
    """Returns what the completion for bash offers behind a line."""
    script = f"""COMP_LINE='{line}' COMP_POINT=${{#COMP_LINE}} COMPREPLY=()
complete() {{ :; }}
compopt() {{ :; }}
. '{PARTS}/lorry_plan.bash'
_lorry_plan
printf '%s\\n' "${{COMPREPLY[@]}}" """
    done = subprocess.run(
        ["bash", "-c", script],
        stdin=subprocess.DEVNULL,
        stdout=subprocess.PIPE,
        stderr=subprocess.STDOUT,
    )
    return done.stdout.decode("utf-8", "replace").split()


def named_by_bash(commands: Commands) -> Named:
    options = {name: bash_completes(f"lorry_plan {name} -") for name in commands.options()}
    return bash_completes("lorry_plan "), options, bash_completes("lorry_plan plan --form ")


def named_by_zsh(commands: Commands) -> Named:
    text = read(os.path.join(PARTS, "_lorry_plan"))
    options: dict[str, list[str]] = {name: [] for name in commands.options()}
    for name, arm in re.findall(r"^    (\w+)\) (.*?);;", text, re.M | re.S):
        options[name] = re.findall(r"'(--[a-z]+)=\[", arm)
    forms = words_in(text, r":form:\(([a-z ]*)\)")
    return re.findall(r"^    '(\w+):", text, re.M), options, forms


def named_by_fish(commands: Commands) -> Named:
    text = read(os.path.join(PARTS, "lorry_plan.fish"))
    options: dict[str, list[str]] = {name: [] for name in commands.options()}
    line = r"^complete -c lorry_plan -n '__fish_seen_subcommand_from (\w+)' -l (\w+)"
    for name, option in re.findall(line, text, re.M):
        options.setdefault(name, []).append("--" + option)
    forms = words_in(text, r"-l form .*-a '([a-z ]*)'")
    return re.findall(r"__fish_use_subcommand -a (\w+)", text), options, forms


def words_in(text: str, form: str) -> list[str]:
    """Returns the words in the group of the first match; none where there is no match."""
    found = re.search(form, text)
    return found[1].split() if found else []


def differences_of_completions(commands: Commands) -> Iterator[str]:
    wanted = (list(commands.options()), commands.options(), commands.forms())
    shells = (("bash", named_by_bash), ("zsh", named_by_zsh), ("fish", named_by_fish))
    for shell, named in shells:
        for what, has, should in zip(("commands", "options", "forms"), named(commands), wanted):
            if has != should:
                yield (
                    f"the completion for {shell} has other {what} than docs/COMMANDS.md: {has} in "
                    f"place of {should}"
                )
