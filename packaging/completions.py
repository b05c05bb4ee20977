#!/usr/bin/env python3
"""The completions of a shell, with the options of each subcommand as its help lists them: completions.py rnxcmp.bash|rnxcmp.fish|_rnxcmp

The help is that of tests/cases/help, which the program has to print. A `@NAME@` in packaging/completions stands for what is made here.
"""

import re
import sys
from dataclasses import dataclass
from functools import lru_cache
from pathlib import Path

TOP = Path(__file__).resolve().parents[1]
HELP = {"rnx2crx": "help_of_a_compaction", "crx2rnx": "help_of_an_expansion", "check": "help_of_a_check"}  # the cases that have it


@dataclass(frozen=True)
class Option:
    """An option of the command line: its names, each or an empty one, the name of its value where it has one, and what help says of it."""

    short: str
    long: str
    value: str
    help: str

    def names(self):
        return [name for name in (self.short, self.long) if name]

    def with_value(self):
        return " ".join(filter(None, (self.names()[0], self.value)))

    def about(self):
        return re.split(r", | \[", self.help)[0]

    def hint(self):
        """What help says of the value."""
        return ", ".join([self.value, *re.split(r" \[", self.help)[0].split(", ")[1:]])


@lru_cache(maxsize=None)
def options(tool):
    """The options of a subcommand, as its help lists them."""
    text = (TOP / f"tests/cases/help/{HELP[tool]}.case").read_text(encoding="utf-8").partition("\nOptions:\n")[2].partition("\n\n")[0]
    found = re.findall(r"^ +(-\w)?(?:, )?(--[\w-]+)?(?: <(\w+)>)? {2,}(\S.*)$", text, re.M)
    return [Option(*names) for names in found]


def for_bash():
    """The options of each subcommand, and those after which comes a value."""
    made = {tool: " ".join(name for option in options(tool) for name in option.names()) for tool in HELP}
    return {**made, "valued": " | ".join(dict.fromkeys(name for tool in HELP for option in options(tool) if option.value for name in option.names()))}


def for_zsh():
    made = {}
    for tool in HELP:
        lines = []
        for option in options(tool):
            about = f"[{option.about()[0].lower()}{option.about()[1:]}]" + (f":{option.hint()}:" if option.value else "")
            names = option.names()
            lines.append(f"'{names[0]}{about}'" if len(names) == 1 else f"'(- *)'{{{','.join(names)}}}'{about}'")
        made[tool] = " \\\n        ".join(lines)
    return made


def for_fish():
    lines = []
    for tool in HELP:
        given = [
            " ".join(f"-{'l' if name.startswith('--') else 's'} {name.lstrip('-')}" for name in option.names())
            + (" -x" if option.value else "") + f" -d '{option.about()}'"
            for option in options(tool) if option.long != "--help"
        ]
        lines += [f"complete -c rnxcmp -n '__fish_seen_subcommand_from {tool}' {words}" for words in given]
        if given and tool != "check":
            lines += [f"for name in {tool.upper()} {tool}", *(f"    complete -c $name {words}" for words in given), "end"]
    return {"options": "\n".join(lines)}


def made(name):
    """The text of a file of completions."""
    parts = {"rnxcmp.bash": for_bash, "rnxcmp.fish": for_fish, "_rnxcmp": for_zsh}[name]()
    text = (TOP / "packaging/completions" / name).read_text(encoding="utf-8")
    return re.sub(r"@(\w+)@", lambda found: parts[found[1]], text)


if __name__ == "__main__":
    sys.stdout.write(made(sys.argv[1]))
