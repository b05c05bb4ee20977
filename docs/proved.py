"""Where each thing is proved: of each fault, and of each crate its theorems and its functions."""

import re
from functools import cache

from markup import Heading, Rows, Words
from sources import CRATES, crates, functions_in

OF_FUNCTIONS = ("Answers", "Invariants", "Proof")  # files of the folder in `proofs` that belongs to one function
NOT_OF_FAULTS = ("crx_base", "crx_tests", "crx_laws", "crx_devices")  # which name faults, and find none


@cache
def code_of(crate):
    """The functions of a crate, each with its module and the text of its body; no tests."""
    return list(code_in(crate))


def code_in(crate):
    for path in sorted((CRATES / crate / "src").rglob("*.rt")):
        if "tests" in path.name:
            continue
        lines = path.read_text(encoding="utf-8").split("\n")
        found = [function for function, _ in functions_in(path)]
        module = "::".join(path.relative_to(CRATES / crate / "src").with_suffix("").parts)
        for function, end in zip(found, [*(it.line - 1 for it in found[1:]), len(lines)]):
            yield module, function, "\n".join(lines[function.line - 1:end])


def folders_of(crate):
    """The folders of `proofs` that belong to one function: the path of its module, its type where it has one, and its name; a + is before that of a
    function that calls itself."""
    proofs = CRATES / crate / "proofs"
    return {path.parent.relative_to(proofs).parts for name in OF_FUNCTIONS for path in proofs.rglob(f"{name}.antt")}


def folder_of(folders, module, function):
    """The folder of a function, or None."""
    name = function.name.rpartition("::")[2]
    parts = (*module.split("::"), *([function.owner] if function.owner else []))
    return next(("/".join(it) for it in ((*parts, name), (*parts, f"+{name}")) if it in folders), None)


def theorems_of(crate):
    """The files of lemmas of a crate, with what the comment at their beginning says."""
    proofs, folders = CRATES / crate / "proofs", folders_of(crate)
    for path in sorted(proofs.rglob("*.antt")):
        comment = re.match(r"(?:--.*\n)+", path.read_text(encoding="utf-8"))
        if comment and path.parent.relative_to(proofs).parts not in folders:
            words = " ".join(line.strip("- ") for line in comment[0].splitlines())
            yield re.sub(r"\|", "/", words), f"`{path.relative_to(proofs)}`"


def faults(named):
    """The faults with the definitions that give them, and the functions that do, each with its folder. `named` has their numbers and words."""
    defined, found = {name: [] for name in named}, {name: [] for name in named}
    for path in sorted(CRATES.glob("*/specs/meaning/*.antt")):
        text = re.sub(r"^(?:pub )?use .*$|--.*", "", path.read_text(encoding="utf-8"), flags=re.M)
        for name in dict.fromkeys(re.findall(r"(?<!\w)[A-Z]\w+", text)) if path.stem != "Faults" else ():
            defined.get(name, []).append(f"`{path.stem}` of {path.parts[-4]}")
    for crate in crates():
        folders = folders_of(crate)
        for module, function, body in code_of(crate) if crate not in NOT_OF_FAULTS else ():
            folder = folder_of(folders, module, function)
            for name in dict.fromkeys(re.findall(r"Fault::([A-Z]\w+)", body)):
                found.get(name, []).append(f"`{crate}::{module}::{function.name}`" + (f" (`{folder}`)" if folder else ""))
    for name, (number, words) in sorted(named.items(), key=lambda it: it[1]):
        yield [str(number), words, ", ".join(defined[name]), ", ".join(found[name])]


def parts(named):
    """The page."""
    yield Words(
        "Where each thing is proved, by the sources. A function that has no folder in `proofs` is proved from its code alone, or by the lemma that"
        " a `using(..)` above it names; a folder has only what the code doesn't give. `docs/pages.py` made this page.")
    yield Heading(2, "faults", "Faults")
    yield Words("Which definitions of `specs/meaning` give a fault, and which functions do, each with its folder in `proofs`, where it has one.")
    yield Rows(["Fault", "Words", "Definitions", "Code"], list(faults(named)))
    for crate in crates():
        yield Heading(2, crate, crate)
        theorems, folders = list(theorems_of(crate)), folders_of(crate)
        if theorems:
            yield Rows(["What is proved", "Where, in `proofs`"], [list(it) for it in theorems])
        rows, alone = [], []
        for module, function, _ in code_of(crate):
            folder, name = folder_of(folders, module, function), f"`{module}::{function.name}`"
            if folder:
                rows.append([name, re.sub(r"\|", "/", function.words), f"`{folder}`"])
            elif function.clauses:
                alone.append(name)
        if rows:
            yield Rows(["Function", "What it does", "Where, in `proofs`"], rows)
        if alone:
            yield Words("From the code alone: " + ", ".join(alone) + ".")
