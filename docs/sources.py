"""The sources as pages and tests read them: definitions, types and constants of the code, functions with their clauses, and what a name
in one of them stands for."""

import re
from collections import namedtuple
from pathlib import Path

TOP = Path(__file__).resolve().parent.parent
CRATES = TOP / "crates"
# a name in a text, and what has none that count: comments, texts in quotes, and fields
TOKEN = re.compile(r'(?:--|//).*|"[^"\n]*"|\.[a-z_]\w*|([A-Za-z_]\w*)')

# a definition of specs, or a type or constant of the code: the comment above it, and its text
Item = namedtuple("Item", "path line name comment text")
# what a caller has to meet (requires) or what is promised (ensures): as it stands there, with the comment above it, and the statement
Clause = namedtuple("Clause", "kind name text statement")
# a function: the first sentence of its documentation, its signature with its clauses as they stand there, the clauses, and the name that its
# type has in the folders of proofs: that of the trait is behind it, where it is one of a trait
Function = namedtuple("Function", "path line name words text clauses owner")


def crates():
    """The crates in the order of crates.txt, each after those that it stands on."""
    lines = (TOP / "crates.txt").read_text(encoding="utf-8").split("\n")
    return [line.split(":")[0].split()[0] for line in lines if ":" in line and not line.startswith("#")]


def crate_of(path):
    """The name of the crate that a file is of."""
    return re.match(r".*/([^/]+)/(?:specs|src)/", str(path))[1]


def fault_names():
    """The faults by their names in the code: their numbers and words."""
    source = (CRATES / "crx_base/src/fault.rt").read_text(encoding="utf-8")
    words = dict(re.findall(r'Fault::(\w+) => "([^"]*)",', source))
    return {name: (int(number), words[name]) for name, number in re.findall(r"Fault::(\w+) => (\d+),", source)}


# ---- items

HEADS = {
    ".antt": re.compile(r"^(?:abbrev|unfoldable)\s+(?:pub\s+)?◌?([A-Za-z_]\w*)|^(?:pub\s+)?(?:record|data)\s+(?:pub\s+)?([A-Za-z_]\w*)"),
    ".rt": re.compile(r"^(?:pub(?:\([^)]*\))? )?(?:struct|enum|trait|type)\s+(\w+)|^(?:pub(?:\([^)]*\))? )?const\s+(\w+):"),
}
COMMENT = {".antt": re.compile(r"--(?! ----)|infix"), ".rt": re.compile(r"///|#\[")}


def end_of(lines, start, kind):
    """The line after an item: the next line of a definition that isn't indented and isn't one of its equations, or the line that closes
    a type of the code."""
    if kind == ".rt":
        last = r"\}" if lines[start].endswith("{") else r".*;$"
        return next(at for at in range(start, len(lines)) if re.match(last, lines[at])) + 1
    head = HEADS[kind].match(lines[start])
    equation = (head[1] or head[2]) + " "
    at = start + 1
    while at < len(lines) and not HEADS[kind].match(lines[at]) and not re.match(r"use |pub use |pub mod |module ", lines[at]):
        # Comments between its equations belong to it.
        if lines[at].startswith("--") and not next((it for it in lines[at:] if not it.startswith("--")), "").startswith(equation):
            break
        at += 1
    return at


def items_in(path):
    """The definitions of a file of specs, or the types and constants of one of code."""
    kind = path.suffix
    lines = path.read_text(encoding="utf-8").split("\n")
    found = []
    for at, line in enumerate(lines):
        head = HEADS[kind].match(line)
        if head:
            first = at
            while first and COMMENT[kind].match(lines[first - 1]):
                first -= 1
            text = "\n".join(lines[at:end_of(lines, at, kind)]).rstrip()
            found.append(Item(path, at + 1, head[1] or head[2], "\n".join(lines[first:at]), text))
    return found


def constructors(item):
    """The names that a `data` has for its values."""
    return re.findall(r"^  ([A-Za-z_]\w*) :", item.text, re.M) if re.match(r"(pub )?data ", item.text) else []


# ---- functions


def first_sentence(comment):
    """The first sentence of a documentation comment."""
    text = " ".join(line.strip()[3:].strip() for line in comment)
    found = re.match(r"((?:`[^`]*`|[^`])*?[.:;])(?:\s|$)", text)
    sentence = (found[1] if found else text).rstrip(".:;")
    return re.sub(r"\[(`[^`]*`)\](?:\([^)]*\))?", r"\1", sentence)


def closing(text, at):
    """Where the brace at a place of a text is closed."""
    depth = 0
    for place in range(at, len(text)):
        depth += (text[place] == "{") - (text[place] == "}")
        if not depth:
            return place
    raise ValueError(f"no end of {text[at:at + 80]!r}")


def contract(text):
    """The signature that a text begins with and the clauses after it, as they stand there, and these clauses."""
    at = re.search(r"\n\s*(?=//|requires|ensures|\{)|\s*(?=\{|;\n)", text).start()
    clauses = []
    while found := re.compile(r"\s*(?://[^\n]*\s*)*(requires|ensures)\*?\s+(\w*)\s*\{").match(text, at):
        end = closing(text, found.end() - 1)
        clauses.append(Clause(found[1], found[2] or "_", text[at:end + 1].strip("\n"), text[found.end():end].strip()))
        at = end + 1
    return text[:at].rstrip(), clauses


def functions_in(path):
    """The functions of a file, and whether each is public: `pub`, or of a public trait."""
    lines = path.read_text(encoding="utf-8").split("\n")
    owner, of_trait, is_trait, words = "", "", False, []
    for at, line in enumerate(lines):
        block = re.match(r"(pub(?:\([^)]*\))? )?(impl|trait)\b(?:<[^{]*?>)?\s*(?:(?:\w+::)*(\w+)(?:<[^{]*?>)?\s+for\s+)?(\w+)", line)
        function = re.match(r"\s*(pub(?:\([^)]*\))? )?(?:const )?(?:unsafe )?(?:extern \"C\" )?fn (\w+)", line)
        if block:
            owner, of_trait, is_trait = block[4] + "::", block[3] or "", block[2] == "trait" and bool(block[1])
        elif line.startswith("}"):
            owner, of_trait, is_trait = "", "", False
        elif line.strip().startswith("///"):
            words.append(line)
        elif function:
            text, clauses = contract("\n".join(lines[at:]))
            found = Function(path, at + 1, owner + function[2], first_sentence(words), text, clauses, owner[:-2] + of_trait)
            yield found, function[1] == "pub " or is_trait
        if not re.match(r"\s*(///|#\[)", line):
            words = []


def public_functions(crate):
    """The public functions of a crate, but for tests."""
    files = (path for path in sorted((CRATES / crate / "src").rglob("*.rt")) if "tests" not in path.name)
    return [function for path in files for function, is_public in functions_in(path) if is_public]


# ---- names


class Names:
    """What the names in the sources stand for. `folders` are those of crates; those of ported crates can be among them."""

    def __init__(self, folders):
        self.specs, self.code, self.taken, self.items = {}, {}, {}, {}
        for folder in folders:
            for path in sorted(folder.glob("specs/**/*.antt")) + sorted(folder.glob("src/**/*.rt")):
                self.add(folder, path)

    def add(self, folder, path):
        if path.suffix == ".antt":
            inside = path.relative_to(folder / "specs").with_suffix("").parts
            self.specs[".".join(("Rattle", folder.name, "specs", *inside))] = path
        self.taken[path] = dict(uses_of(path.read_text(encoding="utf-8")))
        for item in items_in(path):
            for name in (item.name, *constructors(item)):
                self.items.setdefault((path, name), item)
            if path.suffix == ".rt":
                self.code.setdefault(item.name, []).append(item)

    def declared(self, module, name):
        """The type or constant of the code that a module of declarations has under this name."""
        parts = module.split(".")
        if parts[-1].startswith("The") and parts[-1] != "TheConstants":
            name = parts[-2]
        same = [item for item in self.code.get(name, []) if crate_of(item.path) == parts[1]]
        return next((item for item in same if item.path.stem in parts), same[0] if same else None)

    def find(self, path, name):
        """What a name stands for in a file, or None."""
        if (path, name) in self.items:
            return self.items[path, name]
        if name in self.taken[path]:
            module, other = self.taken[path][name]
            if ".specs.declared." in module:
                return self.declared(module, other)
            return self.find(self.specs[module], other) if module in self.specs else None
        same = self.code.get(name, []) if path.suffix == ".rt" else []
        return same[0] if len(same) == 1 else None

    def below(self, path, text):
        """The items that a text of a file names, in the order in which it does."""
        return [item for item in dict.fromkeys(self.find(path, name) for name in TOKEN.findall(text) if name) if item]

    def below_item(self, item):
        """The items that an item names. The fields of a type of the code have names of their own: there only types are looked for."""
        is_type = item.path.suffix == ".rt" and " trait " not in item.text.split("\n")[0]
        return [it for it in self.below(item.path, item.text) if it != item and not (is_type and it.path.suffix == ".antt")]


def uses_of(text):
    """What a file takes from others: a name, and the module and the name there. One that is written around its arguments, as
    `require◌else◌then◌`, goes by its first word."""
    for module, names in re.findall(r"^\s*(?:pub |ghost )?use (Rattle[\w.]+)\.\{([^}]*)\}", text, re.M):
        for word in names.split(","):
            there, _, here = (it.strip("◌ ").split("◌")[0] for it in word.partition(" as "))
            yield here or there, (module, there)
