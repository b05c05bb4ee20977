"""Whole files: the command ``rnxcmp-file`` (``python3 -I -m rnxcmp.files``), :func:`compress_on_disk` and :func:`decompress_on_disk`.

It never changes or removes an input, nor any file that this run didn't create; without ``-f`` it replaces nothing. An output's name always
holds the old file or the whole new one. docs/FILES.md says what *verified* means.
"""

from __future__ import annotations

import argparse
import os
import re
import sys
from contextlib import suppress

if os.name == "nt":  # no call there names a file and replaces nothing
    sys.exit("rnxcmp-file: ERROR: whole files need POSIX, which Windows isn't: rnxcmp.exe does a file, and the package rnxcmp bytes and streams")

from ._calls import RnxcmpError, version
from ._names import is_packed, quoted
from ._parts import CannotName, FileError, Part, remove_unfinished, saying
from ._whole import COMPACTION, EXACT, EXPANSION, MADE, NORMAL_FORM, PASSED, REPLACED, THERE, Choices, Done, Whole, output_name

TYPE_CHECKING = False
if TYPE_CHECKING:
    from typing import Callable, Dict, Iterator, List, NoReturn, Optional, Sequence, Tuple, Union

    from ._checked import Checked
    from ._on_disk import compress_on_disk, decompress_on_disk

    Result = Union[Done, Checked, "Failure"]

__all__ = ["compress_on_disk", "decompress_on_disk", "main"]

GOOD, FAILED, SKIPPED = 0, 1, 2  # statuses

USAGE = """\
usage: rnxcmp-file rnx2crx [options] INPUT..
       rnxcmp-file crx2rnx [options] INPUT..
       rnxcmp-file check [-j N] [--json] [-q] [--inputs LIST] INPUT..
       rnxcmp-file explain [--json] [--inputs LIST] INPUT..

Compacts (rnx2crx) or expands (crx2rnx) whole files. The output is beside the
input, under its name with the other extension, and packed by gzip if the input
is. With check it says which files aren't valid or may be cut off. With explain
it says why a file is refused, isn't standard, or may be cut off: the line, its
field, the expected text, and the likely causes.

  -o OUTPUT           the output's name, for one input; - is standard output of
                      crx2rnx
  --to FOLDER         the folder below which the outputs are named as the inputs
  --from FOLDER       with --to: the folder below which the inputs are
  --new               pass over each input whose output exists
  -j N                do N files at once; as many as there are processors if no
                      number follows
  --inputs LIST       more inputs: their names, each with a NUL; - is standard
                      input
  --gzip, --no-gzip   pack the output, or don't
  --verify            read each output back from the disk, and compare what it
                      expands to with the input
  --verified-to LIST  do so, and write the names of the inputs that are verified
                      exact into the file LIST, each with a NUL
  --normal-form       with --verified-to: also inputs verified by normal form
  --accept-cut        with --verified-to: also inputs without a last line end
  -f                  replace an output that exists
  -e N, --date TEXT   as for rnxcmp rnx2crx
  -s                  warn about epochs with a fault, and skip them
  --max-output SIZE   make no output that is longer, unpacked: a number of bytes
                      or of thousands (k), millions (M) or billions (G)
  -v                  print all warnings, not three a file
  --json              print a JSON object for each file, on one line
  -q                  print no line for a file that is done
  -h, --help          print this help
  --version           print the version

It never changes or removes an input. An output that exists is left as it is,
unless -f is given; unless it holds this input, it is an error. Exit status: 0
all files are done; 2 epochs were skipped, so a file isn't verified, or a
checked file may be cut off; 1 an error. Each message begins with the input's
name.
"""
REMOVES_NOTHING = (
    "is no longer an option: no input is ever removed; "
    "--verified-to LIST writes the names of those that are verified, for xargs -0 rm --"
)
WARNINGS = 3  # that are printed of a file
EXPLANATION, CHECK = "explain", "check"
_UNITS = {"": 1, "k": 10**3, "M": 10**6, "G": 10**9}


# ---- arguments


def _refuse(text: str) -> NoReturn:
    _say(f"rnxcmp-file: ERROR: {text}; rnxcmp-file -h prints help")
    raise SystemExit(FAILED)


class _Parser(argparse.ArgumentParser):
    def error(self, message: str) -> NoReturn:
        _refuse(message)


def _formatter(prog: str) -> argparse.HelpFormatter:
    """Returns a formatter with a fixed width, because finding out the terminal's takes as long as the rest of the start."""
    return argparse.HelpFormatter(prog, width=80)


def _parser() -> argparse.ArgumentParser:
    parser = _Parser(prog="rnxcmp-file", add_help=False, allow_abbrev=False, formatter_class=_formatter)
    parser.add_argument("direction", nargs="?")
    parser.add_argument("inputs", nargs="*")
    parser.add_argument("-o", dest="output")
    packing = parser.add_mutually_exclusive_group()
    packing.add_argument("--gzip", dest="pack", action="store_true", default=None)
    packing.add_argument("--no-gzip", dest="pack", action="store_false")
    for flag in ("--verify", "--normal-form", "--accept-cut", "--delete", "-d", "--json", "-v", "--version"):
        parser.add_argument(flag, action="store_true")
    for flag, name in (("-f", "force"), ("-s", "skip"), ("-q", "quiet"), ("-h", "help"), ("--help", "help")):
        parser.add_argument(flag, dest=name, action="store_true")
    parser.add_argument("--new", action="store_true")
    parser.add_argument("--to")
    parser.add_argument("--from", dest="base")
    parser.add_argument("-j", dest="jobs")
    parser.add_argument("--inputs", dest="more", action="append")
    parser.add_argument("--verified-to", dest="list")
    parser.add_argument("--max-output", dest="most")
    parser.add_argument("-e", dest="every")
    parser.add_argument("--date")
    return parser


def _is_date(text: str) -> bool:
    return len(text) <= 20 and text.isascii() and text.isprintable()


def _arguments(words: Sequence[str]) -> argparse.Namespace:
    """Returns the arguments; refuses those that contradict each other."""
    words = list(words)
    for at in range(len(words)):
        if words[at] == "-j" and not re.match("[0-9]", "".join(words[at + 1 : at + 2])):
            words[at] = f"-j{len(os.sched_getaffinity(0))}"
    found, unknown = _parser().parse_known_intermixed_args(words)
    if unknown:
        _refuse(f"unrecognized arguments: {' '.join(map(quoted, unknown))}")
    if found.help or found.version:
        return found
    if found.delete or found.d:
        _refuse(f"{'--delete' if found.delete else '-d'} {REMOVES_NOTHING}")
    if found.direction not in (COMPACTION, EXPANSION, CHECK, EXPLANATION):
        if not found.direction:
            _refuse("rnx2crx or crx2rnx is missing")
        _refuse(f"neither rnx2crx nor crx2rnx nor check nor explain: {quoted(found.direction)}")
    if found.more:
        found.inputs += [name for one in found.more for name in _listed(one)]
    elif not found.inputs:
        _refuse("the input is missing")
    _ensure_names(found)
    _ensure_choices(found)
    return found


def _ensure_names(found: argparse.Namespace) -> None:
    if "" in (*found.inputs, found.output, found.list, found.to, found.base):
        _refuse("an empty name")
    if found.list == "-" or (found.output == "-" and found.direction != EXPANSION):
        _refuse("only crx2rnx -o - writes to standard output; ./- is the name of a file")
    if found.output == "-" and (found.verify or found.list or found.force or found.json or found.new):
        _refuse("-o - makes no file, and goes without --verify, --verified-to, -f, --new and --json")
    if found.output is not None and (len(found.inputs) > 1 or found.jobs or found.to):
        _refuse("-o names one output of one input, and goes without -j and --to")
    if found.base is not None and found.to is None:
        _refuse("--from belongs to --to")
    for name in found.inputs if found.to is not None else ():
        if ".." in (place := _place(found, name).split("/")) or not place[0]:
            _refuse(f"--to needs --from FOLDER for a name that is absolute or has ..: {quoted(name)} isn't below such a folder")


def _place(found: argparse.Namespace, name: str) -> str:
    """Returns an input's name as it is below the folder of --from, or as it is given."""
    return name if found.base is None else os.path.relpath(os.path.abspath(name), os.path.abspath(found.base))


def _output_of(found: argparse.Namespace, choices: Choices, name: str) -> str:
    """Returns the name of an input's output, by the arguments."""
    if found.output is not None or found.to is None:
        return found.output or output_name(name, choices)
    return os.path.join(found.to, os.path.dirname(_place(found, name)), os.path.basename(output_name(name, choices)))


def _ensure_own_outputs(found: argparse.Namespace, choices: Choices) -> None:
    """Refuses two inputs with one output, because two processes would make the same file."""
    outputs: Dict[str, str] = {}
    for name in found.inputs:
        with suppress(FileError):
            other = outputs.setdefault(os.path.abspath(_output_of(found, choices, name)), name)
            if other is not name:
                _refuse(f"-j does files at once, and these have one output: {quoted(other)} and {quoted(name)}")


def _ensure_choices(found: argparse.Namespace) -> None:
    given = {name for name, value in vars(found).items() if value not in (None, False)} - {"direction", "inputs", "more", "json"}
    if found.direction == EXPLANATION and given:
        _refuse("explain takes only --json and --inputs")
    if found.direction == CHECK and given - {"quiet", "jobs"}:
        _refuse("check takes only -j, --json, -q and --inputs")
    if found.jobs is not None and not (re.fullmatch("[0-9]{1,3}", found.jobs) and 1 <= int(found.jobs) <= 256):
        _refuse("the number of -j is from 1 to 256")
    if found.new and found.force:
        _refuse("--new passes over outputs that exist, and -f replaces them")
    if found.direction == EXPANSION and (found.every is not None or found.date is not None):
        _refuse("-e and --date belong to rnx2crx")
    if found.every is not None and not (re.fullmatch("[0-9]{1,20}", found.every) and 1 <= int(found.every) <= 1000000):
        _refuse("the number of -e is from 1 to 1000000")
    if found.date is not None and not _is_date(found.date):
        _refuse("bad date: at most 20 characters, each printable ASCII")
    if found.most is not None and not _size_of(found.most):
        _refuse("the size of --max-output is a number of bytes, from 1, or such a number and k, M or G")
    for given, name in ((found.normal_form, "--normal-form"), (found.accept_cut, "--accept-cut")):
        if given and found.list is None:
            _refuse(f"{name} belongs to --verified-to")


def _size_of(text: str) -> int:
    """Returns a number of bytes, or 0 if `text` isn't one."""
    size = re.fullmatch("([0-9]{1,9})([kMG]?)", text) or re.fullmatch("([0-9]{1,18})()", text)
    return int(size[1]) * _UNITS[size[2]] if size else 0


def _listed(name: str) -> List[str]:
    """Returns the names in a list, each of which ends in a NUL."""
    try:
        with open(0 if name == "-" else name, "rb", closefd=name != "-") as file:
            *names, rest = file.read().split(b"\0")
    except OSError as error:
        _refuse(f"cannot read the list of inputs {quoted(name)}: {error.strerror}")
    if rest:
        _refuse(f"the list of inputs doesn't end in a NUL: {quoted(name)}")
    return [os.fsdecode(one) for one in names]


def _choices(found: argparse.Namespace) -> Choices:
    pack = found.pack
    if pack is None and found.output is not None:
        pack = is_packed(found.output)
    every = None if found.every is None else int(found.every)
    most = None if found.most is None else _size_of(found.most)
    verify = found.verify or found.list is not None
    return Choices(found.direction, pack, verify, found.force, found.skip, every, found.date, most, found.new, found.to is not None)


# ---- output and messages


def _write_all(descriptor: int, text: Union[str, bytes]) -> None:
    view = memoryview(text if isinstance(text, bytes) else os.fsencode(text))
    while view:
        view = view[os.write(descriptor, view) :]


def _say(text: str) -> None:
    """Writes a message to standard error. If that fails, nobody can be told."""
    with suppress(OSError):
        _write_all(2, f"{text}\n")


class Failure:
    """The reason why a file has no output: the message, and the line and code of an error of the input, or 0."""

    def __init__(self, text: str, line: int = 0, code: int = 0) -> None:
        self.text, self.line, self.code = text, line, code


def _as_json(name: str, result: Result, checks: bool) -> str:
    from json import dumps

    found: Dict[str, object] = {} if checks else {"output": None, "verified": None, "skipped": 0}
    found.update({"state": "error", "may_be_cut_off": False, "error": None, "line": None, "code": None})
    if isinstance(result, Failure):
        found.update({"error": result.text, "line": result.line or None, "code": result.code or None})
    elif isinstance(result, Done):
        found.update({"output": result.output, "state": result.state, "verified": result.verified or None, "skipped": result.skipped})
    else:
        found.update(result.fields())
    found["may_be_cut_off"] = getattr(result, "may_be_cut_off", False)
    return dumps({"input": name, **found})


class Printer:
    """Writes the lines on standard output and, if standard error is a terminal, the progress there."""

    def __init__(self, found: argparse.Namespace) -> None:
        self._json, self._quiet, self._count = found.json, found.quiet, len(found.inputs)
        self._always = found.more is not None
        self._shows = self._count > 1 and os.isatty(2)
        self._number = 0
        self._new, self._checks = found.new, found.direction == CHECK
        self._counts = dict.fromkeys((MADE, REPLACED, THERE, PASSED, "error", EXACT, NORMAL_FORM, "", "skipped", "cut off"), 0)
        self.failed = False

    def begin(self, name: str) -> None:
        self._number += 1
        if self._shows:
            self._terminal(f"\r\x1b[K{self._number} of {self._count}: {quoted(name)}"[:200])

    def clear(self) -> None:
        if self._shows:
            self._terminal("\r\x1b[K")

    def _terminal(self, text: str) -> None:
        with suppress(OSError):
            _write_all(2, text)

    def say(self, name: str, text: str) -> None:
        self.clear()
        _say(f"{quoted(name)}: {text}")

    def line(self, text: str) -> None:
        """Writes a line to standard output, unless an earlier one couldn't be written."""
        self.clear()
        if self.failed:
            return
        try:
            _write_all(1, f"{text}\n")
        except OSError as error:
            self.failed = True
            _say(f"rnxcmp-file: ERROR: cannot write to standard output: {error.strerror}")

    def file(self, name: str, result: Result) -> None:
        """Writes and counts the result of a file."""
        done = result if isinstance(result, Done) else None
        for kind in (done.state, done.verified, "skipped" if done.skipped else "") if done else ("error" if isinstance(result, Failure) else "",):
            self._counts[kind] += 1
        self._counts["cut off"] += getattr(result, "may_be_cut_off", False)
        if self._json:
            self.line(_as_json(name, result, self._checks))
        elif done and not self._quiet:
            said = f"{done.state} {quoted(done.output)}" if done.state in (MADE, REPLACED) else f"{quoted(done.output)} is there already"
            said += ", passed over" if done.state == PASSED else ""
            said += f", verified {done.verified}" if done.verified else ""
            said += f", not verified: {done.skipped} warnings" if done.skipped else ""
            self.line(f"{quoted(name)}: {said}")

    def summary(self) -> None:
        """Writes the counts, which are all that is kept of the files, because there may be many."""
        if self._json or (self._checks and self._quiet) or (self._count < 2 and not self._always):
            return
        counts, words = self._counts, {MADE: "made", REPLACED: "replaced", THERE: "there already", PASSED: "passed over", "error": "errors"}
        if self._checks:
            self.line(f"{self._number} files: {self._number - counts['error']} valid, {counts['cut off']} of them may be cut off, {counts['error']} errors")
            return
        done = ", ".join(f"{counts[state]} {said}" for state, said in words.items() if state != PASSED or self._new)
        verified = ", ".join(f"{counts[how]} {how}" for how in (EXACT, NORMAL_FORM))
        self.line(f"{self._number} files: {done}; verified: {verified}; with skipped epochs: {counts['skipped']}")


class Warnings:
    """Says the warnings about a file, but of those about lines only the first and the number of the others, unless all are wanted."""

    def __init__(self, say: Callable[[str], None], all_of_them: bool) -> None:
        self._say, self._all, self._count = say, all_of_them, 0

    def tell(self, text: str) -> None:
        if not text.startswith("line "):
            self._say(f"WARNING: {text}")
            return
        self._count += 1
        if self._all or self._count <= WARNINGS:
            self._say(f"WARNING {text}")

    def end(self) -> None:
        if self._count > WARNINGS and not self._all:
            self._say(f"WARNING: {self._count - WARNINGS} more; -v prints all")


# ---- the list of verified inputs


def _absolute(name: str) -> str:
    return name if name.startswith("/") else f"{os.getcwd()}/{name}"


class VerifiedList:
    """The file with the names of the verified inputs. It appears at the end, whole, and never replaces a file."""

    def __init__(self, place: str, normal_form: bool, accept_cut: bool, force: bool) -> None:
        self._place, self._accepts_cut, self._force = place, accept_cut, force
        self._counted = (EXACT, NORMAL_FORM) if normal_form else (EXACT,)
        self._found: List[Tuple[str, Done]] = []
        self.part = Part(place)

    def begin(self) -> None:
        """Makes the temporary file, so that an error is known at once."""
        if os.path.lexists(self._place):
            raise FileError("file exists")
        self.part.begin()

    def add(self, name: str, done: Done) -> None:
        if done.verified in self._counted and (self._accepts_cut or not done.may_be_cut_off):
            self._found.append((_absolute(name), done))

    def put(self) -> int:
        """Gives the list its name; returns how many files aren't in it because they changed after they were verified."""
        held = [name for name, done in self._found if done.still_holds(name)]
        for name in dict.fromkeys(held):
            self.part.write(os.fsencode(name) + b"\0")
        self.part.flush()
        try:
            self.part.put(False)
        except CannotName:
            if not self._force or os.path.lexists(self._place):
                raise
            self.part.put(True)
        except FileExistsError:
            raise FileError("another file has got its name") from None
        return len(self._found) - len(held)


# ---- the run


def _words_of(error: Exception) -> str:
    return getattr(error, "strerror", None) or str(error)


def _tried(work: Callable[[], Result]) -> Result:
    """Calls `work`; returns its result, or a failure with the message of its error."""
    try:
        return work()
    except (RnxcmpError, MemoryError) as error:
        words = str(error) or "out of memory"  # Python's MemoryError has no words
        text = f"ERROR {words}" if words.startswith("line ") else f"ERROR: {words}"
        return Failure(text, getattr(error, "line", 0), getattr(error, "code", 0))
    except (OSError, ImportError) as error:  # some modules are loaded when they are first used
        return Failure(f"ERROR: {_words_of(error)}")


def _to_standard_output(data: bytes) -> None:
    with saying("cannot write to standard output"):
        _write_all(1, data)


class Run:
    """A call of the tool."""

    def __init__(self, found: argparse.Namespace) -> None:
        self._found, self._choices = found, _choices(found)
        if found.jobs is not None and found.direction != CHECK:
            _ensure_own_outputs(found, self._choices)
        found.quiet |= found.output == "-"
        self._printer = Printer(found)
        self._verified = None if found.list is None else VerifiedList(found.list, found.normal_form, found.accept_cut, found.force)

    def _work(self, name: str, tell: Callable[[str], None]) -> Result:
        if self._found.direction == CHECK:
            from ._checked import checked

            return checked(name, tell)
        work = Whole(name, self._choices, _output_of(self._found, self._choices, name), tell)
        return work.write_to(_to_standard_output) if self._found.output == "-" else work.run()

    def _do(self, name: str, say: Callable[[str], None]) -> Result:
        """Does one file; `say` is called with each message."""
        warnings = Warnings(say, self._found.v)
        result = _tried(lambda: self._work(name, warnings.tell))
        warnings.end()
        if isinstance(result, Failure):
            result = self._with_cause(name, result)
            say(result.text)
        elif isinstance(result, Done) and self._choices.verify and result.skipped:
            say("WARNING: not verified, because epochs were skipped")
        return result

    def _tell(self, name: str, result: Result) -> int:
        """Says the result of a file; returns its status."""
        if self._verified and isinstance(result, Done):
            self._verified.add(name, result)
        self._printer.file(name, result)
        if isinstance(result, Failure):
            return FAILED
        return SKIPPED if (result.skipped if isinstance(result, Done) else result.may_be_cut_off) else GOOD

    def _with_cause(self, name: str, failure: Failure) -> Failure:
        """Adds the likely causes in parentheses, if it is an error of the input."""
        if not failure.code or not failure.text.startswith("ERROR line "):
            return failure
        from ._checked import direction_of
        from ._explain import likely

        direction = direction_of(name) if self._found.direction == CHECK else self._found.direction
        return Failure(f"{failure.text} ({likely(failure.code, direction, name)})", failure.line, failure.code)

    def _one_by_one(self) -> Iterator[int]:
        for name in self._found.inputs:
            self._printer.begin(name)
            yield self._tell(name, self._do(name, lambda text, name=name: self._printer.say(name, text)))  # type: ignore[misc]

    def _answer(self, name: str) -> Tuple[List[str], Result]:
        texts: List[str] = []
        return texts, self._do(name, texts.append)

    def _at_once(self) -> Iterator[int]:
        """Does several files at once. After a signal, or when a process dies, the others finish the files that they have begun."""
        from ._workers import Workers

        workers, undone = Workers(int(self._found.jobs), self._answer, self._found.inputs), []
        _handle_signals(lambda *_: workers.ask_to_end())
        for name, answer in zip(self._found.inputs, workers.answers()):
            if answer is None:
                undone.append(name)
                continue
            self._printer.begin(name)
            for text in answer[0]:
                self._printer.say(name, text)
            yield self._tell(name, answer[1])
        reason = "a process died" if workers.died() else "a signal asked to end"
        _handle_signals()
        if undone:
            self._printer.clear()
            _say(f"rnxcmp-file: ERROR: {reason}, and {len(undone)} files aren't done: {quoted(undone[0])} is the first")
            yield FAILED

    def _do_all(self) -> int:
        """Does all files; returns the status."""
        statuses = {*(self._at_once() if self._found.jobs and len(self._found.inputs) > 1 else self._one_by_one())}
        self._printer.clear()
        self._printer.summary()
        if FAILED in statuses or self._printer.failed:
            return FAILED
        return SKIPPED if SKIPPED in statuses else GOOD

    def run(self) -> int:
        """Does all files, and gives the list its name; returns the status."""
        if self._verified is None:
            return self._do_all()
        try:
            self._verified.begin()
            status = self._do_all()
            changed = self._verified.put()
        except FileError as error:
            self._printer.say(self._found.list, f"ERROR: {error}")
            return FAILED
        finally:
            self._verified.part.remove()
        if changed:
            self._printer.say(self._found.list, f"ERROR: {changed} files changed after they were verified, and aren't in it")
        return FAILED if changed else status


def _open_streams() -> None:
    """Opens standard streams that are closed, so that no file gets their numbers."""
    for descriptor in range(3):
        try:
            os.fstat(descriptor)
        except OSError:
            os.open("/", os.O_RDONLY)


def _end_by(number: int, _: object) -> None:
    """Removes the temporary files, and ends the process by the signal."""
    import signal

    remove_unfinished()
    signal.signal(number, signal.SIG_DFL)
    os.kill(os.getpid(), number)


def _handle_signals(handler: Callable[[int, object], None] = _end_by) -> None:
    """Sets the handler of each signal that asks a run to end, unless it is ignored."""
    import signal

    for name in ("HUP", "INT", "QUIT", "TERM", "ALRM", "USR1", "USR2", "XCPU"):
        number = getattr(signal, f"SIG{name}")
        if signal.getsignal(number) != signal.SIG_IGN:
            signal.signal(number, handler)


def _run_words(words: Sequence[str]) -> int:
    found = _arguments(words)
    if found.help or found.version:
        _write_all(1, USAGE if found.help else f"rnxcmp-file {version()}\n")
        return GOOD
    if found.direction == EXPLANATION:
        from ._explain import explain_files

        printer = Printer(found)
        status = explain_files(found.inputs, found.json, printer.line, printer.say)
        return FAILED if printer.failed else status
    return Run(found).run()


def main(words: Optional[Sequence[str]] = None) -> int:
    """Runs the command; returns the status."""
    _open_streams()
    _handle_signals()
    try:
        return _run_words(sys.argv[1:] if words is None else words)
    except (OSError, ImportError) as error:
        _say(f"rnxcmp-file: ERROR: {_words_of(error)}")
        return FAILED


def __getattr__(name: str) -> object:
    """Loads the calls for files, which the command doesn't need."""
    if name in ("compress_on_disk", "decompress_on_disk"):
        from . import _on_disk

        return getattr(_on_disk, name)
    raise AttributeError(f"module {__name__!r} has no attribute {name!r}")


if __name__ == "__main__":
    sys.exit(main())
