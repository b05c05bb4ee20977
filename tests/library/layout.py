"""What C, Fortran and Python say of the interface, compared: the size of each struct and where its fields stand, both enums, the numbers
that the header names, the words of faults 0 to 30 and of statuses 0 to 10, and the version."""

import os
import re
import shutil
import subprocess
import sys
from pathlib import Path

TOP = Path(__file__).resolve().parents[2]
FAULTS, STATUSES = 31, 11

IN_PYTHON = """
import ctypes, sys
from rnxcmp import _library as l
for name in sys.argv[1].split():
    print(name, getattr(l, name.removeprefix("RNXCMP_")))
for title, struct in (("rnxcmp_options", l.Options), ("rnxcmp_answer", l.Answer), ("rnxcmp_handle", l.Handle)):
    print("sizeof", title, ctypes.sizeof(struct))
    for name, kind in struct._fields_:
        print(title, name, getattr(struct, name).offset, ctypes.sizeof(kind))
for code in range(int(sys.argv[2])):
    print("words", code, l.LIBRARY.rnxcmp_words(code).decode())
for status in range(int(sys.argv[3])):
    print("status", status, l.LIBRARY.rnxcmp_status_words(status).decode())
print("version", l.LIBRARY.rnxcmp_version().decode())
"""


def declared(header):
    """The numbers that a header names, and the fields of its structs."""
    plain = re.sub(r"/\*.*?\*/", "", header, flags=re.S)
    names = re.findall(r"^    (RNXCMP_\w+) =", plain, re.M) + re.findall(r"[{,] (RNXCMP_\w+) =", plain) + re.findall(r"#define (RNXCMP_\w+) \d+$", plain, re.M)
    structs = re.findall(r"typedef struct (\w+) \{(.*?)\}", plain, re.S)
    return names, {name: re.findall(r"(\w+);", fields) for name, fields in structs}


def in_c(names, structs):
    """A program that prints all of it."""
    lines = [f'printf("{name} %d\\n", (int){name});' for name in names]
    for struct, fields in structs.items():
        lines.append(f'printf("sizeof {struct} %zu\\n", sizeof({struct}));')
        lines += [f'printf("{struct} {field} %zu %zu\\n", offsetof({struct}, {field}), sizeof((({struct} *)0)->{field}));' for field in fields]
    lines += [f'for (uint32_t k = 0; k < {FAULTS}; k++) printf("words %u %s\\n", k, rnxcmp_words(k));']
    lines += [f'for (uint32_t k = 0; k < {STATUSES}; k++) printf("status %u %s\\n", k, rnxcmp_status_words(k));']
    lines += ['printf("version %s\\n", rnxcmp_version());']
    return "#include <rnxcmp.h>\n#include <stdio.h>\nint main(void) {\n" + "\n".join(lines) + "\nreturn 0;\n}\n"


def in_fortran(names, structs):
    """The same, but for the fields of the handle, which are private."""
    lines = [f"print '(a, 1x, i0)', '{name}', {name}" for name in names]
    for struct, fields in structs.items():
        lines.append(f"print '(a, 1x, i0)', 'sizeof {struct}', c_sizeof({struct}_)")
        for field in fields if struct != "rnxcmp_handle" else []:
            lines.append(f"print '(a, 1x, i0, 1x, i0)', '{struct} {field}', &\ntransfer(c_loc({struct}_%{field}), 0_c_intptr_t) - &")
            lines.append(f"transfer(c_loc({struct}_), 0_c_intptr_t), c_sizeof({struct}_%{field})")
    lines += [f"do k = 0, {FAULTS - 1}", "print '(a, 1x, i0, 1x, a)', 'words', k, rnxcmp_words(k)", "end do"]
    lines += [f"do k = 0, {STATUSES - 1}", "print '(a, 1x, i0, 1x, a)', 'status', k, rnxcmp_status_words(k)", "end do"]
    lines += ["print '(a, 1x, a)', 'version', rnxcmp_version()"]
    variables = "\n".join(f"type({struct}), target :: {struct}_" for struct in structs)
    uses = "use rnxcmp\nuse, intrinsic :: iso_c_binding, only: c_sizeof, c_loc, c_intptr_t, c_int32_t"
    return f"program layout\n{uses}\nimplicit none\n{variables}\ninteger(c_int32_t) :: k\n" + "\n".join(lines) + "\nend program\n"


def printed(command, sources, work, library):
    """What a compiled program prints."""
    target = work / f"layout_{command[0]}"
    compiled = subprocess.run([*command, *sources, "-L", library, "-lrnxcmp", f"-Wl,-rpath,{library}", "-o", target], cwd=work, capture_output=True, text=True)
    if compiled.returncode:
        return compiled.stderr.splitlines()[-20:]
    return subprocess.run([target], check=True, capture_output=True, text=True).stdout.splitlines()


def by_python(names, library, package):
    environment = {**os.environ, "PYTHONPATH": str(package), "RNXCMP_LIBRARY": str(library / "librnxcmp.so")}
    command = [sys.executable, "-c", IN_PYTHON, " ".join(names), str(FAULTS), str(STATUSES)]
    return subprocess.run(command, check=True, capture_output=True, text=True, env=environment).stdout.splitlines()


def wanted_words():
    """The words of faults as docs/FORMATS.md has them, and the version."""
    words = dict(re.findall(r"^\| (\d+) \| `([^`]+)` \|", (TOP / "docs/FORMATS.md").read_text(), re.M))
    return [f"words {code} {words.get(str(code), '')}" for code in range(FAULTS)] + [f"version {(TOP / 'VERSION').read_text().strip()}"]


def differences(title, one, other):
    """The lines that one has, and the other lacks."""
    stripped = {line.rstrip() for line in other}
    return [f"{title}: {line}" for line in one if line.rstrip() not in stripped]


def wrong(library, package, work):
    """What differs, as lines."""
    names, structs = declared((library / "rnxcmp.h").read_text())
    if len(names) < 12 or len(structs) != 3:
        return [f"the header declares {names} and {structs}"]
    (work / "layout.c").write_text(in_c(names, structs))
    from_c = printed(["gcc", "-I", library], ["layout.c"], work, library)
    from_python = by_python(names, library, package)
    found = differences("Python lacks", from_c, from_python) + differences("C lacks", from_python, from_c)
    found += differences("C lacks what the documents have", wanted_words(), from_c)
    if shutil.which("gfortran"):
        (work / "layout.f90").write_text(in_fortran(names, structs))
        from_fortran = printed(["gfortran"], [library / "rnxcmp.f90", "layout.f90"], work, library)
        found += differences("C lacks what Fortran has", from_fortran, from_c)
        found += differences("Fortran lacks", [line for line in from_c if not line.startswith("rnxcmp_handle")], from_fortran)
    return found

