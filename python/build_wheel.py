#!/usr/bin/env python3
"""Makes a wheel of the package:

    build_wheel.py LIBRARY FOLDER [--program PROGRAM] [--tag TAG]

LIBRARY is the folder that library/build.sh or build_windows.sh made, PROGRAM the static program, which goes into the wheel with its other
names, and TAG the platform, by default manylinux2014_x86_64. The same sources make the same bytes: entries are in one order, with the time
of SOURCE_DATE_EPOCH, or 1980. ADDRESS is the folder of these pages on the web, with a slash at its end. It needs only Python's standard
library.
"""

import argparse
import base64
import hashlib
import os
import re
import sys
import time
import zipfile
from pathlib import Path

HERE = Path(__file__).resolve().parent
TAG = "manylinux2014_x86_64"
WINDOWS = "win_"  # with which the tags of Windows begin
SYSTEMS = {WINDOWS: "Microsoft :: Windows", "": "POSIX :: Linux"}
LICENCES = ("LICENSE-MIT", "LICENSE-APACHE", "NOTICES")


def description():
    """README, with links that work on a page of an index: below ADDRESS, or none if that isn't set."""
    address = os.environ.get("ADDRESS", "")
    text = (HERE.parent / "README.md").read_text(encoding="utf-8")
    return re.sub(r"\[([^]]*)\]\((?!\w+:)([^)]*)\)", rf"[\1]({address}\2)" if address else r"\1", text)


def metadata(version, tag):
    """The fields, and README as the description."""
    files = "".join(f"License-File: {name}\n" for name in LICENCES)
    system = next(SYSTEMS[begin] for begin in SYSTEMS if tag.startswith(begin))
    return (
        "Metadata-Version: 2.4\nName: rnxcmp\n"
        f"Version: {version}\n"
        "Summary: RINEX 3.0x observation files and Compact RINEX 3.0 (Hatanaka's format), over a proved library\n"
        f"License-Expression: MIT OR Apache-2.0\n{files}Requires-Python: >=3.8\n"
        f"Classifier: Operating System :: {system}\nClassifier: Typing :: Typed\n"
        f"Description-Content-Type: text/markdown\n\n{description()}"
    )


def licences():
    """The files of licences by name; NOTICES may be set to the file of that name."""
    files = {name: HERE.parent / name for name in LICENCES}
    files["NOTICES"] = Path(os.environ.get("NOTICES", files["NOTICES"]))
    return files


def record_line(name, data):
    digest = base64.urlsafe_b64encode(hashlib.sha256(data).digest()).rstrip(b"=").decode()
    return f"{name},sha256={digest},{len(data)}\n"


def programs(program, tag):
    """The installed commands by name: the program and its other names. On Windows, which knows no capitals in names, they are copies of it."""
    if program is None:
        return {}
    commands = {program.name: program.read_bytes()}
    for name in ("RNX2CRX", "CRX2RNX"):
        if tag.startswith(WINDOWS):
            commands[f"{name}.exe"] = program.read_bytes()
        else:
            commands[name] = commands[name.lower()] = (HERE.parent / "packaging/bin" / name).read_bytes()
    return commands


def contents(library, version, program, tag):
    """The files of the wheel by name, without its record."""
    info = f"rnxcmp-{version}.dist-info"
    package = sorted((HERE / "rnxcmp").glob("*.py")) + [HERE / "rnxcmp" / "py.typed"]
    files = {f"rnxcmp/{path.name}": path.read_bytes() for path in package}
    shared = "librnxcmp-2.dll" if tag.startswith(WINDOWS) else "librnxcmp.so.2"
    files[f"rnxcmp/{shared}"] = (library / shared).read_bytes()
    files.update({f"rnxcmp-{version}.data/scripts/{name}": data for name, data in programs(program, tag).items()})
    files[f"{info}/entry_points.txt"] = b"[console_scripts]\nrnxcmp-file = rnxcmp.files:main\n"
    files.update({f"{info}/licenses/{name}": path.read_bytes() for name, path in licences().items()})
    files[f"{info}/METADATA"] = metadata(version, tag).encode()
    files[f"{info}/WHEEL"] = f"Wheel-Version: 1.0\nGenerator: rnxcmp build_wheel.py\nRoot-Is-Purelib: false\nTag: py3-none-{tag}\n".encode()
    return info, files


def build(library, folder, program=None, tag=TAG):
    version = (HERE.parent / "VERSION").read_text().strip().replace("-dev", ".dev0")
    info, files = contents(library, version, program, tag)
    record = "".join(record_line(name, data) for name, data in files.items()) + f"{info}/RECORD,,\n"
    files[f"{info}/RECORD"] = record.encode()
    moment = time.gmtime(max(int(os.environ.get("SOURCE_DATE_EPOCH", "0")), 315532800))[:6]
    folder.mkdir(parents=True, exist_ok=True)
    wheel = folder / f"rnxcmp-{version}-py3-none-{tag}.whl"
    with zipfile.ZipFile(wheel, "w") as archive:
        for name, data in files.items():
            entry = zipfile.ZipInfo(name, moment)
            entry.compress_type = zipfile.ZIP_DEFLATED
            entry.create_system = 3
            runs = "/scripts/" in name or name.endswith((".so.2", ".dll"))
            entry.external_attr = (0o100755 if runs else 0o100644) << 16
            archive.writestr(entry, data)
    return wheel


def build_wheel(wheel_directory, config_settings=None, metadata_directory=None):
    """What pip calls for `pip install ./python` (pyproject.toml): the wheel of the library that `make library` left, and of the static program
    where `make python` made it."""
    library, program = HERE.parent / "out/library", HERE.parent / "out/machines/x86-64-v2/built/rnxcmp"
    if not (library / "librnxcmp.so.2").exists():
        sys.exit(f"there is no library in {library}: run make library first")
    return build(library, Path(wheel_directory), program if program.exists() else None).name


def main():
    parser = argparse.ArgumentParser(description=__doc__, formatter_class=argparse.RawDescriptionHelpFormatter)
    parser.add_argument("library", type=Path)
    parser.add_argument("folder", type=Path)
    parser.add_argument("--program", type=Path)
    parser.add_argument("--tag", default=TAG)
    arguments = parser.parse_args()
    print(build(arguments.library, arguments.folder, arguments.program, arguments.tag))


if __name__ == "__main__":
    main()
