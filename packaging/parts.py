#!/usr/bin/env python3
"""Writes the list of a release's parts and files as SPDX 2.3 (JSON), from VERSION and the table in NOTICES:

    packaging/parts.py SECONDS MACHINE FOLDER > parts.spdx.json

SECONDS, since 1970, is the time that the list says it was made. Each file below FOLDER is there with its sums. MACHINE is one of
packaging/machine.sh: its compiler and C library are parts of the static program.
"""

import hashlib
import json
import re
import subprocess
import sys
from datetime import datetime, timezone
from pathlib import Path

TOP = Path(__file__).resolve().parents[1]
COMPILERS = {"aarch64": "aarch64-linux-gnu-gcc", "windows": "x86_64-w64-mingw32-gcc"}
LIST = "parts.spdx.json"  # which has no sum of its own
# What a C library says of its version: a name of the preprocessor, and what begins the files that have it.
VERSIONS = {"glibc": ("features.h", "__GLIBC__.__GLIBC_MINOR__"), "mingw-w64": ("_mingw.h", "__MINGW64_VERSION_MAJOR.__MINGW64_VERSION_MINOR")}


def rows(machine):
    """Name, version, licence and purpose of each part of a machine's program."""
    table = (TOP / "NOTICES").read_text().split("\nName ", 1)[1].split("\n\n", 1)[0]
    other = "glibc" if machine == "windows" else "mingw-w64"
    return [row for row in (re.split(r" {2,}", line) for line in table.splitlines()[1:]) if row[0] != other]


def of_compiler(compiler, *words, text=""):
    return subprocess.run([compiler, *words], input=text, capture_output=True, text=True, check=True).stdout.strip()


def version_of(name, version, machine):
    if name == "rnxcmp":
        return (TOP / "VERSION").read_text().strip()
    if version != "build":
        return version
    if name == "rattle":
        return of_compiler("rt", "version")
    compiler = COMPILERS.get(machine, "gcc")
    if name not in VERSIONS:
        return of_compiler(compiler, "-dumpfullversion")
    header, expression = VERSIONS[name]
    return re.sub(r"\s", "", of_compiler(compiler, "-E", "-P", "-", text=f"#include <{header}>\n{expression}\n").splitlines()[-1])


def package(name, version, licence, purpose):
    return {
        "SPDXID": f"SPDXRef-{name}",
        "name": name,
        "versionInfo": version,
        "summary": purpose,
        "licenseDeclared": licence,
        "licenseConcluded": "NOASSERTION",
        "copyrightText": "NOASSERTION",
        "downloadLocation": "NOASSERTION",
        "filesAnalyzed": False,
    }


def files_of(folder):
    """Each file with its sums."""
    found = []
    for number, path in enumerate(sorted(path for path in folder.rglob("*") if path.is_file() and not path.is_symlink() and path.name != LIST)):
        data = path.read_bytes()
        sums = [{"algorithm": name.upper(), "checksumValue": hashlib.new(name, data).hexdigest()} for name in ("sha1", "sha256")]
        found.append({"SPDXID": f"SPDXRef-File-{number}", "fileName": f"./{path.relative_to(folder)}", "checksums": sums, "copyrightText": "NOASSERTION"})
    return found


def relation(first, kind, second):
    return {"spdxElementId": f"SPDXRef-{first}", "relationshipType": kind, "relatedSpdxElement": f"SPDXRef-{second}"}


def code_of(files):
    """The sum over the files' sums by which SPDX knows a package."""
    return hashlib.sha1("".join(sorted(file["checksums"][0]["checksumValue"] for file in files)).encode()).hexdigest()


def main(seconds, machine, folder):
    files = files_of(folder)
    packages = [package(name, version_of(name, version, machine), licence, purpose) for name, version, licence, purpose in rows(machine)]
    packages[0].update(filesAnalyzed=True, packageVerificationCode={"packageVerificationCodeValue": code_of(files)}, hasFiles=[file["SPDXID"] for file in files])
    version = packages[0]["versionInfo"]
    document = {
        "spdxVersion": "SPDX-2.3",
        "dataLicense": "CC0-1.0",
        "SPDXID": "SPDXRef-DOCUMENT",
        "name": f"rnxcmp-{version}-{machine}",
        "documentNamespace": f"https://spdx.org/spdxdocs/rnxcmp-{version}-{machine}-{code_of(files)}",
        "creationInfo": {"created": datetime.fromtimestamp(seconds, timezone.utc).strftime("%Y-%m-%dT%H:%M:%SZ"), "creators": ["Tool: packaging/parts.py"]},
        "packages": packages,
        "files": files,
        "relationships": [relation("DOCUMENT", "DESCRIBES", "rnxcmp")] + [relation("rnxcmp", "CONTAINS", part["name"]) for part in packages[1:]],
    }
    json.dump(document, sys.stdout, indent=1)
    print()


if __name__ == "__main__":
    main(int(sys.argv[1]), sys.argv[2], Path(sys.argv[3]))
