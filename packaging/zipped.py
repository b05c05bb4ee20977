#!/usr/bin/env python3
"""Packs a folder as a zip, under the folder's name: zipped.py FOLDER FILE. The same files make the same bytes: they stand in one order, with
the time of SOURCE_DATE_EPOCH."""

import os
import sys
import time
import zipfile
from pathlib import Path

folder, target = map(Path, sys.argv[1:])
moment = time.gmtime(int(os.environ["SOURCE_DATE_EPOCH"]))[:6]
with zipfile.ZipFile(target, "w") as archive:
    for path in sorted(path for path in folder.rglob("*") if path.is_file()):
        entry = zipfile.ZipInfo(str(Path(folder.name) / path.relative_to(folder)), moment)
        entry.compress_type = zipfile.ZIP_DEFLATED
        entry.create_system = 3
        entry.external_attr = (0o100755 if os.access(path, os.X_OK) else 0o100644) << 16
        archive.writestr(entry, path.read_bytes())
