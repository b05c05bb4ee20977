"""How a file gets its name, in the order of the system's calls, and who may read it."""

import os
import re
import shutil
import stat
import struct

from place import ANOTHER_USER, GOOD, OLD, Place, differs, is_traced

TEMPORARY = r"part\.rnxcmp-file\.[0-9a-f]{16}"


def calls_on(place, words, calls):
    """The calls of a run, in order."""
    trace = place.work / "trace"
    run = place.run(*words, through=("strace", "-f", "-qq", "-y", "-o", str(trace), "-e", f"trace={calls}"))
    return run, trace.read_text()


def in_order(calls, steps):
    """The steps that aren't among the calls after the step before."""
    wrong, at = [], 0
    for step in steps:
        found = re.compile(step).search(calls, at)
        wrong += [] if found else [f"not in its order: {step}"]
        at = found.end() if found else at
    return wrong


def order_of_calls(texts):
    """The temporary file has its mode and times, is on the disk, and is read from there through the descriptor that wrote it, before it gets its
    name; then its folder is flushed. So it is with the list, and an output that exists is flushed before it is read from the disk. Each folder that
    --to makes is flushed into the one above it."""
    with Place() as place:
        place.write("a.rnx", GOOD).chmod(0o644)
        run, calls = calls_on(place, ("rnx2crx", "--verified-to", "list", "a.rnx"), "openat,write,fchown,fchmod,utimensat,fsync,fadvise64,read,close,linkat,unlinkat")
        home = rf"\(\d+<{re.escape(str(place.work))}>"
        file = rf"\(\d+<{re.escape(str(place.work))}/{TEMPORARY}>"
        steps = ("openat.*O_RDWR.O_CREAT.O_EXCL.O_CLOEXEC, 0600", rf"write{file}", rf"fchown{file}", rf"fchmod{file}, 0644", rf"utimensat{file}", rf"fsync{file}\) += 0")
        steps += (rf"fadvise64{file}, 0, 0, POSIX_FADV_DONTNEED", rf"read{file}", rf"close{file}", "linkat.* = 0", f"unlinkat{home}", rf"fsync{home}\) += 0")
        steps += (rf"write{file}, \"/", rf"fsync{file}\) += 0", "linkat.*list", rf"fsync{home}\) += 0")
        opened = re.findall(rf'openat\([^\n]*"{TEMPORARY}"', calls)
        wrong = ([] if run.returncode == 0 and len(opened) == 2 else [f"{run}, {opened}"]) + in_order(calls, steps)
        run, calls = calls_on(place, ("rnx2crx", "--verify", "a.rnx"), "fsync,fadvise64,read")  # the output that exists now
        output = rf"\(\d+<{re.escape(str(place.work))}/a.crx>"
        wrong += in_order(calls, (f"fsync{output}", f"fsync{home}", f"fadvise64{output}, 0, 0, POSIX_FADV_DONTNEED", f"read{output}"))
        run, calls = calls_on(place, ("rnx2crx", "--to", "one/two", "a.rnx"), "mkdir,fsync,linkat")
        one, two = (rf"fsync\(\d+<{re.escape(str(place.work))}/{name}>\) += 0" for name in ("one", "one/two"))
        return wrong + in_order(calls, ('mkdir."one"', rf"fsync{home}\) += 0", 'mkdir."one/two"', one, "linkat.* = 0", two))


def modes(texts):
    """Mode, times and owner are the input's; if the group can't be given, group and others get what both had."""
    wrong, is_root = [], os.geteuid() == 0 and shutil.which("setpriv")
    cases = [((), mode, mode & 0o777, 12345) for mode in (0o600, 0o640, 0o444, 0o666, 0o4755)]
    if is_root:
        cases += [(ANOTHER_USER, *both, 65534) for both in ((0o664, 0o644), (0o604, 0o600), (0o640, 0o600), (0o666, 0o666), (0o755, 0o755))]
        cases += [(ANOTHER_USER, 0o046, 0o444, 12345), ((*ANOTHER_USER[:3], "--groups=23456"), 0o640, 0o640, 12345)]
    for through, mode, wanted, owner in cases:
        with Place() as place:
            place.work.chmod(0o777)
            source = place.write("a.rnx", GOOD)
            os.utime(source, ns=(OLD * 10**9 + 123456789, OLD * 10**9 + 987654321))
            if is_root:
                os.chown(source, owner, 23456)
            source.chmod(mode)
            lines = differs(place.run("rnx2crx", "a.rnx", through=through), 0, ["made a.crx"])
            one, other = source.stat(), (place.work / "a.crx").stat()
            kept = ["st_mtime_ns"] + ["st_uid"] * (owner == 65534 or not through) + ["st_gid"] * ("--clear-groups" not in through)
            lines += [f"another {what}" for what in kept if getattr(one, what) != getattr(other, what)]
            wrong += [f"{mode:o}: {line}" for line in lines + ([] if stat.S_IMODE(other.st_mode) == wanted else [f"mode {other.st_mode:o}"])]
    return wrong


NOBODY = 0xFFFFFFFF
ACCESS, INHERITED = "system.posix_acl_access", "system.posix_acl_default"
LIST = struct.pack("<I", 2) + b"".join(struct.pack("<HHI", *entry) for entry in ((1, 6, NOBODY), (2, 6, 12345), (4, 0, NOBODY), (16, 4, NOBODY), (32, 4, NOBODY)))


def access_lists(texts):
    """If the input has an access control list, or the folder gives one to each new file, only the owner may read the output."""
    wrong = []
    for script in ("", "for name in ('getxattr', 'listxattr'):\n    delattr(os, name)"):
        for name in (ACCESS, INHERITED):
            with Place() as place:
                source = place.write("a.rnx", GOOD)
                source.chmod(0o644)
                try:
                    os.setxattr(source if name == ACCESS else place.work, name, LIST)
                except OSError:
                    return "this disk has no access control lists"
                wrong += differs(place.changed(script, "rnx2crx", "a.rnx"), 0)
                mode = stat.S_IMODE((place.work / "a.crx").stat().st_mode)
                wrong += [] if mode == 0o600 else [f"{name}: {mode:o}"]  # the bits of the group are the list's mask
    return wrong


def checks(texts):
    yield "order of calls", lambda: order_of_calls(texts) if is_traced() else "strace may not trace here"
    yield "modes", lambda: modes(texts)
    yield "access control lists", lambda: access_lists(texts)
