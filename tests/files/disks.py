"""rnxcmp-file on disks of all kinds, and power cuts: what only root can try. Each disk goes with the test.

A power cut is the call of ext4 that stops all writing at once (EXT4_IOC_SHUTDOWN), at a random moment, on a disk in a file; then it is
mounted again, and what is there is looked at: every input as it was, each output the old or the whole new one, and all that was called
verified before the cut.
"""

import fcntl
import os
import random
import shutil
import socket
import subprocess
import sys
import time
from contextlib import ExitStack, contextmanager
from pathlib import Path

from place import DIRECTIONS, ENVIRONMENT, GOOD, SECONDS, TOOL, Place, Promise, differs, marked
from promises import LIST
from signals import BATCH, after_its_end, command_of, lines_up_to_a_moment, prepared

FILES = 200
SHUTDOWN = 0x8004587D  # EXT4_IOC_SHUTDOWN
NO_FLUSH = (2).to_bytes(4, sys.byteorder)  # what the journal holds isn't written any more
REFUSED = "this disk can't name a file without replacing; -f renames over the old file"
SSHD = """ListenAddress 127.0.0.1
Port {port}
HostKey {key}
AuthorizedKeysFile {key}.pub
PidFile none
StrictModes no
UsePAM no
PasswordAuthentication no
PermitRootLogin prohibit-password
Subsystem sftp internal-sftp
"""


def call(*words):
    run = subprocess.run([str(word) for word in words], capture_output=True, text=True)
    if run.returncode:
        raise OSError(f"{words}: {run.stderr}{run.stdout}")


@contextmanager
def mounted(top, *words):
    """A folder on which something is mounted, by a command whose last word it is."""
    top.mkdir(exist_ok=True)
    call(*words, top)
    try:
        yield top
    finally:
        until = time.monotonic() + SECONDS
        while subprocess.run(["umount", top], capture_output=True).returncode and time.monotonic() < until:
            time.sleep(0.05)


def image(folder, *make):
    """A disk in a file, made by a command whose last word it is."""
    path = folder / "image"
    path.unlink(missing_ok=True)
    with path.open("wb") as file:
        file.truncate(64 << 20)
    call(*make, path)
    return path


@contextmanager
def loop_device(path):
    name = subprocess.run(["losetup", "--find", "--show", path], capture_output=True, text=True, check=True).stdout.strip()
    try:
        yield name
    finally:
        call("losetup", "--detach", name)


@contextmanager
def ssh_server(folder):
    """An sshd on this machine alone, with keys of its own: its port."""
    Path("/run/sshd").mkdir(mode=0o755, exist_ok=True)
    with socket.socket() as opened:
        opened.bind(("127.0.0.1", 0))
        port = opened.getsockname()[1]
    call("ssh-keygen", "-q", "-t", "ed25519", "-N", "", "-f", folder / "key")
    (folder / "config").write_text(SSHD.format(port=port, key=folder / "key"))
    run = subprocess.Popen([shutil.which("sshd", path="/usr/sbin:/sbin"), "-D", "-e", "-f", folder / "config"], stderr=subprocess.DEVNULL)
    try:
        with socket.socket() as opened:
            while opened.connect_ex(("127.0.0.1", port)) and run.poll() is None:
                time.sleep(0.05)
        yield port
    finally:
        run.terminate()
        run.wait()


def sshfs(folder, port, top):
    options = f"port={port},IdentityFile={folder / 'key'},StrictHostKeyChecking=no,UserKnownHostsFile=/dev/null,LogLevel=ERROR"
    return mounted(top, "sshfs", "-o", options, f"root@127.0.0.1:{folder / 'shared'}")


# ---- 200 files, compacted and expanded, twice


def files_on(top, texts, direction, acl=False):
    """Fills a folder with inputs of a direction: their names and contents."""
    found = {}
    for number in range(FILES):
        text = marked(GOOD, number)
        name, content = (f"{number}.rnx", text) if direction == "rnx2crx" else (f"{number}.crx", texts.filtered(text, "rnx2crx", "--date", "x"))
        (top / name).write_bytes(content)
        if acl:
            os.setxattr(top / name, "system.posix_acl_access", LIST)
        found[name] = content
    (top / "names").write_bytes(b"".join(name.encode() + b"\0" for name in found))
    return found


def start(top, direction, listed, *more):
    return subprocess.Popen([*TOOL, direction, "--verified-to", listed, "--inputs", "names", *more], cwd=top, env=ENVIRONMENT, stdout=subprocess.PIPE, stderr=subprocess.PIPE, text=True)


def end(run):
    out, errors = run.communicate(timeout=10 * SECONDS)
    return subprocess.CompletedProcess(run.args, run.returncode, out, errors)


def told(state):
    return [f"{FILES} files: {FILES if state == 'made' else 0} made, {FILES if state == 'replaced' else 0} replaced, {FILES if state == 'there' else 0} there already, 0 errors; verified: {FILES} exact"]


def after(top, texts, direction, inputs, lists, mode=None):
    """What is wrong with the files of a folder after the runs."""
    outputs = {name.replace("rnx", "crx") if direction == "rnx2crx" else name.replace("crx", "rnx"): number for number, name in enumerate(inputs)}
    wrong = [f"{name} was changed" for name, content in inputs.items() if (top / name).read_bytes() != content]
    for name, number in outputs.items():
        text = (top / name).read_bytes() if (top / name).exists() else b""
        wrong += [] if texts.held(direction, text) == marked(GOOD, number) else [f"{name} isn't this input's"]
        wrong += [f"{name}: mode {(top / name).stat().st_mode:o}"] if mode is not None and (top / name).stat().st_mode & 0o777 != mode else []
    wrong += [f"{name} hasn't all names" for name in lists if (top / name).read_bytes().count(b"\0") != FILES]
    left = set(os.listdir(top)) - {*inputs, *outputs, *lists, "names"}
    return wrong[:5] + ([f"left: {left}"] if left else [])


def twice(top, texts, acl=False):
    """In both directions: all are made and verified, are there already in the second run, and nothing is left."""
    wrong = []
    for direction in ("rnx2crx", "crx2rnx"):
        work = top / direction
        work.mkdir()
        inputs = files_on(work, texts, direction, acl)
        for listed, state in (("one", "made"), ("two", "there")):
            wrong += differs(end(start(work, direction, listed, *(("-j", "4") if direction == "crx2rnx" else ()))), 0, told(state))
        wrong += after(work, texts, direction, inputs, ("one", "two"), 0o600 if acl else None)
    return wrong


def loop_ext4(folder):
    return mounted(folder / "top", "mount", "-o", "loop", image(folder, "mkfs.ext4", "-q", "-F"))


def bindfs(folder, *more):
    os.mkdir(folder / "below")
    return mounted(folder / "top", "bindfs", *more, folder / "below")


# the disks on which all goes as on any other: what each needs, and how it is mounted
PLAIN = {
    "ext4": (("mkfs.ext4",), loop_ext4),
    "ext4, inputs with access control lists": (("mkfs.ext4",), loop_ext4),
    "tmpfs": ((), lambda folder: mounted(folder / "top", "mount", "-t", "tmpfs", "tmpfs")),
    "ntfs-3g": (("ntfs-3g", "mkfs.ntfs"), lambda folder: mounted(folder / "top", "ntfs-3g", image(folder, "mkfs.ntfs", "-q", "-F", "-f"))),
    "bindfs": (("bindfs",), bindfs),
    "bindfs with one mode": (("bindfs",), lambda folder: bindfs(folder, "--perms=0755", "--chmod-ignore", "--chown-ignore")),
}


def on_plain(name, texts, folder):
    with PLAIN[name][1](folder) as top:
        return twice(top, texts, "lists" in name)


def on_sshfs(texts, folder):
    """Two mounts of one folder, on which two runs do the same files at once."""
    (folder / "shared").mkdir()
    wrong = []
    with ssh_server(folder) as port, ExitStack() as stack:
        tops = [stack.enter_context(sshfs(folder, port, folder / name)) for name in ("a", "b")]
        wrong += twice(tops[0], texts)
        work = folder / "shared/both"
        work.mkdir()
        inputs = files_on(work, texts, "rnx2crx")
        for number in range(2):
            for run in [start(top / "both", "rnx2crx", f"{top.name}{number}") for top in tops]:
                wrong += differs(end(run), 0, ["0 errors", f"verified: {FILES} exact"])
        return wrong + after(work, texts, "rnx2crx", inputs, ("a0", "b0", "a1", "b1"))


def from_a_source_that_is_read_only(texts, folder):
    """Each input is below a folder that can't be written to, and -o names a place elsewhere."""
    wrong = []
    for direction in ("rnx2crx", "crx2rnx"):
        (folder / direction).mkdir()
        inputs = files_on(folder / direction, texts, direction)
        with mounted(folder / "top", "mount", "--bind", "-o", "ro", folder / direction) as top, Place() as place:
            for name in inputs:
                promise = Promise(texts, direction, place, top / name, f"{name[:-4]}{DIRECTIONS[direction][1]}")
                for state in ("made", "is there already"):
                    run = place.run(direction, "--verified-to", f"{name} {state}", "-o", promise.output.name, str(top / name))
                    wrong += differs(run, 0, [state, "verified exact"]) + promise.broken(run.stdout)
            wrong += differs(end(start(top, direction, place.work / "list", "--to", place.work / "out", "-j", "4")), 0, told("made"))
            wrong += [f"left: {place.parts()}"] if place.parts() or len(place.names()) != 3 * FILES + 2 else []
    return wrong[:6]


def on_exfat(texts, folder):
    """A disk by FUSE that has no call for it: refused with the way out, and right with -f."""
    with loop_device(image(folder, "mkfs.exfat")) as device, mounted(folder / "top", "mount.exfat-fuse", device) as top:
        wrong = []
        for direction in ("rnx2crx", "crx2rnx"):
            work = top / direction
            work.mkdir()
            inputs = files_on(work, texts, direction)
            run = end(subprocess.Popen([*TOOL, direction, "--verify", "--inputs", "names"], cwd=work, env=ENVIRONMENT, stdout=subprocess.PIPE, stderr=subprocess.PIPE, text=True))
            wrong += [] if run.returncode == 1 and run.stderr.count(REFUSED) == FILES and set(os.listdir(work)) == {*inputs, "names"} else [f"{run}, {os.listdir(work)}"[-900:]]
            for listed, state in (("one", "made"), ("two", "replaced")):
                wrong += differs(end(start(work, direction, listed, "-f")), 0, told(state))
            wrong += after(work, texts, direction, inputs, ("one", "two"))
        return wrong


KINDS = {  # what is tried on disks, and what each needs
    **{name: (needed, lambda texts, folder, name=name: on_plain(name, texts, folder)) for name, (needed, _) in PLAIN.items()},
    "sshfs mounted twice": (("sshfs", "sshd", "ssh-keygen"), on_sshfs),
    "a read-only source": ((), from_a_source_that_is_read_only),
    "exfat-fuse": (("mount.exfat-fuse", "mkfs.exfat", "losetup"), on_exfat),
}


def on_disk(name, texts, folder):
    """What is wrong on a disk, or why it was left out."""
    needed, check = KINDS[name]
    lacking = [tool for tool in needed if not shutil.which(tool, path=f"{os.environ['PATH']}:/usr/sbin:/sbin")]
    if lacking:
        return f"there is no {', '.join(lacking)}"
    work = folder / name.replace(" ", "_")
    work.mkdir()
    return check(texts, work)


# ---- disks that lose power


CUTS = {"default": ((), "loop"), "writeback": ((), "loop,data=writeback,noauto_da_alloc"), "no journal": (("-O", "^has_journal"), "loop")}


def cut_power(top):
    opened = os.open(top, os.O_RDONLY)
    try:
        fcntl.ioctl(opened, SHUTDOWN, NO_FLUSH)
    finally:
        os.close(opened)


def one_cut(texts, folder, disk, options, dice):
    """One call, and a power cut while it is at work: what is wrong then, and whether the cut came in time."""
    mount = ("mount", "-o", options, disk)
    with mounted(folder / "top", *mount) as top:
        place = Place(top)
        place.holder._finalizer.detach()
        promises = prepared(texts, place, dice)
        call("sync", "-f", place.work)
        command = command_of(promises)
        run = subprocess.Popen(command, cwd=place.work, env=ENVIRONMENT, stdout=subprocess.PIPE, stderr=subprocess.DEVNULL, text=True)
        said = lines_up_to_a_moment(run, dice)
        at_work = run.poll() is None
        cut_power(top)
        run.kill()
        said += run.communicate()[0].splitlines()
    if subprocess.run(["e2fsck", "-fy", disk] if "journal" in folder.name else ["true"], capture_output=True).returncode > 2:
        return ["e2fsck failed"], at_work
    with mounted(folder / "top", *mount):
        wrong = after_its_end(place, promises, command, said)
        shutil.rmtree(place.work)
    return wrong, at_work


def power_cuts(texts, folder, kind, count):
    make, options = CUTS[kind]
    work = folder / f"cut {kind}"
    work.mkdir()
    disk, dice = image(work, "mkfs.ext4", "-q", "-F", *make), random.Random(kind)
    ended = [one_cut(texts, work, disk, options, dice) for _ in range(count)]
    cut = sum(at_work for _, at_work in ended)
    print(f"    {kind}: {count} power cuts, {cut} while the run was at work, {count * BATCH} files", flush=True)
    return [line for lines, _ in ended for line in lines][:8] + ([] if cut else ["no run was at work when the power was cut"])


def checks(texts, folder, cuts):
    if os.geteuid() or not shutil.which("mkfs.ext4") or not Path("/dev/loop-control").exists():
        yield "disks", lambda: "only root can mount disks, with mkfs.ext4 and loop devices"
        return
    for name in KINDS:
        yield f"{FILES} files: {name}", lambda name=name: on_disk(name, texts, folder)
    for kind in CUTS:
        yield f"power cuts: {kind}", lambda kind=kind: power_cuts(texts, folder, kind, -(-cuts // 3))
