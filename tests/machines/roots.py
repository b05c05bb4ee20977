"""The lines of README.md and of docs/USE.md that install a release and use it, in roots of other systems, as they are printed.

The release is what `make dist` made in out/dist, for x86-64-v2, aarch64 and windows. out/roots has roots of Debian 11, Debian 12 and
Debian 12 on 64-bit ARM: where one isn't there, debootstrap makes it, from MIRROR of the environment, and later runs take it as it is.
The other roots are made here: busybox alone, an empty environment of Python, and Wine's folder. All is done in copies. What a system
lacks is said, with the lines that need it. Wheels are installed by pip. There is no Python of musl or Windows here: so this machine's
pip unpacks the wheels of those, and their programs and libraries are used without Python. If MUSL_PYTHON names a Python that was made
with musl, the wheel is installed there too.
"""

import os
import re
import shutil
import subprocess
import sys

from libraries import CALLS, answer, compiled
from machines import MACHINES, emulator
from runner import SAMPLE, TOP, VERSION

MIRROR = os.environ.get("MIRROR", "http://deb.debian.org/debian")
SECONDS = 1200  # in which each step is to end
SUITES = {"debian11": ("bullseye", "amd64"), "debian12": ("bookworm", "amd64"), "arm64": ("bookworm", "arm64")}
PACKAGES = "python3,python3-venv,less,gzip,make,groff,mandoc,parallel,strace"  # the last ones for the tests of the sources
PATH = "/usr/local/sbin:/usr/local/bin:/usr/sbin:/usr/bin:/sbin:/bin"
QUIETLY = "--no-index --quiet --disable-pip-version-check"  # words for pip
WINE_NAMES = ("rnxcmp",)  # the commands that a line for Windows may begin with


# ---- the lines


def section(page, title):
    """The text of a chapter of a page."""
    return (TOP / page).read_text().partition(f"\n## {title}\n")[2].partition("\n## ")[0]


def blocks(text):
    """The indented blocks of a text, each its lines."""
    return [re.findall(r"^    (.*)$", block, re.M) for block in re.findall(r"(?:^    .*\n)+", text, re.M)]


def is_python(lines):
    return lines[0].startswith(("import ", "from "))


def installing():
    """The lines that install a release for one user, of docs/USE.md; and those of README.md's chapter that don't build it."""
    lines = blocks(section("docs/USE.md", "Install"))[0]
    more = [line for block in blocks(section("README.md", "Install")) if not is_python(block) for line in block]
    return lines, [line for line in more if not re.match(r"(make|git|cd|pip|pipx|rt) ?", line)]


def using():
    """The lines of README.md's chapter on use: for a shell, and for Python."""
    found = blocks(section("README.md", "Usage"))
    shell = [line for block in found if not is_python(block) for line in block]
    return shell, [block for block in found if is_python(block)]


def as_scripts(blocks_of_python):
    """Lines for a shell that run blocks of Python, each as a file."""
    return [line for block in blocks_of_python for line in (["cat > called.py << 'END'", *block, "END", "python3 -I called.py"])]


def prepare(folder, program):
    """The files that the lines name, in a folder: a day of RINEX, a packed compact file, an archive."""
    shutil.copy(SAMPLE, folder / "abcd0010.24o")
    (folder / "archive").mkdir()
    for number in range(3):
        shutil.copy(SAMPLE, folder / f"archive/efgh00{number}0.24o")
    compact = subprocess.run([program, "rnx2crx"], stdin=SAMPLE.open("rb"), capture_output=True, check=True, timeout=SECONDS).stdout
    (folder / "a.crx.gz").write_bytes(subprocess.run(["gzip", "-n"], input=compact, capture_output=True, check=True).stdout)


def left(folder):
    """What is wrong with the files that the lines leave."""
    wrong = [] if (folder / "abcd0010.24d").exists() else ["there is no abcd0010.24d"]
    wrong += [] if (folder / "a.rnx").read_bytes() == SAMPLE.read_bytes() else ["a.rnx isn't the sample"]
    return wrong


# ---- the roots


def make_root(root, suite, architecture):
    """Makes a root where it isn't there; what went wrong, as lines. One of another machine is unpacked alone, without its own scripts."""
    listed = root / "packages"  # the last that is written
    if listed.exists() and listed.read_text() == PACKAGES:
        return []
    shutil.rmtree(root, ignore_errors=True)
    part = root.with_name(root.name + ".part")
    shutil.rmtree(part, ignore_errors=True)
    part.parent.mkdir(parents=True, exist_ok=True)
    foreign = ["--foreign"] if architecture != "amd64" else []
    command = ["debootstrap", *foreign, f"--arch={architecture}", "--variant=minbase", f"--include={PACKAGES}", suite, str(part), MIRROR]
    run = subprocess.run(command, capture_output=True, text=True, timeout=SECONDS)
    if run.returncode:
        return [f"debootstrap: status {run.returncode}", *(run.stdout + run.stderr).splitlines()[-5:]]
    for package in sorted((part / "var/cache/apt/archives").glob("*.deb")) if foreign else ():
        subprocess.run(["dpkg-deb", "-x", package, part], check=True, timeout=SECONDS)
    (part / "packages").write_text(PACKAGES)
    part.rename(root)
    return []


def entered(root, architecture):
    """The words that run a command in a root, in its folder /home: with a /proc and devices of its own, or under qemu."""
    if architecture == "arm64":
        return ["proot", "-0", "-q", "qemu-aarch64", "-r", str(root), "-b", "/proc", "-b", "/dev", "-w", "/home"]
    inside = "cd /home && exec \"$@\""
    script = f'mkdir -p "$0/proc" "$0/dev"; mount -t proc proc "$0/proc" && mount --rbind /dev "$0/dev" && exec chroot "$0" sh -c \'{inside}\' sh "$@"'
    return ["unshare", "--mount", "--pid", "--fork", "--kill-child", "sh", "-c", script, str(root)]


def run_in(words, lines, shell="sh", **more):
    """Runs lines as one script of a shell in a root: what went wrong."""
    environment = {"PATH": PATH, "HOME": "/home", "LC_ALL": "C.UTF-8", "PROOT_NO_SECCOMP": "1"}
    run = subprocess.run([*words, shell, "-ec", "\n".join(lines)], env=environment, stdin=subprocess.DEVNULL, capture_output=True, timeout=SECONDS, **more)
    return [] if run.returncode == 0 else [f"status {run.returncode}, {run.stdout[-300:]!r}, {run.stderr[-600:]!r}"]


def left_out(lines, has_python):
    """Prints what a system without Python can't run, and gives the others."""
    chosen = [line for line in lines if has_python or "rnxcmp-file" not in line]
    for line in lines:
        if line not in chosen:
            print(f"    left out, without Python: {line}")
    return chosen


def check_lines(root, words, dist, program, pattern, has_python=True):
    """The release is unpacked in the root's /home as docs/USE.md says it, and README's lines are run with it."""
    home = root / "home"
    for path in dist.iterdir():
        shutil.copy(path, home)
    prepare(home, program)
    install, more = ([line.replace("linux-x86_64", pattern) for line in lines] for lines in installing())
    shell, python = using()
    scripts = as_scripts(python) if has_python else []
    # (the archive has the module in lib/rnxcmp, which a wheel puts where Python looks)
    scripts = [line.replace("python3 -I", f"PYTHONPATH=$(echo $PWD/rnxcmp-*-{pattern}/lib/rnxcmp) python3") for line in scripts]
    return run_in(words, [*install, *more, *left_out(shell, has_python), *scripts]) or left(home)


def check_debian(root, dist, program, name):
    architecture = SUITES[name][1]
    return check_lines(root, entered(root, architecture), dist, program, "linux-aarch64" if architecture == "arm64" else "linux-x86_64")


USED = ("cp abcd0010.24o x.rnx", "rnxcmp-file rnx2crx --verify x.rnx", "CRX2RNX - x.crx > y.rnx", "cmp x.rnx y.rnx", "rm x.rnx x.crx y.rnx")


def check_package(root, name):
    """The Debian package: installed, used by its plain names, its module found by Python, unchanged, and removed with all that was its."""
    architecture = SUITES[name][1]
    for records in ("updates", "info", "triggers"):  # which a root has that ran no scripts of its packages
        (root / "var/lib/dpkg" / records).mkdir(parents=True, exist_ok=True)
    for records in ("status", "available"):
        (root / "var/lib/dpkg" / records).touch()
    lines = [f"dpkg -i rnxcmp_{VERSION.replace('-', '~')}_{architecture}.deb", *USED, "python3 -IB -c 'import rnxcmp; print(rnxcmp.version())'"]
    before = set((root / "usr").rglob("*"))
    wrong = run_in(entered(root, architecture), [*lines, 'test -z "$(dpkg -V rnxcmp)"', "dpkg -P rnxcmp"])
    return wrong or [f"left: {path}" for path in sorted(set((root / "usr").rglob("*")) - before)][:4]


def check_own_tests(root, name):
    """The tests of the source archive that don't need the prover, over the archive's program; its C library (2.31) is older than this one."""
    lines = [f"tar -xzf rnxcmp-{VERSION}.tar.gz", f"PROGRAM=$(echo $PWD/rnxcmp-*-linux-x86_64/bin/rnxcmp) python3 rnxcmp-{VERSION}/tests/runner.py"]
    return run_in(entered(root, SUITES[name][1]), lines)


def check_wheel(root, name):
    """The wheel of a root's machine in an environment of its Python: commands, and README's lines for Python."""
    architecture = SUITES[name][1]
    tag = "manylinux2014_aarch64" if architecture == "arm64" else "manylinux2014_x86_64"
    lines = ["python3 -m venv environment", 'PATH="$PWD/environment/bin:$PATH"']
    lines += [f"pip install {QUIETLY} rnxcmp-*-{tag}.whl", "cd environment", "cp ../abcd0010.24o ../a.crx.gz ."]
    lines += ["rnxcmp check abcd0010.24o", *USED]
    return run_in(entered(root, architecture), [*lines, *as_scripts(using()[1])])


def check_busybox(folder, dist, program):
    """A root with busybox alone."""
    root = folder / "busybox"
    for name in ("bin", "home", "tmp", "proc", "dev"):
        (root / name).mkdir(parents=True)
    shutil.copy(shutil.which("busybox"), root / "bin/busybox")
    for name in subprocess.run([root / "bin/busybox", "--list"], capture_output=True, text=True, check=True).stdout.split():
        if not (root / "bin" / name).exists():
            (root / "bin" / name).symlink_to("busybox")
    return check_lines(root, entered(root, "amd64"), dist, program, "linux-x86_64", has_python=False)


def check_venv(folder, dist, program):
    """An empty environment of Python, with the wheel alone: its commands run README's lines, and its Python those for Python."""
    place = folder / "venv"
    subprocess.run([sys.executable, "-m", "venv", place], check=True, capture_output=True, timeout=SECONDS)
    home = place / "home"
    home.mkdir()
    prepare(home, program)
    wheel = next(dist.glob("*-manylinux2014_x86_64.whl"))
    shell, python = using()
    scripts = as_scripts(python)
    lines = [f'PATH="{place}/bin:$PATH"', f"pip install {QUIETLY} '{wheel}'", *shell, *scripts]
    return run_in([], lines, cwd=home) or left(home)


def check_musl_python(python, folder, dist, program):
    """The wheel for musl in an environment of a Python that was made with musl; this machine's pip installs it."""
    place = folder / "musl-environment"
    home = place / "home"
    wheel = next(dist.glob("*-musllinux_1_2_x86_64.whl"))
    subprocess.run([python, "-m", "venv", "--without-pip", place], check=True, capture_output=True, timeout=SECONDS)
    home.mkdir()
    prepare(home, program)
    shell, blocks_of_python = using()
    installs = f"'{sys.executable}' -m pip --python '{place}/bin/python' install {QUIETLY} '{wheel}'"
    return run_in([], [installs, f'PATH="{place}/bin:$PATH"', *shell, *as_scripts(blocks_of_python)], cwd=home) or left(home)


def in_cmd(words, place, line, home):
    """A line by Windows' own shell, where a folder's programs are found."""
    command = f"set PATH=Z:{place};%PATH%&& {line}"
    return subprocess.run([*words, "cmd", "/d", "/c", command], cwd=home, stdin=subprocess.DEVNULL, capture_output=True, timeout=SECONDS)


def check_in_wine(words, place, home):
    """Windows, as far as Wine is it: a folder's program runs README's lines that name it, also by its other names."""
    wrong = []
    for line in using()[0]:
        command = line.partition("#")[0].strip().replace("| less", "> shown.txt")
        if not command.startswith(WINE_NAMES) or command.startswith("rnxcmp-file"):
            print(f"    left out, on Windows: {command}")
            continue
        run = in_cmd(words, place, command, home)
        wrong += [] if run.returncode == 0 else [f"{command}: status {run.returncode}, {run.stdout[-300:]!r}, {run.stderr[-300:]!r}"]
    named = in_cmd(words, place, "CRX2RNX - abcd0010.24d", home)
    wrong += [] if named.stdout == SAMPLE.read_bytes() else [f"CRX2RNX: {named.stdout[-200:]!r}, {named.stderr[-300:]!r}"]
    return wrong + ([] if (home / "abcd0010.24d").exists() else ["there is no abcd0010.24d"])


def check_wine(folder, dist, program):
    """The archive for Windows."""
    home = folder / "wine"
    home.mkdir()
    subprocess.run(["unzip", "-q", next(dist.glob("*-windows-x86_64.zip")), "-d", home], check=True, timeout=SECONDS)
    prepare(home, program)
    with emulator(MACHINES[-1]) as words:
        return check_in_wine(words, next(home.glob("rnxcmp-*-windows-x86_64/bin")), home)


def unpacked_wheel(folder, dist, tag):
    """The wheel of a tag, as this machine's pip installs it for that: its place, or what went wrong."""
    place = folder / tag
    words = [*QUIETLY.split(), "--no-deps", "--only-binary=:all:", f"--platform={tag}", f"--target={place}"]
    command = [sys.executable, "-m", "pip", "install", *words, next(dist.glob(f"*-{tag}.whl"))]
    run = subprocess.run(command, capture_output=True, text=True, timeout=SECONDS)
    return place, [] if run.returncode == 0 else [f"pip: status {run.returncode}, {run.stderr[-500:]!r}"]


def check_calls(machine, words, place, folder, program):
    """A program of C, linked with a wheel's library by the machine's compiler, answers what the program does."""
    target = place / "rnxcmp" / ("calls.exe" if machine.is_windows else "calls")  # beside the library, where Windows looks for it
    headers = next(folder.glob("rnxcmp-*-linux-x86_64/include"))
    linked = [place / "rnxcmp" / machine.shared, f"-Wl,-rpath,{place / 'rnxcmp'}"][: 1 if machine.is_windows else 2]
    wrong = compiled(machine, headers, CALLS, target, linked)
    if wrong:
        return wrong
    wanted, got = answer([program], ["check"], SAMPLE.read_bytes()), answer([*words, target], ["whole", "check"], SAMPLE.read_bytes())
    return [] if got == wanted else [f"calls: {got!r}, not {wanted!r}"]


def check_musl_wheel(folder, dist, program):
    """The wheel for musl: its program runs README's lines, and its library is called through musl."""
    place, wrong = unpacked_wheel(folder, dist, "musllinux_1_2_x86_64")
    home = place / "home"
    home.mkdir(parents=True)
    prepare(home, program)
    lines = [f'PATH="{place}/bin:$PATH"', *(line for line in using()[0] if "rnxcmp-file" not in line)]
    return wrong or run_in([], lines, cwd=home) or left(home) or check_calls(MACHINES[1], [], place, folder, program)


def check_windows_wheel(folder, dist, program):
    """The wheel for Windows: its program runs README's lines, and its library is called, by Wine."""
    place, wrong = unpacked_wheel(folder, dist, "win_amd64")
    home = place / "home"
    home.mkdir(parents=True)
    prepare(home, program)
    with emulator(MACHINES[-1]) as words:
        return wrong or check_in_wine(words, place / "bin", home) or check_calls(MACHINES[-1], words, place, folder, program)


def lacking(tools):
    missing = [tool for tool in tools if not shutil.which(tool)]
    return f"there is no {', '.join(missing)}" if missing else ""


def copy_of(root, folder):
    subprocess.run(["cp", "-ax", root, folder / root.name], check=True, timeout=SECONDS)
    return folder / root.name


def of_suite(name, roots, folder, dist, program):
    """The checks of a root of Debian."""
    suite, architecture = SUITES[name]
    tools = ("proot", "qemu-aarch64", "debootstrap") if architecture != "amd64" else ("debootstrap", "unshare", "chroot")
    wrong = lacking(tools) or make_root(roots / name, suite, architecture)
    yield f"{name}: the root", lambda: wrong
    if not wrong:
        root = copy_of(roots / name, folder)
        yield f"{name}: the printed lines", lambda: check_debian(root, dist, program, name)
        yield f"{name}: the package", lambda: check_package(root, name)
        if name == "debian11":
            yield f"{name}: the sources' own tests", lambda: check_own_tests(root, name)
        yield f"{name}: the wheel", lambda: check_wheel(root, name)


def checks(dist, roots, folder):
    subprocess.run(["tar", "-xzf", dist / f"rnxcmp-{VERSION}-linux-x86_64.tar.gz", "-C", folder], check=True, timeout=SECONDS)
    program = folder / f"rnxcmp-{VERSION}-linux-x86_64/bin/rnxcmp"
    for name in SUITES:
        yield from of_suite(name, roots, folder, dist, program)
    others = (
        ("busybox", "the printed lines", check_busybox, ("busybox", "unshare")), ("venv", "the printed lines", check_venv, ()),
        ("musl", "the wheel", check_musl_wheel, ("musl-gcc",)), ("wine", "the printed lines", check_wine, ("wine", "unzip")),
        ("wine", "the wheel", check_windows_wheel, ("wine", MACHINES[-1].compiler)),
    )  # fmt: skip
    if os.environ.get("MUSL_PYTHON"):
        yield "musl: the wheel, in a Python of musl", lambda: check_musl_python(os.environ["MUSL_PYTHON"], folder, dist, program)
    for name, title, check, tools in others:
        yield f"{name}: {title}", lambda check=check, tools=tools: lacking(tools) or check(folder, dist, program)

