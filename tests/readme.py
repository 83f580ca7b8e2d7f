#!/usr/bin/env python3
"""Runs every command of README.md and of the other DOCUMENTS as a stranger does: in a Debian that has the packages
which `./test --install` installs, and no other.

    tests/readme.py [--gate | --list]

debootstrap makes the smallest variant of this machine's Debian, from this machine's mirror, in
~/.cache/vahepito/debian. It is made once: the command with --install installs the packages there, and another `test`,
other packages in DOCUMENTS, or another Debian make it again. The tracked files of the clone are put into
/root/vahepito, in a folder for temporary files that is the home of the user in there.

In these documents a fenced block of the language `sh` has commands, one on each line that doesn't end with a backslash.
Each is run at the top of the clone, in a fresh shell whose environment has nothing but what an `export` of the block
set, and ~/.local/bin on the path, where README installs `ccq`. It has to end with status 0, or with that which its
comment names as `status N`. If its comment ends with `prints: TEXT`, it has to print a line that begins with TEXT. If
it says `needs PACKAGE`, that package of Debian is installed first: README's own commands come before all of these. A
block of another language is a file, if the last name in backticks before it is that of a file. --list prints commands
and files, and runs none.

The tests of the crate make a twentieth of their rounds (VAHEPITO_ROUNDS). With --gate, as ./test calls it, they make a
fiftieth, and cargo compiles each crate once for all commands, without a debugger's lines: tests/bindings.py makes all
rounds in the same gate. The examples in the crate's documentation are left out then (RUSTDOC), which an old rustc
compiles one by one. A line says so. Prints a line with the processor seconds of each command, and their sum. The exit
status is 0 if all hold, 1 if one fails, and 77 if this machine can't make a chroot: not root, no debootstrap, no
unshare, no mirror, or none that gives the packages.
"""
import hashlib
import os
import pathlib
import re
import resource
import shutil
import subprocess
import sys
import tempfile
import time

TOP = pathlib.Path(__file__).resolve().parent.parent
# Outside of the tree, since `rt ci` refuses one that has links.
KEPT = pathlib.Path(os.environ.get("XDG_CACHE_HOME") or pathlib.Path.home() / ".cache") / "vahepito" / "debian"
DOCUMENTS = ["README.md", "docs/JUDGE.md", "bindings/rust/README.md", "bindings/c/README.md"]
ENVIRONMENT = {"HOME": "/root", "PATH": "/root/.local/bin:/usr/local/sbin:/usr/local/bin:/usr/sbin:/usr/bin:/sbin:/bin",
               "LANG": "C.UTF-8", "VAHEPITO_ROUNDS": "5"}
RELEASE = dict(re.findall(r'^(\w+)="?([^"\n]*)', pathlib.Path("/etc/os-release").read_text(), re.M))
# What makes the same commands cheaper, in the gate.
CHEAPER = {"VAHEPITO_ROUNDS": "2", "RUSTDOC": "true", "CARGO_TARGET_DIR": "/root/target",
           "CARGO_PROFILE_DEV_DEBUG": "none", "CARGO_INCREMENTAL": "0"}
# What apt-get says if the mirror, or the disk, can't give a package that exists.
OF_THE_MIRROR = r"(?m)^E: (Failed to fetch .*|You don't have enough free space .*)|^.*No space left on device$"
# Mounts that end with the command: the room is the home and the folder for temporary files.
MOUNTS = """
set -e
mount -t proc proc "$1/proc"
mount --rbind /dev "$1/dev"
mount --bind "$2/home" "$1/root"
mount --bind "$2/tmp" "$1/tmp"
exec chroot "$1" /bin/bash -c 'cd "$1" && exec /bin/bash -c "$2"' shell "$3" "$4"
"""


class Skipped(Exception):
    """Why nothing can be run here."""


class Command:
    """A line of a block of commands: what is run, its status, what it prints and needs, if the document says so."""

    def __init__(self, line, exports=()):
        self.text, _, comment = line.partition("   #")
        self.text = self.text.strip()
        self.run = "; ".join([*exports, self.text])
        self.status = int((re.findall(r"\bstatus (\d+)", comment) or [0])[0])
        self.needs = re.findall(r"\bneeds ([\w.+-]*\w\+*)", comment)
        self.prints = (re.findall(r"prints: (.*)", comment) or [None])[0]


class File:
    """A block of another language: the file that a reader puts it into."""

    def __init__(self, name, lines):
        self.name, self.text = name, "\n".join(lines) + "\n"


def parts(text):
    """The commands and files of a document, in their order."""
    names, lines, language = [], [], None
    for line in text.splitlines():
        if language is None and line.startswith("```"):
            language, lines = line[3:].strip(), []
        elif language is None:
            names += re.findall(r"`([^`]+)`", line)
        elif line != "```":
            lines.append(line)
        else:
            if language == "sh":
                lines = re.sub(r" *\\\n *", " ", "\n".join(lines)).splitlines()
                exports = [line for line in lines if line.startswith("export ")]
                yield from (Command(line, exports) for line in lines if line.strip() and line not in exports)
            elif names and re.fullmatch(r"[\w./-]+\.\w+", names[-1]):
                yield File(names[-1], lines)
            language = None


def mirror():
    """This machine's Debian and the address of its packages."""
    if RELEASE.get("ID") != "debian":
        raise Skipped("this machine isn't a Debian, whose mirror it would know")
    targets = ["apt-get", "indextargets", "--format", "$(CODENAME) $(COMPONENT) $(REPO_URI)", "Created-By: Packages"]
    for line in subprocess.run(targets, capture_output=True, text=True, check=True).stdout.splitlines():
        codename, component, address = line.split()
        if codename == RELEASE["VERSION_CODENAME"] and component == "main":
            return codename, address
    raise Skipped("apt-get knows no mirror of this Debian")


def in_chroot(base, room, folder, command, limit=1800):
    """Runs a command in a fresh shell; its exit status, what it printed, and its processor seconds."""
    spent = lambda: sum(resource.getrusage(resource.RUSAGE_CHILDREN)[:2])
    before = spent()
    line = ["unshare", "--mount", "--pid", "--fork", "--kill-child", "bash", "-c", MOUNTS, "mounts", str(base),
            str(room), folder, command]
    try:
        done = subprocess.run(line, env=ENVIRONMENT, stdin=subprocess.DEVNULL, stdout=subprocess.PIPE,
                              stderr=subprocess.STDOUT, text=True, errors="replace", timeout=limit)
        return done.returncode, done.stdout, spent() - before
    except subprocess.TimeoutExpired as stopped:
        return "no end in time", (stopped.stdout or b"").decode(errors="replace"), spent() - before


def have_base(packages):
    """The folder of a Debian into which nothing was installed but what `test` installs, and then these packages."""
    codename, address = mirror()
    installs = re.findall(r"packages\+=.*|cargo=.*", (TOP / "test").read_text())
    key = hashlib.sha256(" ".join([codename, address, *installs, *packages]).encode()).hexdigest()[:12]
    base = KEPT / f"{codename}-{key}"
    if base.is_dir():
        return base
    shutil.rmtree(KEPT, ignore_errors=True)
    KEPT.mkdir(parents=True)
    print(f"readme: makes a {codename} in {base}, this once", flush=True)
    making = KEPT / "making"
    done = subprocess.run(["debootstrap", "--variant=minbase", codename, str(making), address],
                          stdin=subprocess.DEVNULL, capture_output=True, text=True)
    if done.returncode != 0:
        raise Skipped(f"debootstrap from {address} failed: {(done.stdout + done.stderr).strip().splitlines()[-1]}")
    shutil.copy("/etc/resolv.conf", making / "etc/resolv.conf")
    making.rename(base)
    return base


def check_machine():
    if os.geteuid() != 0:
        raise Skipped("only root can make a chroot")
    for program in ("debootstrap", "unshare", "apt-get", "git"):
        if not shutil.which(program):
            raise Skipped(f"{program} is not on this machine")
    if subprocess.run(["unshare", "--mount", "--pid", "--fork", "mount", "-t", "proc", "proc", "/proc"],
                      capture_output=True).returncode != 0:
        raise Skipped("unshare and mount aren't allowed here")


def put_clone(folder):
    """The tracked files, as they are now."""
    folder.mkdir()
    names = subprocess.run(["git", "-C", str(TOP), "ls-files", "-z"], capture_output=True, check=True).stdout
    packed = subprocess.run(["tar", "-C", str(TOP), "--null", "-T", "-", "-cf", "-"], input=names, capture_output=True,
                            check=True).stdout
    subprocess.run(["tar", "-C", str(folder), "-xf", "-"], input=packed, check=True)


def run_all(room, found):
    """Runs these; the number of commands that failed."""
    packages = [need for part in found if isinstance(part, Command) for need in part.needs]
    base, failed, spent = have_base(packages), 0, 0
    for folder in ("home", "tmp"):
        (room / folder).mkdir()
    clone = room / "home" / "vahepito"
    put_clone(clone)
    status, said, _ = in_chroot(base, room, "/", "apt-get update")
    if status != 0:
        raise Skipped(f"apt-get update failed in the chroot: {said.strip().splitlines()[-1]}")
    for part in found:
        if isinstance(part, File):
            path = clone / part.name
            path.parent.mkdir(parents=True, exist_ok=True)
            path.write_text(part.text)
            continue
        start = time.time()
        if part.needs:
            install = "DEBIAN_FRONTEND=noninteractive apt-get install -y --no-install-recommends "
            status, said, _ = in_chroot(base, room, "/", install + " ".join(part.needs))
            if status != 0:
                raise Skipped(f"{' '.join(part.needs)} couldn't be installed: {said.strip().splitlines()[-1]}")
        status, said, seconds = in_chroot(base, room, "/root/vahepito", part.run)
        spent += seconds
        unfetched = re.search(OF_THE_MIRROR, said) if status != 0 and "--install" in part.text else None
        if unfetched:
            raise Skipped(f"the packages couldn't be fetched: {unfetched[0]}")
        fault = f"status {status}" if status != part.status else ""
        if not fault and part.prints and not any(line.startswith(part.prints) for line in said.splitlines()):
            fault = f"no line that it prints begins with {part.prints!r}"
        if not fault:
            print(f"readme: {part.text}: passed ({seconds:.1f} processor seconds, {time.time() - start:.0f} s)",
                  flush=True)
        else:
            failed += 1
            lines = said.splitlines()
            lines = [line for line in lines[:-40] if "FAILED" in line] + lines[-40:]
            print(f"readme: {part.text}: FAILED ({fault}); its last lines, and each with this word:\n"
                  + "\n".join(lines), flush=True)
    print(f"readme: {spent:.1f} processor seconds of all commands", flush=True)
    return failed


def main():
    found = [part for name in DOCUMENTS for part in parts((TOP / name).read_text())]
    if sys.argv[1:] == ["--list"]:
        for part in found:
            print(part.text if isinstance(part, Command) else f"{part.name}: {len(part.text.splitlines())} lines")
        return 0
    if sys.argv[1:] not in ([], ["--gate"]):
        print(__doc__)
        return 0 if sys.argv[1:] == ["--help"] else 64
    if sys.argv[1:]:
        ENVIRONMENT.update(CHEAPER)
        print("readme: left out here: the examples in the crate's documentation, and most rounds of long tests")
    commands = [part for part in found if isinstance(part, Command)]
    if len(commands) < 20 or not any("--install" in part.text for part in commands) or len(commands) == len(found):
        print("readme: the documents have no commands, no packages or no files, so this script reads them wrongly")
        return 1
    try:
        check_machine()
        with tempfile.TemporaryDirectory() as room:
            failed = run_all(pathlib.Path(room), found)
    except Skipped as why:
        print(f"readme: the commands of the documents in a fresh Debian: SKIPPED: {why}")
        return 77
    print(f"readme: {len(commands) - failed} of {len(commands)} commands of the documents pass in a fresh Debian")
    return 1 if failed else 0


if __name__ == "__main__":
    sys.exit(main())
