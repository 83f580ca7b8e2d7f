#!/usr/bin/env python3
"""Checks `make install`: what it installs, that the program runs, and that the completions are those of the program.

    tests/install.py

- `make install` into an empty folder leaves the program, its manual page and three files of completions, and no other
  file; the program plays a plan; `make uninstall` removes them all.
- The commands, and the options of each command, that the help of `ccq` names are those in each of the completions.
- The page for man has its sections, in their order, and no line of more than 80 columns on a terminal of that width, as
  groff sets it, if groff is installed. groff warns of nothing there.
- bash, and zsh and fish if they are installed, complete the lines of ROWS: each shell runs at a terminal, where the
  script types a line, presses the tab key, and reads the line that the shell then has. A shell lists all commands for a
  line that has none.

The program is the one in bin/, or the one that the variable CCQ names. The exit status is 0 if all holds.
"""
import os
import pty
import re
import select
import shutil
import signal
import subprocess
import sys
import tempfile
import time

sys.dont_write_bytecode = True
import asked

TOP = os.path.dirname(os.path.dirname(os.path.abspath(__file__)))
CCQ = os.environ.get("CCQ", TOP + "/bin/x86_64-unknown-linux-gnu/ccq")
INSTALLED = {
    "usr/bin/ccq": 0o755,
    "usr/share/man/man1/ccq.1": 0o644,
    "usr/share/bash-completion/completions/ccq": 0o644,
    "usr/share/zsh/site-functions/_ccq": 0o644,
    "usr/share/fish/vendor_completions.d/ccq.fish": 0o644,
}
SECTIONS = ["NAME", "SYNOPSIS", "DESCRIPTION", "OPTIONS", "EXIT STATUS", "EXAMPLES", "SEE ALSO"]
# A line as far as it is typed, and what the tab key adds to it.
ROWS = [
    ("ccq pl", "ay "),
    ("ccq d", "rive "),
    ("ccq help a", "udit "),
    ("ccq judge --p", "age "),
    ("ccq judge --page examples/one", "_item.json "),
    ("ccq judge --skew ", ""),
    ("ccq judge --u", "ntil "),
    ("ccq show --t", "race "),
    ("ccq drive --se", "nders "),
    ("ccq drive --senders 4 --b", "ound "),
    ("ccq drive --senders ", ""),
    ("ccq play examples/one", "_item.json "),
    ("ccq play examples/one_item.json ", ""),
    ("ccq judge examples/one_item.json --sk", "ew "),
]
# How each shell is started, without files of its user, and the line that loads the completions from the folder {of} and
# lets control-X control-R write the line that is typed into the file {said}, empty that line, and print SAID.
SHELLS = {
    "bash": (
        ["bash", "--norc", "--noprofile", "-i"],
        "bind 'set enable-bracketed-paste off'; bind 'set show-all-if-ambiguous on'; source "
        "{of}/bash-completion/completions/ccq; "
        "said() {{ printf %s \"$READLINE_LINE\" >{said}; READLINE_LINE=; printf SAID; }}; bind -x '\"\\C-x\\C-r\": "
        "said'",
    ),
    "zsh": (
        ["zsh", "-f", "-i"],
        "fpath=({of}/zsh/site-functions $fpath); autoload -U compinit; compinit -D -u; "
        "said() {{ printf %s \"$BUFFER\" >{said}; zle kill-buffer; printf SAID; }}; zle -N said; bindkey '^X^R' said",
    ),
    "fish": (
        ["fish", "--no-config", "-i"],
        "source {of}/fish/vendor_completions.d/ccq.fish; "
        "function said; printf %s (commandline | string collect) >{said}; commandline ''; printf SAID; end; bind "
        "\\cx\\cr said",
    ),
}
failed = []


def check(holds, said):
    """Notes what doesn't hold."""
    if not holds:
        failed.append(said)
        print("install: " + said)


def output(*words, **more):
    """What a command prints on standard output; it must succeed."""
    return subprocess.run(words, check=True, capture_output=True, text=True, cwd=TOP, **more).stdout


def files_below(folder):
    """The files below a folder, with their modes."""
    found = {}
    for where, _, names in os.walk(folder):
        for name in names:
            path = os.path.join(where, name)
            found[os.path.relpath(path, folder)] = os.stat(path).st_mode & 0o777
    return found


def installs():
    """Installs into an empty folder, runs what is there, and removes it."""
    with tempfile.TemporaryDirectory() as folder:
        where = ["PREFIX=/usr", "DESTDIR=" + folder]
        output("make", "-s", "install", *where)
        check(files_below(folder) == INSTALLED, f"installed is {files_below(folder)}")
        played = output(folder + "/usr/bin/ccq", "play", "examples/one_item.json")
        check(played.endswith("audit clean\n"), "the installed program plays no plan")
        output("make", "-s", "uninstall", *where)
        check(files_below(folder) == {}, f"uninstall leaves {files_below(folder)}")


def is_set():
    """Sets the page for man on a terminal of 80 columns."""
    ran = subprocess.run(["groff", "-man", "-Tutf8", "-ww", "-rLL=80n", "docs/ccq.1"], capture_output=True, text=True,
                         cwd=TOP)
    shown = re.sub(r"\x1b\[[0-9;]*m|.\x08", "", ran.stdout)
    check(ran.returncode == 0 and not ran.stderr, f"groff says of docs/ccq.1: {ran.stderr}")
    sections = re.findall(r"^[A-Z][A-Z ]+$", shown, re.M)
    check(sections == SECTIONS, f"docs/ccq.1 has the sections {sections}")
    wide = [line for line in shown.split("\n") if len(line) > 80]
    check(not wide, f"docs/ccq.1 has lines of more than 80 columns: {wide}")


def helps():
    """The commands of the help, each with its long options but for --help, and --version for the program."""
    commands = re.search(r"^Commands:\n((?:  .*\n)+)", output(CCQ, "--help"), re.M)[1]
    named = re.findall(r"^  (\w+)", commands, re.M)
    return {name: set(re.findall(r"^ +(?:-\w, )?--([a-z-]+)", output(CCQ, name, "--help"), re.M)) - {"help"}
            for name in named if name != "help"}


def in_bash(text):
    """The commands of the bash file, each with its options."""
    named = re.search(r"local commands='(.*)'", text)[1].split()
    options = dict(re.findall(r"\[(\w+)\]='(.*)'", text))
    return {name: {o[2:] for o in options.get(name, "").split()} for name in named}


def in_zsh(text):
    """The commands of the zsh file, each with its options."""
    named = re.findall(r"^    '(\w+):", text, re.M)
    parts = dict(re.findall(r"^        (\w+)\)((?:.*\n)+?)(?=        \w+\)|      esac)", text, re.M))
    return {name: set(re.findall(r"'--([a-z-]+)\[", parts.get(name, ""))) for name in named}


def in_fish(text):
    """The commands of the fish file, each with its options."""
    named = re.search(r"^set -l commands (.*)", text, re.M)[1].split()
    found = {name: set() for name in named}
    for commands, option in re.findall(r"from ([\w ]+)'.* -l ([a-z-]+)", text):
        for name in commands.split():
            found[name].add(option)
    return found


class Terminal:
    """A shell at a terminal of its own, with the completions that are installed in a folder."""

    def __init__(self, shell, folder):
        words, setup = SHELLS[shell]
        self.said = folder + "/said"
        self.child, self.terminal = pty.fork()
        if self.child == 0:
            os.chdir(TOP)
            os.execvpe(words[0], words, {**os.environ, "TERM": "xterm", "HOME": folder, "XDG_DATA_HOME": folder})
        setup = setup.format(of=folder + "/usr/share", said=self.said)
        self.type(setup + "; printf 'REA''DY\\n'\n")
        self.read_up_to("READY\r\n")

    def close(self):
        os.kill(self.child, signal.SIGKILL)
        os.waitpid(self.child, 0)
        os.close(self.terminal)

    def type(self, keys):
        os.write(self.terminal, keys.encode())

    def read_up_to(self, word):
        """What the terminal shows, up to a word; within ten seconds."""
        shown, end = "", time.monotonic() + 10
        while word not in shown and time.monotonic() < end:
            if select.select([self.terminal], [], [], 0.2)[0]:
                shown += os.read(self.terminal, 65536).decode(errors="replace")
        return shown

    def complete(self, line):
        """The line after the tab key, and what the terminal shows."""
        self.type(line + "\t")
        time.sleep(0.1)
        self.type("\x18\x12")
        shown = self.read_up_to("SAID")
        with open(self.said) as file:
            return file.read().rstrip("\n"), shown


def completes(shell, commands):
    """Installs the completions, and presses the tab key in the shell."""
    with tempfile.TemporaryDirectory() as folder:
        output("make", "-s", "install", "PREFIX=/usr", "DESTDIR=" + folder)
        terminal = Terminal(shell, folder)
        for line, added in ROWS:
            now, shown = terminal.complete(line)
            check(now == line + added, f"{shell} completes `{line}` as `{now}`, and shows {shown!r}")
        _, shown = terminal.complete("ccq ")
        check(all(name in shown for name in commands), f"{shell} lists for `ccq `: {shown!r}")
        terminal.close()


installs()
if shutil.which("groff"):
    is_set()
else:
    print("install: the page for man on 80 columns: SKIPPED: groff is not on this machine")
due = helps()
for shell, reader in (("bash", in_bash), ("zsh", in_zsh), ("fish", in_fish)):
    with open(f"{TOP}/bin/completions/ccq.{shell}") as file:
        found = reader(file.read())
    check(found == due, f"the completions for {shell} have {found}, and the help has {due}")
    if shutil.which(shell):
        completes(shell, due)
    else:
        print(f"install: completions pressed in {shell}: SKIPPED: {shell} is not on this machine")
print(f"install: {len(failed)} of the checks failed" if failed
      else "install: the program, its manual and its completions fit")
sys.exit(bool(failed))
