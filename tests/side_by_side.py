"""Runs commands side by side, as many as this machine has processors for: the checks of ./test, and the steps of
tests/bindings.py, which import this.

A command runs while it has a token: the one that the process itself was started with, or a byte of the pipe of a job
server, as make has one (GNU make, "POSIX Jobserver"). So a check that runs steps side by side, make and cargo share the
tokens of the process that opened the pipe. This process also says what is going on: at a terminal by a line below all
others, as `14/25 tests/model.py`; elsewhere by a line if nothing was printed for 15 seconds.
"""
import dataclasses
import os
import re
import selectors
import shutil
import signal
import subprocess
import sys
import time

QUIET = 15  # seconds without a line, after which one says what is going on
BLOCK = 1 << 16


@dataclasses.dataclass
class Command:
    """A command, and what is known of it once it has ended."""

    name: str
    words: list
    after: tuple = ()  # the names of the commands that have to end before
    at_once: bool = False  # whether what it prints is shown as it comes
    shares: bool = False  # whether it takes tokens for what it runs side by side
    alone: bool = False  # whether no other one runs beside it
    folder: str | os.PathLike = "."
    variables: dict = dataclasses.field(default_factory=dict)
    status: int = 0
    said: str = ""
    shown: int = 0  # how much of that was shown
    seconds: float = 0  # of processors, with all that it started
    start: float = 0
    end: float = 0

    def skipped(self):
        """The lines that say what was skipped."""
        return [line for line in self.said.splitlines() if ": SKIPPED: " in line]


def lanes(memory):
    """How many commands run side by side, if each needs this many gigabytes of memory."""
    with open("/proc/meminfo", encoding="ascii") as file:
        free = int(re.search(r"MemAvailable: *(\d+) kB", file.read())[1]) / 1e6
    return max(1, min(len(os.sched_getaffinity(0)), int(free / memory)))


class Tokens:
    """Who may run: this process has one token, and the pipe has the others."""

    def __init__(self):
        found = re.search(r"--jobserver-auth=(\d+),(\d+)", os.environ.get("MAKEFLAGS", ""))
        self.is_outermost = not found
        if found:
            self.ends = int(found[1]), int(found[2])
        else:
            self.ends, count = os.pipe(), lanes(1)
            os.write(self.ends[1], b"+" * (count - 1))
            os.environ["MAKEFLAGS"] = f" -j{count} --jobserver-auth={self.ends[0]},{self.ends[1]}"
        os.set_blocking(self.ends[0], False)
        self.is_own_free = True

    def take(self):
        """A token, or None: this process's own, or one of the pipe."""
        if self.is_own_free:
            self.is_own_free = False
            return b""
        try:
            return os.read(self.ends[0], 1) or None
        except BlockingIOError:
            return None

    def put(self, token):
        if token:
            os.write(self.ends[1], token)
        else:
            self.is_own_free = True

    def close(self):
        """Closes the pipe, if it is this process's own: a further run has another one."""
        if self.is_outermost:
            del os.environ["MAKEFLAGS"]
            for end in self.ends:
                os.close(end)


class Side:
    """The commands of a run, and the line that says how far it is."""

    def __init__(self, commands):
        self.tokens = Tokens()
        self.waiting, self.running, self.ended = list(commands), {}, []
        self.total, self.start = len(self.waiting), time.time()
        self.is_shown = self.tokens.is_outermost and sys.stdout.isatty() and os.environ.get("TERM", "dumb") != "dumb"
        self.line, self.last = "", time.time()

    def say(self, text):
        """Prints lines, above the line that says how far it is."""
        if text:
            print(("\r\x1b[K" if self.line else "") + text.rstrip("\n"), flush=True)
            self.line, self.last = "", time.time()

    def show(self):
        """Says how far it is, at a terminal always, and elsewhere if nothing else was said for long."""
        names = ", ".join(command.name for _, command, _ in self.running.values())
        at = f"{len(self.ended)}/{self.total}"
        if self.is_shown:
            line = f"{at} {names}"[: shutil.get_terminal_size().columns - 8] + f" {time.time() - self.start:.0f} s"
            if line != self.line and names:
                print(f"\r\x1b[K{line}", end="", flush=True)
                self.line = line
        elif self.tokens.is_outermost and time.time() - self.last > QUIET:
            self.say(f"{at} after {time.time() - self.start:.0f} s; at work: {names}")

    def begin(self, picks):
        """Begins commands while there are tokens; returns whether one waits for a token."""
        done = {command.name for command in self.ended}
        able = [command for command in self.waiting if done.issuperset(command.after)]
        if not able and not self.running:
            sys.exit(f"these commands wait for others that aren't there: {[command.name for command in self.waiting]}")
        for command in able:
            if any(command.alone or it.alone for _, it, _ in self.running.values()):
                continue
            token = self.tokens.take()
            if token is None:
                return True
            self.waiting.remove(command)
            command.start = time.time()
            variables = os.environ | command.variables
            if not command.shares:
                variables.pop("MAKEFLAGS")
            process = subprocess.Popen(command.words, cwd=command.folder, env=variables, stdin=subprocess.DEVNULL,
                                       stdout=subprocess.PIPE, stderr=subprocess.STDOUT, pass_fds=self.tokens.ends)
            self.running[process.stdout] = process, command, token
            picks.register(process.stdout, selectors.EVENT_READ)
        return False

    def finish(self, stream, picks):
        """Notes that a command has ended, and what it took."""
        process, command, token = self.running.pop(stream)
        picks.unregister(stream)
        stream.close()
        _, status, used = os.wait4(process.pid, 0)
        process.returncode = command.status = os.waitstatus_to_exitcode(status)
        command.end, command.seconds = time.time(), used.ru_utime + used.ru_stime
        self.tokens.put(token)
        self.ended.append(command)
        return command

    def run(self):
        """Runs all commands, and yields each when it has ended."""
        pipe = self.tokens.ends[0]
        try:
            with selectors.DefaultSelector() as picks:
                while self.waiting or self.running:
                    if self.begin(picks):
                        picks.register(pipe, selectors.EVENT_READ)
                    for key, _ in picks.select(1):
                        if key.fd != pipe and self.read(key.fileobj):
                            yield self.finish(key.fileobj, picks)
                    if pipe in picks.get_map():
                        picks.unregister(pipe)
                    self.show()
        finally:
            for process, _, _ in self.running.values():
                process.terminate()
            self.tokens.close()
            if self.line:
                print("\r\x1b[K", end="", flush=True)

    def read(self, stream):
        """Reads what a command prints; returns whether it has closed its output."""
        _, command, _ = self.running[stream]
        read = os.read(stream.fileno(), BLOCK)
        command.said += read.decode(errors="replace")
        if command.at_once:
            # Whole lines, or at the end all.
            end = command.said.rfind("\n") + 1 if read else len(command.said)
            self.say(command.said[command.shown:end])
            command.shown = end
        return not read


def quiet_at_interrupt():
    """Ctrl-C ends the script without a traceback. What it started gets the terminal's signal too."""
    signal.signal(signal.SIGINT, lambda *_: sys.exit(130))
