#!/usr/bin/env python3
"""Records queues in Redis, and has each log judged.

Usage: bench/judged/redis_queues.py [ITEMS] [QUEUE..]

It needs `redis-server` (Debian: apt-get install redis-server) and no library. The server is started for the run, on a
socket in a folder of its own. Four processes send ITEMS each, 2,000 without words, and four take until the queue is
empty and all have been sent. Each process has a connection of its own and writes a file by `src/recorder.py`, and the
files together are one log. It prints a row for each queue: its name, the calls, the verdict and what explains a fault;
`planted` says that the queue was made to have the fault. The logs stay in the folder that is printed last. The exit
status is 1 if a correct queue is accused. The program is what CCQ names, or the one in bin.
"""
import multiprocessing
import os
import pathlib
import socket
import subprocess
import sys
import tempfile
import time

sys.dont_write_bytecode = True
HERE = pathlib.Path(__file__).resolve().parent
sys.path.insert(0, str(HERE / "src"))
from recorder import Recorder

CCQ = os.environ.get("CCQ") or str(HERE.parent.parent / "bin/x86_64-unknown-linux-gnu/ccq")
SENDERS = TAKERS = 4


class Redis:
    """A connection to the server on a socket."""

    def __init__(self, path):
        self.socket = socket.socket(socket.AF_UNIX)
        self.socket.connect(path)
        self.file = self.socket.makefile("rb")

    def __call__(self, *words):
        """The answer to a command: a number, bytes, a list, or None."""
        words = [word if isinstance(word, bytes) else str(word).encode() for word in words]
        self.socket.sendall(b"*%d\r\n" % len(words) + b"".join(b"$%d\r\n%s\r\n" % (len(word), word) for word in words))
        return self.answer()

    def answer(self):
        line = self.file.readline().rstrip()
        kind, rest = line[:1], line[1:]
        if kind == b"-":
            raise RuntimeError(rest.decode())
        if kind == b"+":
            return rest
        if kind == b":":
            return int(rest)
        if int(rest) < 0:
            return None
        if kind == b"$":
            return self.file.read(int(rest) + 2)[:-2]
        return [self.answer() for _ in range(int(rest))]


class List:
    """RPUSH and LPOP."""
    right, capacity, why = True, None, ""

    def __init__(self, redis):
        self.redis, self.count, self.batch = redis, 0, []

    def setup(self):
        self.redis("flushall")

    def send(self, item):
        """The answer of a send, if it has one."""
        self.redis("rpush", "q", item)

    def take(self):
        found = self.redis("lpop", "q")
        return None if found is None else int(found)


class Stack(List):
    """LPUSH and LPOP."""
    right, why = False, "planted: the last item is taken first"

    def send(self, item):
        self.redis("lpush", "q", item)


class PushedBack(List):
    """RPUSH and LPOP; each 200th item is pushed back."""
    right, why = False, "planted: a worker fails and pushes its item back, behind the others"

    def take(self):
        while (item := super().take()) is not None:
            self.count += 1
            if self.count % 200:
                break
            self.redis("rpush", "q", item)
        return item


class Peeked(List):
    """RPUSH, LINDEX and LTRIM."""
    right, why = False, "two commands: another client takes the item between them"

    def take(self):
        found = self.redis("lindex", "q", 0)
        if found is not None:
            self.redis("ltrim", "q", 1, -1)
        return None if found is None else int(found)


class Bounded(List):
    """LLEN and RPUSH in one script, and LPOP, 8."""
    capacity = 8
    script = "if redis.call('llen','q')>=8 then return 0 end redis.call('rpush','q',ARGV[1]) return 1"

    def send(self, item):
        return None if self.redis("eval", self.script, 0, item) else "full"


class Checked(List):
    """LLEN, RPUSH and LPOP, 8."""
    right, capacity, why = False, 8, "two commands: other clients send between them"

    def send(self, item):
        if self.redis("llen", "q") >= 8:
            return "full"
        return super().send(item)


class Stream(List):
    """XADD, and XREADGROUP of one."""
    reads, limit = 1, ()

    def setup(self):
        super().setup()
        self.redis("xgroup", "create", "s", "g", "0", "mkstream")

    def send(self, item):
        self.redis("xadd", "s", *self.limit, "*", "item", item)

    def take(self):
        if not self.batch:
            found = self.redis("xreadgroup", "group", "g", os.getpid(), "count", self.reads, "streams", "s", ">")
            self.batch = found[0][1] if found else []
        if not self.batch:
            return None
        (number, fields), *self.batch = self.batch
        self.redis("xack", "s", "g", number)
        return int(fields[1])


class Prefetched(Stream):
    """XADD, and XREADGROUP of ten."""
    right, reads, why = False, 10, "a client holds nine items while others take later ones"


class Trimmed(Stream):
    """XADD with MAXLEN 20, and XREADGROUP of one."""
    right, limit, why = False, ("maxlen", "=", 20), "Redis drops the oldest items above the limit: they are lost"


QUEUES = {queue.__name__.lower(): queue
          for queue in (List, Bounded, Stream, Stack, PushedBack, Peeked, Checked, Prefetched, Trimmed)}


def send(queue, path, log, number, items, done):
    """Sends items, and records that."""
    queue, recorder = queue(Redis(path)), Recorder(f"{log}.s{number}", f"s{number}")
    for item in range(number * items, (number + 1) * items):
        recorder.begin(send=item)
        answer = queue.send(item)
        recorder.end(send=item, **({"answer": answer} if answer else {}))
    with done.get_lock():
        done.value += 1


def take(queue, path, log, number, done):
    """Takes until all have been sent and three takes have found none, and records that."""
    queue, recorder, nones = queue(Redis(path)), Recorder(f"{log}.t{number}", f"t{number}"), 0
    while nones < 3:
        over = done.value == SENDERS
        recorder.begin(take=None)
        item = queue.take()
        recorder.end(take=item)
        nones = nones + 1 if over and item is None else 0
        if item is None:
            time.sleep(0.0005)


def record(queue, path, log, items):
    """Records a run: how many calls its log has."""
    queue(Redis(path)).setup()
    done = multiprocessing.Value("i", 0)
    work = [(send, (queue, path, log, number, items, done)) for number in range(SENDERS)]
    work += [(take, (queue, path, log, number, done)) for number in range(TAKERS)]
    clients = [multiprocessing.Process(target=job, args=given) for job, given in work]
    for client in clients:
        client.start()
    for client in clients:
        client.join()
    parts = [f"{log}.{side}{number}" for side in "st" for number in range(4)]
    text = b"".join(pathlib.Path(part).read_bytes() for part in parts)
    for part in parts:
        os.unlink(part)
    log.write_bytes(text)
    return text.count(b"\n")


def main(words):
    if words in (["-h"], ["--help"]):
        print(__doc__.strip())
        return 0
    items = int(words.pop(0)) if words and words[0].isdigit() else 2000
    if unknown := set(words) - QUEUES.keys():
        print(f"redis_queues: no queue {sorted(unknown)}: {', '.join(QUEUES)}", file=sys.stderr)
        return 64
    folder = pathlib.Path(tempfile.mkdtemp(prefix="redis-queues-"))
    path, accused = str(folder / "socket"), False
    command = ["redis-server", "--port", "0", "--unixsocket", path, "--save", "", "--dir", str(folder)]
    with subprocess.Popen(command, stdout=subprocess.DEVNULL) as server:
        while not os.path.exists(path):
            time.sleep(0.05)
        for name in words or QUEUES:
            queue, log = QUEUES[name], folder / name
            calls = record(queue, path, log, items)
            options = ["--capacity", str(queue.capacity)] if queue.capacity else []
            run = subprocess.run([CCQ, "judge", *options, log], capture_output=True, text=True, check=False)
            verdict = (run.stdout or run.stderr).partition("\n")[0]
            print(f"{name}: {queue.__doc__} {calls} calls: {verdict}", *[f"({queue.why})"] * bool(queue.why))
            accused |= queue.right and run.returncode != 0
        server.terminate()
    print(f"The logs are in {folder}.")
    return int(accused)


if __name__ == "__main__":
    sys.exit(main(sys.argv[1:]))
