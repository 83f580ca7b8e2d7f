#!/usr/bin/env python3
"""Records the calls of threads on a queue of Python, as a log to be judged.

    queues.py QUEUE LOG SENDERS TAKERS CALLS SEED

The files of the threads are LOG with their numbers. Each thread makes this number of calls. At the end the items that
are left are taken, until two takes have found none.
"""
import collections
import multiprocessing
import os
import queue
import random
import sys
import threading
import time

sys.dont_write_bytecode = True
from recorder import Recorder

CAPACITY = 16
# How long a thread sleeps now and then.
PAUSE = 2e-5


def locked(inner):
    """The calls of multiprocessing's simple queue, whose takes wait unless it was asked first: under a lock."""
    lock = threading.Lock()

    def take():
        with lock:
            if inner.empty():
                raise queue.Empty
            return inner.get()

    return inner.put, take


def calls_of(name):
    """The send and the take of a queue. Neither waits."""
    if name == "Queue_bounded":
        inner = queue.Queue(CAPACITY)
        return inner.put_nowait, inner.get_nowait
    if name == "Queue":
        inner = queue.Queue()
        return inner.put_nowait, inner.get_nowait
    if name == "SimpleQueue":
        inner = queue.SimpleQueue()
        return inner.put, inner.get_nowait
    if name == "deque":
        inner = collections.deque()
        return inner.append, inner.popleft
    if name == "multiprocessing_Queue":
        inner = multiprocessing.Queue()
        return inner.put, inner.get_nowait
    if name == "multiprocessing_SimpleQueue":
        return locked(multiprocessing.SimpleQueue())
    sys.exit(f"queues: no queue is {name}")


def work(calls, mine, thread, senders, count, seed):
    rng = random.Random(seed * 100 + thread)
    for number in range(count):
        if thread < senders:
            send(calls[0], mine, (thread + 1) << 32 | number)
        else:
            take(calls[1], mine)
        if rng.random() < 0.002:
            time.sleep(PAUSE)


def send(put, mine, item):
    mine.begin(send=item)
    try:
        put(item)
        mine.end(send=item)
    except queue.Full:
        mine.end(send=item, answer="full")


def take(get, mine):
    """Whether there was an item."""
    mine.begin(take=None)
    try:
        item = get()
    except (queue.Empty, IndexError):
        item = None
    mine.end(take=item)
    return item is not None


def main(name, log, senders, takers, count, seed):
    sys.setswitchinterval(1e-5)
    calls = calls_of(name)
    *mine, last = [Recorder(f"{log}.{at}", at) for at in range(senders + takers + 1)]
    threads = [threading.Thread(target=work, args=(calls, it, it.thread, senders, count, seed)) for it in mine]
    for thread in threads:
        thread.start()
    for thread in threads:
        thread.join()
    none = 0
    while none < 2:
        none = 0 if take(calls[1], last) else none + 1
    # Items that multiprocessing's thread still holds back are not waited for
    sys.stdout.flush()
    os._exit(0)


if __name__ == "__main__":
    main(*sys.argv[1:3], *map(int, sys.argv[3:7]))
