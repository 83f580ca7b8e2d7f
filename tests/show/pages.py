#!/usr/bin/env python3
"""Tests pages of `ccq show` and `ccq judge --page`, as `rt run` built it, and compares them with what `ccq play`
writes.

    tests/show/pages.py walks        the page of each plan in examples/, stepped to its end by keys and back
    tests/show/pages.py many         a page of 20,000 events: the median of its steps takes at most 20 ms
    tests/show/pages.py by_hand      1,000 random steps by clicks, on pages of ten plans without events
    tests/show/pages.py by_node      the same steps of the pages' machine alone, by node, with the laws
    tests/show/pages.py lessons      the tour, scenarios and broken queues of docs/pages/index.html, by node
    tests/show/pages.py plans        each plan of tests/rows.py is read or refused as by `ccq play`, by node
    tests/show/pages.py learns       the index: each lesson by clicks and keys, side by side, exercises, also on paper,
                                     the adversary, a queue of one's own, plans, links, also those of
                                     docs/TEACHING.md to broken queues, keys
    tests/show/pages.py lectures     each screen of each lecture; the path of docs/TEACHING.md; motion; a site
    tests/show/pages.py shortest     the solutions of the exercises are shortest ones, by node
    tests/show/pages.py judged       pages of `ccq judge --page`: one of each fault, a clean log, 100,000 calls
    tests/show/pages.py looks        buttons, keys and turns; what is in view; a phone, 320 pixels and 200 %; contrasts

All but by_node, lessons, plans and shortest need Chromium, whose name is in the environment variable `browser`. After
steps by hand the plan that the page exports is played by `ccq`, and its report has to be that of the page, byte for
byte. Exit status 0 if all is as it should be.
"""
import difflib
import json
import os
import pathlib
import queue
import re
import subprocess
import sys
import tempfile
import threading
from http.server import BaseHTTPRequestHandler, ThreadingHTTPServer

sys.dont_write_bytecode = True
HERE = pathlib.Path(__file__).resolve().parent
sys.path.insert(0, str(HERE.parent))
import asked
from programs import PROGRAM, TOP, by_hand as rows_of, derived

INDEX = TOP / "docs/pages/index.html"
PLANS = sorted(path for path in (TOP / "examples").glob("*.json") if not path.name.startswith("receipts"))
LAPTOP, PHONE = {"width": 1366, "height": 768}, {"width": 390, "height": 844}
# Projectors, and a laptop's window under the browser's bars.
SCREENS = [{"width": 1024, "height": 768}, {"width": 1920, "height": 1080}, {"width": 1366, "height": 640}]
# A small phone, and a laptop at 200 %.
SMALL, ZOOMED = {"width": 320, "height": 640}, {"width": 683, "height": 384}
STEPS = 100
SLOWEST = 20  # milliseconds of the median of all steps, each with its layout

# For steps by hand: groups, senders, receivers of a group, capacity, bound, life, and the most words of a body.
CONFIGURATIONS = [(1, 1, 1, 1, 1, 3, 1), (1, 2, 2, 2, 2, 100, 1), (1, 3, 1, 4, 4, 100, 4), (2, 2, 1, 1, 3, 100, 1),
                  (2, 3, 2, 6, 2, 100, 3), (3, 1, 2, 2, 1, 100, 4), (1, 4, 4, 3, 1024, 100, 2), (8, 1, 1, 2, 2, 100, 2),
                  (1, 6, 1, 1, 5, 4, 1), (4, 3, 3, 4, 2, 100, 4)]


def output(program, *words, given=b""):
    return subprocess.run([program, *words], input=given, stdout=subprocess.PIPE, check=True,
                          timeout=120).stdout.decode()


def alone(task, *words):
    """What the page's machine says by node, a line of JSON each. A task that says nothing is a fault."""
    said = [json.loads(line) for line in output("node", HERE / "alone.js", task, *words).splitlines()]
    if not said:
        sys.exit(f"pages: alone.js {task} says nothing")
    return said


def page_of(plan):
    return output(PROGRAM, "show", given=plan)


def plan_without_events(groups, senders, receivers, capacity, bound, life, words):
    plan = {"capacity": capacity, "bound": bound, "life": life, "senders": [[]] * senders,
            "receivers": [0] * (groups * receivers), "schedule": []}
    return json.dumps(plan if groups == 1 else {"version": 2, "groups": groups, **plan}).encode()


def plan_of_many_events():
    """Four senders and four receivers in two groups, that go on in some order, by one to five steps each."""
    schedule, left, at = [], 20000, 0
    while left:
        at = (at * 5 + 3) % 1000003
        steps = min(1 + at % 5, left)
        of = at // 7 % 8
        schedule.append([f"{'sr'[of // 4]}{of % 4 + 1}", steps])
        left -= steps
    senders = [[[sender, number] for number in range(1, 401)] for sender in range(1, 5)]
    return json.dumps({"version": 2, "groups": 2, "capacity": 6, "bound": 3, "life": 5000, "senders": senders,
                       "receivers": [400] * 4, "schedule": schedule}).encode()


def in_browser(jobs, dark=False, still=True):
    """What the test of each of these jobs returns, in one browser without a window, with motion or without. Ends if
    that fails, has a console's line, or asks for what it isn't to have."""
    files = {"/": '<!DOCTYPE html><meta charset="utf-8"><link rel="icon" href="data:,"><body>'
             + "".join(f'<script src="{name}"></script>' for name in ("jobs.js", "hands.js", "tests.js")),
             "/pages/": INDEX.read_text(), "/index.html": INDEX.read_text(), "/jobs.js": "const jobs = "
             + json.dumps(jobs), **{f"/{name}": (HERE / name).read_text() for name in ("hands.js", "tests.js")}}
    answers, strange = queue.Queue(), []

    class Harness(BaseHTTPRequestHandler):
        def do_GET(self):
            if self.path not in files:
                strange.append(self.path)
            self.send_response(200 if self.path in files else 404)
            self.send_header("Content-Type", "text/javascript" if self.path.endswith(".js") else "text/html")
            self.end_headers()
            self.wfile.write(files.get(self.path, "").encode())

        def do_POST(self):
            answers.put(json.loads(self.rfile.read(int(self.headers["Content-Length"]))))
            self.send_response(204)
            self.end_headers()

        def log_message(self, *_):
            pass

    server = ThreadingHTTPServer(("127.0.0.1", 0), Harness)
    threading.Thread(target=server.serve_forever, daemon=True).start()
    with tempfile.TemporaryDirectory(ignore_cleanup_errors=True) as room, open(os.path.join(room, "console"),
        "w+") as console:
        browser = subprocess.Popen(
            [os.environ["browser"], *(["--force-prefers-reduced-motion"] if still else []), "--headless",
             "--no-sandbox", "--disable-gpu", "--enable-logging=stderr", "--window-size=1400,1600",
             f"--user-data-dir={room}/profile", f"--blink-settings=preferredColorScheme={0 if dark else 1}",
             f"http://127.0.0.1:{server.server_port}/"],
            stdin=subprocess.DEVNULL, stdout=console, stderr=console)
        try:
            found = [answers.get(timeout=300) for _ in jobs]
        except queue.Empty:
            found = []
        finally:
            browser.terminate()
            browser.wait(30)
            server.shutdown()
        console.seek(0)
        lines = [line for line in console if "CONSOLE" in line and "favicon" not in line]
    if lines or strange or not found:
        sys.exit("".join(lines)
                 or ("the page asks for " + ", ".join(strange) if strange else "the browser gave no answer"))
    return found


def failed(name, answer):
    """Whether a test failed; says why."""
    wrong = isinstance(answer, dict) and "error" in answer
    if wrong:
        print(f"{name}: {answer['error']}")
    return wrong


def is_report_of(name, answer):
    """Whether the page's report is what `ccq play` writes for the page's plan, byte for byte; says if not."""
    played = output(PROGRAM, "play", given=answer["plan"].encode())
    if played != answer["report"]:
        lines = difflib.unified_diff(played.splitlines(), answer["report"].splitlines(), "ccq play", "the page",
                                     lineterm="", n=1)
        print(f"{name}: the plan {answer['plan'][:2000]}has another report:", *list(lines)[:12], sep="\n")
    return played == answer["report"]


def walks():
    pages = [page_of(plan.read_bytes()) for plan in PLANS]
    right = 0
    for plan, answer in zip(PLANS,
                            in_browser([{"test": "walk", "page": page, "rounds": 2, "width": 1280, "height": 1500}
                                        for page in pages])):
        if failed(plan.name, answer):
            continue
        history = output(PROGRAM, "play", given=plan.read_bytes()).split("\n")[:-2]
        if history != answer["lines"]:
            print(f"{plan.name}: the history is {history}, and on the page {answer['lines']}")
        elif is_report_of(plan.name, answer):
            right += 1
    return right == len(PLANS)


def many():
    [answer] = in_browser([{"test": "walk", "page": page_of(plan_of_many_events()), "rounds": 3, **LAPTOP}])
    if failed("20,000 events", answer):
        return False
    print(f"a step takes {answer['took']:.1f} ms")
    return answer["events"] == 20000 and answer["took"] <= SLOWEST and is_report_of("20,000 events", answer)


def driven(answers):
    """Whether the steps by hand are there, and each plan has its report."""
    right = 0
    for number, answer in enumerate(answers, 1):
        name = f"steps by hand {number}"
        if not failed(name, answer) and is_report_of(name, answer):
            right += answer["events"] > STEPS / 2
    return right == len(CONFIGURATIONS)


def by_hand():
    jobs = [{"test": "drive", "page": page_of(plan_without_events(*of)), "seed": seed, "steps": STEPS, "words": of[-1],
             **LAPTOP}
            for seed, of in enumerate(CONFIGURATIONS, 1)]
    return driven(in_browser(jobs))


def by_node():
    with tempfile.TemporaryDirectory() as room:
        words = []
        for seed, of in enumerate(CONFIGURATIONS, 1):
            path = os.path.join(room, f"{seed}.html")
            pathlib.Path(path).write_text(page_of(plan_without_events(*of)))
            words += [path, str(seed), str(STEPS), str(of[-1])]
        return driven(alone("steps", *words))


def lessons():
    """The plans of the lessons: those of examples/ are its files, and each has the report of `ccq play`."""
    site = re.search(r'id="site">([^<]*)', INDEX.read_text())[1]
    right = site == (TOP / "docs/pages/plan.json").read_text().strip()
    if not right:
        print("the page knows another plan than docs/pages/plan.json as its own")
    for lesson in alone("lessons", INDEX):
        if lesson["kind"] == "example" and lesson["given"] != json.loads(
                (TOP / "examples" / f"{lesson['id']}.json").read_text()):
            print(f"{lesson['id']}: the plan isn't that of examples/")
            right = False
        right &= is_report_of(lesson["id"], lesson)
    return right


def plans():
    """The plans of tests/rows.py."""
    plays = [(name, row) for name, row in [*rows_of("worked_rows"), *derived()] if row.words == ["play"]]
    with tempfile.TemporaryDirectory() as room:
        for name, row in plays:
            pathlib.Path(room, name).write_bytes(row.input)
        answers = alone("plans", INDEX, *[pathlib.Path(room, name) for name, _ in plays])
    wrong = 0
    for (name, row), answer in zip(plays, answers):
        is_plan = row.status == 0
        if (answer["refused"] == "") != is_plan or is_plan and not answer["is_long"] and answer[
                "report"] != row.out.decode():
            print(f"{name}: {answer['refused'] or 'the page reads it as a plan, with another answer'}")
            wrong += 1
    return not wrong and len(answers) == len(plays) > 700


def learns():
    index = {"src": "/index.html", **LAPTOP}
    jobs = [{"test": "lessons", **index}, {"test": "beside", **index}, {"test": "exercises", **index},
            {"test": "own", **index}, {"test": "keys", **index}, {"test": "adversary", **index},
            {"test": "paper", **index},
            *({"test": "link", "text": plan.read_text(), **index} for plan in PLANS),
            *({"test": "broken", "address": address, **index} for address in broken_runs())]
    right = True
    for job, answer in zip(jobs, in_browser(jobs)):
        right &= not failed(job["test"],
                            answer) and (job["test"] != "own"
                                         or all(is_report_of("a queue of one's own", one) for one in answer))
    return right


def broken_runs():
    """The addresses of docs/TEACHING.md that show a broken queue."""
    found = re.findall(r"pages/index\.html(#table=[^)]*&plan=[^)]*)\)", (TOP / "docs/TEACHING.md").read_text())
    return found or sys.exit("docs/TEACHING.md has no address of a broken queue")


def steps_of_path():
    """The steps of the path in docs/TEACHING.md: the rows of its table, each with what is pressed and what the screen
    says then."""
    keys, steps = {"\u2192": "ArrowRight"}, []
    for press, says in re.findall(r"^\| \d+:\d\d \| (.*?) \| (.*?) \|", (TOP / "docs/TEACHING.md").read_text(), re.M):
        pressed = re.findall(r"`([^`]+)`(?: (\d+) times)?", press)
        steps.append({"press": [keys.get(key, key) for key, times in pressed for _ in range(int(times or 1))],
                      "says": re.findall(r'"([^"]+)"', says)})
    if len(steps) < 10 or not all(step["press"] and step["says"] for step in steps):
        sys.exit("docs/TEACHING.md has no path of ten steps")
    if "(docs/TEACHING.md)" not in (TOP / "README.md").read_text() or "(pages/index.html)" not in (
            TOP / "docs/TEACHING.md").read_text():
        sys.exit("README doesn't lead to docs/TEACHING.md, or that not to the page")
    return steps


def lectures():
    """The lecture; the teacher's path, from README on; motion; and the page as a site serves it."""
    steps = steps_of_path()
    index = {"src": "/pages/", **LAPTOP}
    wrong = 0
    for still in (True, False):
        jobs = [{"test": "motion", "still": still, **index}] + [{"test": "lecture", **index},
            *({"test": "fits", **index, **size} for size in SCREENS),
                {"test": "path", "steps": steps, **index}, {"test": "served", **index}] * still
        for job, answer in zip(jobs, in_browser(jobs, still=still)):
            wrong += failed(job["test"], answer)
    return not wrong


def shortest():
    """Of each exercise no run with fewer steps than its solution reaches the goal."""
    right = True
    for exercise in alone("shortest", INDEX):
        if not exercise["least"] == exercise["solved"] == exercise["steps"]:
            print(f"{exercise['id']}: the solution has {exercise['steps']} steps, solves it with "
                  f"{exercise['solved']}, and {exercise['least']} are enough")
            right = False
    return right


def looks():
    pages = {plan.stem: page_of(plan.read_bytes()) for plan in PLANS}
    empty = page_of(plan_without_events(*CONFIGURATIONS[1]))
    large = page_of(plan_of_many_events())
    turns = page_of(json.dumps(
        {"capacity": 2, "bound": 2, "life": 10, "senders": [[1, 2, 3]], "receivers": [2], "schedule": []}).encode())
    index = {"src": "/index.html"}
    light = [{"test": "hands", "page": empty, **LAPTOP}, {"test": "player", "page": pages["bodies_of_words"], **LAPTOP},
             {"test": "turns", "page": turns, **LAPTOP},
             {"test": "sizes", **index, **LAPTOP}, {"test": "sizes", **index, **PHONE},
             *({"test": "opens", **index, **size} for size in (LAPTOP, PHONE)),
             *({"test": "opens", "page": pages[name], "title": title, **size} for size in (LAPTOP, PHONE)
               for name, title in (("one_item", "A run of 1 sender and 1 receiver, 51 events"),
                                   ("two_groups", "A run of 1 sender and 2 groups of 1 receiver, 239 events"))),
             *({"test": "covered", **index, **size} for size in (SMALL, PHONE, ZOOMED, LAPTOP)),
             {"test": "phone", **index, **PHONE},
             *({"test": "in_view", "page": page, **LAPTOP} for page in [*pages.values(), large]),
             *({"test": "phone", "page": page, **PHONE} for page in pages.values())]
    colours = [{"test": "contrasts", **page, **size}
               for page in ({"page": pages["bodies_of_words"]}, {"page": pages["two_groups"]},
                            {"src": "/index.html#lesson=handed_past"})
               for size in (LAPTOP, PHONE)]
    wrong = 0
    for dark, jobs in ((False, light + colours), (True, colours)):
        jobs = [{**job, "dark": dark} for job in jobs]
        for job, answer in zip(jobs, in_browser(jobs, dark)):
            wrong += failed(f"{job['test']}, {job['width']} wide, {'dark' if dark else 'light'}", answer)
    return not wrong


# Logs, each a line of calls: thread, begin, end or -, what it did, its item or -, and its answer if it has one;
# `late` first, if the log begins late. Each has the status and the beginning of the verdict that is due, the options,
# the lines that its page shows, and, if it isn't that of a log without a capacity or an end, the shades and the bars.
LOGS = [
    (1, "never sent", [], "a 1 2 take 9; b 2 3 send 8; b 4 5 send 7", [1, 2]),
    (1, "taken before sent", [], "a 1 3 take 7; b 2 3 send 5; b 5 8 send 7", [1, 2, 3]),
    (1, "taken twice", [], "a 1 3 send 7; b 4 6 take 7; c 5 9 take 7; a 20 21 send 8", [1, 2, 3]),
    (1, "overtaken", [], "a 1 2 send 1; a 3 4 send 2; b 5 6 take 2; b 7 8 take 1", [1, 2, 3, 4]),
    (1, "overtaken", [], "a 1 2 send 1; a 3 4 send 2; b 5 6 take 2", [1, 2, 3]),
    (1, "not empty", [],
     'a 10 20 send 7; a 24 38 send 8; b<"\\é 26 60 take -; c 42 70 take 7; d 30 55 send 9 full; d 65 - take -',
     [1, 2, 3, 4, 5, 6]),
    (1, "not empty", ["--skew", "3"],
     "a 10 20 send 18446744073709551615; b 30 40 take -; b 50 60 take 18446744073709551615; c 70 80 send "
     "18446744073709551614", [1, 2, 3]),
    (1, "not empty", [], "a 1 5 close -; b 2 - send 7; c 6 7 take -; c 8 9 take 7", [1, 2, 3, 4],
     ["impossible from 6 to 7", "item 7, from 5 to 8"]),
    (1, "not empty", [], "late; a 1 2 close -; b 3 4 take -; b 5 6 take 7", [2, 3, 4]),
    (1, "open after closed", [], "a 1 2 close -; b 3 4 send 7; c 5 6 take 7", [1, 2, 3]),
    (1, "not empty", [], "b 1 10 send 7; a 2 9 close -; c 6 8 take - ended; c 12 14 take 7", [1, 2, 3, 4],
     ["impossible from 6 to 8", "item 7, from 2 to 12"]),
    (1, "not empty", [], "b 1 20 send 7; a 7 9 close -; c 6 12 take - ended; c 21 22 take 7", [1, 2, 3, 4],
     ["impossible from 7 to 12", "item 7, from 7 to 21"]),
    (1, "closed early", [], "a 1 2 take - ended; b 3 4 close -", [1]),
    (1, "not full", ["--capacity", "2"], "a 1 2 send 1; a 4 9 send 2 full; b 5 6 take 1", [1, 2, 3],
     ["impossible from 4 to 9", "item 1, from 1 to 6"]),
    (1, "too many", ["--capacity", "1"], "a 1 2 send 1; a 3 4 send 2; b 5 6 take 1", [1, 2, 3],
     ["impossible from 4 to 5", "item 1, from 2 to 5", "item 2, from 4 on"]),
    (1, "too many", ["--capacity", "1"], "a 1 2 send 1; a 3 4 send 2; c 6 - take -; b 7 8 take 1", [1, 2, 3, 4],
     ["impossible from 4 to 6", "item 1, from 2 to 7", "item 2, from 4 on"]),
    (0, "clean", [], "a 1 2 send 1; a 3 4 send 2 closed; b 5 6 take 1; b 7 8 take -", [1, 2, 3, 4]),
]


def log_of(text):
    """The calls of such a log."""
    calls = []
    for words in (part.split() for part in text.split(";")):
        if words == ["late"]:
            calls.append({"begins": "late"})
            continue
        thread, begin, end, act, item = words[:5]
        call = {"thread": thread, "begin": int(begin)} | ({} if end == "-" else {"end": int(end)})
        call[act] = True if act == "close" else None if item == "-" else [int(item)]
        calls.append(call | ({"answer": words[5]} if len(words) > 5 else {}))
    return calls


def chained_log(count):
    """A take that found none beside this many items, one after another."""
    items = [f"s {10 * k + 1} {10 * k + 2} send {k}; r {10 * k + 15} {10 * k + 16} take {k}" for k in range(count)]
    return log_of("; ".join([f"t 5 {10 * count} take -", *items]))


def large_log(count):
    """A queue of this many calls by four threads, and a slow take in the middle that got an item a second time."""
    calls = []
    for k in range(count // 2):
        calls.append({"thread": f"s{k % 2}", "begin": 10 * k, "end": 10 * k + 15, "send": [k]})
        calls.append({"thread": f"r{k % 2}", "begin": 10 * k + 12, "end": 10 * k + 25, "take": [k]})
    begin = 5 * (count // 2)
    return [*calls, {"thread": "slow", "begin": begin, "end": begin + 10_000, "take": [count // 4 + 100]}]


def judged_page(calls, options):
    """The first line of the verdict on a log, and its page. Both have one status, which is returned too."""
    log = "".join(json.dumps(call) + "\n" for call in calls).encode()
    line, page = (subprocess.run([PROGRAM, "judge", *more, *options], input=log, stdout=subprocess.PIPE, timeout=120)
                  for more in ([], ["--page"]))
    if line.returncode != page.returncode:
        sys.exit(f"the status is {line.returncode}, and {page.returncode} with a page")
    return line.stdout.decode().partition("\n")[0], page.stdout.decode(), line.returncode


def judged_job(calls, line, page, shown, marks=None, says="", named=()):
    """What a page has to show. The lit calls are those that the line of the verdict names, or these, and the first
    close if a take found the end."""
    places = re.findall(r"\blines? (\d+(?:(?:, | and )\d+)*)", line) if line.startswith("judge fault") else []
    named = {*named, *(int(number) for place in places for number in re.findall(r"\d+", place))}
    closes = [number for number, call in enumerate(calls, 1) if "close" in call]
    if "closed and empty" in line:
        named.add(min(closes, key=lambda number: calls[number - 1]["begin"]))
    item = lambda number: calls[number - 1].get("send") or calls[number - 1].get("take")
    items = [item(number) for number in named if item(number)]
    return {"test": "judged", "page": page, "line": line, "shown": shown, "named": sorted(named),
            "same": [number for number in shown if number not in named and item(number) in items],
            "threads": sorted({calls[number - 1]["thread"] for number in shown}), "never": bool(named),
            "marks": marks, "says": says}


def judged():
    jobs = []
    for status, kind, options, text, shown, *marks in LOGS:
        calls = log_of(text)
        line, page, found = judged_page(calls, options)
        if found != status or kind not in line:
            sys.exit(f"{kind}: the status is {found}, of {line}")
        jobs.append(judged_job(calls, line, page, shown, *marks))
    calls = chained_log(25)
    line, page, _ = judged_page(calls, [])
    # The last take began when the call had ended, and took none of the first 20 items.
    jobs.append(judged_job(calls, line, page, list(range(1, 51)), says=" and then 5 others, one after another",
                           named=range(1, 42)))
    calls = large_log(100_000)
    line, page, _ = judged_page(calls, [])
    shown = [json.loads(call)["line"] for call in re.search(r'id="calls">([^<]*)', page)[1].splitlines()]
    job = judged_job(calls, line, page, shown)
    left_out = json.loads(re.search(r'id="fault">([^<]*)', page)[1])["left_out"]
    # Of the calls of four threads in 10,000 moments 300 are shown, with the three of the item
    if len(shown) != 303 or not 1500 < left_out < 2000 or len(page) > 100_000 or not set(job["named"]) <= set(shown):
        sys.exit(f"the page of 100,000 calls has {len(page)} bytes and {len(shown)} calls, without {left_out}")
    wrong = 0
    for dark in (False, True):
        sized = [{**job, **size, "dark": dark} for job in [*jobs, job] for size in (LAPTOP, PHONE)]
        for one, answer in zip(sized, in_browser(sized, dark)):
            wrong += failed(f"{one['line'][:60]}, {one['width']} wide, {'dark' if dark else 'light'}", answer)
    return not wrong


def main(words):
    tasks = {task.__name__: task
             for task in (walks, many, by_hand, by_node, lessons, plans, learns, lectures, shortest, judged, looks)}
    if len(words) != 1 or words[0] not in tasks:
        print(f"usage: tests/show/pages.py {' | '.join(tasks)}", file=sys.stderr)
        return 64
    return 0 if tasks[words[0]]() else 1


if __name__ == "__main__":
    sys.exit(main(sys.argv[1:]))
