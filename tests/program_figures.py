"""Cases of tests/program.py: figures and log tell the same, of each worker, in the units that docs/WATCHING.md says."""
import collections
import contextlib
import json
import os
import re
import time

from program_admin import HOST, figures, serve
from program_log import branches_told, told
from program_loops import reset
from program_room import (
    Backend, NOT_FOUND, STRAY, Untried, WAIT, answers, at_once, call, client, expect, free_port, long_listener,
    narrow_client, plan, read_message, read_reply, read_slowly, read_to, request, stopped,
)

# the bounds of the histogram, in seconds
BOUNDS = ["0.001", "0.002", "0.005", "0.01", "0.02", "0.05", "0.1", "0.2", "0.5", "1", "2", "5", "10", "+Inf"]


class Varied(Backend):
    """A backend that answers after a while, some milliseconds more or less."""

    pauses = [0, 1, 2, 4, 5, 9, 10, 19, 20, 48, 50]

    def __init__(self):
        self.count = 0
        super().__init__("1", pause=1)

    def answer_on(self, stream):
        self.count += 1
        self.pause = self.pauses[self.count % len(self.pauses)] / 1000
        super().answer_on(stream)


class Resetting(Backend):
    """A backend that resets each connection once it was asked."""

    def __init__(self):
        super().__init__("")

    def answer_on(self, stream):
        with contextlib.suppress(OSError):
            read_message(stream)
            reset(stream)


def figures_of(lines):
    """The figures that must be told of what these lines of a log tell, with times in milliseconds."""
    made = collections.Counter()
    for line in told(lines)[0]:
        path = line["path"] or ""
        made["replies_total", path, line["ended"]] += 1
        if line["ms"] is None:
            made["rejections_total", line["ended"], str(line["status"])] += 1
            continue
        for bound in BOUNDS:
            made["reply_seconds_bucket", path, bound] += line["ms"] <= 1000 * float(bound)
        made["reply_seconds_sum", path] += line["ms"]
        made["reply_seconds_count", path] += 1
    for line in branches_told(lines):
        branch = line["path"], line["branch"], line["cause"]
        made[("branches_total", *branch)] += 1
        made[("branch_seconds_total", *branch)] += line["ms"]
    return {key: count for key, count in made.items() if count}


def figures_told(where):
    """The figures of replies and branches, with times in milliseconds, of which there are some."""
    found = {(key[0].removeprefix("connect_gateway_"), *key[1:]): value for key, value in figures(where).items()}
    kinds = ("replies", "rejections", "reply_seconds", "branches", "branch_seconds")
    of_replies = {key: value for key, value in found.items() if key[0].startswith(kinds) and value}
    in_seconds = ("reply_seconds_sum", "branch_seconds_total")
    return {key: round(1000 * value) if key[0] in in_seconds else value for key, value in of_replies.items()}


def expect_figures(where, log, replies):
    """Sees that the log at that path tells so many replies soon, and the figures the same. Returns its lines."""
    end = time.monotonic() + WAIT
    while True:
        # the offset of what the program writes to stays
        with open(log, "rb") as file:
            lines = file.read()
        lines = lines[:lines.rfind(b"\n") + 1]
        made, found = figures_of(lines), figures_told(where)
        is_told = made == found and len(told(lines)[0]) == replies
        if is_told or time.monotonic() > end:
            break
        time.sleep(0.2)
    expect("how many replies the log tells", len(told(lines)[0]), replies)
    expect("what the figures alone tell", found.items() - made.items(), set())
    expect("what the log alone tells", made.items() - found.items(), set())
    return lines


def plan_of(path, *ports, **further):
    """A plan with a branch for each of these ports."""
    [made] = json.loads(plan(ports, len(ports)))
    return {**made, "path": path, **further}


def case_figures_are_the_log(room):
    """the figures are what the log tells, of three workers: each reply, time and branch, and each id in its place"""
    log = f"{room.folder}/log"
    with Varied() as varied, Backend("1") as good, Resetting() as bad, long_listener() as mute, open(log, "wb") as file:
        plans = [plan_of("/varied", varied.port), plan_of("/two", good.port, bad.port),
                 plan_of("/refused", free_port()), plan_of("/late", mute.getsockname()[1], timeout_ms=20)]
        _run, port, where = serve(room, json.dumps(plans).encode(), "--workers", "3", "--log", "all", stderr=file)

        def be_client(number):
            with client(port) as stream:
                for each in range(24):
                    path = ("/varied", "/two", "/varied", "/refused", "/varied", "/late")[each % 6]
                    call(stream, f"X-Request-Id: {path}-{number}-{each}\r\n", path=path)
                    read_reply(stream)
                answers("what is no call", stream)
                stream.sendall(b"nonsense\r\n\r\n")
                expect("the refusal", read_reply(stream)[0], "400")

        at_once(9, be_client)
        lines = expect_figures(where, log, 9 * 26)
    calls = {(line["worker"], line["connection"], line["request"]): line for line in told(lines)[0]}
    expect("the workers", {worker for worker, _, _ in calls}, {0, 1, 2})
    for line in branches_told(lines):
        its = calls[line["worker"], line["connection"], line["request"]]
        expect("the id of a branch", line["request_id"], its["request_id"])
        expect("the path of a branch", (line["path"], its["request_id"].split("-")[0]), (its["path"], its["path"]))
    resets = [line["branch"] for line in branches_told(lines) if line["cause"] == "reset"]
    expect("which branches were reset", collections.Counter(resets), {"b1": 9 * 4})


def case_time_of_a_slow_backend(room):
    """a backend that takes 1.2 seconds is told so, by the log in milliseconds and by the figures in seconds"""
    log = f"{room.folder}/log"
    with Backend("1", pause=1.2) as backend, open(log, "wb") as file:
        _run, port, where = serve(room, plan([backend.port], 1), "--log", "all", stderr=file)
        with client(port) as stream:
            began = time.monotonic()
            call(stream)
            expect("the reply", read_reply(stream)[0], "200")
            took = 1000 * (time.monotonic() - began)
        lines = expect_figures(where, log, 1)
    [replied], [branch] = told(lines)[0], branches_told(lines)
    # the line may be made a while after the last byte was read
    for line in (replied, branch):
        expect(f"the milliseconds {line['ms']}, where {took:.0f} passed", 1_199 <= line["ms"] < took + 1_000, True)


def streams_by_worker(room, port, lines, opened, workers=3):
    """Three streams to each of so many workers, by the workers' numbers, which the log tells."""
    found = collections.defaultdict(list)
    for _ in range(3 * workers):
        stream = opened.enter_context(client(port))
        answers("a stream", stream)
        line = json.loads(lines.readline())
        while "worker" not in line:
            line = json.loads(lines.readline())
        found[line["worker"]].append(stream)
    return found


def case_figures_of_each_worker(room):
    """the figures tell of each worker its own connections and backends"""
    names = ("connect_gateway_open_connections", "connect_gateway_backend_exchanges")
    with long_listener() as silent, contextlib.ExitStack() as opened:
        plans = [plan_of(f"/{count}", *[silent.getsockname()[1]] * count) for count in (1, 2, 3)]
        run, port, where = serve(room, json.dumps(plans).encode(), "--workers", "3", "--log")
        lines = opened.enter_context(open(run.stderr.fileno(), "rb", closefd=False))
        streams = streams_by_worker(room, port, lines, opened)
        expect("how many each worker has", {worker: len(its) for worker, its in streams.items()}, {0: 3, 1: 3, 2: 3})
        for worker, its in streams.items():
            call(its[0], path=f"/{worker + 1}")
            for stream in its[1:worker + 1]:
                stream.close()
        wanted = {**{(names[0], str(worker)): 3 - worker for worker in range(3)},
                  **{(names[1], str(worker)): worker + 1 for worker in range(3)}}
        end = time.monotonic() + WAIT
        found = {}
        while found != wanted and time.monotonic() < end:
            found = {key: value for key, value in figures(where).items() if key[0] in names}
            time.sleep(0.2)
        expect("what is told of each worker", found, wanted)


def case_log_of_long_ids(room):
    """calls with the longest ids and targets have their lines, with each id whole, and one that is too long has none"""
    # twice as long in the log
    longest = '"\\' * 64
    with open(f"{room.folder}/log", "w+b") as log:
        run, port = room.serve(plan([free_port()], 1), streams=1, log=True, stderr=log)
        with client(port) as stream:
            for number in (longest, longest + "x", "x"):
                call(stream, f"X-Request-Id: {number}\r\n")
                expect("the status", read_reply(stream)[0], "503")
            stream.sendall(request("/" + "~" * 300, f"X-Request-Id: {longest}\r\n"))
            expect("what is no call", read_reply(stream)[0], "404")
        expect("the status", run.wait(timeout=WAIT), 0)
        log.seek(0)
        lines = log.read()
    ids = [longest, None, "x", longest]
    expect("the ids and targets of replies", [(line["request_id"], line["target"]) for line in told(lines)[0]],
           list(zip(ids, [None, None, None, "/" + "~" * 199])))
    expect("the ids of branches", [line["request_id"] for line in branches_told(lines)], ids[:3])


def case_figure_of_lines_left_out(room):
    """lines that could not be written are counted, each once"""
    if not os.path.exists("/dev/full"):
        raise Untried("there is no /dev/full")
    with open("/dev/full", "wb") as full:
        _run, port, where = serve(room, b"[]", "--workers", "2", "--log", stderr=full)
        for _ in range(3):
            with client(port) as stream:
                stream.sendall(STRAY * 90)
                expect("their replies", read_to(stream, 90 * len(NOT_FOUND)), NOT_FOUND * 90)
        end = time.monotonic() + WAIT
        found = 0
        while found < 270 and time.monotonic() < end:
            found = figures(where)["connect_gateway_log_lines_left_out_total",]
        time.sleep(1.2)
        expect("how many are told", figures(where)["connect_gateway_log_lines_left_out_total",], 270)


def case_figures_while_streams_come(room):
    """operators are answered before all of 190 streams are accepted that wait at the listener"""
    run, port, where = serve(room, b"[]", "--workers", "3")
    with contextlib.ExitStack() as opened:
        answers("before", opened.enter_context(client(port)))
        with stopped(run):
            streams = [opened.enter_context(client(port)) for _ in range(190)]
            for stream in streams:
                stream.sendall(STRAY)
            operator = opened.enter_context(client(where))
            operator.sendall(f"GET /metrics HTTP/1.1\r\n{HOST}\r\n".encode())
        told_of = re.findall(rb"open_connections{worker=.\d.} (\d+)", read_to(operator, 1_000_000))
        accepted = sum(map(int, told_of)) - 1
        expect(f"whether there were fewer, {accepted}", accepted < 160, True)
        for stream in streams:
            expect("one of 190", read_to(stream, len(NOT_FOUND)), NOT_FOUND)


def scrape_slowly(where):
    """Reads the figures slowly. Returns the length that is told of them, that of what came, and the time it took."""
    with narrow_client(where) as stream:
        began = time.monotonic()
        stream.sendall(f"GET /metrics HTTP/1.1\r\n{HOST}\r\n".encode())
        said = read_slowly(stream, 0.6) + read_to(stream, 50_000_000)
    head, _, text = said.partition(b"\r\n\r\n")
    length = next(int(line[16:]) for line in head.split(b"\r\n") if line.startswith(b"Content-Length: "))
    return length, len(text), time.monotonic() - began


def case_slow_scraper(room):
    """figures of a million bytes come whole to who reads them slowly, though for less than two seconds"""
    plans = [{**json.loads(plan([1], 1))[0], "path": f"/{number}" + "x" * 900} for number in range(40)]
    _run, _port, where = serve(room, json.dumps(plans).encode())
    client(where).close()
    for _ in range(8):
        length, came, took = scrape_slowly(where)
        if took < 1.8:
            expect("how many bytes came", came, length)
            return expect("whether they were many", length > 800_000, True)
    raise Untried("they can't be read in two seconds here")
