"""Cases of tests/program.py: the log."""
import concurrent.futures
import contextlib
import json
import os
import resource
import threading
import time

from program_room import (
    Backend, IO, NOT_FOUND, PLANS, STRAY, WAIT, answers, call, client, end_of, expect, free_port, is_reset, listener,
    listens, plan, read_message, read_reply, read_to, reply, serve_words,
)


def told(lines):
    """The lines of a log that tell of replies, and those that tell how the gateway stands."""
    parsed = [json.loads(line) for line in lines.splitlines()]
    return [line for line in parsed if "ended" in line], [line for line in parsed if "asking" in line]


def branches_told(lines):
    """The lines of a log that tell of branches."""
    return [line for line in map(json.loads, lines.splitlines()) if "cause" in line]


def brief(line):
    """What a line tells, without the times."""
    return tuple(line[key] for key in ("worker", "connection", "request", "path", "status", "code", "ended", "branch"))


def case_log_of_each_end(room):
    """a line of the log tells what ended each call, and when"""
    with listener() as backend:
        run, port = room.serve(plan([backend.getsockname()[1]], 1), streams=2, log=True)
        with client(port) as stream:
            began = time.time()
            call(stream)
            asked = backend.accept()[0]
            time.sleep(0.3)
            with asked:
                asked.sendall(reply("1"))
            expect("the first reply", read_reply(stream)[0], "200")
            call(stream)
            backend.accept()[0].close()
            expect("where the backend closes", read_reply(stream)[0], "503")
            call(stream, "Connect-Timeout-Ms: 100\r\n")
            with backend.accept()[0]:
                expect("at the deadline", read_reply(stream)[0], "504")
            answers("a request that is no call", stream)
            stream.sendall(b"GET / HTTP/1.1\r\nHost: g\r\nTransfer-Encoding: chunked\r\n\r\n")
            expect("the refusal", read_reply(stream)[0], "411")
        with client(port) as stream:
            call(stream)
            silent = backend.accept()[0]
        with silent:
            listens(run.stderr)
            said = b""
            while len(told(said)[0]) < 6:
                said += run.stderr.readline()
        said += run.communicate(timeout=WAIT)[1]
    replies, _ = told(said)
    expect("the lines", [brief(line) for line in replies], [
        (0, 0, 0, "/call", 200, None, "answers", None),
        (0, 0, 1, "/call", 503, "unavailable", "branch", "b0"),
        (0, 0, 2, "/call", 504, "deadline_exceeded", "deadline", None),
        (0, 0, 3, None, 404, None, "no call", None),
        (0, 0, 4, None, 411, None, "refusal", None),
        (0, 1, 0, "/call", 499, "canceled", "hang-up", None),
    ])
    took = [line["ms"] for line in replies]
    bounds = 299 <= took[0] < 1000 * WAIT, 99 <= took[2] < 1000 * WAIT, took[3:5]
    expect(f"the milliseconds {took}", bounds, (True, True, [None, None]))
    expect("the times", all(began - 1 < line["time"] / 1000 < time.time() + 1 for line in replies), True)
    expect("the status", run.returncode, 0)


class Answers(Backend):
    """A backend that sends these bytes for each request, and ends its stream."""

    def __init__(self, said):
        super().__init__("")
        self.answer = said


def reply_of(*fields, status="200 OK", body="1"):
    """A reply with these fields."""
    return "\r\n".join([f"HTTP/1.1 {status}", *fields, "", body]).encode()


JSON = "Content-Type: application/json"
LENGTH = "Content-Length: 1"

# what a backend sends, and what is told of it: the cause, and its status
ANSWERS = [
    (reply_of(JSON, LENGTH), "answer", 200),
    (reply_of(JSON, LENGTH, status="500 No"), "status", 500),
    (reply_of(LENGTH), "unexpected content type", 200),
    (reply_of(JSON, LENGTH, body="x"), "not JSON", 200),
    (reply_of(JSON, "Content-Length: 2"), "closed early", None),
    (b"", "ended without a byte", None),
    (b"nonsense\r\n\r\n", "bad head", None),
    (reply_of(JSON, "Transfer-Encoding: chunked", body="1\r\n1\r\n0\r\n\r\n"), "no fixed length", 200),
    (reply_of("Transfer-Encoding: chunked", status="503 Busy", body="0\r\n\r\n"), "no fixed length", 503),
    (reply_of(JSON), "no fixed length", 200),
    (reply_of(JSON, "Content-Length: 65537"), "too long", 200),
    (reply_of(JSON, "Content-Length: one", status="404 No"), "bad head", 404),
    (reply_of("A: " + "x" * 9000, JSON, LENGTH), "too long", None),
    (reply_of(status="100 Continue", body=""), "bad head", None),
]


def case_log_of_causes(room):
    """a line of the log tells what ended the asking of each backend that failed, and with --log all of each"""
    with contextlib.ExitStack() as opened:
        backends = [opened.enter_context(Answers(said)) for said, _, _ in ANSWERS]
        mute = opened.enter_context(listener())
        addresses = [f"127.0.0.1:{backend.port}" for backend in backends]
        addresses += [f"127.0.0.1:{free_port()}", "no.such.name.invalid:80", f"127.0.0.1:{mute.getsockname()[1]}"]
        wanted = [(cause, status) for _, cause, status in ANSWERS] + [("refused", None), ("no such name", None), ("deadline", None)]
        plans = [{"path": f"/{at}", "limit": 1, "branches": [{"name": f"b{at}", "address": address, "path": "/"}]}
                 for at, address in enumerate(addresses)]
        plans[-1]["branches"][0]["timeout_ms"] = 300
        for words, tells_all in (["--log"], False), (["--log", "all"], True):
            port = free_port()
            run = room.start(serve_words(port, room.file("plans", json.dumps(plans).encode()), 1, 1) + words)
            with client(port) as stream:
                for at in range(len(plans)):
                    call(stream, f"X-Request-Id: id-{at}\r\n", path=f"/{at}")
                    read_reply(stream)
            said = run.communicate(timeout=WAIT)[1]
            found = {line["branch"]: line for line in branches_told(said)}
            for at, (cause, status) in enumerate(wanted):
                if cause == "answer" and not tells_all:
                    continue
                line = found.pop(f"b{at}", None)
                expect(f"whether {cause} is told with {words}", line is not None, True)
                expect(f"what is told of {cause}", [line[key] for key in (
                    "address", "cause", "status", "path", "connection", "request", "request_id", "worker")],
                    [addresses[at], cause, status, f"/{at}", 0, at, f"id-{at}", 0])
                took = 299 if cause == "deadline" else 0
                expect(f"how long {cause} took, {line['ms']}", took <= line["ms"] < 1000 * WAIT, True)
            expect("what else is told", found, {})
            expect("the request ids of the replies", [line["request_id"] for line in told(said)[0]],
                   [f"id-{at}" for at in range(len(plans))])


def case_log_of_whose_requests(room):
    """a line of the log tells who asked: the client's address, the id of each call, and the target of what is no call"""
    with Backend("1") as backend, open(f"{room.folder}/log", "w+b") as log:
        run, port = room.serve(plan([backend.port], 1), streams=11, log=True, stderr=log)
        peers = []
        for at in range(10):
            with client(port) as stream:
                peers.append("{}:{}".format(*stream.getsockname()))
                for asked in range(8):
                    call(stream, f"X-Request-Id: {at}-{asked}\r\n")
                for asked in range(8):
                    expect(f"reply {asked} of client {at}", read_reply(stream)[0], "200")
        with client(port) as stream:
            peers.append("{}:{}".format(*stream.getsockname()))
            stream.sendall(b"GET /not%20here?key=secret HTTP/1.1\r\nHost: g\r\nX-Request-Id: z-1\r\n\r\n")
            stream.sendall(b"POST /" + b"x" * 300 + b" HTTP/1.1\r\nHost: g\r\nContent-Length: 0\r\n\r\n")
            stream.sendall(b"GET / HTTP/1.1\r\nHost: g\r\nTransfer-Encoding: chunked\r\n\r\n")
            expect("what is no call", [read_reply(stream)[0] for _ in range(3)], ["405", "404", "411"])
        expect("the status", run.wait(timeout=WAIT), 0)
        log.seek(0)
        replies, _ = told(log.read())
    found = {(line["connection"], line["request"]): (line["request_id"], line["target"], line["peer"]) for line in replies}
    wanted = {(at, asked): (f"{at}-{asked}", None, peers[at]) for at in range(10) for asked in range(8)}
    wanted[(10, 0)] = "z-1", "/not%20here", peers[10]
    wanted[(10, 1)] = None, "/" + "x" * 199, peers[10]
    wanted[(10, 2)] = None, None, peers[10]
    expect("whose requests are told", found, wanted)


def case_log_of_branches_given_up(room):
    """branches that are given up are told: where another failed, where the client is gone, and at a drain"""
    where = free_port()
    with listener() as mute, listener() as failing:
        made = plan([mute.getsockname()[1], failing.getsockname()[1]], 2)
        port = free_port()
        run = room.start(serve_words(port, room.file("plans", made), 1) + ["--log", "--admin", f"127.0.0.1:{where}", "--grace", "0"])
        with contextlib.ExitStack() as opened:
            def ask(stream):
                call(stream)
                return [opened.enter_context(one.accept()[0]) for one in (mute, failing)]

            with client(port) as stream:
                failing_one = ask(stream)[1]
                # else its end is a reset
                read_message(failing_one)
                failing_one.close()
                expect("where one fails", read_reply(stream)[0], "503")
                asked = ask(stream)
            for one in asked:
                read_message(one)
                expect("where the client is gone", read_to(one, 1), b"")
            with client(port) as stream:
                ask(stream)
                with client(where) as visitor:
                    visitor.sendall(b"POST /drain HTTP/1.1\r\nHost: localhost\r\n\r\n")
                    read_to(visitor, 1000)
                expect("at a drain", read_reply(stream)[0], "503")
        said = run.communicate(timeout=WAIT)[1]
    found = [(line["connection"], line["request"], line["branch"], line["cause"], line["request_id"]) for line in branches_told(said)]
    expect("what is told", sorted(found), [
        (0, 0, "b0", "not wanted any more", None), (0, 0, "b1", "ended without a byte", None),
        (0, 1, "b0", "not wanted any more", None), (0, 1, "b1", "not wanted any more", None),
        (1, 0, "b0", "drained", None), (1, 0, "b1", "drained", None)])


def case_log_of_streams_closed(room):
    """streams that find no place are told, each by a line"""
    port = free_port()
    run = room.start(serve_words(port, room.file("plans", b"[]"), 1) + ["--log"])
    listens(run.stderr)
    with contextlib.ExitStack() as opened:
        for _ in range(64):
            answers("one of 64", opened.enter_context(client(port)))
        for _ in range(3):
            is_reset("a further one", opened.enter_context(client(port)))
    found = []
    while len(found) < 3:
        found += [line["closed"] for line in [json.loads(run.stderr.readline())] if "closed" in line]
    expect("what is told", found, ["no place"] * 3)
    run.kill()


def case_log_adds_up(room):
    """the lines of the log are the replies that clients counted, under load"""
    counted, counting = {}, threading.Lock()

    def be_client(port):
        with client(port) as stream:
            for asked in range(50):
                call(stream) if asked % 5 else stream.sendall(STRAY)
                status = int(read_reply(stream)[0])
                with counting:
                    counted[status] = counted.get(status, 0) + 1

    with Backend("1") as backend, open(f"{room.folder}/log", "w+b") as log:
        run, port = room.serve(plan([backend.port] * 3, 2), workers=16, streams=40, log=True, stderr=log)
        threads = [threading.Thread(target=be_client, args=(port,)) for _ in range(40)]
        for thread in threads:
            thread.start()
        for thread in threads:
            thread.join()
        expect("the status", run.wait(timeout=WAIT), 0)
        log.seek(0)
        replies, _ = told(log.read())
    found = {}
    for line in replies:
        found[line["status"]] = found.get(line["status"], 0) + 1
    expect("how many of each status", found, counted)
    expect("how many", sum(found.values()), 2000)
    # each worker counts its connections by itself
    who = {(line["worker"], line["connection"]) for line in replies}
    expect("how many connections", len(who), 40)
    expect("who was answered", {(line["worker"], line["connection"], line["request"]) for line in replies},
           {(*one, request) for one in who for request in range(50)})


def case_log_that_fails(room):
    """a standard error that is closed, full or no longer read harms nobody, and without --log there is nothing on it"""
    for name in ("closed", "full", "not asked for"):
        reader, writer = os.pipe()
        if name == "full":
            os.close(writer)
            writer = os.open("/dev/full", os.O_WRONLY)
        if name == "closed":
            os.close(reader)
        with Backend("1") as backend:
            run, port = room.serve(plan([backend.port], 1), streams=1, log=name != "not asked for", stderr=writer)
            with client(port) as stream:
                for _ in range(20):
                    call(stream)
                    expect(f"a reply, where it is {name}", read_reply(stream), ("200", b'{"b0":1}'))
            expect(f"the status, where it is {name}", run.wait(timeout=WAIT), 0)
        os.close(writer)
        if name == "not asked for":
            expect("what was said", os.read(reader, 1000), b"")


def stands_under_load(room):
    """Sees that a gateway tells after ten seconds how it stands, though lines come without end by then."""
    port = free_port()
    run = room.start(serve_words(port, room.file("no-plans", b"[]")) + ["--log"])
    client(port).close()
    began = time.monotonic()
    time.sleep(9)
    is_over = threading.Event()

    def be_busy():
        while not is_over.is_set():
            ask_all(port, 1)

    with concurrent.futures.ThreadPoolExecutor(3) as pool:
        busy = [pool.submit(be_busy) for _ in range(3)]
        try:
            while b'"asking"' not in run.stderr.readline():
                expect("whether it is told in time", time.monotonic() - began < 10 + WAIT / 4, True)
        finally:
            is_over.set()
            run.stderr.close()
        for one in busy:
            one.result()


def case_log_of_standing(room):
    """each ten seconds a line tells how the gateway stands, all of its loops, and one under load does so too"""
    with listener() as backend, concurrent.futures.ThreadPoolExecutor(1) as pool:
        under_load = pool.submit(stands_under_load, room)
        run, port = room.serve(plan([backend.getsockname()[1]] * 3, 2), workers=2, streams=3, log=True)
        with client(port) as stream, client(port), client(port) as third:
            answers("a request that is no call", stream)
            call(stream)
            call(third)
            asked = [backend.accept()[0] for _ in range(4)]
            with open(run.stderr.fileno(), "rb", closefd=False) as lines:
                listens(lines)
                lines.readline()
                standing = json.loads(lines.readline())
            for one in asked:
                one.close()
            for each in (stream, third):
                expect("the reply", read_reply(each)[0], "503")
    standing.pop("time")
    expect("how it stands", standing, {
        "asking": 4, "connections": 3, "counted": 0, "dropped": 0, "late": 0, "lingering": 0, "unknown": 0, "waiting": 0})
    under_load.result()
    expect("the status", (run.communicate(timeout=WAIT), run.returncode)[1], 0)


def ask_all(port, streams):
    """Makes a hundred requests on each of so many streams, and sees their replies."""
    for _ in range(streams):
        with client(port) as stream:
            stream.sendall(STRAY * 100)
            wanted = NOT_FOUND * 99 + NOT_FOUND.replace(b"\r\n\r\n", b"\r\nConnection: close\r\n\r\n")
            expect("their replies", read_to(stream, len(wanted)), wanted)


def case_log_that_stalls(room):
    """a log that nobody reads keeps nobody from his replies; what is left out of it is counted"""
    run, port = room.serve(b"[]", workers=2, log=True)
    # more than the system takes, and the gateway keeps
    ask_all(port, 150)
    count = 0
    with open(run.stderr.fileno(), "rb", closefd=False) as lines:
        listens(lines)
        while True:
            line = json.loads(lines.readline())
            if "asking" in line:
                break
            count += 1
    expect(f"whether some were left out, of which {line['dropped']} are told", 0 < line["dropped"] < 15_000, True)
    expect("how many there are with those that were left out", count + line["dropped"], 15_000)


def case_log_of_the_end(room):
    """the program's end waits for the lines that are left, but not for ever for a reader"""
    run, port = room.serve(b"[]", streams=30, log=True)
    ask_all(port, 29)
    client(port).close()
    expect("the status where nobody reads", run.wait(timeout=WAIT), 0)
    run, port = room.serve(b"[]", streams=30, log=True)
    ask_all(port, 29)
    client(port).close()
    replies, _ = told(run.communicate(timeout=WAIT)[1])
    expect("how many lines there are", len(replies), 2_900)
    expect("the status", run.returncode, 0)


def ask_with_long_ids(port):
    """Makes ninety requests on a connection, whose ids have 1 to 90 bytes."""
    with client(port) as stream:
        for length in range(1, 91):
            stream.sendall(STRAY[:-2] + b"X-Request-Id: " + b"i" * length + b"\r\n\r\n")
        expect("the replies", read_to(stream, 90 * len(NOT_FOUND)), NOT_FOUND * 90)


def case_log_of_two_programs(room):
    """lines of two programs that share a pipe stand each by itself"""
    reader, writer = os.pipe()
    with open(reader, "rb") as lines, concurrent.futures.ThreadPoolExecutor(31) as pool:
        all_lines = pool.submit(lines.read)
        with open(writer, "wb"):
            ports = [room.serve(b"[]", workers=2, streams=15, log=True, stderr=writer)[1] for _ in range(2)]
        for asking in [pool.submit(ask_with_long_ids, port) for port in ports for _ in range(15)]:
            asking.result()
        replies, _ = told(all_lines.result())
    expect("how many replies are told", len(replies), 2 * 15 * 90)


def remarks(lines):
    """What the lines of a log say beside replies: each fault, warning and address, by its kind."""
    return [(kind, line[kind]) for line in lines for kind in ("fault", "warning", "listen") if kind in line]


def case_log_of_the_start(room):
    """the log tells first where the gateway listens, its plans and workers, and what check warns of"""
    plans = json.loads(plan([1], 1)) * 2
    plans[1] = {**plans[1], "path": "/other", "timeout_ms": 5, "retries": 1}
    run, port = room.serve(json.dumps(plans).encode(), workers=3, streams=1, log=True)
    told = listens(run.stderr)
    path = f"{room.folder}/plans"
    checked = room.start(["check", "--plans", path]).communicate(timeout=WAIT)[0].decode()
    warnings = [line[9:] for line in checked.splitlines() if line.startswith("warning: ")]
    expect("how many warnings there are", len(warnings), 2)
    expect("what is told", remarks(told), [*(("warning", text) for text in warnings), ("listen", f"127.0.0.1:{port}")])
    expect("the last line", {key: told[-1][key] for key in ("admin", "plans", "workers")}, {"admin": None, "plans": 2, "workers": 3})
    client(port).close()
    expect("the status", (run.communicate(timeout=WAIT), run.returncode)[1], 0)


def case_log_of_few_descriptors(room):
    """the log warns where fewer descriptors are allowed than the workers may need"""
    run, port = room.serve(b"[]", workers=2, streams=1, log=True,
                           limit=lambda: resource.setrlimit(resource.RLIMIT_NOFILE, (3_007, 3_007)))
    warned = [text for kind, text in remarks(listens(run.stderr)) if kind == "warning"]
    expect("what is told", warned, [
        "descriptors: 3007 are allowed, and 3008 are always enough: ulimit -n, or LimitNOFILE in a unit"])
    client(port).close()
    expect("the status", (run.communicate(timeout=WAIT), run.returncode)[1], 0)
    run, port = room.serve(b"[]", workers=2, streams=1, log=True,
                           limit=lambda: resource.setrlimit(resource.RLIMIT_NOFILE, (3_008, 3_008)))
    expect("with enough", remarks(listens(run.stderr)), [("listen", f"127.0.0.1:{port}")])
    client(port).close()
    expect("the status", (run.communicate(timeout=WAIT), run.returncode)[1], 0)


def case_log_of_faults(room):
    """with --log a fault at the start is told in full before its line, and without it by the line alone"""
    good, bad = room.file("good", b"[]"), room.file("bad", b'[{"path":"/a"}]')
    with listener() as taken:
        port = taken.getsockname()[1]
        where = f"127.0.0.1:{port}"
        cases = [
            (serve_words(port, good), IO, f"{where}: Address already in use (os error 98)"),
            (serve_words(free_port(), "/none"), IO, "/none: No such file or directory (os error 2)"),
            (serve_words(free_port(), bad), PLANS, f"{bad}: plan 1 (/a): limit: the key is missing"),
            (serve_words(free_port(), good) + ["--admin", where], IO, f"{where}: Address already in use (os error 98)"),
        ]
        for words, (status, line), wanted in cases:
            (found, said), _ = end_of(room.start(words + ["--log"]))
            lines = said.splitlines()
            expect(f"the status of {words}", found, status)
            expect(f"the last line of {words}", lines[-1] + "\n", line)
            told = [text for kind, text in remarks(map(json.loads, lines[:-1])) if kind == "fault"]
            expect(f"what is told of {words}", told, [wanted])
            expect(f"without a log, {words}", end_of(room.start(words))[0], (status, line))
