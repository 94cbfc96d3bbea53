"""The cases of tests/faults, which starts this: python3 tests/faults.py PROGRAM

Each case is a function, named by its first line, over the helpers of tests/program_room.py. In each one call of the program
fails, the first, the second and so on, until there are none so many."""
import contextlib
import json
import os
import select
import signal
import socket
import subprocess
import sys
import tempfile
import time

import program
import program_admin
import program_places
import program_room
from program_room import (
    CASE_TIME, DONE, IO, MEMORY, NOT_FOUND, STRAY, Untried, WAIT, Wrong, answers, at_once, call, client, end_of, expect,
    free_ports, is_reset, listener, plan, read_to, reply, request, sees_end, serve_words, waits_of,
)

HERE = os.path.dirname(os.path.abspath(__file__))

ANSWER = reply('{"b0":1}')

# what a backend answers, with a length and in chunks
STATED = reply("1")
CHUNKED = STATED.split(b"Content-Length")[0] + b"Transfer-Encoding: chunked\r\n\r\n01;a\r\n1\r\n0\r\nX: y\r\n\r\n"


@contextlib.contextmanager
def faults():
    """The library that is preloaded."""
    with tempfile.TemporaryDirectory(prefix="faults-") as folder:
        built = f"{folder}/faults.so"
        subprocess.run(["cc", "-O1", "-shared", "-fPIC", "-o", built, f"{HERE}/faults.c"], check=True)
        os.chmod(folder, 0o755)
        yield built


def variables(what, number, how, told):
    return {"LD_PRELOAD": LIBRARY[0], "FAULT": f"{what} {number} {how}", "FAULT_TOLD": str(told)}


# the path of what is preloaded, once it is built
LIBRARY = []


def try_one(what, number, how, run, judge):
    """Lets this call fail. RUN makes a run, and JUDGE looks at what came of it, and whether the call did fail. Returns that."""
    with tempfile.TemporaryFile() as told:
        os.set_inheritable(told.fileno(), True)
        found = run(variables(what, number, how, told.fileno()), [told.fileno()])
        told.seek(0)
        met = told.read() != b""
    judge(f"{what} {number} {how}", met, *found)
    return met


def each(what, how, run, judge, first=1):
    """Lets the first such call fail, the second and so on, until none did."""
    for number in range(first, 100):
        if not try_one(what, number, how, run, judge):
            expect(f"whether there is a {what}", number > first, True)
            return
    raise Wrong(f"more than 99 {what}s")


# ---- replay


def long_script():
    """A script that is read in several reads, and whose text is written in several writes."""
    requests = "GET / HTTP/1.1\r\nHost: g\r\n\r\n" * 100
    events = [["open"], ["open"], ["open"]] + [["piece", conn, requests] for conn in range(3)]
    return json.dumps({"plans": [], "events": events, "filler": "x" * 20_000}).encode()


def wide_script():
    """A script whose connections get more bytes than a buffer keeps, so that they are written as they are."""
    plans = [{"path": "/call", "limit": 1, "branches": [{"name": "a", "address": "127.0.0.1:1", "path": "/"}]}]
    return json.dumps({"plans": plans, "events": [["open"], ["piece", 0, request(body="x").decode() * 100]]}).encode()


def replayed(room, script, **how):
    with tempfile.TemporaryFile(dir=room.folder) as given:
        given.write(script)
        given.seek(0)
        return end_of(room.start(["replay"], stdin=given, **how))


def goes_on(name, _met, found, printed, whole):
    """Nothing is to be seen of the fault."""
    expect(name, found, DONE)
    expect(f"{name}: its output", printed, whole)


def replay_each(room, what, how, judge, script=None):
    script = script or long_script()
    found, whole = replayed(room, script)
    expect("without a fault", found, DONE)
    each(what, how, lambda env, files: (*replayed(room, script, variables=env, pass_fds=files), whole), judge)


def case_replay_short(room):
    """replay: each read and write short"""
    for what in ("read", "write"):
        replay_each(room, what, "short", goes_on)


def case_replay_read_fails(room):
    """replay: each read failing"""

    def judge(name, met, found, printed, whole):
        expect(name, (found, printed), (IO, b"") if met else (DONE, whole))

    replay_each(room, "read", "failed", judge)


def case_replay_write_fails(room):
    """replay: each write failing"""

    def judge(name, met, found, printed, whole):
        expect(name, found, IO if met else DONE)
        expect(f"{name}: whether its output is a beginning", whole.startswith(printed), True)
        expect(f"{name}: whether it may lack something", met or printed == whole, True)

    replay_each(room, "write", "failed", judge)


# ---- serve


def ask(stream):
    """Sends a call, and returns what comes back for it: all of its answer, or less where the stream ends."""
    with contextlib.suppress(ConnectionError):
        call(stream)
    try:
        return read_to(stream, len(ANSWER))
    except ConnectionError:
        return b""


class Backend:
    """Answers each call over a stream of its own, until it is left."""

    def __init__(self, answer=STATED):
        self.answer = answer
        self.listens = listener()
        self.port = self.listens.getsockname()[1]
        self.pid = 0

    def __enter__(self):
        self.pid = os.fork()
        if self.pid == 0:
            try:
                self.answer_all()
            finally:
                os._exit(1)
        self.listens.close()
        return self

    def answer_all(self):
        self.listens.settimeout(None)
        while True:
            with contextlib.suppress(OSError, Wrong), self.listens.accept()[0] as stream:
                stream.settimeout(5)
                if read_to(stream, 4) == b"POST":
                    stream.recv(65536)
                    stream.sendall(self.answer)

    def __exit__(self, *_):
        os.kill(self.pid, signal.SIGKILL)
        os.waitpid(self.pid, 0)


def ask_three(port, pause=0.0):
    """Makes a call on each of three streams, one after another with pauses, and returns what came back for them."""
    found = []
    for _stream in range(3):
        time.sleep(pause)
        with contextlib.suppress(ConnectionError), client(port) as stream:
            found.append(ask(stream))
    return found


def serve_each(room, what, how, judge, first=1, name=b"127.0.0.1", pause=0.0, answer=STATED, words=()):
    """Serves three streams, one after another with pauses, with each such call failing. JUDGE looks at what came back for
    their calls. The gateway then ends by itself."""
    with Backend(answer) as backend:
        plans = plan([backend.port], 1, timeout=5000).replace(b"127.0.0.1", name)

        def run(env, files):
            started, port = room.serve(plans, streams=3, words=words, variables=env, pass_fds=files)
            return ask_three(port, pause), end_of(started)[0]

        each(what, how, run, judge, first)


def all_answered(name, _met, found, end):
    expect(name, found, [ANSWER] * 3)
    expect(f"{name}: the gateway's end", end, DONE)


def case_serve_short(room):
    """serve: each read and write of a stream short"""
    for what in ("receive", "send"):
        serve_each(room, what, "short", all_answered)


def case_serve_hasty(room):
    """serve: waits that tell of nothing change nothing"""
    with Backend() as backend, listener() as silent:
        other = json.loads(plan([silent.getsockname()[1]], 1))[0]
        plans = [*json.loads(plan([backend.port], 1)), {**other, "path": "/silent"}]
        env = {"LD_PRELOAD": LIBRARY[0], "FAULT": "wait 0 hasty"}
        run, port = room.serve(json.dumps(plans).encode(), streams=4, variables=env)
        with client(port) as stream:
            call(stream, path="/silent")
            with silent.accept()[0] as asked:
                expect("what others get meanwhile", ask_three(port), [ANSWER] * 3)
                asked.sendall(reply("1"))
                expect("the reply", read_to(stream, len(ANSWER)), ANSWER)
    room.ends("the gateway", run, DONE)


def is_apart(found):
    """Whether one stream at most has less than its answer, or that its backend was lost or its peer gone; the others
    have their answers."""
    others = [one for one in found if one != ANSWER]
    lost = all(ANSWER.startswith(one) or one[9:12] in (b"503", b"499") for one in others)
    return len(found) == 3 and len(others) <= 1 and lost


def judge_apart(name, met, found, end):
    expect(f"{name}: {found}", is_apart(found) if met else found == [ANSWER] * 3, True)
    expect(f"{name}: the gateway's end", end, DONE)


def case_serve_fails(room):
    """serve: each read, write and connect failing concerns one stream, and the others are served"""
    for how in ("failed", "reset"):
        for what in ("receive", "send", "connect"):
            serve_each(room, what, how, judge_apart)


def case_serve_chunks(room):
    """serve --chunked: each read short changes nothing, and each that fails concerns one stream, where replies are in chunks"""
    for how, judge in (("short", all_answered), ("failed", judge_apart), ("reset", judge_apart)):
        serve_each(room, "receive", how, judge, answer=CHUNKED, words=["--chunked"])


def case_serve_no_port(room):
    """serve: a connection for which no port is left concerns one stream, and its cause is told"""
    with Backend() as backend:
        env = {"LD_PRELOAD": LIBRARY[0], "FAULT": "connect 2 portless"}
        run, port = room.serve(plan([backend.port], 1), streams=3, log=True, variables=env)
        found = ask_three(port)
        said = run.communicate(timeout=WAIT)[1]
    expect("which calls are answered", [one == ANSWER for one in found], [True, False, True])
    lines = [json.loads(line) for line in said.splitlines()]
    expect("the cause", [line["cause"] for line in lines if "cause" in line], ["no port"])


def judge_cut(name, met, found, end):
    """The same where a stream may be cut before its request is read."""
    judge_apart(name, met, [one.removesuffix(b" (reset)") for one in found], end)


def case_serve_option_fails(room):
    """serve: each socket whose option can't be set, or whose sending side can't be ended, concerns one stream"""
    for what in ("option", "end"):
        serve_each(room, what, "failed", judge_cut, starts_with(room, what))


def case_serve_look_up_fails(room):
    """serve: each look-up that fails concerns one stream, and others that come more than a second later are served"""
    serve_each(room, "look-up", "failed", judge_apart, name=b"localhost", pause=1.2)


def case_serve_wait_fails(room):
    """serve: a wait or an accept that fails is made again"""
    for what in ("wait", "accept"):
        serve_each(room, what, "failed", all_answered)


def case_serve_fails_often(room):
    """serve: hundreds of waits, and of accepts, that fail with others between them end nothing"""
    for what in ("wait", "accept"):
        with tempfile.TemporaryFile() as told:
            os.set_inheritable(told.fileno(), True)
            env = variables(what, 1, "often", told.fileno())
            run, port = room.serve(b"[]", streams=60, variables=env, pass_fds=[told.fileno()])
            for _ in range(60):
                with client(port) as stream:
                    answers(f"one of 60 while a {what} fails now and then", stream)
            room.ends("the gateway", run, DONE)
            told.seek(0)
            failed = len(told.read())
        # a wait fails in main and in a loop
        expect(f"whether {failed} times a {what} failed", failed > (1_000 if what == "wait" else 400), True)


def ask_while_accepts_fail(room, begun):
    """Asks as an operator, who was let in before, once each accept fails. Returns what he is told, and how long he was
    there: after two seconds he has to go."""
    with listener() as silent, contextlib.ExitStack() as opened:
        env = {**variables("accept", 1, "lasting", 2), "FAULT_WHEN": begun}
        run, port, where = program_admin.serve(room, plan([silent.getsockname()[1]], 1), variables=env)
        stream = opened.enter_context(client(port))
        call(stream)
        # while a backend is asked an accept is tried for ever
        asked = opened.enter_context(silent.accept()[0])
        came = time.monotonic()
        operator = opened.enter_context(client(where))
        operator.sendall(b"GET /ready HTTP/1.1\r\nHost: localhost\r\n")
        time.sleep(0.2)
        with open(begun, "wb"):
            pass
        opened.enter_context(client(port)).sendall(STRAY)
        time.sleep(0.2)
        operator.sendall(b"\r\n")
        told = read_to(operator, 12)
        took = time.monotonic() - came
        asked.sendall(reply("1"))
        expect("the call", read_to(stream, len(ANSWER)), ANSWER)
        expect("whether it goes on", run.poll(), None)
        return told, took


def case_serve_operators_while_accepts_fail(room):
    """serve: operators are answered while each accept fails"""
    for number in range(8):
        told, took = ask_while_accepts_fail(room, f"{room.folder}/begun-{number}")
        if told.startswith(b"HTTP") or took < 1.8:
            return expect("what the operator is told", told, b"HTTP/1.1 200")
    raise Untried("operators have to go before they can be answered")


def case_serve_tells_streams_closed(room):
    """serve: a stream that a loop closes, as it can't be watched, is told by a line and by the figures"""
    begun = f"{room.folder}/begun"
    env = {**variables("watch", 1, "failed", 2), "FAULT_WHEN": begun}
    run, port, where = program_admin.serve(room, b"[]", "--log", variables=env)
    lines = open(run.stderr.fileno(), "rb", closefd=False)
    program_room.listens(lines)
    with client(port) as first:
        answers("one before", first)
        with open(begun, "wb"):
            pass
        with client(port) as stream:
            expect("what the stream gets", read_to(stream, 1).removesuffix(b" (reset)"), b"")
        answers("the one before, later", first)
        said = []
        while sum("ended" in line for line in said) < 2:
            said.append(json.loads(lines.readline().lstrip(b"!")))
    expect("what is told of the stream", [line["closed"] for line in said if "closed" in line], ["no memory"])
    expect("the figure", program_admin.figures(where)["connect_gateway_streams_closed_total",], 1)


def case_serve_memory_at_a_deadline(room):
    """serve: a client whose call ends at its deadline without memory has its reply, or the end of its stream"""
    with listener() as silent:
        file = room.file("plans", plan([silent.getsockname()[1]], 1))
        ports = free_ports(4)
        found = []

        def run(first, number, env, files):
            begun = f"{room.folder}/begun-{number}"
            words, env = serve_words(ports[first], file, streams=2), {**env, "FAULT_WHEN": begun}
            started = room.start(words, variables=env, pass_fds=files)
            with client(ports[first]) as stream, client(ports[first]) as other:
                answers("another before", other)
                call(stream, f"X-Request-Id: {number}\r\nConnect-Timeout-Ms: 400\r\n")
                time.sleep(0.2)
                with open(begun, "wb"):
                    pass
                said = read_to(stream, 12).removesuffix(b" (reset)")
                other.sendall(STRAY)
                after = read_to(other, len(NOT_FOUND)).removesuffix(b" (reset)")
            return said, after, end_of(started)[0]

        def judge(name, met, said, after, end):
            found.append(said)
            expect(f"{name}: the reply", said in ((b"HTTP/1.1 504", b"") if met else (b"HTTP/1.1 504",)), True)
            expect(f"{name}: another's", after in ((NOT_FOUND, b"") if met else (NOT_FOUND,)), True)
            expect(f"{name}: the gateway's end", end, DONE)

        def try_some(first):
            for number in range(first + 1, 400, 4):
                if not try_one("allocate", number, "refused", lambda *how: run(first, number, *how), judge):
                    return
            raise Wrong("more than 400 allocations")

        at_once(4, try_some)
        expect("what the clients got", set(found), {b"HTTP/1.1 504", b""})


def starts_with(room, what):
    """The number of the first such call that the gateway does not make before it listens."""
    for number in range(1, 100):
        with tempfile.TemporaryFile() as told:
            os.set_inheritable(told.fileno(), True)
            env = variables(what, number, "failed", told.fileno())
            run, port = room.serve(b"[]", streams=3, variables=env, pass_fds=[told.fileno()])
            listens_or_ends(run, port)
            time.sleep(0.1)
            told.seek(0)
            if not told.read():
                run.kill()
                return number
            end = end_of(run)[0]
            expect(f"{what} {number} failed: the gateway's end", end, IO)
    raise Wrong(f"more than 99 {what}s")


def listens(port):
    """Whether somebody listens at the port, who does not notice that this looks for it."""
    with open("/proc/net/tcp", encoding="ascii") as file:
        fields = [line.split() for line in file]
    return any(found[1].endswith(f":{port:04X}") and found[3] == "0A" for found in fields)


def listens_or_ends(run, port):
    """Waits until the gateway listens, or has ended."""
    end = time.monotonic() + WAIT
    while run.poll() is None and not listens(port):
        expect("whether it does either", time.monotonic() < end, True)
        time.sleep(0.01)


def ask_while_it_serves(run, port):
    """The same as `ask_three` of a gateway that may end by itself, also before it listens."""
    listens_or_ends(run, port)
    found = []
    while len(found) < 3 and run.poll() is None:
        with contextlib.suppress(ConnectionError), socket.create_connection(("127.0.0.1", port), WAIT) as stream:
            found.append(ask(stream))
    return found


def refuse_memory(room, first, answer=STATED, words=()):
    """Serves three streams with each allocation refused from that one on. Returns how the program ended, by its number."""
    with Backend(answer) as backend:
        file = room.file("plans", plan([backend.port], 1, timeout=5000))
        ends, ports = {}, free_ports(4)

        def run(port, env, files):
            started = room.start([*serve_words(port, file, streams=3), *words], variables=env, pass_fds=files)
            return ask_while_it_serves(started, port), end_of(started)[0]

        def judge(name, met, found, end):
            ends[int(name.split()[1])] = end
            if end == MEMORY:
                # who connected before the loops were there is reset
                answered = [one for one in found if one.removesuffix(b" (reset)")]
                expect(f"{name}: {found}", (met, answered), (True, []))
            else:
                judge_cut(name, met, found, end)

        def try_some(offset):
            for number in range(first + offset, 2_000, 4):
                if not try_one("allocate", number, "refused", lambda *how: run(ports[offset], *how), judge):
                    return
            raise Wrong("more than 2,000 allocations")

        at_once(4, try_some)
        return ends


def case_serve_memory(room):
    """serve: memory that is refused at the start ends the program, and later concerns one stream, also with --chunked"""
    ends = refuse_memory(room, 1)
    expect("how it ended", set(ends.values()), {MEMORY, DONE})
    # the start is the same then
    later = min(number for number, end in ends.items() if end == DONE)
    found = set(refuse_memory(room, later, CHUNKED, ["--chunked"]).values())
    expect("how it ended then", found - {MEMORY}, {DONE})


# it starts the program some hundred times
case_serve_memory.time = 5 * CASE_TIME


def case_serve_no_sockets_to_wait_for(room):
    """serve: at the start each refused means to wait ends the program, and each refused watch too; later one concerns one stream"""
    starts_with(room, "waker")
    serve_each(room, "watch", "failed", judge_cut, starts_with(room, "watch"))


def case_serve_wakes(room):
    """serve: a loop or main that can't be woken is woken again: each stream is served, and the program ends"""
    serve_each(room, "write", "failed", all_answered)


def case_serve_accept_lasting(room):
    """serve: an accept that fails for other reasons than a lack of descriptors ends the program, once what is open is served"""
    with Backend() as backend:
        plans = plan([backend.port], 1, timeout=5000)
        begun = f"{room.folder}/begun"
        run, port = room.serve(plans, variables={**variables("accept", 1, "lasting", 2), "FAULT_WHEN": begun})
        with client(port) as stream:
            expect("before", ask(stream), ANSWER)
            with open(begun, "wb"):
                pass
            with contextlib.suppress(ConnectionError), client(port) as second:
                expect("one that comes then", ask(second).removesuffix(b" (reset)"), b"")
            expect("when nobody listens any more", ask(stream), ANSWER)
        expect("the gateway's end", end_of(run)[0][0], IO[0])


def all_sleep(run):
    """Whether no thread of a program has run for a while."""
    before = waits_of(run)
    time.sleep(0.2)
    states = []
    for thread in os.listdir(f"/proc/{run.pid}/task"):
        with open(f"/proc/{run.pid}/task/{thread}/stat", encoding="ascii") as file:
            states.append(file.read().rsplit(")", 1)[1].split()[0])
    return set(states) == {"S"} and waits_of(run) == before


@contextlib.contextmanager
def dying(room, workers):
    """A gateway of which a loop can't wait any more as soon as a client of it asks, and what begins that. It has an address
    for operators. Yields its run, its port, that address, and what begins it."""
    begun = f"{room.folder}/begun"
    with listener() as silent:
        env = {**variables("wait", 1, "lasting", 2), "FAULT_WHEN": begun}
        made = plan([silent.getsockname()[1]], 1)
        run, port, where = program_admin.serve(room, made, "--workers", str(workers), variables=env)

        def begin(stream):
            # the next wait is that of its loop
            while not all_sleep(run):
                pass
            with open(begun, "wb"):
                pass
            call(stream)

        yield run, port, where, begin


def case_serve_places_of_a_dead_loop(room):
    """serve: the places of a loop that has died are nobody's: who waits gets one of another loop. Its gauges are 0"""
    with dying(room, 2) as (_run, port, where, begin), contextlib.ExitStack() as opened:
        holders = program_places.fill(opened, port, 128)
        begin(holders[0])
        expect("whether its stream ends", read_to(holders[0], 1).removesuffix(b" (reset)"), b"")
        time.sleep(0.2)
        ended = set(select.select(holders, [], [], 0)[0])
        expect("how many were its", len(ended), 64)
        others = [stream for stream in holders if stream not in ended]
        found = program_admin.figures(where)
        names = ("connect_gateway_open_connections", "connect_gateway_backend_exchanges")
        gauges = [sorted(value for key, value in found.items() if key[0] == name) for name in names]
        expect("the gauges of the loops", gauges, [[0, 64], [0, 0]])
        waiting = program_places.ask_for_a_place(opened, port)
        expect("while ten wait", program_admin.asks(where, "/ready"), (503, "full"))
        program_places.give_up(others[0])
        program_places.is_served("the oldest", waiting[0])
        for stream in waiting[1:]:
            is_reset("one that has waited for a second", stream)
        answers("one of the other loop", others[1])


def case_serve_places_of_the_last_loop(room):
    """serve: who waits for a place as the last loop dies is turned away, and the program ends"""
    with dying(room, 1) as (run, port, _where, begin), contextlib.ExitStack() as opened:
        holders = program_places.fill(opened, port)
        begin(holders[0])
        # it tries to wait for three seconds
        time.sleep(2.6)
        for stream in program_places.ask_for_a_place(opened, port):
            is_reset("one that waits", stream)
        for stream in holders:
            expect("one of the loop", read_to(stream, 1).removesuffix(b" (reset)"), b"")
        expect("how it ends", end_of(run)[0][0], IO[0])


def case_serve_loop_ends(room):
    """serve: a loop that can't wait any more closes its streams, and others serve on; where none is left the program ends"""
    with Backend() as backend:
        plans = plan([backend.port], 1, timeout=5000)
        ended = set()

        def run(env, files, workers):
            started, port = room.serve(plans, workers, variables=env, pass_fds=files, streams=3)
            return ask_while_it_serves(started, port), end_of(started)[0]

        def judge_one(name, met, found, end):
            """If main's own wait fails, it accepts all the same; else no loop is left."""
            ended.add(end[0])
            if end == IO:
                cut = [one.removesuffix(b" (reset)") for one in found]
                expect(f"{name}: {found}", all(ANSWER.startswith(one) for one in cut), True)
            else:
                all_answered(name, met, found, end)

        for number in (1, 2, 3, 4):
            try_one("wait", number, "lasting", lambda env, files: run(env, files, 2), judge_cut)
        # whose wait it is, is chance
        for number in range(1, 12):
            try_one("wait", number, "lasting", lambda env, files: run(env, files, 1), judge_one)
            if ended == {DONE[0], IO[0]}:
                return
        raise Wrong(f"with one loop it always ended by {ended}")


def case_drain_wait_fails(room):
    """serve: a drain closes an idle connection, whichever wait fails from then on"""
    for number in range(1, 9):
        begun = f"{room.folder}/drained-{number}"

        def run(env, files):
            env = {**env, "FAULT_WHEN": begun}
            started, port, where = program_admin.serve(room, b"[]", "--grace", "60", variables=env, pass_fds=files)
            with client(port) as stream:
                answers("before the drain", stream)
                while not all_sleep(started):
                    pass
                with open(begun, "wb"):
                    pass
                program_admin.drain(where)
                sees_end(f"wait {number} failed: an idle connection", stream)
            return [end_of(started)[0]]

        def judge(name, _met, end):
            expect(f"{name}: the gateway's end", end, DONE)

        try_one("wait", number, "failed", run, judge)


# ---- signals


def case_interrupted(room):
    """a read and a write of a text, an accept and a wait that a signal interrupts are made again"""
    for what in ("read", "write"):
        replay_each(room, what, "interrupted", goes_on)
    # a text that goes past the buffer of what is written
    expect("whether it does", len(replayed(room, wide_script())[1]) > 10_000, True)
    replay_each(room, "write", "interrupted", goes_on, wide_script())
    for what in ("accept", "wait"):
        serve_each(room, what, "interrupted", all_answered)


def main():
    signal.signal(signal.SIGALRM, program.late)
    cases = [value for name, value in globals().items() if name.startswith("case_")]
    with faults() as built:
        LIBRARY.append(built)
        passed = [program.try_case(case, sys.argv[1]) for case in cases]
    print(f"{passed.count(True)} passed, {passed.count(False)} failed")
    return 1 if False in passed else 0


if __name__ == "__main__":
    sys.exit(main())
