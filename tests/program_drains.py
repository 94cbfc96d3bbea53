"""Cases of tests/program.py: what a drain still answers, and what it tells."""
import contextlib
import json
import time

from program_admin import DRAINING, HOST, drain, serve
from program_log import branches_told, told
from program_loops import need_descriptors, reset
from program_room import (
    Backend, DONE, NOT_FOUND, STRAY, WAIT, answers, call, client, closes, expect, listener, long_listener,
    narrow_client, plan, read_message, read_reply, read_slowly, read_to, reply, request, sees_end, stopped,
)

# a reply that does not go out unless its client reads
LONG = json.dumps("x" * 60_000)
LONG_REPLY = reply("{%s}" % ",".join(f'"b{at}":{LONG}' for at in range(16)))


def ask_for_a_drain(where):
    """A visitor who has asked for a drain, and not read the answer yet."""
    visitor = client(where)
    visitor.sendall(f"POST /drain HTTP/1.1\r\n{HOST}\r\n".encode())
    return visitor


def two_plans(backend, slow):
    """A plan file: a call of 16 branches, and at /slow one of one branch."""
    other = json.loads(plan([slow], 1))[0]
    return json.dumps([*json.loads(plan([backend] * 16, 16)), {**other, "path": "/slow"}]).encode()


def case_drain_has_its_grace(room):
    """with --grace 60 a drain waits for a call, a slow reader who has asked more, and half a request: five seconds"""
    with Backend(LONG) as backend, listener() as slow:
        run, port, where = serve(room, two_plans(backend.port, slow.getsockname()[1]), "--grace", "60")
        with client(port) as waiter, client(port) as half, narrow_client(port) as reader:
            call(reader)
            came = read_to(reader, 100)
            reader.sendall(STRAY)
            call(waiter, path="/slow")
            asked = slow.accept()[0]
            half.sendall(STRAY[:10])
            time.sleep(0.2)
            drain(where)
            closes(port)
            for byte in STRAY[10:15]:
                half.sendall(bytes([byte]))
                came += read_slowly(reader, 1)
            with asked:
                asked.sendall(reply("1"))
                expect("the call", read_reply(waiter), ("200", b'{"b0":1}'))
            half.sendall(STRAY[15:])
            expect("the request in pieces", read_to(half, len(NOT_FOUND) + 1), NOT_FOUND)
            came += read_to(reader, 2 * len(LONG_REPLY))
            expect(f"whether {len(came)} bytes are both his replies", came == LONG_REPLY + NOT_FOUND, True)
            sees_end("the stream of the call", waiter)
        room.ends("the program", run, DONE)


def case_drain_of_what_came_before(room):
    """a drain answers what came before it on idle connections, though it was not read yet"""
    with Backend("1") as backend:
        run, port, where = serve(room, plan([backend.port], 1), "--workers", "2", "--grace", "60")
        with contextlib.ExitStack() as opened:
            idle = [opened.enter_context(client(port)) for _ in range(40)]
            for stream in idle:
                answers("before the drain", stream)
            with stopped(run):
                opened.enter_context(ask_for_a_drain(where))
                for stream in idle:
                    stream.sendall(request() + STRAY + request())
            for stream in idle:
                expect("the first call", read_reply(stream), ("200", b'{"b0":1}'))
                expect("what is no call", read_reply(stream)[0], "404")
                expect("the second call", read_reply(stream), ("200", b'{"b0":1}'))
                sees_end("behind them", stream)
        room.ends("the program", run, DONE)


def case_drain_beside_800_answers(room):
    """a drain answers what came before it on idle connections, though 800 backends answer at the same moment"""
    need_descriptors(4_096)
    with long_listener() as backend, contextlib.ExitStack() as opened:
        run, port, where = serve(room, plan([backend.getsockname()[1]] * 16, 16), "--grace", "60")
        busy = [opened.enter_context(client(port)) for _ in range(50)]
        idle = [opened.enter_context(client(port)) for _ in range(14)]
        for stream in idle:
            answers("before the drain", stream)
        for stream in busy:
            call(stream)
        asked = [opened.enter_context(backend.accept()[0]) for _ in range(800)]
        with stopped(run):
            for one in asked:
                one.sendall(reply("1"))
            for stream in idle:
                stream.sendall(STRAY)
            opened.enter_context(ask_for_a_drain(where))
        for stream in idle:
            expect("what came before the drain", read_to(stream, len(NOT_FOUND)), NOT_FOUND)
            sees_end("behind it", stream)
        for stream in busy:
            expect("the call", read_reply(stream)[0], "200")
            stream.close()
        room.ends("the program", run, DONE)


def case_drain_of_streams_that_come(room):
    """a drain serves streams that wait at the listener as it begins, if they have asked"""
    with Backend("1") as backend:
        run, port, where = serve(room, plan([backend.port], 1), "--workers", "2", "--grace", "60")
        with contextlib.ExitStack() as opened:
            answers("before the drain", opened.enter_context(client(port)))
            with stopped(run):
                opened.enter_context(ask_for_a_drain(where))
                come = [opened.enter_context(client(port)) for _ in range(100)]
                for stream in come[:90]:
                    stream.sendall(request())
            for stream in come[:90]:
                expect("who came with a call", read_reply(stream), ("200", b'{"b0":1}'))
            for stream in come:
                sees_end("behind it, and of those who came with none", stream)
            closes(port)
        room.ends("the program", run, DONE)


def case_drain_tells_what_it_ended(room):
    """a call that ends otherwise in a drain is told so, and as drained only what the drain ended"""
    with listener() as backend, contextlib.ExitStack() as opened:
        run, port, where = serve(room, plan([backend.getsockname()[1]], 1), "--grace", "3", "--log")
        gone, lost, late, left, idle = (opened.enter_context(client(port)) for _ in range(5))
        asked = []
        for stream, further in ((gone, ""), (lost, ""), (late, "Connect-Timeout-Ms: 1000\r\n"), (left, "")):
            call(stream, further)
            asked.append(opened.enter_context(backend.accept()[0]))
            read_message(asked[-1])
        drain(where)
        sees_end("an idle connection", idle)
        gone.close()
        sees_end("the backend of who is gone", asked[0])
        reset(asked[1])
        expect("the call of a backend that is lost", read_reply(lost)[0], "503")
        expect("the call at its deadline", read_reply(late)[0], "504")
        expect("the call that is left", read_reply(left), ("503", DRAINING.encode()))
        for stream in (lost, late, left, idle):
            stream.close()
        said = run.communicate(timeout=WAIT)[1]
    ended = {line["connection"]: line["ended"] for line in told(said)[0]}
    expect("what ended the calls", ended, {0: "hang-up", 1: "branch", 2: "deadline", 3: "drain"})
    causes = {line["connection"]: line["cause"] for line in branches_told(said)}
    expect("what ended their branches", causes, {0: "not wanted any more", 1: "reset", 2: "deadline", 3: "drained"})
    expect("the status", run.returncode, 0)
