"""Cases of tests/program.py: clients, backends and those who ask them."""
import contextlib
import itertools
import json
import select
import socket
import struct
import time

from program_room import (
    Backend, DONE, Echo, LONG_BODY, NOT_FOUND, STRAY, Trickle, WAIT, answers, at_once, call, client, closes, expect,
    is_quiet, is_reset, listener, plan, read_message, read_reply, read_to, reply, sees_end, size_of,
)


def case_branches_at_once(room):
    """a call's branches are asked at the same time, up to its plan's limit, by one worker"""
    with listener() as backend:
        run, port = room.serve(plan([backend.getsockname()[1]] * 4, 3), streams=1)
        with client(port) as stream:
            call(stream)
            asked = [backend.accept()[0] for _ in range(3)]
            expect("whether a fourth is asked", comes_to(backend), False)
            for at in range(4):
                with asked[at] as one:
                    one.sendall(reply("1"))
                if at == 0:
                    asked.append(backend.accept()[0])
            wanted = reply('{"b0":1,"b1":1,"b2":1,"b3":1}')
            expect("the answer", read_to(stream, len(wanted)), wanted)
    room.ends("the program", run, DONE)


def comes_to(backend):
    """Whether the backend is asked within a while."""
    return bool(select.select([backend], [], [], 0.3)[0])


def case_four_answers(room):
    """four backends with four answers: each stands in its place, in whatever order they come"""
    with contextlib.ExitStack() as opened:
        backends = [opened.enter_context(listener()) for _ in range(4)]
        run, port = room.serve(plan([one.getsockname()[1] for one in backends], 4), streams=1)
        stream = opened.enter_context(client(port))
        for number, order in enumerate(itertools.permutations(range(4))):
            call(stream)
            asked = [opened.enter_context(backend.accept()[0]) for backend in backends]
            for at in order:
                read_message(asked[at])
                asked[at].sendall(reply(json.dumps([number, at])))
            wanted = ",".join(f'"b{at}":[{number}, {at}]' for at in range(4))
            expect(f"the answer by the order {order}", read_reply(stream), ("200", b"{%s}" % wanted.encode()))
        stream.close()
    room.ends("the program", run, DONE)


def case_streams(room):
    """streams are served beside each other, and to their end behind the last, and then the program ends"""
    run, port = room.serve(b"[]", workers=2, streams=4)
    with client(port) as first, client(port) as second:
        answers("the second", second)
        second.shutdown(socket.SHUT_WR)
        sees_end("the second", second)
        with client(port) as third, client(port) as last:
            for what, stream in (("the first", first), ("the third", third), ("the last", last)):
                answers(what, stream)
            third.shutdown(socket.SHUT_WR)
            sees_end("the third", third)
            # a fifth is refused from then on, while streams are open
            closes(port)
            expect("whether it goes on while streams are open", run.poll(), None)
            answers("the first, later", first)
            answers("the last, later", last)
    room.ends("the program", run, DONE)


def case_full(room):
    """a stream beside 64 open ones is closed without a byte after a second, and one is served when one has ended"""
    run, port = room.serve(b"[]", streams=66)
    with contextlib.ExitStack() as opened:
        streams = [opened.enter_context(client(port)) for _ in range(64)]
        for stream in streams:
            answers("one of 64", stream)
        began = time.monotonic()
        with client(port) as one_more:
            is_reset("the 65th", one_more)
        took = time.monotonic() - began
        expect(f"whether it could wait for a place, {took:.3f} seconds", took > 0.99, True)
        streams[7].shutdown(socket.SHUT_WR)
        sees_end("one of 64", streams[7])
        answers("a stream in its place", opened.enter_context(client(port)))
    room.ends("the program", run, DONE)


def case_rude_clients(room):
    """clients that go away before their answers cost nobody else anything"""
    run, port = room.serve(b"[]", streams=21)
    for _ in range(20):
        with client(port) as stream:
            stream.setsockopt(socket.SOL_SOCKET, socket.SO_LINGER, struct.pack("ii", 1, 0))
            stream.sendall(STRAY * 20)
    with client(port) as stream:
        answers("who comes behind them", stream)
    room.ends("the program", run, DONE)


def case_spent_connections(room):
    """the memory of connections comes back while others are served"""
    run, port = room.serve(b"[]", streams=1_001)
    with client(port) as stays:
        answers("who stays", stays)
        before = size_of(run)
        for _ in range(1_000):
            with client(port) as stream:
                answers("one of many", stream)
                stream.shutdown(socket.SHUT_WR)
                sees_end("one of many", stream)
        grown = size_of(run) - before
        expect(f"whether it has kept little of a thousand, {grown} bytes", grown < 4_000_000, True)
    room.ends("the program", run, DONE)


def case_deadline(room):
    """a call ends at its deadline beside one that goes on waiting for the same backend"""
    with listener() as backend:
        run, port = room.serve(plan([backend.getsockname()[1]], 1), streams=2)
        with client(port) as busy, client(port) as stream:
            call(busy)
            with backend.accept()[0]:
                call(stream, "Connect-Timeout-Ms: 300\r\n")
                expect("the status", read_to(stream, 12), b"HTTP/1.1 504")
    room.ends("the program", run, DONE)


def case_branch_deadline(room):
    """a silent backend ends its call by the time of its branch, and the next call is answered"""
    with listener() as silent, Backend("1") as backend:
        branches = [("first", backend.port, {}), ("hotel", silent.getsockname()[1], {"timeout_ms": 150})]
        made = [{"name": name, "address": f"127.0.0.1:{port}", "path": "/ask", **time} for name, port, time in branches]
        slow = {"path": "/slow", "limit": 1, "branches": made}
        run, port = room.serve(json.dumps(json.loads(plan([backend.port], 1)) + [slow]).encode(), streams=1)
        late = ("504", b'{"code":"deadline_exceeded","message":"hotel: context deadline exceeded"}')
        took = []
        with client(port) as stream:
            for _ in range(10):
                began = time.monotonic()
                call(stream, path="/slow")
                expect("how it ended", read_reply(stream), late)
                took.append(time.monotonic() - began)
                with silent.accept()[0] as asked:
                    line = b"POST /ask HTTP/1.1\r\n"
                    expect("what the silent one was asked", read_to(asked, len(line)), line)
                    call(stream)
                    expect("the next call", read_reply(stream), ("200", b'{"b0":1}'))
        expect(f"whether none came early, {min(took):.4f} seconds", min(took) > 0.148, True)
        expect(f"whether one came within a second, {min(took):.4f} seconds", min(took) < 1, True)
    room.ends("the program", run, DONE)


def hangs_up_among_64(room, plans, backend, body):
    """Lets one of 64 streams hang up while its call waits: a 65th is served, and the backend sees that nobody waits."""
    _run, port = room.serve(plans)
    with contextlib.ExitStack() as opened:
        for _ in range(63):
            answers("one of 63", opened.enter_context(client(port)))
        with client(port) as stream:
            call(stream, body=body)
            asked = opened.enter_context(backend.accept()[0])
            read_message(asked)
            with client(port) as one_more:
                is_reset("a 65th beside them", one_more)
        sees_end("the silent backend", asked)
        end = time.monotonic() + WAIT
        while True:
            with client(port) as one_more:
                one_more.sendall(STRAY)
                if read_to(one_more, len(NOT_FOUND)) == NOT_FOUND:
                    break
            expect("whether there is no room for long", time.monotonic() < end, True)


def case_hang_up(room):
    """a client that hangs up while its backend is silent makes room, and the backend is given up"""
    with listener() as backend:
        plans = plan([backend.getsockname()[1]], 1)
        for body in ("{}", LONG_BODY):
            hangs_up_among_64(room, plans, backend, body)


def case_named_backend(room):
    """a backend whose address is a name is asked, and given up where nobody waits for it any more"""
    with listener() as backend:
        for name in (b"localhost", b"127.1"):
            named = plan([backend.getsockname()[1]], 1).replace(b"127.0.0.1", name)
            hangs_up_among_64(room, named, backend, "{}")


def case_request_meanwhile(room):
    """a request that comes while a call of its stream waits is taken, and its backend asked; replies keep their order"""
    with listener() as first, listener() as second:
        other = json.loads(plan([second.getsockname()[1]], 1))[0]
        plans = [*json.loads(plan([first.getsockname()[1]], 1)), {**other, "path": "/other"}]
        run, port = room.serve(json.dumps(plans).encode(), workers=4, streams=1)
        with client(port) as stream:
            for body in ("{}", LONG_BODY):
                call(stream, body=body)
                with first.accept()[0] as asked:
                    read_message(asked)
                    time.sleep(0.1)
                    call(stream, path="/other")
                    with second.accept()[0] as meanwhile:
                        meanwhile.sendall(reply("2"))
                        expect("whether its reply waits", is_quiet(stream), True)
                    asked.sendall(reply("1"))
                expect("the first reply", read_reply(stream), ("200", b'{"b0":1}'))
                expect("the second reply", read_reply(stream), ("200", b'{"b0":2}'))
    room.ends("the program", run, DONE)


def case_failed_branch(room):
    """a branch that fails ends its call though one that is asked at once is silent, and that is given up"""
    with listener() as silent, listener() as backend:
        run, port = room.serve(plan([silent.getsockname()[1], backend.getsockname()[1]], 2), workers=4, streams=1)
        with client(port) as stream:
            call(stream)
            with silent.accept()[0] as asked, backend.accept()[0] as failing:
                read_message(asked)
                read_message(failing)
                time.sleep(0.1)
                failing.sendall(b"HTTP/1.1 500 Internal Server Error\r\nContent-Length: 0\r\n\r\n")
                wanted = ("500", b'{"code":"unknown","message":"b1: HTTP status 500"}')
                expect("how it ended", read_reply(stream), wanted)
                sees_end("the silent backend", asked)
    room.ends("the program", run, DONE)


def case_silent_to_its_deadline(room):
    """a backend that is silent up to the deadline of a call is given up then, and the call answered so"""
    took = []
    with listener() as backend:
        run, port = room.serve(plan([backend.getsockname()[1]], 1, timeout=200), workers=2, streams=1)
        with client(port) as stream:
            for _ in range(5):
                began = time.monotonic()
                call(stream)
                with backend.accept()[0] as asked:
                    read_message(asked)
                    expect("the status", read_reply(stream)[0], "504")
                    took.append(time.monotonic() - began)
                    sees_end("the silent backend", asked)
    expect(f"whether none came early, {min(took):.4f} seconds", min(took) > 0.198, True)
    expect(f"whether one came within a second, {min(took):.4f} seconds", min(took) < 0.8, True)
    room.ends("the program", run, DONE)


def case_reply_in_pieces(room):
    """a long reply that comes in pieces, with pauses, is joined byte for byte"""
    body = json.dumps("".join(f"{number:05}" for number in range(12_000)))
    with Trickle(body, pause=0.012, piece=1_000) as backend:
        run, port = room.serve(plan([backend.port] * 2, 2), workers=4, streams=1)
        with client(port) as stream:
            for _ in range(5):
                call(stream)
                expect("the reply", read_reply(stream), ("200", f'{{"b0":{body},"b1":{body}}}'.encode()))
    room.ends("the program", run, DONE)


def case_asked_at_once(room):
    """each of many answers is right, of calls that run at the same time, with short bodies and long ones"""
    def ask(port, number):
        with client(port) as stream:
            for each in range(50):
                body = json.dumps([number, each, "x" * (5_000 if each % 10 == number % 10 else 5)])
                call(stream, body=body)
                wanted = f'{{"b0":{body},"b1":{body},"b2":{body}}}'.encode()
                expect("a reply", read_reply(stream), ("200", wanted))

    with Echo(pause=0.002) as backend:
        run, port = room.serve(plan([backend.port] * 3, 2), workers=4, streams=16)
        at_once(16, lambda number: ask(port, number))
    room.ends("the program", run, DONE)
