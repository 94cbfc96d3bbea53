"""Cases of tests/program.py: what comes to a loop at once, what it writes slowly, and when it has nothing to do."""
import contextlib
import json
import socket
import time

from program_admin import HOST, drain, serve
from program_drains import LONG, LONG_REPLY, two_plans
from program_log import branches_told, told
from program_loops import PLACES, branch_request, need_descriptors, reset
from program_places import fill
from program_room import (
    Backend, DONE, LONG_BODY, NOT_FOUND, STRAY, WAIT, Wrong, answers, busy_time_of, call, client, closes,
    expect, free_port, full_listener, is_quiet, listener, long_listener, narrow_client, plan, read_message, read_reply,
    read_to, reply, request, serve_words, sockets_of, stopped,
)


# ---- at once


def case_thousand_branches_at_once(room):
    """1,024 branches that start at once are all asked, and their long answers, all at once, are read and told"""
    need_descriptors(4_096)
    # more than is read of a backend in a turn
    answer = json.dumps("x" * 20_000)
    with long_listener() as backend, contextlib.ExitStack() as opened, open(f"{room.folder}/log", "w+b") as log:
        port = free_port()
        plans = room.file("plans", plan([backend.getsockname()[1]] * 16, 16))
        run = room.start([*serve_words(port, plans, streams=64), "--log", "all"], stderr=log)
        streams = [opened.enter_context(client(port)) for _ in range(64)]
        for stream in streams:
            answers("one of 64", stream)
        with stopped(run):
            for stream in streams:
                call(stream)
        asked = [opened.enter_context(backend.accept()[0]) for _ in range(PLACES)]
        with stopped(run):
            for one in asked:
                one.sendall(reply(answer))
        wanted = json.dumps({f"b{at}": "x" * 20_000 for at in range(16)}, separators=(",", ":")).encode()
        for at, stream in enumerate(streams):
            expect(f"whether reply {at} is right", read_reply(stream) == ("200", wanted), True)
            stream.close()
        expect("the status", run.wait(timeout=WAIT), 0)
        log.seek(0)
        lines = log.read()
    branches = {(line["connection"], line["branch"]) for line in branches_told(lines) if line["cause"] == "answer"}
    expect("how many branches are told, and how many replies", (len(branches), len(told(lines)[0])), (PLACES, 128))


def lose_one_of_16(backend, port, lost):
    """Makes 16 calls at once over two streams, and loses the backend of one: the others have their own answers."""
    with client(port) as first, client(port) as second:
        for at, stream in enumerate((first, second)):
            stream.sendall(b"".join(
                request("/call", f"X-Request-Id: {8 * at + number}\r\n", str(8 * at + number)) for number in range(8)))
        asked = {}
        for _ in range(16):
            one = backend.accept()[0]
            found = read_message(one)
            number = found[1].decode()
            expect("what a backend is asked", found, branch_request(backend.getsockname()[1], number, number=number))
            asked[number] = one
        reset(asked.pop(str(lost)))
        for number, one in asked.items():
            with one:
                one.sendall(reply(number))
        for at, stream in enumerate((first, second)):
            for number in range(8 * at, 8 * at + 8):
                status, body = read_reply(stream)
                wanted = ("503", None) if number == lost else ("200", b'{"b0":%d}' % number)
                expect(f"reply {number} where {lost} is lost", (status, body if status == "200" else None), wanted)


def case_each_loss_alone(room):
    """the loss of any one of 16 backends ends its own call, and the other calls have their own answers"""
    with listener() as backend:
        run, port = room.serve(plan([backend.getsockname()[1]], 1), streams=32)
        for lost in range(16):
            lose_one_of_16(backend, port, lost)
    room.ends("the program", run, DONE)


class Crumbs(Backend):
    """A backend that sends its answer in pieces of 30 bytes, with a pause before each while there is time for that."""

    def answer_on(self, stream):
        end = time.monotonic() + WAIT / 3
        with contextlib.suppress(OSError), stream:
            stream.recv(65536)
            for at in range(0, len(self.answer), 30):
                if time.monotonic() < end:
                    time.sleep(0.0005)
                stream.sendall(self.answer[at:at + 30])


def case_thousands_of_pieces(room):
    """a reply of 60,000 bytes in some thousand pieces is joined byte for byte"""
    body = json.dumps("".join(f"{number:05}" for number in range(12_000)))
    with Crumbs(body) as backend:
        run, port = room.serve(plan([backend.port], 1), streams=1)
        with client(port) as stream:
            call(stream)
            expect("whether the reply is right", read_reply(stream) == ("200", f'{{"b0":{body}}}'.encode()), True)
    room.ends("the program", run, DONE)


# ---- what goes out


def case_slow_reader_of_the_last_reply(room):
    """the last reply of a stream comes whole to who reads it slowly: one that asked for the end, and the hundredth"""
    closing = LONG_REPLY.replace(b"\r\n\r\n", b"\r\nConnection: close\r\n\r\n", 1)
    with Backend(LONG) as backend:
        run, port = room.serve(plan([backend.port] * 16, 16), streams=3)
        client(port).close()
        with narrow_client(port) as asks, narrow_client(port) as hundredth:
            asks.sendall(request("/call", "Connection: close\r\n"))
            hundredth.sendall(STRAY * 99 + request())
            expect("the 99 before", read_to(hundredth, 99 * len(NOT_FOUND)), NOT_FOUND * 99)
            # longer than a stream lingers
            got = {stream: b"" for stream in (asks, hundredth)}
            for _ in range(26):
                for stream in got:
                    got[stream] += read_to(stream, 500)
                time.sleep(0.1)
            for stream in got:
                got[stream] += read_to(stream, len(closing))
                expect(f"whether all of {len(got[stream])} bytes came", got[stream] == closing, True)
    room.ends("the program", run, DONE)


def case_no_delay(room):
    """no stream to a client, and none over which a long request goes, holds back what it sends last"""
    with listener() as backend, listener() as other:
        plans = two_plans(backend.getsockname()[1], other.getsockname()[1])
        run, port = room.serve(plans, workers=2)
        with client(port) as first, client(port) as second, contextlib.ExitStack() as opened:
            call(first, body=LONG_BODY)
            answers("the second", second)
            asked = [opened.enter_context(backend.accept()[0]) for _ in range(16)]
            for one in asked:
                read_message(one)
            ours = {stream.getsockname() for stream in (first, second)} | {backend.getsockname()}
            found = []
            for stream in sockets_of(run):
                with contextlib.suppress(OSError):
                    if stream.getpeername() in ours:
                        found.append(stream.getsockopt(socket.IPPROTO_TCP, socket.TCP_NODELAY) != 0)
            expect("whether each sends at once", found, [True] * 18)


# ---- nothing to do


def expect_idle(what, run, begin=lambda: None):
    """Sees that a program has next to nothing to do behind what begins that: most of the time, once in five times."""
    for _ in range(5):
        begin()
        before = busy_time_of(run)
        time.sleep(0.6)
        used = busy_time_of(run) - before
        if used < 0.2:
            return
    raise Wrong(f"it is busy {what}, in {used:.2f} of 0.6 seconds")


def case_idle_in_each_state(room):
    """a program that waits for everybody does next to nothing, whatever is half done, also in a drain"""
    with Backend(LONG) as backend, listener() as slow, contextlib.ExitStack() as opened:
        run, port, where = serve(room, two_plans(backend.port, slow.getsockname()[1]), "--grace", "60")
        opened.enter_context(client(port)).sendall(STRAY[:20])
        for ends in (False, True):
            stream = opened.enter_context(narrow_client(port))
            call(stream)
            expect("the first bytes of a reply", read_to(stream, 15), b"HTTP/1.1 200 OK")
            stream.sendall(STRAY * 30)
            if ends:
                stream.shutdown(socket.SHUT_WR)
        for sent in (b"", reply("1")[:30]):
            stream = opened.enter_context(client(port))
            stream.sendall(request("/slow") * 2)
            stream.send(b"!", socket.MSG_OOB)
            for _ in range(2):
                asked = opened.enter_context(slow.accept()[0])
                read_message(asked)
                asked.sendall(sent)
                asked.send(b"!", socket.MSG_OOB)
        for asked in (b"", b"GET /re", f"GET /metrics HTTP/1.1\r\n{HOST}\r\n".encode()):
            opened.enter_context(client(where)).sendall(asked)
        time.sleep(0.3)
        expect_idle("while all wait", run)
        drain(where)
        closes(port)
        expect_idle("in a drain", run)


def case_idle_beside_those_who_wait(room):
    """a program whose streams and branches wait for places does next to nothing"""
    need_descriptors(4_096)
    with long_listener() as silent, full_listener() as full, contextlib.ExitStack() as opened:
        [made] = json.loads(plan([silent.getsockname()[1]] * 16, 16))
        [other] = json.loads(plan([full.getsockname()[1]], 1))
        plans = [made, {**other, "path": "/full"}]
        run, port = room.serve(json.dumps(plans).encode())
        holders = fill(opened, port)
        call(holders[0], path="/full")
        for holder in holders[1:10]:
            holder.sendall(request() * 8)
        for _ in range(PLACES - 1):
            opened.enter_context(silent.accept()[0])
        expect("whether more are asked", is_quiet(silent), True)
        expect_idle("where branches wait", run)
        # a second later it is turned away
        expect_idle("where a stream waits", run, lambda: opened.enter_context(client(port)).sendall(STRAY))
