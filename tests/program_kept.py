"""Cases of tests/program.py: connections to backends that are used again, with `serve --keep SECONDS`, as
docs/EXTENSIONS.md has it."""
import contextlib
import json
import os
import signal
import socket
import struct
import threading
import time

from program_admin import drain, figures
from program_log import branches_told
from program_room import (
    CASE_TIME, DONE, WAIT, Wrong, at_once, call, client, expect, free_port, is_quiet, listener, listens, long_listener, plan, read_message,
    read_reply, read_to, reply, stopped,
)

LOST = ("503", b'{"code":"unavailable","message":"b0: backend unreachable"}')
ONE = ("200", b'{"b0":1}')


def body_of(number):
    return ("200", b'{"b0":%d}' % number)


def ask(stream, wanted, further=""):
    call(stream, further)
    expect("the reply", read_reply(stream), wanted)


def served(room, backend, seconds=5, streams=1, words=(), workers=1, **how):
    """The gateway before that backend, whose connections it keeps for so long."""
    plans = plan([backend.getsockname()[1]], 1, **how)
    return room.serve(plans, workers=workers, streams=streams, words=["--keep", str(seconds), *words])


def asked_again(backend, stream):
    """The connection to the backend over which a call was answered, and the request of the next one has come."""
    call(stream)
    asked = backend.accept()[0]
    read_message(asked)
    asked.sendall(reply("1"))
    expect("the reply", read_reply(stream), ONE)
    call(stream)
    read_message(asked)
    return asked


def expect_next_anew(backend, stream):
    """The next call goes over a new connection, and is answered there."""
    call(stream)
    with backend.accept()[0] as asked:
        read_message(asked)
        asked.sendall(reply("2"))
        expect("the reply to the next", read_reply(stream), body_of(2))


def case_kept_is_used_again(room):
    """with --keep a connection to a backend is used again, no request asks for its close, and it is closed after its time"""
    with listener() as backend, contextlib.ExitStack() as opened:
        run, port = served(room, backend, 2, streams=11)
        stream, asked = opened.enter_context(client(port)), None
        for number in range(1_000):
            if number % 99 == 98:
                stream = opened.enter_context(client(port))
            call(stream)
            asked = asked or opened.enter_context(backend.accept()[0])
            head, body = read_message(asked)
            expect("whether the close is asked for", b"\r\nConnection:" in head, False)
            expect("its body", body, b"{}")
            asked.sendall(reply(str(number)))
            expect("the reply", read_reply(stream), body_of(number))
        # a thousand requests went over it
        expect("what the backend sees then", read_to(asked, 1), b"")
        call(stream)
        with backend.accept()[0] as asked:
            read_message(asked)
            asked.sendall(reply("7"))
            expect("the reply over another", read_reply(stream), body_of(7))
            before = time.monotonic()
            expect("what the backend sees of an idle one", read_to(asked, 1), b"")
            expect("whether it was kept for two seconds", 1.8 < time.monotonic() - before < 3.5, True)
        opened.close()
    room.ends("the program", run, DONE)


def case_kept_without_the_word(room):
    """without --keep each request asks for the close, and goes over a connection of its own"""
    with listener() as backend:
        run, port = room.serve(plan([backend.getsockname()[1]], 1), streams=1)
        with client(port) as stream:
            for _ in range(3):
                call(stream)
                with backend.accept()[0] as asked:
                    head, _ = read_message(asked)
                    expect("whether the close is asked for", b"\r\nConnection: close\r\n" in head, True)
                    asked.sendall(reply("1"))
                    expect("the reply", read_reply(stream), ONE)
    room.ends("the program", run, DONE)


# Replies behind which a connection is not used again, though the first is told. Each is told once.
SPENT = [
    ("asks for the close", b"Connection: close\r\n", b""),
    ("asks for it in a list, in odd case", b"Connection: x, cLoSe\r\n", b""),
    ("has bytes behind it", b"", b"H"),
    ("has another reply behind it", b"", b"HTTP/1.1 200 OK\r\nContent-Type: application/json\r\nContent-Length: 1\r\n\r\n9"),
]


def told_with(further, behind, version="1.1"):
    return (f"HTTP/{version} 200 OK\r\nContent-Type: application/json\r\nContent-Length: 1\r\n".encode() + further + b"\r\n1" + behind)


def case_kept_not(room):
    """with --keep a connection is not used again where its reply asks for the close, is HTTP/1.0, or has bytes behind it"""
    replies = [(name, told_with(further, behind)) for name, further, behind in SPENT]
    replies += [("is HTTP/1.0", told_with(b"", b"", "1.0")), ("is HTTP/1.0 and would be kept", told_with(b"Connection: keep-alive\r\n", b"", "1.0"))]
    with listener() as backend:
        run, port = served(room, backend)
        with client(port) as stream:
            for name, text in replies:
                call(stream)
                with backend.accept()[0] as asked:
                    read_message(asked)
                    asked.sendall(text)
                    expect(f"the reply that {name}", read_reply(stream), ONE)
                    call(stream)
                    # the next request comes over another one
                    with backend.accept()[0] as other:
                        read_message(other)
                        other.sendall(told_with(b"Connection: close\r\n", b""))
                        expect(f"the reply behind one that {name}", read_reply(stream), ONE)
    room.ends("the program", run, DONE)


def case_kept_and_unasked_bytes(room):
    """with --keep bytes that nobody asked for close an idle connection, and are told to nobody"""
    stray = b"HTTP/1.1 200 OK\r\nContent-Type: application/json\r\nContent-Length: 1\r\n\r\n9"
    with listener() as backend:
        run, port = served(room, backend)
        with client(port) as stream:
            for wait in (0.0, 0.001, 0.05):
                call(stream)
                with backend.accept()[0] as asked:
                    read_message(asked)
                    asked.sendall(reply("1"))
                    expect("the reply", read_reply(stream), ONE)
                    time.sleep(wait)
                    with stopped(run):
                        # both are there as it goes on
                        asked.sendall(stray)
                        call(stream)
                    with backend.accept()[0] as other:
                        read_message(other)
                        other.sendall(told_with(b"Connection: close\r\n", b""))
                        expect("the reply behind unasked bytes", read_reply(stream), ONE)
                    expect("what the backend sees of the first", read_to(asked, 1).replace(b" (reset)", b""), b"")
    room.ends("the program", run, DONE)


def case_kept_and_ends(room):
    """with --keep a backend may end an idle connection at any time: with its reply, later, or by a reset"""
    reset = struct.pack("ii", 1, 0)
    with listener() as backend:
        run, port = served(room, backend)
        with client(port) as stream:
            for number, how in enumerate(("with", "later", "reset", "stopped") * 3):
                call(stream)
                asked = backend.accept()[0]
                read_message(asked)
                if how == "with":
                    with stopped(run):
                        asked.sendall(reply(str(number)))
                        asked.close()
                    expect("the reply", read_reply(stream), body_of(number))
                    continue
                asked.sendall(reply(str(number)))
                expect("the reply", read_reply(stream), body_of(number))
                if how == "reset":
                    asked.setsockopt(socket.SOL_SOCKET, socket.SO_LINGER, reset)
                if how == "stopped":
                    with stopped(run):
                        # its end and the next call are there at once
                        asked.close()
                        call(stream)
                    with backend.accept()[0] as other:
                        read_message(other)
                        other.sendall(told_with(b"Connection: close\r\n", b""))
                        expect("the reply over another", read_reply(stream), ONE)
                    continue
                asked.close()
                time.sleep(0.02)
    room.ends("the program", run, DONE)


def case_kept_asks_once(room):
    """with --keep a backend that closes once a request came over a used connection is not asked again: the call is lost"""
    with listener() as backend:
        run, port = served(room, backend)
        with client(port) as stream:
            asked_again(backend, stream).close()
            expect("the reply to the one that was lost", read_reply(stream), LOST)
            expect("whether the backend was asked again", is_quiet(backend), True)
            expect_next_anew(backend, stream)
    room.ends("the program", run, DONE)


def case_kept_and_late_408(room):
    """with --keep a 408 over a used connection is told to nobody, since it may have come before the request"""
    late = b"HTTP/1.1 408 Request Timeout\r\nContent-Type: application/json\r\nContent-Length: 23\r\n\r\n{\"code\":\"unauthorized\"}"
    with listener() as backend:
        run, port = served(room, backend)
        with client(port) as stream:
            with asked_again(backend, stream) as asked:
                asked.sendall(late)
                expect("the reply to the one that a 408 came for", read_reply(stream), LOST)
                expect("what the backend sees", read_to(asked, 1), b"")
            expect_next_anew(backend, stream)
    room.ends("the program", run, DONE)


def case_kept_not_behind_a_login(room):
    """with --keep a connection is not used again over which a caller has logged in by NTLM or Negotiate"""
    logins = ["NTLM TlRMTVNTUAAB", "negotiate YII", "Negotiate", "nTlM"]
    others = ["Bearer NTLM", "Basic TlRMTQ==", "Ntl", ""]
    with listener() as backend:
        port = backend.getsockname()[1]
        branch = {"name": "b0", "address": f"127.0.0.1:{port}", "path": "/"}
        plans = [
            {"path": "/passes", "limit": 1, "branches": [{**branch, "pass": ["authorization"]}]},
            {"path": "/keeps", "limit": 1, "branches": [branch]},
        ]
        run, port = room.serve(json.dumps(plans).encode(), streams=1, words=["--keep", "60"])
        with client(port) as stream, contextlib.ExitStack() as opened:
            asked = None
            rows = [("/passes", value, value in logins) for value in logins + others + logins]
            rows += [("/keeps", value, False) for value in logins]
            for path, value, ends in rows:
                call(stream, f"Authorization: {value}\r\n", path=path)
                asked = asked or opened.enter_context(backend.accept()[0])
                head, _ = read_message(asked)
                expect("whether it is passed on", b"\r\nauthorization: " in head, path == "/passes")
                asked.sendall(reply("1"))
                expect("the reply", read_reply(stream), ONE)
                if ends:
                    expect(f"what the backend sees behind {value}", read_to(asked, 1), b"")
                    asked = None
    room.ends("the program", run, DONE)


def case_kept_in_figures_and_log(room):
    """with --keep figures and log tell which connections were used again, and why others were closed"""
    with listener() as backend:
        admin = free_port()
        run, port = served(room, backend, 1, streams=1, words=["--admin", f"127.0.0.1:{admin}", "--log", "all"])
        expect("how long connections are kept, by the log", listens(run.stderr)[-1]["keep"], 1)
        with client(port) as stream:
            call(stream)
            asked = backend.accept()[0]
            for number in range(3):
                if number:
                    call(stream)
                read_message(asked)
                asked.sendall(reply("1"))
                expect("the reply", read_reply(stream), ONE)
            # its end, and then bytes that nobody asked for
            for last in (b"", b"H"):
                asked.sendall(last)
                asked.shutdown(socket.SHUT_WR)
                expect("what the backend sees", read_to(asked, 1).replace(b" (reset)", b""), b"")
                call(stream)
                asked = backend.accept()[0]
                read_message(asked)
                asked.sendall(reply("1"))
                expect("the reply", read_reply(stream), ONE)
            expect("what the backend sees at the end of its time", read_to(asked, 1), b"")
            time.sleep(0.05)
            name = "connect_gateway_backend_connections_total"
            wanted = {"opened": 3, "used again": 2, "ended by backend": 1, "unasked bytes": 1, "time over": 1, "place needed": 0}
            told = figures(admin)
            expect("the figures", {event: told[name, event] for event in wanted}, wanted)
            expect("those that are kept now", told["connect_gateway_kept_connections", "0"], 0)
        lines = run.communicate(timeout=WAIT)[1]
    expect("what the log tells", [line.get("reused") for line in branches_told(lines)], [None, True, True, None, None])
    expect("the status", run.returncode, 0)


def case_kept_given_up(room):
    """with --keep the connection of a call that ended before its reply came is closed, and its reply told to nobody"""
    with listener() as backend:
        run, port = served(room, backend, timeout=200)
        with client(port) as stream:
            call(stream)
            with backend.accept()[0] as asked:
                read_message(asked)
                asked.sendall(reply("1")[:20])
                expect("at the deadline", read_reply(stream)[0], "504")
                expect("what the backend sees", read_to(asked, 1).replace(b" (reset)", b""), b"")
            expect_next_anew(backend, stream)
    room.ends("the program", run, DONE)


def case_kept_of_its_address(room):
    """with --keep a connection is used for its own address alone, also where two names have the same"""
    with listener() as first, listener() as second:
        ports = [one.getsockname()[1] for one in (first, second)]
        branches = [{"name": "b0", "address": f"127.0.0.1:{port}", "path": f"/{port}"} for port in ports]
        branches.append({"name": "b0", "address": f"localhost:{ports[0]}", "path": "/name"})
        plans = json.dumps([{"path": f"/{at}", "limit": 1, "branches": [one]} for at, one in enumerate(branches)])
        run, port = room.serve(plans.encode(), streams=1, words=["--keep", "60"])
        with client(port) as stream, contextlib.ExitStack() as opened:
            streams = {}
            for at in (0, 1, 2, 1, 2, 0, 2, 0, 1):
                call(stream, path=f"/{at}")
                if at not in streams:
                    listening = second if at == 1 else first
                    streams[at] = opened.enter_context(listening.accept()[0])
                head, _ = read_message(streams[at])
                expect("the request's host", b"\r\nHost: " + branches[at]["address"].encode() + b"\r\n" in head, True)
                streams[at].sendall(reply(str(at)))
                expect("the reply", read_reply(stream), body_of(at))
            for one in (first, second):
                expect("whether others were opened", is_quiet(one), True)
    room.ends("the program", run, DONE)


def case_kept_with_long_requests(room):
    """with --keep requests and replies larger than any buffer go over a connection that is used again"""
    long = json.dumps("x" * 65_000)
    with listener() as backend:
        run, port = served(room, backend)
        with client(port) as stream:
            asked = None
            for number in range(20):
                sender = threading.Thread(target=call, args=(stream,), kwargs={"body": long})
                sender.start()
                asked = asked or backend.accept()[0]
                asked.setsockopt(socket.SOL_SOCKET, socket.SO_RCVBUF, 4_096)
                expect("its body", read_message(asked)[1], long.encode())
                answer = long if number % 2 else str(number)
                asked.sendall(reply(answer))
                expect("the reply", read_reply(stream), ("200", b'{"b0":%s}' % answer.encode()))
                sender.join()
            asked.close()
    room.ends("the program", run, DONE)


class Echoing:
    """A backend that answers each request with its body, over as many connections as come and as long as they do. Now and
    then it closes one behind a reply, before it, or sends a byte too many."""

    def __init__(self, moody=False):
        self.listener, self.moody, self.asked, self.opened, self.lock = long_listener(), moody, {}, 0, threading.Lock()
        self.listener.settimeout(None)
        self.port = self.listener.getsockname()[1]
        threading.Thread(target=self.serve, daemon=True).start()

    def serve(self):
        with contextlib.suppress(OSError):
            while True:
                stream = self.listener.accept()[0]
                with self.lock:
                    self.opened += 1
                threading.Thread(target=self.answer, args=(stream,), daemon=True).start()

    def answer(self, stream):
        count = 0
        with contextlib.suppress(OSError, Wrong), stream:
            stream.settimeout(WAIT)
            while True:
                body = read_message(stream)[1].decode()
                with self.lock:
                    self.asked[body] = self.asked.get(body, 0) + 1
                count += 1
                mood = hash((body, count)) % 50 if self.moody else 49
                if mood == 0:
                    return
                text = reply(body)
                if mood == 1:
                    text += b"\r"
                if mood == 2:
                    stream.sendall(text[:30])
                    return
                stream.sendall(text)
                if mood == 3:
                    return

    def close(self):
        self.listener.close()


def case_kept_by_many(room):
    """with --keep each of many callers gets the answer to its own request, and no backend is asked twice"""
    backend = Echoing(moody=True)
    run, port = room.serve(plan([backend.port], 1), workers=2, streams=64, words=["--keep", "5"])

    def talk(number):
        for part in range(4):
            with client(port) as stream:
                for turn in range(99):
                    own = str(number * 100_000 + part * 100 + turn)
                    call(stream, body=own)
                    found = read_reply(stream)
                    if found != LOST:
                        expect("the reply", found, ("200", b'{"b0":%s}' % own.encode()))

    at_once(16, talk)
    twice = [body for body, count in backend.asked.items() if count > 1]
    expect("what a backend was asked twice", twice, [])
    expect("whether connections were used again", backend.opened < 16 * 4 * 99 / 2, True)
    backend.close()
    room.ends("the program", run, DONE)


case_kept_by_many.time = 2 * CASE_TIME


def case_kept_until_the_end(room):
    """with --keep idle connections are closed as the program ends, also by a drain, in which what is under way ends"""
    with listener() as backend:
        admin = free_port()
        words = ["--keep", "60", "--admin", f"127.0.0.1:{admin}", "--grace", "5"]
        run, port = room.serve(plan([backend.getsockname()[1]], 1), words=words)
        with client(port) as stream, client(port) as other:
            call(stream)
            idle = backend.accept()[0]
            read_message(idle)
            idle.sendall(reply("1"))
            expect("the reply", read_reply(stream), ONE)
            call(other)
            read_message(idle)
            call(stream)
            busy = backend.accept()[0]
            read_message(busy)
            idle.sendall(reply("2"))
            expect("the reply", read_reply(other), body_of(2))
            drain(admin)
            busy.sendall(reply("3"))
            expect("the reply to what was under way", read_reply(stream), body_of(3))
            for one in (idle, busy):
                expect("what the backend sees", read_to(one, 1), b"")
                one.close()
    room.ends("the program", run, DONE)
