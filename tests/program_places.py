"""Cases of tests/program.py: streams that wait for a place while all loops are full."""
import contextlib
import os
import select
import socket
import time

from program_admin import asks, drain, figures, serve
from program_room import (
    DONE, NOT_FOUND, STRAY, WAIT, answers, at_once, client, closes, expect, is_quiet, is_reset, read_to, sees_end,
    stopped,
)


def fill(opened, port, count=64):
    """So many clients that have been answered, and now hold their places."""
    streams = [opened.enter_context(client(port)) for _ in range(count)]
    for stream in streams:
        answers("one that holds a place", stream)
    return streams


def ask_for_a_place(opened, port, count=10):
    """So many clients that have asked, and wait for a place, in the order in which they came."""
    waiting = []
    for _ in range(count):
        waiting.append(opened.enter_context(client(port)))
        waiting[-1].sendall(STRAY)
    expect("whether one is answered or closed", bool(select.select(waiting, [], [], 0.3)[0]), False)
    return waiting


def give_up(holder):
    """Lets a client end that holds a place."""
    holder.shutdown(socket.SHUT_WR)
    sees_end("one that held a place", holder)


def is_served(what, stream):
    expect(what, read_to(stream, len(NOT_FOUND)), NOT_FOUND)


def case_places_in_order(room):
    """streams that wait for a place get those that become free, in the order in which they came"""
    run, port = room.serve(b"[]", streams=74)
    with contextlib.ExitStack() as opened:
        holders = fill(opened, port)
        waiting = ask_for_a_place(opened, port)
        for at in range(5):
            give_up(holders[at])
            is_served("the oldest that waits", waiting[at])
            expect("whether the next is served", bool(select.select(waiting[at + 1:at + 2], [], [], 0)[0]), False)
        for stream in waiting[5:]:
            is_reset("one that has waited for a second", stream)
        for stream in holders[5:]:
            answers("one that held its place meanwhile", stream)
    room.ends("the program", run, DONE)


def case_places_of_spent_connections(room):
    """128 clients with a connection for each call on one worker, which they close themselves: each call is answered"""
    def ask(port):
        for _ in range(20):
            with client(port) as stream:
                answers("a call", stream)

    run, port = room.serve(b"[]", streams=128 * 20)
    at_once(128, lambda _number: ask(port))
    room.ends("the program", run, DONE)


def case_places_beyond_256(room):
    """at most 256 streams wait for a place: further ones wait at the listener, and each is closed or served in its turn"""
    run, port = room.serve(b"[]", streams=64 + 600 + 1)
    with contextlib.ExitStack() as opened:
        holders = fill(opened, port)
        before = run_descriptors(run)
        # else some have waited for a second before the last comes, on a busy machine
        with stopped(run):
            waiting = [opened.enter_context(client(port)) for _ in range(600)]
        expect("whether the first waits", is_quiet(waiting[0]), True)
        expect("how many were accepted", run_descriptors(run) - before, 256)
        for stream in waiting:
            is_reset("one of 600", stream)
        give_up(holders[0])
        answers("one that comes then", opened.enter_context(client(port)))
    room.ends("the program", run, DONE)


def run_descriptors(run):
    """How many descriptors a program has."""
    return len(os.listdir(f"/proc/{run.pid}/fd"))


def case_places_and_operators(room):
    """operators are answered while streams wait for a place, and it is not ready"""
    run, port, where = serve(room, b"[]")
    with contextlib.ExitStack() as opened:
        holders = fill(opened, port)
        waiting = ask_for_a_place(opened, port)
        expect("while ten wait", asks(where, "/ready"), (503, "full"))
        expect("those that were closed", figures(where)[("connect_gateway_streams_closed_total",)], 0)
        give_up(holders[0])
        is_served("the oldest", waiting[0])
        expect("while nine wait", asks(where, "/ready"), (503, "full"))
        for stream in waiting[1:]:
            is_reset("one that has waited for a second", stream)
        expect("when nobody waits", asks(where, "/ready"), (503, "full"))
        end = time.monotonic() + WAIT
        while figures(where)[("connect_gateway_streams_closed_total",)] != 9:
            expect("whether they are told as closed soon", time.monotonic() < end, True)
            time.sleep(0.1)
        give_up(holders[1])
        end = time.monotonic() + WAIT
        while asks(where, "/ready") != (200, "ready"):
            expect("whether it is not ready for long", time.monotonic() < end, True)
        drain(where)
    room.ends("the program", run, DONE)


def case_places_in_a_drain(room):
    """a drain that closes turns those away that wait for a place, and then ends idle connections"""
    run, port, where = serve(room, b"[]", "--drain-after", "0", "--grace", "5")
    with contextlib.ExitStack() as opened:
        holders = fill(opened, port)
        waiting = ask_for_a_place(opened, port)
        drain(where)
        for stream in waiting:
            is_reset("one that waited", stream)
        for stream in holders:
            sees_end("an idle one", stream)
        closes(port)
        room.ends("the program", run, DONE)


def case_places_while_a_drain_accepts(room):
    """while a drain still accepts streams, those that wait get the places that become free"""
    run, port, where = serve(room, b"[]", "--drain-after", "2")
    with contextlib.ExitStack() as opened:
        holders = fill(opened, port)
        drain(where)
        waiting = ask_for_a_place(opened, port, 2)
        give_up(holders[0])
        is_served("the oldest", waiting[0])
        is_reset("the other, after a second or as nobody listens any more", waiting[1])
        for stream in (*holders[1:], waiting[0]):
            sees_end("an idle one", stream)
    room.ends("the program", run, DONE)


def case_places_behind_the_last(room):
    """behind the last stream that is accepted, those that wait are served or turned away, and then the program ends"""
    run, port = room.serve(b"[]", streams=74)
    with contextlib.ExitStack() as opened:
        holders = fill(opened, port)
        waiting = ask_for_a_place(opened, port)
        closes(port)
        for holder, stream in zip(holders[:5], waiting):
            give_up(holder)
            is_served("one that waits", stream)
        for stream in waiting[5:]:
            is_reset("one that has waited for a second", stream)
        for stream in (*holders[5:], *waiting[:5]):
            answers("one that holds a place", stream)
        expect("whether it goes on", run.poll(), None)
    room.ends("the program", run, DONE)
