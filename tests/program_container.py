"""Cases of tests/program.py: the program as a container has it, in a PID namespace of its own."""
import os
import shutil
import signal
import subprocess
import time

from program_admin import drain
from program_room import (
    Backend, DONE, Untried, WAIT, answers, call, client, expect, free_port, plan, read_reply, sees_end,
)

ANSWER = '{"ok":true}'


def contain(room, plans, *before):
    """Starts the gateway in a PID namespace of its own, behind these words. Returns the run of what made the namespace, its
    process 1, its port and that of the address for operators."""
    if not shutil.which("unshare"):
        raise Untried("there is no unshare")
    port, where = free_port(), free_port()
    words = ["serve", "--listen", f"127.0.0.1:{port}", "--plans", room.file("plans", plans), "--workers", "1"]
    words += ["--admin", f"127.0.0.1:{where}", "--grace", "10"]
    run = subprocess.Popen(["unshare", "--pid", "--fork", "--kill-child", *before, room.program, *words],
                           stdout=subprocess.PIPE, stderr=subprocess.PIPE)
    room.started.append(run)
    end = time.monotonic() + WAIT
    while not (children := children_of(run.pid)):
        if run.poll() is not None:
            raise Untried(f"no namespace: {run.stderr.read().decode().strip()}")
        expect("whether it has started in time", time.monotonic() < end, True)
        time.sleep(0.02)
    client(port).close()
    return run, int(children[0]), port, where


def children_of(process):
    try:
        with open(f"/proc/{process}/task/{process}/children", encoding="ascii") as file:
            return file.read().split()
    except FileNotFoundError:
        return []


def case_signals_to_process_1(room):
    """as process 1 of a container it ignores SIGTERM and SIGINT, and a drain ends it with status 0"""
    run, first, port, where = contain(room, b"[]")
    with client(port) as stream:
        for number in (signal.SIGTERM, signal.SIGINT):
            os.kill(first, number)
        answers("a stream after SIGTERM and SIGINT", stream)
        drain(where)
        sees_end("a stream in a drain", stream)
    room.ends("drained", run, DONE)


def case_stop_of_a_container(room):
    """a container that is asked for the drain, and then sent SIGTERM, answers the calls that are under way"""
    with Backend(ANSWER, pause=1.0) as backend:
        run, first, port, where = contain(room, plan([backend.port], 1, 10_000))
        with client(port) as stream:
            call(stream)
            time.sleep(0.3)
            drain(where)
            os.kill(first, signal.SIGTERM)
            expect("the reply", read_reply(stream)[0], "200")
        room.ends("drained", run, DONE)


def case_init_of_a_container(room):
    """behind an init as process 1 SIGTERM ends the program at once, in the middle of a call"""
    if not shutil.which("tini"):
        raise Untried("there is no tini")
    with Backend(ANSWER, pause=30.0) as backend:
        run, first, port, _where = contain(room, plan([backend.port], 1, 60_000), "tini", "--")
        with client(port) as stream:
            call(stream)
            time.sleep(0.3)
            os.kill(first, signal.SIGTERM)
            sees_end("the call's stream", stream)
        expect("the status of the init", run.wait(timeout=WAIT), 128 + signal.SIGTERM)
