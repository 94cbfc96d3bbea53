"""Cases of tests/program.py: what waits for how long, and for whom."""
import contextlib
import json
import os
import resource
import select
import signal
import socket
import subprocess
import threading
import time

from program_room import (
    Backend, DONE, LONG_BODY, NOT_FOUND, STRAY, Trickle, Untried, WAIT, Wrong, answers, be_nobody, call, client, expect,
    full_listener, is_quiet, limit_now, limit_threads_now, listener, mount, plan, processor_time_of, read_message, read_reply,
    read_to, reply, request, sees_end, size_of, stop_now, waits_of,
)


def calls_end_at_deadlines(room, backend, workers, calls):
    """Makes so many calls of 200 milliseconds, one after the other, and sees that each ends so."""
    took = []
    run, port = room.serve(plan([backend], 1, timeout=200), workers=workers, streams=1)
    with client(port) as stream:
        for _ in range(calls):
            began = time.monotonic()
            call(stream)
            expect("the status", read_reply(stream)[0], "504")
            took.append(time.monotonic() - began)
    expect(f"whether none came early, {min(took):.4f} seconds", min(took) > 0.198, True)
    expect(f"whether one came within a second, {min(took):.4f} seconds", min(took) < 0.8, True)
    return run


def case_trickle(room):
    """a call ends at its deadline also where its backend goes on sending, a byte at a time"""
    with Trickle("1" * 60_000, pause=0.003, piece=1) as backend:
        run = calls_end_at_deadlines(room, backend.port, workers=2, calls=3)
    room.ends("the program", run, DONE)


def case_unread_replies(room):
    """clients that do not read their replies keep no backend from the calls of others"""
    with Backend(json.dumps("x" * 60_000)) as large, listener() as backend, contextlib.ExitStack() as opened:
        long = json.loads(plan([large.port] * 8, 8))[0]
        plans = [*json.loads(plan([backend.getsockname()[1]] * 4, 4)), {**long, "path": "/long"}]
        _run, port = room.serve(json.dumps(plans).encode(), workers=4)
        for _ in range(2):
            rude = opened.enter_context(client(port))
            for _ in range(4):
                # more than the system takes of their replies
                rude.sendall(request("/long") * 8)
                time.sleep(0.5)
        stream = opened.enter_context(client(port))
        call(stream)
        asked = [opened.enter_context(backend.accept()[0]) for _ in range(4)]
        for one in asked:
            one.sendall(reply("1"))
        expect("another's reply", read_reply(stream)[0], "200")


def case_hang_up_beside_busy_clients(room):
    """a hang-up is noticed though other clients of the same loop are busy all the time"""
    def be_busy(port, stop):
        while not stop.is_set():
            with client(port) as stream:
                for _ in range(50):
                    call(stream, path="/other")
                    expect("a busy client's reply", read_reply(stream), ("200", b'{"b0":1}'))

    stop = threading.Event()
    with listener() as silent, Backend("1") as backend, contextlib.ExitStack() as opened:
        other = json.loads(plan([backend.port], 1))[0]
        plans = [*json.loads(plan([silent.getsockname()[1]], 1)), {**other, "path": "/other"}]
        _run, port = room.serve(json.dumps(plans).encode())
        stream = opened.enter_context(client(port))
        call(stream)
        opened.enter_context(silent.accept()[0])
        busy = [threading.Thread(target=be_busy, args=(port, stop)) for _ in range(3)]
        for one in busy:
            one.start()
        time.sleep(0.2)
        stream.shutdown(socket.SHUT_WR)
        try:
            expect("the hang-up", read_reply(stream)[0], "499")
        finally:
            stop.set()
            for one in busy:
                one.join()


def case_unreachable_to_its_deadline(room):
    """a call whose backend takes no connection ends at its deadline"""
    with full_listener() as full:
        run = calls_end_at_deadlines(room, full.getsockname()[1], workers=4, calls=10)
    room.ends("the program", run, DONE)


def case_unreachable(room):
    """a backend that takes no connection holds up neither a branch that fails meanwhile nor a hang-up"""
    with full_listener() as full, listener() as backend:
        plans = plan([full.getsockname()[1], backend.getsockname()[1]], 2)
        _run, port = room.serve(plans, workers=4)
        with client(port) as stream:
            call(stream)
            with backend.accept()[0] as failing:
                failing.sendall(b"HTTP/1.1 500 Internal Server Error\r\nContent-Length: 0\r\n\r\n")
                expect("where another fails", read_reply(stream)[0], "500")
            answers("a request behind it", stream)
            call(stream)
            with backend.accept()[0]:
                stream.shutdown(socket.SHUT_WR)
                expect("a hang-up", read_reply(stream)[0], "499")
                sees_end("the stream", stream)


def case_late_connection(room):
    """a backend that takes its connection late is asked then"""
    with full_listener() as full, contextlib.ExitStack() as opened:
        run, port = room.serve(plan([full.getsockname()[1]], 1), streams=1)
        full.settimeout(WAIT)
        with client(port) as stream:
            call(stream)
            expect("whether it waits", is_quiet(stream), True)
            asked = opened.enter_context(full.accept()[0])
            while is_quiet(asked):
                # one of those that kept it full
                asked = opened.enter_context(full.accept()[0])
            expect("what it is asked", read_message(asked)[1], b"{}")
            asked.sendall(reply("1"))
            expect("the reply", read_reply(stream), ("200", b'{"b0":1}'))
    room.ends("the program", run, DONE)


def case_branch_deadline_beside_unreachable(room):
    """a branch's deadline ends its call on time, though another backend of the call takes no connection"""
    with full_listener() as full, listener() as silent:
        [made] = json.loads(plan([full.getsockname()[1], silent.getsockname()[1]], 2))
        made["branches"][1]["timeout_ms"] = 1_100
        _run, port = room.serve(json.dumps([made]).encode(), workers=4)
        took = []
        with client(port) as stream:
            for _ in range(3):
                began = time.monotonic()
                call(stream)
                expect("the status", read_reply(stream)[0], "504")
                took.append(time.monotonic() - began)
    expect(f"whether one came on time, and none early, {took} seconds", 1.098 < min(took) < 1.6, True)


def case_three_unreachable(room):
    """three backends that take no connection don't hold up a branch that fails for much longer than a second"""
    with contextlib.ExitStack() as opened, listener() as backend:
        full = [opened.enter_context(full_listener()).getsockname()[1] for _ in range(3)]
        _run, port = room.serve(plan([*full, backend.getsockname()[1]], 4), workers=4)
        with client(port) as stream:
            call(stream)
            with backend.accept()[0] as failing:
                time.sleep(2)
                failing.sendall(b"HTTP/1.1 500 Internal Server Error\r\nContent-Length: 0\r\n\r\n")
                began = time.monotonic()
                expect("the status", read_reply(stream)[0], "500")
                took = time.monotonic() - began
    expect(f"whether it came soon, {took:.3f} seconds", took < 1.8, True)


def case_name_of_two_addresses(room):
    """the second address of a name is asked too, where the first takes no connection"""
    with full_listener() as full, socket.create_server(("127.0.0.2", full.getsockname()[1])) as backend:
        backend.settimeout(WAIT)
        hosts = room.file("hosts", b"127.0.0.1 both\n127.0.0.2 both\n")
        plans = plan([full.getsockname()[1]], 1, timeout=1_000).replace(b"127.0.0.1", b"both")
        try:
            _run, port = room.serve(plans, workers=2, limit=lambda: mount([(hosts, "/etc/hosts")]))
        except subprocess.SubprocessError:
            raise Untried("it can't have hosts of its own") from None
        with client(port) as stream:
            call(stream)
            with backend.accept()[0] as asked:
                read_message(asked)
                asked.sendall(reply("1"))
            expect("the reply", read_reply(stream), ("200", b'{"b0":1}'))


class NameServer:
    """A server of names at an address of its own, which counts the questions that it is asked, by name. It answers that
    there is no such name, or nothing."""

    def __init__(self, answers):
        self.answers, self.asked = answers, []
        self.socket = socket.socket(socket.AF_INET, socket.SOCK_DGRAM)
        try:
            self.socket.bind(("127.53.53.53", 53))
        except OSError:
            raise Untried("no server of names can be had") from None
        self.thread = threading.Thread(target=self.serve, daemon=True)
        self.thread.start()

    def serve(self):
        with contextlib.suppress(OSError):
            while True:
                question, who = self.socket.recvfrom(4_096)
                if not question:
                    return
                self.asked.append(name_in(question))
                self.take(question, who)

    def take(self, question, who):
        if self.answers:
            self.socket.sendto(question[:2] + b"\x81\x83" + question[4:], who)

    def __enter__(self):
        return self

    def __exit__(self, *_why):
        # a datagram of nothing ends its thread, which would keep the socket open
        with socket.socket(socket.AF_INET, socket.SOCK_DGRAM) as last:
            last.sendto(b"", ("127.53.53.53", 53))
        self.thread.join()
        self.socket.close()


def name_in(question):
    """The first label of the name that is asked for."""
    return question[13:13 + question[12]].decode()


def named_plan(paths):
    """A plan file with a plan for each of these paths: the name and the port of its one backend."""
    return json.dumps([
        {"path": path, "limit": 1, "branches": [{"name": "b0", "address": f"{name}:{port}", "path": "/ask"}]}
        for path, (name, port) in paths.items()]).encode()


def serve_with_names(room, paths, hosts, workers=4):
    """Serves plans whose backends are names: those in hosts are found, and others asked of the server of names."""
    files = [
        (room.file("hosts", hosts), "/etc/hosts"),
        (room.file("resolv", b"nameserver 127.53.53.53\noptions timeout:30 attempts:1\n"), "/etc/resolv.conf"),
        (room.file("switch", b"hosts: files dns\n"), "/etc/nsswitch.conf"),
    ]
    try:
        return room.serve(named_plan(paths), workers, limit=lambda: mount(files))
    except subprocess.SubprocessError:
        raise Untried("it can't have names of its own") from None


def case_dead_names(room):
    """names of which nothing is heard hold up no other name, and each is looked up once for all workers"""
    with NameServer(answers=False) as names, Backend("1") as backend, contextlib.ExitStack() as opened:
        dead = {f"/dead{at}": (f"dead{at}.test.", 80) for at in range(8)}
        paths = {**dead, "/live": ("live", backend.port)}
        _run, port = serve_with_names(room, paths, b"127.0.0.1 live\n")
        for path in dead:
            for _ in range(4):
                # each goes to another worker
                call(opened.enter_context(client(port)), path=path)
        time.sleep(0.5)
        with client(port) as stream:
            took = []
            for _ in range(5):
                began = time.monotonic()
                call(stream, path="/live")
                expect("a name that is found", read_reply(stream), ("200", b'{"b0":1}'))
                took.append(time.monotonic() - began)
        expect(f"whether one came soon, {took} seconds", min(took) < 1, True)
        # by its addresses of version 4 and of version 6
        expect("how often each was asked for", {name: names.asked.count(name) for name in sorted(set(names.asked))},
               {f"dead{at}": 2 for at in range(8)})


def case_missing_name(room):
    """a name that was not found is not looked up again within a second, and is then"""
    with NameServer(answers=True) as names:
        _run, port = serve_with_names(room, {"/call": ("missing.test.", 80)}, b"\n")
        with client(port) as stream:
            for _ in range(2):
                before = len(names.asked)
                began = time.monotonic()
                for _ in range(40):
                    call(stream)
                    expect("the status", read_reply(stream)[0], "503")
                took = time.monotonic() - began
                asked = len(names.asked) - before
                # each look-up asks for addresses of version 4 and of version 6
                expect(f"whether it was looked up, and at most each second, by {asked} questions in {took:.1f} seconds",
                       2 <= asked <= 2 * (1 + int(took)), True)
                time.sleep(1.2)


def case_no_standard_streams(room):
    """lines of the log go to no client, also if the program was started without standard output and error"""

    def close_both():
        os.close(1)
        os.close(2)

    with Backend("1") as backend:
        _run, port = room.serve(plan([backend.port], 1), workers=2, log=True, limit=close_both)
        with client(port) as stream, client(port) as other:
            answers("the other", other)
            call(stream)
            expect("the reply", read_reply(stream), ("200", b'{"b0":1}'))
            expect("whether it gets nothing else", is_quiet(stream), True)
            expect("whether the other gets nothing else", is_quiet(other), True)


def case_whole_time(room):
    """a call that comes while nothing else happens has its whole time"""
    with listener() as backend:
        run, port = room.serve(plan([backend.getsockname()[1]], 1, timeout=600), streams=1)
        with client(port) as stream:
            for _ in range(2):
                time.sleep(0.25)
                began = time.monotonic()
                call(stream)
                expect("the status", read_to(stream, 12), b"HTTP/1.1 504")
                took = time.monotonic() - began
                rest = b""
                while not rest.endswith(b"}"):
                    rest += read_to(stream, 1)
                expect(f"whether it came at its time, after {took:.3f} seconds", 0.598 < took < WAIT, True)
                backend.accept()[0].close()
    room.ends("the program", run, DONE)


def case_no_thread(room):
    """streams and calls take no thread: where none can be had any more, they are served"""
    with Backend("1") as backend:
        run, port = room.serve(plan([backend.port], 1), streams=3, limit=be_nobody)
        with client(port) as stream:
            answers("before", stream)
            limit_threads_now(run, 0)
            for one in (stream, client(port), client(port)):
                with one:
                    answers("a request", one)
                    call(one)
                    expect("a call", read_reply(one), ("200", b'{"b0":1}'))
    room.ends("the program", run, DONE)


def case_no_descriptor(room):
    """descriptors that are lacking while backends are asked end nothing: who finds none is answered, or waits for one"""
    with listener() as backend:
        run, port = room.serve(plan([backend.getsockname()[1]], 1), workers=2, streams=3)
        with client(port) as stream:
            answers("before", stream)
            # one for a backend, and one for another stream
            most = max(int(name) for name in os.listdir(f"/proc/{run.pid}/fd"))
            limit_now(run, resource.RLIMIT_NOFILE, most + 3)
            call(stream)
            with backend.accept()[0] as asked, client(port) as second:
                call(stream)
                answers("the second stream", second)
                with client(port) as third:
                    third.sendall(STRAY)
                    expect("whether a stream has a descriptor", bool(select.select([third], [], [], 4)[0]), False)
                    expect("whether the program goes on", run.poll(), None)
                    asked.sendall(reply("1"))
                    expect("the first call", read_reply(stream), ("200", b'{"b0":1}'))
                    expect("the second, for which there was no descriptor", read_reply(stream)[0], "503")
                    expect("the stream that waited", read_to(third, len(NOT_FOUND)), NOT_FOUND)
    room.ends("the program", run, DONE)


def case_stopped(room):
    """calls with a deadline are answered by their backends though the program is stopped meanwhile"""
    with Backend("1", pause=0.4) as backend:
        run, port = room.serve(plan([backend.port], 1, timeout=5000), workers=4, streams=1)
        with client(port) as stream:
            for _ in range(4):
                call(stream)
                time.sleep(0.1)
                stop_now(run)
                time.sleep(0.1)
                run.send_signal(signal.SIGCONT)
                expect("the reply", read_reply(stream), ("200", b'{"b0":1}'))
    room.ends("the program", run, DONE)


def case_end_with_what_came(room):
    """an end that comes with the last bytes is seen: a client's behind its call, and a backend's behind half a reply"""
    with listener() as backend:
        run, port = room.serve(plan([backend.getsockname()[1]], 1), streams=2)
        with client(port) as stream:
            call(stream)
            with backend.accept()[0] as asked:
                read_message(asked)
                stop_now(run)
                asked.sendall(reply("1")[:40])
                asked.shutdown(socket.SHUT_WR)
                run.send_signal(signal.SIGCONT)
                expect("the call", read_reply(stream)[0], "503")
        with client(port) as stream:
            answers("before", stream)
            stop_now(run)
            call(stream)
            stream.shutdown(socket.SHUT_WR)
            run.send_signal(signal.SIGCONT)
            expect("the call of a client that has ended", read_reply(stream)[0], "499")
            sees_end("its stream", stream)
    room.ends("the program", run, DONE)


def case_after_a_stop(room):
    """a call that comes while the program is stopped has its whole time from when it goes on"""
    with Backend("1", pause=0.1) as backend:
        run, port = room.serve(plan([backend.port], 1, timeout=2_000), workers=4, streams=1)
        with client(port) as stream:
            for pause in (0.5, 2.5, 5):
                stop_now(run)
                call(stream)
                time.sleep(pause)
                run.send_signal(signal.SIGCONT)
                expect(f"the reply after {pause} seconds", read_reply(stream), ("200", b'{"b0":1}'))
    room.ends("the program", run, DONE)


def case_deadlines(room):
    """each call whose deadline has passed is answered so, and none before it, beside busy clients"""
    def ask(port, took):
        with client(port) as stream:
            for _ in range(25):
                began = time.monotonic()
                call(stream, "Connect-Timeout-Ms: 80\r\n")
                took.append((read_reply(stream)[0], time.monotonic() - began))

    def be_busy(port, stop):
        while not stop.is_set():
            with client(port) as stream:
                for _ in range(50):
                    answers("a busy client", stream)

    with listener() as backend:
        run, port = room.serve(plan([backend.getsockname()[1]], 1), workers=32, streams=1_000_000)
        took, stop = [], threading.Event()
        others = [threading.Thread(target=be_busy, args=(port, stop)) for _ in range(4)]
        askers = [threading.Thread(target=ask, args=(port, took)) for _ in range(20)]
        for thread in (*others, *askers):
            thread.start()
        for thread in askers:
            thread.join()
        stop.set()
        for thread in others:
            thread.join()
    expect("how they ended", {status for status, _time in took}, {"504"})
    expect("how many", len(took), 500)
    earliest = min(time for _status, time in took)
    expect(f"whether none came early, {earliest:.4f} seconds", earliest > 0.078, True)


def case_one_client(room):
    """one client's calls wake no thread but that of its loop, beside 64 workers"""
    with Backend("1") as backend:
        run, port = room.serve(plan([backend.port], 1), workers=64, streams=50)
        waits, began, streams = None, time.monotonic(), 0
        # 5,000 calls, or on a busy machine as many as there is time for
        while streams < 5 or streams < 50 and time.monotonic() - began < WAIT:
            streams += 1
            with client(port) as stream:
                if waits is None:
                    answers("at first", stream)
                    time.sleep(0.3)
                    waits = waits_of(run)
                for _ in range(99):
                    call(stream)
                    expect("a reply", read_reply(stream), ("200", b'{"b0":1}'))
                woken = (waits_of(run) - waits) / 99
                expect(f"whether it slept seldom in a call, {woken:.1f} times", woken < 4, True)
                waits = waits_of(run)
                stream.shutdown(socket.SHUT_WR)
                sees_end("it", stream)
        for _ in range(streams, 50):
            client(port).close()
    room.ends("the program", run, DONE)


def case_idle(room):
    """a program in which nothing happens uses next to no processor time, whatever workers and connections it has"""
    run, port = room.serve(b"[]", workers=64, streams=64)
    with contextlib.ExitStack() as opened:
        for _ in range(64):
            answers("one of 64", opened.enter_context(client(port)))
        time.sleep(1)
        before = processor_time_of(run)
        time.sleep(5)
        used = processor_time_of(run) - before
        expect(f"whether it used little, {used} seconds of 5", used < 0.05, True)
    room.ends("the program", run, DONE)


def case_many_large_replies(room):
    """what was written of large replies is kept no longer"""
    body = json.dumps("x" * 60_000)
    with Backend(body) as backend:
        run, port = room.serve(plan([backend.port] * 3, 3), workers=3, streams=1)
        with client(port) as stream:
            call(stream)
            read_reply(stream)
            before = size_of(run, "VmHWM")
            for _ in range(98):
                call(stream)
                status, answer = read_reply(stream)
                expect("a reply", (status, len(answer) > 180_000), ("200", True))
            grown = size_of(run, "VmHWM") - before
            expect(f"whether memory has grown little, {grown} bytes", grown < 6_000_000, True)
    room.ends("the program", run, DONE)


class Counted(Backend):
    """A backend that counts its answers, each once it was read."""

    def __init__(self, body):
        self.answers = 0
        super().__init__(body)

    def answer_on(self, stream):
        with contextlib.suppress(OSError), stream:
            stream.recv(65536)
            stream.sendall(self.answer)
            stream.shutdown(socket.SHUT_WR)
            stream.recv(1)
        self.answers += 1

    def has_answered(self, count):
        """Waits for so many answers."""
        end = time.monotonic() + WAIT
        while self.answers < count:
            if time.monotonic() > end:
                raise Wrong(f"{self.answers} answers, expected {count}")
            time.sleep(0.01)


def case_held_once(room):
    """forty replies of 1 MB that wait behind a slow call take little more than their size"""
    with Counted(json.dumps("x" * 65_000)) as backend, listener() as silent:
        slow = json.loads(plan([silent.getsockname()[1]], 1))[0]
        wide = json.loads(plan([backend.port] * 16, 16))[0]
        run, port = room.serve(json.dumps([{**slow, "path": "/slow"}, wide]).encode(), streams=1)
        with client(port) as stream:
            call(stream, path="/slow")
            held = silent.accept()[0]
            before = size_of(run, "VmRSS")
            for number in range(40):
                # more than eight undecided calls would be refused
                backend.has_answered(16 * (number - 3))
                call(stream)
            backend.has_answered(640)
            time.sleep(0.5)
            grown = size_of(run, "VmRSS") - before
            with held:
                read_message(held)
                held.sendall(reply("1"))
            for wanted in [8] + [1_040_135] * 40:
                status, answer = read_reply(stream)
                expect("a reply", (status, len(answer)), ("200", wanted))
            expect(f"whether each was held once, {grown} bytes", grown < 60_000_000, True)
    room.ends("the program", run, DONE)


LONG_HEAD = b"POST /call HTTP/1.1\r\nHost: g\r\nContent-Type: application/json\r\nContent-Length: 5000000\r\n\r\n"


def case_refused_uploads(room):
    """a client that sends all of a long body before it reads has its refusal all the same"""
    run, port = room.serve(b"[]", streams=40)
    for length in (100_000, 5_000_000) * 20:
        with client(port) as stream:
            stream.sendall(LONG_HEAD.replace(b"5000000", b"%d" % length) + bytes(length))
            expect("the refusal", read_reply(stream)[0], "429")
            stream.shutdown(socket.SHUT_WR)
            sees_end("the stream", stream)
    room.ends("the program", run, DONE)


def case_idle_uploads(room):
    """clients that don't end behind their refusals keep nobody out, and are cut after a while, or at once beside 64"""
    run, port = room.serve(b"[]", streams=66)
    with contextlib.ExitStack() as opened:
        streams = [opened.enter_context(client(port)) for _ in range(64)]
        began = time.monotonic()
        for stream in streams:
            stream.sendall(LONG_HEAD)
        for stream in streams:
            expect("the refusal", read_reply(stream)[0], "429")
        with client(port) as one_more:
            answers("a stream beside them", one_more)
        # opened only now: a 65th stream beside 64 that are open is closed without a byte
        last = opened.enter_context(client(port))
        last.sendall(LONG_HEAD)
        expect("the refusal of one more", read_reply(last)[0], "429")
        # a stream that is cut resets what is still sent to it
        for _ in range(20):
            time.sleep(0.02)
            try:
                last.sendall(b"x")
            except (BrokenPipeError, ConnectionResetError):
                break
        else:
            raise Wrong("one more than 64 lingers too")
        expect("whether that was at once", time.monotonic() - began < 1.9, True)
        room.ends("the program", run, DONE)
        expect("whether the others were cut in time", time.monotonic() - began < 6, True)
