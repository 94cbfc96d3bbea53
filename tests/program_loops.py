"""Cases of tests/program.py: what the loops read and write, for whom, and what one of them leaves to others."""
import contextlib
import json
import os
import resource
import select
import signal
import socket
import struct
import subprocess
import time

from program_room import (
    Backend, DONE, Echo, LONG_BODY, NOT_FOUND, STRAY, Trickle, Untried, WAIT, Wrong, answers, at_once, call, client,
    expect, is_quiet, is_reset, listener, listens, long_listener, mount, plan, read_message, read_reply, read_to, reply, request,
    sees_end, stop_now,
)

# so many backends may be asked at the same time by one loop
PLACES = 1_024


def branch_request(port, body, left=None, number=None):
    """What a backend is asked, byte for byte."""
    fields = [
        f"Host: 127.0.0.1:{port}", "Content-Type: application/json", f"Content-Length: {len(body)}",
        "Connect-Protocol-Version: 1",
    ]
    fields += [f"Connect-Timeout-Ms: {left}"] if left is not None else []
    fields += [f"X-Request-Id: {number}"] if number else []
    return "\r\n".join(["POST /ask HTTP/1.1", *fields, "Connection: close", "", ""]).encode(), body.encode()


def left_in(head):
    """The milliseconds that are left, as a backend is told."""
    return next(int(line[20:]) for line in head.split(b"\r\n") if line.startswith(b"Connect-Timeout-Ms: "))


def reset(stream):
    """Ends a stream by a reset."""
    stream.setsockopt(socket.SOL_SOCKET, socket.SO_LINGER, struct.pack("ii", 1, 0))
    stream.close()


def need_descriptors(count):
    """Sees that this process and those that it starts may have so many descriptors."""
    most = resource.getrlimit(resource.RLIMIT_NOFILE)[1]
    if most < count:
        raise Untried(f"{most} descriptors are too few")
    resource.setrlimit(resource.RLIMIT_NOFILE, (most, most))


# ---- what is asked


def case_asked_byte_for_byte(room):
    """a backend is asked byte for byte: the caller's body and request id, and the time that is left as its branch starts"""
    with listener() as backend:
        port_asked = backend.getsockname()[1]
        run, port = room.serve(plan([port_asked] * 2, 1), streams=1)
        with client(port) as stream:
            for body in ('{"to":"OSL"}', LONG_BODY, json.dumps("x" * 60_000)):
                call(stream, "X-Request-Id: r-7\r\nConnect-Timeout-Ms: 9000\r\n", body=body)
                with backend.accept()[0] as asked:
                    expect("the first request", read_message(asked), branch_request(port_asked, body, 9000, "r-7"))
                    time.sleep(0.3)
                    asked.sendall(reply("1"))
                with backend.accept()[0] as asked:
                    head, sent = read_message(asked)
                    left = left_in(head)
                    expect("the second request", (head, sent), branch_request(port_asked, body, left, "r-7"))
                    expect(f"whether {left} milliseconds may be left", 0 < left <= 8_701, True)
                    asked.sendall(reply("2"))
                expect("the reply", read_reply(stream), ("200", b'{"b0":1,"b1":2}'))
            call(stream)
            with backend.accept()[0] as asked:
                expect("a request without either", read_message(asked), branch_request(port_asked, "{}"))
    room.ends("the program", run, DONE)


def case_asked_once(room):
    """a backend that closes or resets its connection, or answers nonsense, is asked once, and that call alone fails"""
    with listener() as backend, listener() as other:
        more = json.loads(plan([other.getsockname()[1]], 1))[0]
        plans = [*json.loads(plan([backend.getsockname()[1]], 1)), {**more, "path": "/other"}]
        run, port = room.serve(json.dumps(plans).encode(), streams=2)
        with client(port) as stream, client(port) as beside:
            call(beside, path="/other")
            with other.accept()[0] as waited:
                for how in (lambda one: one.close(), reset, lambda one: one.sendall(b"HTTP/1.1 nonsense\r\n\r\n")):
                    call(stream)
                    call(stream, path="/other")
                    with backend.accept()[0] as asked, other.accept()[0] as later:
                        read_message(asked)
                        how(asked)
                        expect("the call", read_reply(stream)[0], "503")
                        expect("whether it is asked again", is_quiet(backend), True)
                        later.sendall(reply("2"))
                        expect("the call behind it", read_reply(stream), ("200", b'{"b0":2}'))
                waited.sendall(reply("3"))
                expect("the call beside it", read_reply(beside), ("200", b'{"b0":3}'))
    room.ends("the program", run, DONE)


def case_refused_by_its_head(room):
    """a reply that its head refuses ends the call at once, and its backend is given up"""
    with listener() as backend:
        run, port = room.serve(plan([backend.getsockname()[1]], 1), streams=1)
        with client(port) as stream:
            for refused in (b"Transfer-Encoding: chunked", b"Content-Length: 65537", b"Content-Type: application/json"):
                call(stream)
                with backend.accept()[0] as asked:
                    read_message(asked)
                    asked.sendall(b"HTTP/1.1 200 OK\r\n" + refused + b"\r\n\r\n")
                    expect(f"by {refused}", read_reply(stream)[0], "503")
                    sees_end("the backend", asked)
    room.ends("the program", run, DONE)


def case_behind_a_refusal(room):
    """what comes behind a request that ends its stream goes to no backend, and no bytes of it are answered"""
    chunked = b"POST /call HTTP/1.1\r\nHost: g\r\nTransfer-Encoding: chunked\r\n\r\n"
    closing = request("/none", "Connection: close\r\n")
    with listener() as backend:
        run, port = room.serve(plan([backend.getsockname()[1]], 1), streams=4)
        for ending, status in ((chunked, "411"), (closing, "404")):
            for split in (False, True):
                with client(port) as stream:
                    stream.sendall(ending + b"" if split else ending + request() * 3)
                    expect("the last reply", read_reply(stream)[0], status)
                    if split:
                        stream.sendall(request() * 3)
                    stream.shutdown(socket.SHUT_WR)
                    sees_end("the stream", stream)
        expect("whether a backend was asked", is_quiet(backend), True)
    room.ends("the program", run, DONE)


def send_urgent(stream, before, behind):
    """Sends these bytes with an urgent one between them: a read stops short of it, and it is no part of the stream."""
    stream.sendall(before)
    stream.send(b"!", socket.MSG_OOB)
    stream.sendall(behind)


def case_urgent_reply(room):
    """a backend that sends an urgent byte inside its reply is read on"""
    with listener() as backend:
        run, port = room.serve(plan([backend.getsockname()[1]], 1), streams=1)
        with client(port) as stream:
            for cut in (10, 60, 71):
                call(stream, "Connect-Timeout-Ms: 5000\r\n")
                with backend.accept()[0] as asked:
                    read_message(asked)
                    # so that all of it is there as the gateway reads
                    stop_now(run)
                    send_urgent(asked, reply("1")[:cut], reply("1")[cut:])
                    run.send_signal(signal.SIGCONT)
                    expect(f"the reply, cut at {cut}", read_reply(stream), ("200", b'{"b0":1}'))
    room.ends("the program", run, DONE)


def case_urgent_request(room):
    """a client that sends an urgent byte inside its request is read on, and so from then on"""
    run, port = room.serve(b"[]", streams=1)
    with client(port) as stream:
        answers("before", stream)
        stream.settimeout(5)
        for cut in (10, len(STRAY) - 1):
            stop_now(run)
            send_urgent(stream, STRAY[:cut], STRAY[cut:])
            run.send_signal(signal.SIGCONT)
            expect(f"the reply, cut at {cut}", read_to(stream, len(NOT_FOUND)), NOT_FOUND)
        answers("afterwards", stream)
    room.ends("the program", run, DONE)


@contextlib.contextmanager
def narrow_listener():
    """A socket that listens, to which 65,000 bytes can't be written unless they are read."""
    with socket.socket() as made:
        made.setsockopt(socket.SOL_SOCKET, socket.SO_RCVBUF, 1_024)
        made.setsockopt(socket.IPPROTO_TCP, socket.TCP_MAXSEG, 536)
        made.bind(("127.0.0.1", 0))
        made.listen()
        made.settimeout(WAIT)
        yield made


def case_early_and_deaf(room):
    """a backend that reads no more, and answers, ends or resets its stream, ends its branch long before the deadline"""
    with narrow_listener() as backend:
        run, port = room.serve(plan([backend.getsockname()[1]], 1), streams=1)
        with client(port) as stream:
            for end in (
                lambda asked: asked.sendall(reply("1")),
                lambda asked: asked.shutdown(socket.SHUT_WR),
                lambda asked: reset(asked),
            ):
                call(stream, f"Connect-Timeout-Ms: {(WAIT - 5) * 1000}\r\n", body=json.dumps("x" * 64_998))
                with backend.accept()[0] as asked:
                    read_to(asked, 100)
                    end(asked)
                    # at the deadline it would be 504
                    expect("the status", read_reply(stream)[0], "503")
    room.ends("the program", run, DONE)


def waiting_ports(backend):
    """How many streams to that port wait on the side that connected, which closed first (TIME_WAIT)."""
    with open("/proc/net/tcp", encoding="ascii") as file:
        fields = [line.split() for line in file]
    return sum(found[2].endswith(f":{backend:04X}") and found[3] == "06" for found in fields)


def case_ports(room):
    """a backend that closes after its reply was read closes first: no port of the gateway waits"""
    with listener() as backend:
        port_asked = backend.getsockname()[1]
        run, port = room.serve(plan([port_asked], 1), streams=1)
        with client(port) as stream:
            for _ in range(20):
                call(stream)
                with backend.accept()[0] as asked:
                    read_message(asked)
                    asked.sendall(reply("1"))
                    expect("the reply", read_reply(stream), ("200", b'{"b0":1}'))
            # if this is held up for longer than the gateway waits, some do
            expect(f"whether {waiting_ports(port_asked)} of 20 are few", waiting_ports(port_asked) <= 10, True)
    room.ends("the program", run, DONE)


def case_closes_in_the_end(room):
    """a backend that never closes a stream whose reply came whole has it closed"""
    with listener() as backend:
        run, port = room.serve(plan([backend.getsockname()[1]], 1), streams=1)
        with client(port) as stream:
            call(stream)
            with backend.accept()[0] as asked:
                read_message(asked)
                asked.sendall(reply("1"))
                expect("the reply", read_reply(stream), ("200", b'{"b0":1}'))
                sees_end("the backend", asked)
    room.ends("the program", run, DONE)


def case_three_hundred_pieces(room):
    """a reply of 60,000 bytes in 300 pieces and more is joined byte for byte"""
    body = json.dumps("".join(f"{number:05}" for number in range(12_000)))
    with Trickle(body, pause=0.002, piece=190) as backend:
        run, port = room.serve(plan([backend.port], 1), streams=1)
        with client(port) as stream:
            call(stream)
            expect("the reply", read_reply(stream), ("200", f'{{"b0":{body}}}'.encode()))
    room.ends("the program", run, DONE)


def case_sooner_deadline(room):
    """the sooner of a call's deadline and its branch's decides, and tells which it was"""
    with listener() as backend:
        [made] = json.loads(plan([backend.getsockname()[1]], 1))
        made["branches"][0]["timeout_ms"] = 900
        run, port = room.serve(json.dumps([made]).encode(), streams=1)
        with client(port) as stream:
            for time_of_call, message in ((300, "context deadline exceeded"), (9_000, "b0: context deadline exceeded")):
                call(stream, f"Connect-Timeout-Ms: {time_of_call}\r\n")
                late = json.dumps({"code": "deadline_exceeded", "message": message}, separators=(",", ":"))
                expect("the reply", read_reply(stream), ("504", late.encode()))
                with backend.accept()[0] as asked:
                    expect("whether the time is the sooner one's", left_in(read_message(asked)[0]) <= min(time_of_call, 900), True)
    room.ends("the program", run, DONE)


# ---- who is served beside whom


def case_hung_beside_fast(room):
    """calls that hang at a silent backend, of all other clients of the loop, keep nobody else from his answers"""
    with listener() as silent, Backend("1") as backend, contextlib.ExitStack() as opened:
        other = json.loads(plan([silent.getsockname()[1]] * 4, 4))[0]
        plans = [*json.loads(plan([backend.port], 1)), {**other, "path": "/silent"}]
        _run, port = room.serve(json.dumps(plans).encode())
        stream = opened.enter_context(client(port))
        for _ in range(63):
            call(opened.enter_context(client(port)), path="/silent")
        asked = [opened.enter_context(silent.accept()[0]) for _ in range(63 * 4)]
        for one in asked:
            read_message(one)
        for _ in range(99):
            call(stream)
            expect("a reply", read_reply(stream), ("200", b'{"b0":1}'))
        expect("which of them are asked no more", select.select(asked, [], [], 0.3)[0], [])


def be_greedy(stream, port):
    """Sends far more than is answered, and takes a byte. Returns the stream, or a new one where it has ended."""
    try:
        with contextlib.suppress(BlockingIOError):
            stream.send(STRAY * 50)
        with contextlib.suppress(BlockingIOError):
            stream.recv(1)
        return stream
    except ConnectionError:
        stream.close()
        other = client(port)
        other.setblocking(False)
        return other


def case_greedy_clients(room):
    """clients that send without end, or take their replies byte by byte, keep nobody else from his answers"""
    with Backend("1") as backend, contextlib.ExitStack() as opened:
        _run, port = room.serve(plan([backend.port], 1))
        greedy = [client(port) for _ in range(4)]
        stream = opened.enter_context(client(port))
        for one in greedy:
            one.setblocking(False)
        for _ in range(99):
            greedy = [be_greedy(one, port) for one in greedy]
            call(stream)
            expect("a reply", read_reply(stream), ("200", b'{"b0":1}'))
        for one in greedy:
            one.close()


def case_full_loops(room):
    """each worker has 64 connections: the one beside them all is closed without a byte, until one of them has ended"""
    run, port = room.serve(b"[]", workers=3, streams=3 * 64 + 2)
    with contextlib.ExitStack() as opened:
        streams = [opened.enter_context(client(port)) for _ in range(3 * 64)]
        for stream in streams:
            answers("one of 192", stream)
        with client(port) as one_more:
            is_reset("the 193rd", one_more)
        streams[100].shutdown(socket.SHUT_WR)
        sees_end("one of 192", streams[100])
        answers("a stream in its place", opened.enter_context(client(port)))
        for stream in streams[:100]:
            answers("one of 192, later", stream)
    room.ends("the program", run, DONE)


def case_fewest(room):
    """each stream goes to the worker with the fewest, also where one has given its own back"""
    def worker_of(stream, lines):
        answers("a stream", stream)
        return json.loads(lines.readline())["worker"]

    run, port = room.serve(b"[]", workers=3, log=True)
    with contextlib.ExitStack() as opened, open(run.stderr.fileno(), "rb", closefd=False) as lines:
        listens(lines)
        streams, workers = [], []
        for _ in range(9):
            streams.append(opened.enter_context(client(port)))
            workers.append(worker_of(streams[-1], lines))
        expect("how many each has", [workers.count(each) for each in range(3)], [3, 3, 3])
        for at in (at for at, worker in enumerate(workers) if worker == 1):
            streams[at].shutdown(socket.SHUT_WR)
            sees_end("a stream that has ended", streams[at])
        again = [worker_of(opened.enter_context(client(port)), lines) for _ in range(3)]
        expect("who has the next", again, [1, 1, 1])


def case_thousand(room):
    """a thousand connections at once, each with calls of its own: none is lost or wrong"""
    need_descriptors(4_096)
    with Echo() as backend, contextlib.ExitStack() as opened:
        run, port = room.serve(plan([backend.port], 1), workers=16, streams=1_000)
        streams = [opened.enter_context(client(port)) for _ in range(1_000)]

        def ask(number):
            mine = streams[number::10]
            for each in range(3):
                for at, stream in enumerate(mine):
                    call(stream, body=json.dumps([number, at, each]))
                for at, stream in enumerate(mine):
                    wanted = json.dumps({"b0": [number, at, each]}).replace('"b0": ', '"b0":')
                    expect("a reply", read_reply(stream), ("200", wanted.encode()))

        at_once(10, ask)
    room.ends("the program", run, DONE)


# ---- places


def case_places(room):
    """a loop asks 1,024 backends at once: a further branch waits for a place, and is then asked as if it had not"""
    need_descriptors(4_096)
    with long_listener() as silent, listener() as backend, contextlib.ExitStack() as opened:
        port_asked = backend.getsockname()[1]
        other = json.loads(plan([silent.getsockname()[1]] * 16, 16))[0]
        plans = [*json.loads(plan([port_asked], 1)), {**other, "path": "/silent"}]
        _run, port = room.serve(json.dumps(plans).encode())
        asked = []
        for _ in range(8):
            # as many calls as a connection may have undecided
            opened.enter_context(client(port)).sendall(request("/silent") * 8)
            asked += [opened.enter_context(silent.accept()[0]) for _ in range(128)]
        expect("how many are asked", len(asked), PLACES)
        stream = opened.enter_context(client(port))
        call(stream, "X-Request-Id: r-7\r\nConnect-Timeout-Ms: 9000\r\n")
        expect("whether one more is asked", is_quiet(backend), True)
        answers("one that needs no backend", opened.enter_context(client(port)))
        asked[500].sendall(reply("1"))
        with backend.accept()[0] as one:
            expect("what it is asked", read_message(one), branch_request(port_asked, "{}", 9000, "r-7"))
            one.sendall(reply("1"))
        expect("the reply", read_reply(stream), ("200", b'{"b0":1}'))


def ends_of_calls(port, backend):
    """Calls of 16 branches that end in each way, one after the other. The places of all branches are free behind each."""
    def failing(stream, asked):
        asked[7].sendall(b"HTTP/1.1 500 Internal Server Error\r\nContent-Length: 0\r\n\r\n")
        expect("where a branch fails", read_reply(stream)[0], "500")

    def resetting(stream, asked):
        reset(asked[3])
        expect("where a backend resets", read_reply(stream)[0], "503")

    def answering(stream, asked):
        for one in asked:
            one.sendall(reply("1"))
        expect("where all answer", read_reply(stream)[0], "200")

    def hanging_up(stream, _asked):
        stream.close()

    def going(stream, _asked):
        reset(stream)

    def expiring(stream, _asked):
        expect("at the deadline", read_reply(stream)[0], "504")

    for end in (failing, resetting, answering, hanging_up, going, expiring):
        for _ in range(13):
            with client(port) as stream, contextlib.ExitStack() as opened:
                call(stream, "Connect-Timeout-Ms: 300\r\n" if end is expiring else "")
                asked = [opened.enter_context(backend.accept()[0]) for _ in range(16)]
                end(stream, asked)
                if end is not answering:
                    for one in asked[8:]:
                        read_message(one)
                        sees_end("a backend that is given up", one)


def case_places_come_back(room):
    """the places of branches come back behind each kind of end, and so do descriptors"""
    with listener() as backend:
        run, port = room.serve(plan([backend.getsockname()[1]] * 16, 16), log=True)
        with client(port) as stream:
            answers("before", stream)
            before = len(os.listdir(f"/proc/{run.pid}/fd"))
            # 78 calls of 16 branches are more than there are places
            ends_of_calls(port, backend)
            answers("afterwards", stream)
            after = len(os.listdir(f"/proc/{run.pid}/fd"))
            expect("whether descriptors are left behind", after - before < 3, True)
            since = time.time() * 1000
            lines = open(run.stderr.fileno(), "rb", closefd=False)
            # not one of those that were written meanwhile
            standing = next(line for line in map(json.loads, lines) if "asking" in line and line["time"] > since)
            expect("how many are asked and wait", (standing["asking"], standing["waiting"]), (0, 0))


# ---- names


@contextlib.contextmanager
def silent_name_server(room):
    """What has a process see a server of names that never answers: names take the system many seconds."""
    try:
        server = socket.socket(socket.AF_INET, socket.SOCK_DGRAM)
        server.bind(("127.0.0.53", 53))
    except OSError:
        raise Untried("no server of names can be put in the place of the system's") from None
    with server:
        resolving = room.file("resolv.conf", b"nameserver 127.0.0.53\noptions timeout:5 attempts:2\n")
        switch = room.file("nsswitch.conf", b"hosts: files dns\n")
        yield lambda: mount([(resolving, "/etc/resolv.conf"), (switch, "/etc/nsswitch.conf")])


def case_slow_name(room):
    """a name that is looked up for long keeps nobody from his answers; its calls end as others do, and so does the program"""
    with listener() as backend, silent_name_server(room) as sees:
        port_asked = backend.getsockname()[1]
        named = json.loads(plan([port_asked], 1).replace(b"127.0.0.1", b"nowhere.test"))[0]
        known = json.loads(plan([port_asked], 1).replace(b"127.0.0.1", b"localhost"))[0]
        plans = [*json.loads(plan([port_asked], 1)), {**named, "path": "/named"}, {**known, "path": "/known"}]
        try:
            run, port = room.serve(json.dumps(plans).encode(), streams=3, limit=sees)
        except subprocess.SubprocessError:
            raise Untried("it can't have a server of names of its own") from None
        with client(port) as waits, client(port) as leaves, client(port) as stream:
            for one, time_of_call in ((waits, 700), (leaves, 60_000)):
                call(one, f"Connect-Timeout-Ms: {time_of_call}\r\n", path="/named")
            began = time.monotonic()
            for path in ("/call", "/known") * 10:
                call(stream, path=path)
                with backend.accept()[0] as asked:
                    asked.sendall(reply("1"))
                    expect("another's reply", read_reply(stream), ("200", b'{"b0":1}'))
            expect("whether another name is looked up meanwhile", time.monotonic() - began < 4, True)
            expect("at the deadline", read_reply(waits)[0], "504")
            leaves.shutdown(socket.SHUT_WR)
            expect("at the hang-up", read_reply(leaves)[0], "499")
        began = time.monotonic()
        room.ends("the program", run, DONE)
        expect("whether it ended before the look-up", time.monotonic() - began < 3, True)


def case_no_such_name(room):
    """a name that there is not fails its branch"""
    with listener() as backend:
        plans = plan([backend.getsockname()[1]], 1).replace(b"127.0.0.1", b"256.256.256.256")
        run, port = room.serve(plans, streams=1)
        with client(port) as stream:
            for _ in range(3):
                call(stream)
                expect("the status", read_reply(stream)[0], "503")
    room.ends("the program", run, DONE)
