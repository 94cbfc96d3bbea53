"""Cases of tests/program.py: the address for operators, and the drain."""
import collections
import concurrent.futures
import contextlib
import json
import re
import select
import shutil
import signal
import socket
import subprocess
import threading
import time
import urllib.request

from program_room import (
    Backend, DONE, IO, STRAY, Untried, WAIT, WORDS, Wrong, answers, at_once, call, client, closes, expect, free_port,
    full_listener, is_quiet, is_refused, is_reset, listener, plan, read_message, read_reply, read_to, reply, request, sees_end,
)

DRAINING = '{"code":"unavailable","message":"gateway is draining"}'


# what every request to the address for operators names
HOST = "Host: localhost\r\n"


def serve(room, plans, *words, **how):
    """Starts the gateway with an address for operators. Returns its run, its port and that of the address."""
    port = free_port()
    where = free_port()
    made = room.file("plans", plans)
    given = ["serve", "--listen", f"127.0.0.1:{port}", "--plans", made, "--admin", f"127.0.0.1:{where}"]
    if "--workers" not in words:
        given += ["--workers", "1"]
    return room.start(given + list(words), **how), port, where


def visit(where, asked=f"GET /ready HTTP/1.1\r\n{HOST}\r\n".encode()):
    """What the address for operators says, to its end."""
    with client(where) as stream:
        stream.sendall(asked)
        return read_to(stream, 10_000_000)


def asks(where, path, method="GET", fields=""):
    """The status and the text that a request there is answered by."""
    said = visit(where, f"{method} {path} HTTP/1.1\r\n{HOST}{fields}\r\n".encode())
    head, _, text = said.partition(b"\r\n\r\n")
    expect(f"the last field of {method} {path}", head.split(b"\r\n")[-1], b"Connection: close")
    return int(head[9:12]), text.decode()


def drain(where):
    expect("the answer to a drain", asks(where, "/drain", "POST"), (200, "draining"))


LINE = re.compile(r'([a-z_:][a-z0-9_:]*)(?:\{(.*)\})? ([0-9.]+)$')
LABEL = re.compile(r'([a-z_]+)="((?:[^"\\\n]|\\["\\n])*)"')


def figures(where):
    """The figures, by name and labels. Each line has the form that Prometheus reads, and each name its type before it."""
    status, text = asks(where, "/metrics")
    expect("the status of the figures", status, 200)
    found, kinds = {}, {}
    for line in text.splitlines():
        if line.startswith("# TYPE "):
            _, _, name, kind = line.split(" ")
            kinds[name] = kind
        if line.startswith("#"):
            continue
        made = LINE.match(line)
        if not made:
            raise Wrong(f"no line of figures: {line!r}")
        name, labels, value = made.groups()
        base = re.sub("_(bucket|sum|count)$", "", name) if name not in kinds else name
        if base not in kinds:
            raise Wrong(f"{name} has no type before it")
        labels = LABEL.findall(labels or "")
        key = (name, *[value.replace('\\"', '"').replace("\\n", "\n").replace("\\\\", "\\") for _, value in labels])
        if key in found:
            raise Wrong(f"{key} stands twice")
        found[key] = float(value)
    return found


def replies(found):
    """How many replies there are, by plan and ending, of which there are some."""
    return {key[1:]: int(count) for key, count in found.items() if key[0] == "connect_gateway_replies_total" and count}


def expect_replies(what, where, wanted):
    """Sees that the figures tell these replies: one is counted just behind its last byte. Returns the figures."""
    end = time.monotonic() + WAIT
    found = figures(where)
    while replies(found) != wanted and time.monotonic() < end:
        found = figures(where)
    expect(what, replies(found), wanted)
    return found


def case_admin_words(room):
    """--drain-after and --grace are refused without --admin, and so are times that are too long"""
    plans = room.file("plans", b"[]")
    serve_words = ["serve", "--listen", "127.0.0.1:1", "--plans", plans, "--workers", "1"]
    admin = ["--admin", "127.0.0.1:1"]
    for words in (["--grace", "1"], ["--drain-after", "1"], ["--admin"], admin + admin, admin + ["--grace", "3601"],
                  admin + ["--drain-after", "3601"], admin + ["--grace", "-1"], admin + ["--grace", "x"]):
        room.ends(f"with {words}", room.start(serve_words + words), WORDS)


def case_admin_answers(room):
    """the address for operators answers what it has, and refuses the rest as clients are refused"""
    run, port, where = serve(room, b"[]")
    expect("whether it is ready", asks(where, "/ready"), (200, "ready"))
    expect("with a query", asks(where, "/ready?x=1"), (200, "ready"))
    expect("a path that is none", asks(where, "/")[0], 404)
    expect("a path that is longer", asks(where, "/metrics/")[0], 404)
    for path, method, allowed in (("/metrics", "POST", "GET"), ("/ready", "HEAD", "GET"), ("/drain", "GET", "POST")):
        said = visit(where, f"{method} {path} HTTP/1.1\r\n{HOST}\r\n".encode())
        expect(f"{method} {path}", said, b"HTTP/1.1 405 Method Not Allowed\r\nAllow: %s\r\nContent-Length: 0\r\n"
               b"Connection: close\r\n\r\n" % allowed.encode())
    for sent in (b"nonsense\r\n\r\n", b"GET /ready HTTP/1.1\r\n\r\n", b"GET /ready HTTP/1.1\r\nHost: 1.2.3.4\r\nTransfer-Encoding: chunked\r\n\r\n",
                 b"GET /ready HTTP/1.1\r\nHost: 1.2.3.4\r\nContent-Length: 65537\r\n\r\n", b"GET /" + b"x" * 9_000):
        with client(port) as stream:
            stream.sendall(sent)
            as_client = read_to(stream, 1_000)
        expect(f"the refusal of {sent[:40]}", visit(where, sent), as_client)
    # one request, and no further one
    said = visit(where, STRAY.replace(b"Host: g\r\n", HOST.encode()) * 3)
    expect("of three requests", said.count(b"HTTP/1.1 "), 1)
    # byte by byte
    with client(where) as stream:
        for byte in b"GET /ready HTTP/1.1\r\nHost: 127.0.0.1\r\n\r\n":
            stream.sendall(bytes([byte]))
        expect("byte by byte", read_to(stream, 15), b"HTTP/1.1 200 OK")
    run.send_signal(signal.SIGTERM)


def case_admin_of_silent(room):
    """beside sixteen silent visitors another is answered: who is silent longest makes room, and each goes after two seconds"""
    run, port, where = serve(room, plan([1], 1))
    with contextlib.ExitStack() as opened:
        began = time.monotonic()
        silent = []
        for _ in range(16):
            silent.append(opened.enter_context(client(where)))
            time.sleep(0.02)
        silent[0].sendall(b"GET /re")
        time.sleep(0.1)
        expect("whether it is ready beside them", asks(where, "/ready"), (200, "ready"))
        sees_end("who was silent longest", silent[1])
        expect("whether the others stay", select.select(silent[:1] + silent[2:], [], [], 0)[0], [])
        answers("a client beside them", opened.enter_context(client(port)))
        silent[0].sendall(f"ady HTTP/1.1\r\n{HOST}\r\n".encode())
        expect("who asks at last", read_to(silent[0], 15), b"HTTP/1.1 200 OK")
        for stream in silent[2:]:
            sees_end("a silent visitor", stream)
        took = time.monotonic() - began
        expect(f"whether they go after two seconds, {took}", 1.8 < took < 15, True)
    expect("whether it is ready", asks(where, "/ready"), (200, "ready"))
    run.send_signal(signal.SIGTERM)


def case_admin_of_slow_readers(room):
    """who has asked stays beside sixteen others that read slowly, and one more is closed"""
    plans = [{**json.loads(plan([1], 1))[0], "path": f"/{number}" + "x" * 900} for number in range(250)]
    run, _, where = serve(room, json.dumps(plans).encode())
    expect("whether it is ready", asks(where, "/ready"), (200, "ready"))
    with contextlib.ExitStack() as opened:
        slow = []
        for _ in range(16):
            stream = opened.enter_context(socket.socket())
            stream.setsockopt(socket.SOL_SOCKET, socket.SO_RCVBUF, 4096)
            stream.settimeout(WAIT)
            stream.connect(("127.0.0.1", where))
            stream.sendall(f"GET /metrics HTTP/1.1\r\n{HOST}\r\n".encode())
            expect("the first bytes of the figures", read_to(stream, 15), b"HTTP/1.1 200 OK")
            slow.append(stream)
        with client(where) as more:
            sees_end("one more", more)
        time.sleep(2.5)
        expect("whether it is ready once they had to go", asks(where, "/ready"), (200, "ready"))
    run.send_signal(signal.SIGTERM)


def case_admin_of_another_origin(room):
    """a page of another origin, a form and a branch can't end the gateway, and none reads its figures under another name"""
    run, port, where = serve(room, b"[]")
    for host in ("evil.example", f"evil.example:{where}", f"127.0.0.1.evil.example:{where}", "g"):
        said = visit(where, f"GET /metrics HTTP/1.1\r\nHost: {host}\r\n\r\n".encode())
        expect(f"the figures under {host}", said[:34], b"HTTP/1.1 421 Misdirected Request\r\n")
    for fields in ("Origin: http://evil.example\r\n", "Origin: null\r\n", "Connect-Protocol-Version: 1\r\n",
                   "Content-Type: application/x-www-form-urlencoded\r\n", "Content-Type: text/plain\r\n",
                   "Content-Type: multipart/form-data; boundary=x\r\n"):
        expect(f"a drain with {fields}", asks(where, "/drain", "POST", fields)[0], 403)
    expect("whether it is ready", asks(where, "/ready"), (200, "ready"))
    # as curl and haproxy ask
    expect("with no host", visit(where, b"GET /ready HTTP/1.0\r\n\r\n")[:15], b"HTTP/1.1 200 OK")
    if shutil.which("curl"):
        for name in (f"127.0.0.1:{where}", f"localhost:{where}"):
            said = subprocess.run(["curl", "-4", "-s", f"http://{name}/ready"], capture_output=True, timeout=WAIT)
            expect(f"what curl is told at {name}", said.stdout, b"ready")
        said = subprocess.run(["curl", "-s", "-X", "POST", f"http://127.0.0.1:{where}/drain"], capture_output=True, timeout=WAIT)
        expect("what curl is told of a drain", said.stdout, b"draining")
    else:
        drain(where)
    room.ends("drained", run, DONE)


def case_ready_alone(room):
    """the address of --ready tells figures and readiness under any name, with --admin and without, and drains nothing"""
    made = room.file("plans", b"[]")
    for with_admin in (False, True):
        port, where, watched = free_port(), free_port(), free_port()
        words = ["--admin", f"127.0.0.1:{where}", "--drain-after", "1"] if with_admin else []
        run = room.start(["serve", "--listen", f"127.0.0.1:{port}", "--plans", made, "--workers", "1",
                          "--ready", f"127.0.0.1:{watched}", *words])
        for path in ("/ready", "/metrics"):
            said = visit(watched, f"GET {path} HTTP/1.1\r\nHost: balancer.example\r\n\r\n".encode())
            expect(f"{path} under any name", said[:15], b"HTTP/1.1 200 OK")
        expect("a drain", asks(watched, "/drain", "POST")[0], 404)
        expect("whether it is ready", asks(watched, "/ready"), (200, "ready"))
        if with_admin:
            drain(where)
            expect("whether it is ready in a drain", asks(watched, "/ready"), (503, "draining"))
            room.ends("drained", run, DONE)
        else:
            run.send_signal(signal.SIGTERM)


def case_own_addresses(room):
    """a branch at the gateway's own addresses is warned of, by check and at the start"""
    made = room.file("plans", plan([9081], 1, 1_000))
    said = subprocess.run([room.program, "check", "--plans", made, "--strict"], capture_output=True, timeout=WAIT)
    expect("check alone", (said.returncode, said.stdout.count(b"here the gateway itself listens")), (0, 0))
    for word in ("--listen", "--admin", "--ready"):
        said = subprocess.run([room.program, "check", "--plans", made, "--strict", word, "127.0.0.1:9081"],
                              capture_output=True, timeout=WAIT)
        expect(f"check with {word}", (said.returncode, said.stdout.count(b"here the gateway itself listens")), (3, 1))
    port = free_port()
    run = room.start(["serve", "--listen", f"127.0.0.1:{port}", "--plans", room.file("plans", plan([port], 1, 1_000)), "--workers", "1", "--log"])
    line = json.loads(run.stderr.readline())
    expect("the warning at the start", line["warning"].endswith(f'"127.0.0.1:{port}": here the gateway itself listens'), True)
    run.send_signal(signal.SIGTERM)


def case_admin_address_in_use(room):
    """an address for operators that can't be listened at is a fault, and the clients' is listened at first"""
    with listener() as taken:
        port = taken.getsockname()[1]
        plans = room.file("plans", b"[]")
        words = ["serve", "--listen", f"127.0.0.1:{free_port()}", "--plans", plans, "--workers", "1"]
        room.ends("in use", room.start(words + ["--admin", f"127.0.0.1:{port}"]), IO)


def case_readiness(room):
    """it is not ready while all places are taken"""
    run, port, where = serve(room, b"[]")
    with contextlib.ExitStack() as opened:
        taken = [opened.enter_context(client(port)) for _ in range(64)]
        for stream in taken:
            answers("one of 64", stream)
        expect("with 64", asks(where, "/ready"), (503, "full"))
        is_reset("a further one", opened.enter_context(client(port)))
        found = figures(where)
        expect("the streams that were closed", found[("connect_gateway_streams_closed_total",)], 1)
        expect("the connections", found[("connect_gateway_open_connections", "0")], 64)
        taken[0].close()
        end = time.monotonic() + WAIT
        while asks(where, "/ready") != (200, "ready"):
            if time.monotonic() > end:
                raise Wrong("it is not ready again")
    run.send_signal(signal.SIGTERM)


def case_figures_add_up(room):
    """the figures are the replies that clients counted, by plan and ending"""
    odd = '/a"b\\c'
    with Backend("1") as backend, listener() as silent:
        plans = [
            {"path": "/fast", "limit": 2, "branches": [{"name": "a", "address": f"127.0.0.1:{backend.port}", "path": "/"}] * 1},
            {"path": odd, "limit": 1, "branches": [{"name": "a", "address": "127.0.0.1:1", "path": "/"}]},
            {"path": "/slow", "limit": 1, "branches": [
                {"name": "a", "address": f"127.0.0.1:{silent.getsockname()[1]}", "path": "/", "timeout_ms": 60}]},
        ]
        run, port, where = serve(room, json.dumps(plans).encode(), "--workers", "3")

        def be_client(_number):
            with client(port) as stream:
                for _ in range(10):
                    for path, wanted in (("/fast", "200"), (odd, "503"), ("/none", "404")):
                        call(stream, path=path)
                        expect(f"the reply at {path}", read_reply(stream)[0], wanted)
                call(stream, path="/slow")
                expect("the reply of a branch's deadline", read_reply(stream)[0], "504")
                call(stream, "Connect-Timeout-Ms: 20\r\n", path="/slow")
                expect("the reply of a deadline", read_reply(stream)[0], "504")
                stream.sendall(b"nonsense\r\n\r\n")
                expect("the refusal", read_reply(stream)[0], "400")

        at_once(12, be_client)
        found = expect_replies("the replies", where, {
            ("/fast", "answers"): 120, (odd, "branch"): 120, ("/slow", "branch deadline"): 12, ("/slow", "deadline"): 12,
            ("", "no call"): 120, ("", "refusal"): 12})
    bounds = ["0.001", "0.002", "0.005", "0.01", "0.02", "0.05", "0.1", "0.2", "0.5", "1", "2", "5", "10", "+Inf"]
    for path, count in (("/fast", 120), (odd, 120), ("/slow", 24)):
        buckets = [found[("connect_gateway_reply_seconds_bucket", path, bound)] for bound in bounds]
        expect(f"whether the buckets of {path} grow, {buckets}", buckets, sorted(buckets))
        expect(f"the last bucket of {path}", buckets[-1], count)
        expect(f"the count of {path}", found[("connect_gateway_reply_seconds_count", path)], count)
    slow = [found[("connect_gateway_reply_seconds_bucket", "/slow", bound)] for bound in ("0.01", "0.05")]
    expect("whether the times are those of the deadlines", (slow[0], slow[1] <= 12), (0, True))
    total = found[("connect_gateway_reply_seconds_sum", "/slow")]
    expect(f"their sum {total}", 12 * 0.079 < total < 24 * WAIT, True)
    expect("the workers", {key[1] for key in found if key[0] == "connect_gateway_open_connections"}, {"0", "1", "2"})
    expect("lines left out", found[("connect_gateway_log_lines_left_out_total",)], 0)
    run.send_signal(signal.SIGTERM)


def case_figures_of_branches(room):
    """the figures tell what ended the asking of each backend, and how long that took"""
    with Backend("1") as backend, listener() as silent:
        # one after the other: beside the late one an answer could come too late on a busy machine
        plans = [{"path": "/call", "limit": 1, "branches": [
            {"name": "good", "address": f"127.0.0.1:{backend.port}", "path": "/"},
            {"name": "idle", "address": f"127.0.0.1:{backend.port}", "path": "/"},
            {"name": "late", "address": f"127.0.0.1:{silent.getsockname()[1]}", "path": "/", "timeout_ms": 50}]}]
        run, port, where = serve(room, json.dumps(plans).encode())
        with client(port) as stream:
            for _ in range(7):
                call(stream)
                expect("the reply", read_reply(stream)[0], "504")
        found = expect_replies("the replies", where, {("/call", "branch deadline"): 7})
    counts = {key[2:]: count for key, count in found.items() if key[0] == "connect_gateway_branches_total"}
    expect("the branches", counts, {("good", "answer"): 7, ("late", "deadline"): 7, ("idle", "answer"): 7})
    took = found["connect_gateway_branch_seconds_total", "/call", "late", "deadline"]
    expect(f"how long they took, {took}", 7 * 0.049 < took < 7 * WAIT, True)
    run.send_signal(signal.SIGTERM)


def case_figures_of_exchanges(room):
    """the figures tell the backends that are asked, of each loop"""
    with listener() as backend:
        run, port, where = serve(room, plan([backend.getsockname()[1]] * 3, 3))
        with client(port) as stream:
            call(stream)
            asked = [backend.accept()[0] for _ in range(3)]
            wait_for_exchanges(where, 3)
            for one in asked:
                one.close()
            expect("the reply", read_reply(stream)[0], "503")
        wait_for_exchanges(where, 0)
    run.send_signal(signal.SIGTERM)


def asked_now(where):
    """How many backends are asked, by the figures of all loops."""
    return sum(count for key, count in figures(where).items() if key[0] == "connect_gateway_backend_exchanges")


def wait_for_exchanges(where, count):
    """Waits until the figures tell that so many backends are asked: a loop tells it behind each turn."""
    end = time.monotonic() + WAIT
    while (told := asked_now(where)) != count:
        if time.monotonic() > end:
            raise Wrong(f"{told} backends are asked, and not {count}")


def case_drain_of_idle(room):
    """a drain closes idle connections, by lingering, and the program ends with status 0"""
    run, port, where = serve(room, b"[]", "--workers", "2")
    with contextlib.ExitStack() as opened:
        idle = [opened.enter_context(client(port)) for _ in range(20)]
        for stream in idle[:10]:
            answers("before the drain", stream)
        began = time.monotonic()
        drain(where)
        for stream in idle:
            sees_end("an idle connection", stream)
        for stream in idle:
            stream.close()
        room.ends("the program", run, DONE)
        took = time.monotonic() - began
        expect(f"whether it waits for nothing, {took}", took < 8, True)
    expect("whether nobody listens", is_refused(port), True)
    expect("whether nobody listens there", is_refused(where), True)


def case_drain_answers_whole_requests(room):
    """a drain answers what was read whole, pipelined requests too, and closes then"""
    with listener() as backend:
        run, port, where = serve(room, plan([backend.getsockname()[1]], 1), "--grace", "60")
        with client(port) as busy:
            busy.sendall(request() + request())
            asked = [backend.accept()[0] for _ in range(2)]
            drain(where)
            closes(port)
            expect("whether it says so", asks(where, "/ready"), (503, "closed"))
            expect("whether it stays", is_quiet(busy), True)
            for one in asked:
                one.sendall(reply("1"))
            for _ in range(2):
                expect("a call that was read", read_reply(busy), ("200", b'{"b0":1}'))
            sees_end("behind its replies", busy)
            for one in asked:
                one.close()
            expect_replies("the figures meanwhile", where, {("/call", "answers"): 2})
        room.ends("the program", run, DONE)


def case_drain_of_half_a_request(room):
    """a drain reads on a request that is half-read, and answers it"""
    with Backend("1") as backend:
        run, port, where = serve(room, plan([backend.port], 1), "--grace", "60")
        with client(port) as half:
            sent = request()
            half.sendall(sent[:-1])
            time.sleep(0.2)
            drain(where)
            closes(port)
            expect("whether it stays", is_quiet(half), True)
            half.sendall(sent[-1:])
            expect("the call", read_reply(half), ("200", b'{"b0":1}'))
            sees_end("behind its reply", half)
        room.ends("the program", run, DONE)


def case_drain_after(room):
    """streams are still served for the time of --drain-after, while it says that it is not ready"""
    run, port, where = serve(room, b"[]", "--drain-after", "5")
    expect("before", asks(where, "/ready"), (200, "ready"))
    with client(port) as early:
        answers("before the drain", early)
        began = time.monotonic()
        drain(where)
        expect("behind it", asks(where, "/ready"), (503, "draining"))
        while time.monotonic() - began < 1.5:
            with client(port) as stream:
                answers("a stream that comes meanwhile", stream)
            time.sleep(0.05)
        answers("on a stream that is idle", early)
        drain(where)
        sees_end("an idle connection", early)
        took = time.monotonic() - began
        expect(f"whether it is closed in time, {took}", 4.9 < took < 12, True)
    room.ends("the program", run, DONE)


def case_drain_ends_calls(room):
    """calls that are left when the time of grace is over end by 503, and then the program ends"""
    with listener() as backend:
        run, port, where = serve(room, plan([backend.getsockname()[1]], 1), "--grace", "1")
        with client(port) as stream:
            call(stream)
            asked = backend.accept()[0]
            began = time.monotonic()
            drain(where)
            status, body = read_reply(stream)
            took = time.monotonic() - began
            expect("the reply", (status, body.decode()), ("503", DRAINING))
            expect(f"whether it comes in time, {took}", 0.9 < took < 8, True)
            sees_end("behind it", stream)
            with asked:
                read_message(asked)
                sees_end("the backend", asked)
        room.ends("the program", run, DONE)


def case_drain_cuts(room):
    """streams that are left two seconds later are cut: the program waits for nobody"""
    with full_listener() as full:
        run, port, where = serve(room, plan([full.getsockname()[1]], 1), "--grace", "0")
        with client(port) as half, client(port) as stream:
            half.sendall(b"POST /call")
            call(stream)
            time.sleep(0.2)
            began = time.monotonic()
            drain(where)
            expect("the reply", read_reply(stream)[0], "503")
            end = room.ends("the program", run, DONE)
            took = time.monotonic() - began
            expect(f"when it ends, {took}", 1.8 < took < 9, True)
            expect("a half-read request", read_to(half, 1) in (b"", b" (reset)"), True)


def case_drain_under_load(room):
    """a drain loses no call that was read: each client gets its replies, and then the end"""
    with Backend("1") as backend:
        run, port, where = serve(room, plan([backend.port], 1), "--workers", "4", "--drain-after", "1")
        lost, done, stop = [], [], threading.Event()

        def be_client(number):
            while not stop.is_set():
                try:
                    stream = client_once(port)
                except (ConnectionRefusedError, ConnectionResetError):
                    # a listener that is closed while somebody connects resets the stream
                    return
                with stream:
                    for _ in range(90):
                        if stop.is_set():
                            return
                        try:
                            call(stream)
                        except ConnectionError:
                            # closed between two calls
                            break
                        head = read_to(stream, 12)
                        if head in (b"", b" (reset)"):
                            # closed between two calls, with the second on its way or not
                            break
                        if head != b"HTTP/1.1 200":
                            lost.append(head)
                        read_rest(stream)
                        done.append(number)

        threads = [threading.Thread(target=be_client, args=(number,)) for number in range(40)]
        for thread in threads:
            thread.start()
        time.sleep(1)
        drain(where)
        room.ends("the program", run, DONE)
        stop.set()
        for thread in threads:
            thread.join()
    expect("what was no reply", lost, [])
    expect(f"whether there were many, {len(done)}", len(done) > 200, True)


def client_once(port):
    return socket.create_connection(("127.0.0.1", port), timeout=WAIT)


def read_rest(stream):
    rest = b""
    while b"\r\n\r\n" not in rest:
        rest += read_to(stream, 1)
    length = int(re.search(rb"Content-Length: (\d+)", rest).group(1))
    read_to(stream, length - len(rest.split(b"\r\n\r\n", 1)[1]))


def ask_prometheus(port, query):
    """What Prometheus tells for the query: the value for each set of labels."""
    with urllib.request.urlopen(f"http://127.0.0.1:{port}/api/v1/query?query={query}", timeout=WAIT) as answer:
        return {tuple(one["metric"].get(label, "") for label in ("plan", "ending")): float(one["value"][1])
                for one in json.load(answer)["data"]["result"]}


def has_read(port):
    """Whether Prometheus has read figures; it answers by 503 until it is ready."""
    with contextlib.suppress(OSError):
        return ask_prometheus(port, "up") == {("", ""): 1}
    return False


@contextlib.contextmanager
def prometheus(room, where):
    """Prometheus, which reads the figures there three times a second, once it has read them. Gives its port."""
    if not shutil.which("prometheus"):
        raise Untried("there is no prometheus")
    made = {"scrape_configs": [{"job_name": "gateway", "scrape_interval": "300ms", "scrape_timeout": "300ms",
                                "static_configs": [{"targets": [f"127.0.0.1:{where}"]}]}]}
    port = free_port()
    words = [f"--config.file={room.file('prometheus.yml', json.dumps(made).encode())}", f"--storage.tsdb.path={room.folder}/tsdb",
             f"--web.listen-address=127.0.0.1:{port}", "--log.level=error"]
    with subprocess.Popen(["prometheus", *words], stdout=subprocess.DEVNULL, stderr=subprocess.DEVNULL) as run:
        try:
            client(port).close()
            end = time.monotonic() + WAIT
            while not has_read(port) and time.monotonic() < end:
                time.sleep(0.1)
            yield port
        finally:
            run.kill()


# a request of each ending that a client can bring about at any time, with the plan and the ending that its reply is counted by
CALLS = [("/fast", "", "answers"), ("/none", "", "branch"), ("/slow", "", "branch deadline"),
         ("/mute", "Connect-Timeout-Ms: 2\r\n", "deadline"), ("/other", "", "no call")]


def make_calls(port, number, rounds):
    """Makes calls over three streams, with a hang-up or a refusal at the end of each. Returns how many replies came, by plan and ending."""
    counted = collections.Counter()
    for _ in range(3):
        with client(port) as stream:
            for at in range(rounds):
                path, further, ending = CALLS[at % len(CALLS)]
                call(stream, further, path)
                read_reply(stream)
                counted[path if path != "/other" else "", ending] += 1
            if number % 2:
                stream.sendall(b"nonsense\r\n\r\n")
                read_reply(stream)
                counted["", "refusal"] += 1
            else:
                call(stream, path="/mute")
                stream.shutdown(socket.SHUT_WR)
                expect("at a hang-up", read_reply(stream)[0], "499")
                counted["/mute", "hang-up"] += 1
    return counted


def make_all_calls(port, where, clients, rounds):
    """So many clients make calls, and at last a drain ends some. Returns how many replies came, by plan and ending, and the stream that
    the gateway waits for."""
    counted, counting = collections.Counter(), threading.Lock()

    def be_client(number):
        mine = make_calls(port, number, rounds)
        with counting:
            counted.update(mine)

    at_once(clients, be_client)
    stream = client(port)
    # a ninth call, and eight that the drain ends
    stream.sendall(request("/mute") * 9)
    wait_for_exchanges(where, 8)
    drain(where)
    for _ in range(8):
        expect("at the drain", read_reply(stream)[0], "503")
    expect("of the ninth", read_reply(stream)[0], "429")
    counted.update({("/mute", "drain"): 8, ("", "one too many"): 1})
    return counted, stream


@contextlib.contextmanager
def serve_all_endings(room):
    """The gateway, with plans whose calls end in each way. Gives its run, its port and that of the address."""
    with Backend("1") as backend, listener() as silent:
        def of(path, port, **further):
            return {"path": path, "limit": 1, "branches": [{"name": "a", "address": f"127.0.0.1:{port}", "path": "/", **further}]}

        mute = silent.getsockname()[1]
        plans = [of("/fast", backend.port), of("/none", 1), of("/slow", mute, timeout_ms=5), of("/mute", mute)]
        yield serve(room, json.dumps(plans).encode(), "--workers", "4", "--grace", "0")


def counts_of_plans(counted):
    """How many replies there were to each plan's calls."""
    return {path: sum(count for key, count in counted.items() if key[0] == path) for path in ("/fast", "/none", "/slow", "/mute")}


def case_figures_of_all_endings(room, clients=10, rounds=33):
    """the figures are the replies that clients counted, of a thousand calls of all endings"""
    with serve_all_endings(room) as (run, port, where):
        counted, stream = make_all_calls(port, where, clients, rounds)
        with stream:
            found = expect_replies(f"the counters, of {counted.total()} replies", where, dict(counted))
        times = {key[1]: count for key, count in found.items() if key[0] == "connect_gateway_reply_seconds_count"}
        expect("the counts of the histograms", times, counts_of_plans(counted))
        room.ends("the program", run, DONE)


def case_prometheus(room):
    """Prometheus reads the figures: its counters are the replies of 10,000 calls that clients counted, of all endings"""
    with serve_all_endings(room) as (run, port, where):
        with prometheus(room, where) as asked:
            counted, stream = make_all_calls(port, where, 40, 83)
            with stream:
                # until it is gone
                end = time.monotonic() + 3
                found = {}
                while time.monotonic() < end and found != counted:
                    now = ask_prometheus(asked, "connect_gateway_replies_total")
                    found = {key: count for key, count in now.items() if count} or found
                times = ask_prometheus(asked, "last_over_time(connect_gateway_reply_seconds_count[1m])")
            expect(f"the counters, of {counted.total()} replies", found, dict(counted))
            expect("the counts of the histograms", {plan: count for (plan, _), count in times.items()}, counts_of_plans(counted))
        room.ends("the program", run, DONE)


def times_of_calls(port, clients=8, calls=50):
    """How long calls took, each on a stream of its own, in seconds, from the shortest on. Each must be answered right."""
    took = []

    def be_client(_number):
        for _ in range(calls):
            began = time.monotonic()
            with client(port) as stream:
                call(stream)
                expect("the reply", read_reply(stream), ("200", b'{"b0":1}'))
            took.append(time.monotonic() - began)

    at_once(clients, be_client)
    return sorted(took)


def send_nonsense(where, count):
    """Sends the address for operators what is no request. Each is refused, or closed where it is one too many."""
    for _ in range(count):
        with client(where) as stream, contextlib.suppress(ConnectionError):
            stream.sendall(b"nonsense\r\n\r\n")
            said = read_to(stream, 1_000)
            expect(f"whether nonsense is refused, or closed, {said}", said[:13] in (b"", b" (reset)", b"HTTP/1.1 400 "), True)


def case_admin_abused(room):
    """clients see nothing of 1,000 bad requests, a slow reader and 200 idle visitors at the address for operators"""
    with Backend("1") as backend, contextlib.ExitStack() as opened:
        plans = json.loads(plan([backend.port], 1))
        # so that its figures are more than a slow reader's buffers hold
        plans += [{**plans[0], "path": f"/{number}" + "x" * 900} for number in range(250)]
        run, port, where = serve(room, json.dumps(plans).encode(), "--workers", "2")
        calm = times_of_calls(port)
        slow = opened.enter_context(socket.socket())
        slow.setsockopt(socket.SOL_SOCKET, socket.SO_RCVBUF, 4096)
        slow.settimeout(WAIT)
        slow.connect(("127.0.0.1", where))
        slow.sendall(f"GET /metrics HTTP/1.1\r\n{HOST}\r\n".encode())
        idle = [opened.enter_context(client(where)) for _ in range(200)]
        with concurrent.futures.ThreadPoolExecutor(4) as pool:
            abusers = [pool.submit(send_nonsense, where, 250) for _ in range(4)]
            beset = times_of_calls(port)
            for abuser in abusers:
                abuser.result()
        for stream in idle:
            sees_end("an idle visitor", stream)
        expect("whether the slow reader is cut off", b"_left_out_total" in read_to(slow, 50_000_000), False)
        expect("whether it is ready", asks(where, "/ready"), (200, "ready"))
    of_calls = len(calm) * 99 // 100
    print(f"    99 of 100 calls took {calm[of_calls] * 1e3:.0f} ms without them, and {beset[of_calls] * 1e3:.0f} ms with them")
    # a call that waited for a visitor would take two seconds
    expect(f"whether calls wait for visitors, {beset[len(beset) // 2]}", beset[len(beset) // 2] < 1.5, True)
    run.send_signal(signal.SIGTERM)
