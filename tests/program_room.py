"""What the cases of tests/program.py share: the room that a case has, and what it does to a program, a client and a backend."""
import concurrent.futures
import contextlib
import ctypes
import json
import os
import re
import resource
import select
import signal
import socket
import subprocess
import tempfile
import threading
import time

HERE = os.path.dirname(os.path.abspath(__file__))

# a case may take so many seconds, and what it waits for comes within so many
CASE_TIME = 60
WAIT = 20

WORDS = (2, "connect_gateway: bad arguments\n")
PLANS = (3, "connect_gateway: bad plan file\n")
SCRIPT = (4, "connect_gateway: bad script\n")
MEMORY = (5, "connect_gateway: no memory\n")
IO = (6, "connect_gateway: input or output fault\n")
DONE = (0, "")

EMPTY_SCRIPT = b'{"plans":[],"events":[]}'
LONGEST = 16_777_216

# a request to no plan, whose answer needs no backend
STRAY = b"POST /none HTTP/1.1\r\nHost: g\r\nContent-Length: 0\r\n\r\n"
NOT_FOUND = b"HTTP/1.1 404 Not Found\r\nContent-Length: 0\r\n\r\n"

# the user and group that own nothing
NOBODY = 65534


class Wrong(Exception):
    """What came is not what should."""


class Untried(Exception):
    """This machine has no means for the case."""


def expect(what, found, wanted):
    if found != wanted:
        raise Wrong(f"{what}: {found!r}, expected {wanted!r}")


class Room:
    """What one case uses: a folder, the program, and what was started."""

    def __init__(self, folder, program):
        self.folder, self.program = folder, program
        self.started = []

    def file(self, name, content):
        path = f"{self.folder}/{name}"
        with open(path, "wb") as file:
            file.write(content)
        os.chmod(path, 0o644)
        return path

    def start(self, words, limit=lambda: None, variables=None, **streams):
        """Starts the program with its streams as pipes, but for those that are given."""
        how = {"stdin": subprocess.DEVNULL, "stdout": subprocess.PIPE, "stderr": subprocess.PIPE, **streams}
        variables = {**os.environ, **(variables or {})}
        run = subprocess.Popen([self.program, *words], cwd=self.folder, preexec_fn=limit, env=variables, **how)
        self.started.append(run)
        return run

    def ends(self, what, run, wanted, printed=b""):
        """Sees that a run ends by itself, with this status and line, and has printed that."""
        found, output = end_of(run)
        expect(what, found, wanted)
        if output is not None:
            expect(f"{what}: its output", output, printed)

    def replay(self, what, script, wanted, printed=b"", **how):
        with tempfile.TemporaryFile(dir=self.folder) as given:
            given.write(script)
            given.seek(0)
            self.ends(what, self.start(["replay"], stdin=given, **how), wanted, printed)

    def serve(self, plans, workers=1, streams=None, log=False, words=(), **how):
        """Starts the gateway, with further words if any, and returns its run and the port that it will listen at."""
        port = free_port()
        given = serve_words(port, self.file("plans", plans), workers, streams)
        return self.start([*given, *(["--log"] if log else []), *words], **how), port

    def end_all(self):
        for run in self.started:
            run.kill()
            run.wait()
            for stream in (run.stdout, run.stderr):
                if stream:
                    stream.close()


# what is said first, without a log, where this machine allows fewer descriptors than so many workers may need
FEW_DESCRIPTORS = re.compile(r"connect_gateway: descriptors: \d+ are allowed, and \d+ are always enough: .*\n")


def end_of(run):
    """How a run ended: its status and what stands on standard error, but for a warning of too few descriptors; and what it
    printed, if that was asked for."""
    try:
        output, said = run.communicate(timeout=WAIT)
    except subprocess.TimeoutExpired:
        raise Wrong(f"it has not ended after {WAIT} seconds") from None
    said = said.decode(errors="replace")
    warned = FEW_DESCRIPTORS.match(said)
    return (run.returncode, said[warned.end():] if warned else said), output


def serve_words(port, plans, workers=1, streams=None):
    words = ["serve", "--listen", f"127.0.0.1:{port}", "--plans", plans, "--workers", str(workers)]
    return words + (["--connections", str(streams)] if streams else [])


def free_ports(count):
    """So many ports at which nobody listens."""
    with contextlib.ExitStack() as opened:
        taken = [opened.enter_context(socket.socket()) for _ in range(count)]
        for one in taken:
            one.bind(("127.0.0.1", 0))
        return [one.getsockname()[1] for one in taken]


def free_port():
    return free_ports(1)[0]


# a body that takes more than one read
LONG_BODY = json.dumps("x" * 5_000)


def listener():
    """A socket that listens at a port of its own."""
    made = socket.create_server(("127.0.0.1", 0))
    made.settimeout(WAIT)
    return made


def long_listener():
    """A socket that listens, at which many connections may wait."""
    made = socket.create_server(("127.0.0.1", 0), backlog=4_096)
    made.settimeout(WAIT)
    return made


@contextlib.contextmanager
def full_listener(is_fit=lambda port: True):
    """A socket that listens, at a port that fits, but accepts nothing: as many connections wait as may."""
    with contextlib.ExitStack() as opened:
        made = None
        while made is None or not is_fit(made.getsockname()[1]):
            made = opened.enter_context(socket.create_server(("127.0.0.1", 0), backlog=0))
        while True:
            stream = opened.enter_context(socket.socket())
            stream.settimeout(0.5)
            try:
                stream.connect(made.getsockname())
            except socket.timeout:
                break
        yield made


def client(port):
    """A stream to the gateway, as soon as that listens."""
    end = time.monotonic() + WAIT
    while True:
        try:
            return socket.create_connection(("127.0.0.1", port), timeout=WAIT)
        except ConnectionRefusedError:
            if time.monotonic() > end:
                raise Wrong("nobody listens") from None
            time.sleep(0.02)


def narrow_client(port):
    """A stream to the gateway, which listens by then: few bytes can be written to it beyond those that are read."""
    stream = socket.socket()
    stream.settimeout(WAIT)
    stream.setsockopt(socket.SOL_SOCKET, socket.SO_RCVBUF, 8_192)
    stream.setsockopt(socket.IPPROTO_TCP, socket.TCP_MAXSEG, 1_400)
    stream.connect(("127.0.0.1", port))
    return stream


def read_slowly(stream, seconds):
    """Reads a few bytes at a time for so many seconds. Returns them."""
    got, end = b"", time.monotonic() + seconds
    while time.monotonic() < end:
        got += read_to(stream, 500)
        time.sleep(0.1)
    return got


def read_to(stream, count):
    """So many bytes of a stream, or those before its end."""
    got = b""
    try:
        while len(got) < count:
            piece = stream.recv(count - len(got))
            if not piece:
                break
            got += piece
    except socket.timeout:
        raise Wrong(f"no more came in {WAIT} seconds than {got!r}") from None
    except ConnectionResetError:
        got += b" (reset)"
    return got


def is_refused(port):
    """Whether nobody listens at the port any more."""
    try:
        socket.create_connection(("127.0.0.1", port), timeout=WAIT).close()
    except ConnectionRefusedError:
        return True
    except ConnectionResetError:
        # the listener was closed while it connected: the next one is refused
        return False
    return False


def closes(port):
    """Waits until nobody listens at the port any more."""
    end = time.monotonic() + WAIT
    while not is_refused(port):
        if time.monotonic() > end:
            raise Wrong("somebody listens still")


def sees_end(what, stream):
    expect(what, read_to(stream, 1), b"")


def is_reset(what, stream):
    """Sees that a stream is closed without a byte, by a reset: at an end some clients would wait for ever."""
    expect(what, read_to(stream, 1), b" (reset)")


def answers(what, stream):
    """Sees that a request which needs no backend is answered on the stream."""
    stream.sendall(STRAY)
    expect(what, read_to(stream, len(NOT_FOUND)), NOT_FOUND)


def plan(backends, limit, timeout=None):
    """A plan file: one plan, with a branch for each of these ports."""
    branches = [{"name": f"b{at}", "address": f"127.0.0.1:{port}", "path": "/ask"} for at, port in enumerate(backends)]
    made = {"path": "/call", "limit": limit, "branches": branches}
    return json.dumps([{**made, "timeout_ms": timeout} if timeout else made]).encode()


def request(path="/call", further="", body="{}"):
    fields = f"Host: g\r\nContent-Type: application/json\r\nContent-Length: {len(body)}\r\n{further}"
    return f"POST {path} HTTP/1.1\r\n{fields}\r\n{body}".encode()


def call(stream, further="", path="/call", body="{}"):
    stream.sendall(request(path, further, body))


def reply(body):
    return f"HTTP/1.1 200 OK\r\nContent-Type: application/json\r\nContent-Length: {len(body)}\r\n\r\n{body}".encode()


def read_message(stream):
    """The head and the body of the next request or reply on a stream."""
    head = b""
    while not head.endswith(b"\r\n\r\n"):
        piece = read_to(stream, 1)
        if not piece:
            raise Wrong(f"the stream ended behind {head!r}")
        head += piece
    length = next(int(line[16:]) for line in head.split(b"\r\n") if line.startswith(b"Content-Length: "))
    return head, read_to(stream, length)


def read_reply(stream):
    """The status and the body of the next reply on a stream."""
    head, body = read_message(stream)
    return head[9:12].decode(), body


def listens(lines):
    """Reads the lines of a log up to the one that tells that the gateway listens. Returns what all of them tell."""
    told = []
    for line in iter(lines.readline, b""):
        told.append(json.loads(line))
        if "listen" in told[-1]:
            return told
    raise Wrong(f"it does not listen, after {told}")


def is_quiet(stream):
    """Whether nothing comes on a stream, or to a listener, for a while."""
    return not select.select([stream], [], [], 0.3)[0]


def at_once(count, act):
    """Lets so many threads act at once, each with its number, and raises what one of them raised."""
    with concurrent.futures.ThreadPoolExecutor(count) as pool:
        for acting in [pool.submit(act, number) for number in range(count)]:
            acting.result()


class Backend:
    """A backend that answers each request on a connection of its own, after a while, in a thread of its own. It listens
    by that socket, if one is given."""

    def __init__(self, body, pause=0.0, listening=None):
        # where too few may wait the system resets some, and the gateway rightly says that they are lost
        self.socket, self.answer, self.pause = listening or long_listener(), reply(body), pause
        self.port = self.socket.getsockname()[1]
        self.socket.settimeout(None)
        threading.Thread(target=self.serve, daemon=True).start()

    def serve(self):
        with contextlib.suppress(OSError):
            while True:
                stream = self.socket.accept()[0]
                if self.pause:
                    threading.Thread(target=self.answer_on, args=(stream,), daemon=True).start()
                else:
                    self.answer_on(stream)

    def answer_on(self, stream):
        with contextlib.suppress(OSError), stream:
            stream.recv(65536)
            time.sleep(self.pause)
            stream.sendall(self.answer)

    def __enter__(self):
        return self

    def __exit__(self, *_why):
        # which ends the accept too
        with contextlib.suppress(OSError):
            self.socket.shutdown(socket.SHUT_RDWR)
        self.socket.close()


class Echo(Backend):
    """A backend that answers each request by its body, after a while."""

    def __init__(self, pause=0.0):
        super().__init__("", pause)

    def answer_on(self, stream):
        with contextlib.suppress(OSError), stream:
            body = read_message(stream)[1]
            time.sleep(self.pause)
            stream.sendall(reply(body.decode()))


class Trickle(Backend):
    """A backend that sends its answer in pieces of so many bytes, with a pause before each."""

    def __init__(self, body, pause, piece):
        self.piece = piece
        super().__init__(body, pause)

    def answer_on(self, stream):
        with contextlib.suppress(OSError), stream:
            stream.recv(65536)
            for at in range(0, len(self.answer), self.piece):
                time.sleep(self.pause)
                stream.sendall(self.answer[at:at + self.piece])


def stop_now(run):
    """Stops a program, and waits until all its threads stand: one that is not yet told could still read."""
    run.send_signal(signal.SIGSTOP)
    os.waitid(os.P_PID, run.pid, os.WSTOPPED)


@contextlib.contextmanager
def stopped(run):
    """A program stands still meanwhile, and then finds at once all that came."""
    stop_now(run)
    try:
        yield
    finally:
        run.send_signal(signal.SIGCONT)


def mount(files):
    """Has this process see other files at such paths, in a mount namespace of its own."""
    libc = ctypes.CDLL(None)
    new_mounts, recursive, private, bind = 0x20000, 0x4000, 0x40000, 0x1000
    if libc.unshare(new_mounts) or libc.mount(b"none", b"/", None, recursive | private, None):
        raise OSError("no namespace")
    for seen, path in files:
        if libc.mount(seen.encode(), path.encode(), None, bind, None):
            raise OSError(f"no {path}")


def be_nobody():
    """Gives up the rights of root, for which there is no limit of threads."""
    if os.getuid() == 0:
        os.setgroups([])
        os.setgid(NOBODY)
        os.setuid(NOBODY)


def limit_now(run, kind, most):
    """Sets a limit of a program that runs."""
    resource.prlimit(run.pid, kind, (most, resource.getrlimit(kind)[1]))


def limit_threads_now(run, most):
    """Sets the limit of threads of a program that runs as nobody, which nobody may do, and root not always."""
    child = os.fork()
    if child == 0:
        with contextlib.suppress(OSError):
            be_nobody()
            limit_now(run, resource.RLIMIT_NPROC, most)
            os._exit(0)
        os._exit(1)
    if os.waitpid(child, 0)[1]:
        raise Untried("the limit of threads can't be set")


def waits_of(run):
    """How often the threads of a program have gone to sleep so far, as to wait for each other."""
    count = 0
    for thread in os.listdir(f"/proc/{run.pid}/task"):
        with open(f"/proc/{run.pid}/task/{thread}/status", encoding="ascii") as file:
            count += next(int(line.split()[1]) for line in file if line.startswith("voluntary_ctxt_switches"))
    return count


# the number of the system call by which a process takes a descriptor of another one, on each processor
TAKE_DESCRIPTOR = 438


def sockets_of(run):
    """The streams that a program has now, as this process has them too."""
    process = os.pidfd_open(run.pid)
    with contextlib.ExitStack() as opened:
        opened.callback(os.close, process)
        for name in os.listdir(f"/proc/{run.pid}/fd"):
            with contextlib.suppress(FileNotFoundError):
                if not os.readlink(f"/proc/{run.pid}/fd/{name}").startswith("socket:"):
                    continue
            taken = ctypes.CDLL(None).syscall(TAKE_DESCRIPTOR, process, int(name), 0)
            if taken < 0:
                raise Untried("descriptors of the program can't be taken")
            yield opened.enter_context(socket.socket(fileno=taken))


def processor_time_of(run):
    """The seconds of processor time that a program has used so far."""
    with open(f"/proc/{run.pid}/stat", encoding="ascii") as file:
        fields = file.read().rsplit(")", 1)[1].split()
    return (int(fields[11]) + int(fields[12])) / os.sysconf("SC_CLK_TCK")


def busy_time_of(run):
    """The seconds so far in which a thread of a program ran, or could have: on a busy machine it waits for a processor."""
    if not os.path.exists(f"/proc/{run.pid}/schedstat"):
        return processor_time_of(run)
    used = 0
    for thread in os.listdir(f"/proc/{run.pid}/task"):
        with open(f"/proc/{run.pid}/task/{thread}/schedstat", encoding="ascii") as file:
            used += sum(map(int, file.read().split()[:2]))
    return used / 1e9


def size_of(run, what="VmSize"):
    """The bytes of memory that a program has asked for; `VmData` are those without its stack and its code."""
    with open(f"/proc/{run.pid}/status", encoding="ascii") as file:
        found = dict(line.split(":", 1) for line in file)
    return int(found[what].split()[0]) * 1024
