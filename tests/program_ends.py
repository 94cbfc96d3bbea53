"""Cases of tests/program.py: words, scripts, and how the program ends at each fault."""
import contextlib
import fcntl
import json
import os
import resource
import socket
import struct
import termios
import time

from program_admin import serve
from program_loops import need_descriptors
from program_room import (
    DONE, EMPTY_SCRIPT, HERE, IO, LONGEST, MEMORY, NOT_FOUND, PLANS, SCRIPT, STRAY, WAIT, WORDS, Wrong, answers, be_nobody,
    client, end_of, expect, free_port, is_quiet, is_refused, limit_now, listener, listens, plan, read_to, serve_words,
    size_of,
)

# ---- the words


def case_words(room):
    """words that are refused, also where the plan file can't be read"""
    serve = serve_words(free_port(), "/none")
    refused = [[], ["jump"], ["--help"], ["replay", "x"], ["replay", "--help"], serve[:-2], serve[:3] + serve[5:]]
    refused += [[*serve[:-1], workers] for workers in ("0", "65", "4294967297", "x")]
    refused += [[*serve, "--connections", streams] for streams in ("0", "1000001", "x")]
    refused += [[*serve, "--chunked", "yes"], [*serve, "--chunked", "--chunked"], ["replay", "--chunked"]]
    for words in refused:
        room.ends(f"of {words}", room.start(words), WORDS)
    room.ends("of a word that is no UTF-8", room.start([b"replay", b"\xff"]), WORDS)


# ---- replay


def example():
    """A script, and what it prints."""
    examples = f"{HERE}/../examples"
    with open(f"{examples}/ping.json", "rb") as script, open(f"{examples}/ping.stdout", "rb") as printed:
        return script.read(), printed.read()


def case_replay(room):
    """a script is run, and what it must print is printed"""
    script, printed = example()
    room.replay("the example", script, DONE, printed)
    room.replay("a script of nothing", EMPTY_SCRIPT, DONE, b"end\n")


def begin_replay(room, script, **how):
    """Starts a run and gives it half of its script. Returns it once it has read that, and what gives the rest."""
    reader, writer = os.pipe()
    run = room.start(["replay"], stdin=reader, **how)
    half = len(script) // 2
    os.write(writer, script[:half])
    end = time.monotonic() + WAIT
    while struct.unpack("i", fcntl.ioctl(reader, termios.FIONREAD, b"\0" * 4))[0]:
        if time.monotonic() > end:
            raise Wrong("it does not read its input")
        time.sleep(0.001)
    os.close(reader)

    def go_on():
        with contextlib.suppress(BrokenPipeError), open(writer, "wb") as rest:
            rest.write(script[half:])

    return run, go_on


def case_two_pieces(room):
    """a script that comes in two pieces is read to its end"""
    script, printed = example()
    run, go_on = begin_replay(room, script)
    go_on()
    room.ends("the example in two pieces", run, DONE, printed)


def case_bad_script(room):
    """a script that is refused, and one with a plan that is"""
    room.replay("no JSON", b"{", SCRIPT)
    room.replay("no events", b'{"plans":[]}', SCRIPT)
    room.replay("no plan", b'{"plans":[{"path":"x"}],"events":[]}', SCRIPT)


def case_long_script(room):
    """a script may have 16,777,216 bytes"""
    room.replay("as long as it may be", EMPTY_SCRIPT.ljust(LONGEST), DONE, b"end\n")
    room.replay("a byte longer", EMPTY_SCRIPT.ljust(LONGEST + 1), SCRIPT)


def case_input_fails(room):
    """an input that can't be read"""
    folder = os.open(room.folder, os.O_RDONLY)
    room.ends("a folder as input", room.start(["replay"], stdin=folder), IO)
    os.close(folder)


def long_script():
    """A script that prints more than is kept for one write."""
    requests = b"GET / HTTP/1.1\r\nHost: g\r\n\r\n".decode() * 100
    events = [["open"], ["open"], ["piece", 0, requests], ["piece", 1, requests]]
    return json.dumps({"plans": [], "events": events}).encode()


def case_output_fails(room):
    """an output that takes nothing more, at the first write and at the last"""
    for what, script in (("a short text", example()[0]), ("a long text", long_script())):
        if os.path.exists("/dev/full"):
            with open("/dev/full", "wb") as full:
                room.replay(f"{what}, to a full device", script, IO, stdout=full)
        reader, writer = os.pipe()
        os.close(reader)
        room.replay(f"{what}, to nobody", script, IO, stdout=writer)
        os.close(writer)


# ---- serve: its faults


def case_plan_file(room):
    """a plan file that can't be read, and one that is refused, also where the address can't be listened at"""
    with listener() as taken:
        port = taken.getsockname()[1]
        room.ends("no plan file", room.start(serve_words(port, "none")), IO)
        room.ends("a folder", room.start(serve_words(port, room.folder)), IO)
        for what, text in (("no JSON", b"["), ("no branch", plan([], 1)), ("too long", b"[]".ljust(LONGEST + 1))):
            room.ends(what, room.start(serve_words(port, room.file("plans", text))), PLANS)


def case_address(room):
    """an address that can't be listened at"""
    plans = room.file("plans", b"[]")
    with listener() as taken:
        room.ends("a port in use", room.start(serve_words(taken.getsockname()[1], plans)), IO)
    room.ends("no port", room.start(["serve", "--listen", "nowhere", "--plans", plans, "--workers", "1"]), IO)


def case_accept_fails(room):
    """streams for which there is no descriptor wait at the listener, however long; operators are answered meanwhile, and
    it is told once"""
    run, port, where = serve(room, b"[]", "--log", "--connections", "3")
    listens(run.stderr)
    with client(port) as stream, client(where) as operator:
        answers("before", stream)
        time.sleep(0.2)
        limit_now(run, resource.RLIMIT_NOFILE, 3)
        with client(port) as second, client(port) as third:
            time.sleep(0.2)
            operator.sendall(b"GET /ready HTTP/1.1\r\nHost: localhost\r\n\r\n")
            expect("what an operator is told", read_to(operator, 12), b"HTTP/1.1 200")
            # longer than an accept that fails otherwise is tried again
            time.sleep(4)
            expect("whether it goes on", run.poll(), None)
            answers("meanwhile", stream)
            third.sendall(STRAY)
            expect("whether there is a descriptor", is_quiet(third), True)
            limit_now(run, resource.RLIMIT_NOFILE, 1_000)
            expect("the last", read_to(third, len(NOT_FOUND)), NOT_FOUND)
            answers("the second", second)
    found, said = run.wait(timeout=WAIT), run.stderr.read().splitlines()
    expect("the status", found, 0)
    expect("what is told of descriptors", [line["warning"] for line in map(json.loads, said) if "warning" in line], [
        "descriptors: none is left, and streams wait at the listener: ulimit -n, or LimitNOFILE in a unit"])


def case_thousand_silent(room):
    """a thousand silent clients at the usual limit of descriptors end nothing, and others are served as some go"""
    need_descriptors(4_096)
    usual = (1_024, 1_024)
    run, port = room.serve(b"[]", workers=16, limit=lambda: resource.setrlimit(resource.RLIMIT_NOFILE, usual))
    with contextlib.ExitStack() as opened:
        silent = [opened.enter_context(client(port)) for _ in range(1_000)]
        time.sleep(4)
        expect("whether it goes on", run.poll(), None)
        answers("the first, which asks at last", silent[0])
        for stream in silent[500:600]:
            stream.close()
        answers("the last", silent[-1])
        answers("one that comes then", opened.enter_context(client(port)))


def case_few_descriptors(room):
    """without --log a line tells where fewer descriptors are allowed than may be needed, and nothing else is told"""
    few = "connect_gateway: descriptors: 3007 are allowed, and 3008 are always enough: ulimit -n, or LimitNOFILE in a unit\n"
    for allowed, wanted in ((3_007, few), (3_008, "")):
        limit = (allowed, allowed)
        run, port = room.serve(b"[]", 2, streams=1, limit=lambda: resource.setrlimit(resource.RLIMIT_NOFILE, limit))
        client(port).close()
        said = run.communicate(timeout=WAIT)[1].decode()
        expect(f"with {allowed}", (run.returncode, said), (0, wanted))


def case_no_crew(room):
    """threads that can't be started at the beginning"""

    def no_threads():
        be_nobody()
        resource.setrlimit(resource.RLIMIT_NPROC, (0, 0))

    run, _port = room.serve(b"[]", workers=3, limit=no_threads)
    room.ends("the program", run, MEMORY)


def case_no_sockets_to_wait_for(room):
    """descriptors that don't suffice for the loops at the beginning"""
    for descriptors in range(8, 20):
        most = (descriptors, descriptors)
        run, port = room.serve(b"[]", workers=8, limit=lambda: resource.setrlimit(resource.RLIMIT_NOFILE, most))
        room.ends(f"with {descriptors} descriptors", run, IO)
        expect("whether nobody listens", is_refused(port), True)


# ---- want of memory

# each allocation asks the system for memory of its own
BARE = {"GLIBC_TUNABLES": "glibc.malloc.top_pad=0:glibc.malloc.mmap_threshold=4096"}
PAGE = resource.getpagesize()


def ends_of_sweep(ends, wanted):
    """Sees that memory was wanting first, and each run then ended so, whatever memory was left."""
    expect("how runs end", sorted(set(ends)), sorted({MEMORY, wanted}))
    expect("with more memory", ends[ends.index(wanted):].count(MEMORY), 0)


def case_words_memory(room):
    """want of memory for the words"""
    words = serve_words(free_port(), "x" * 60_000)

    def end(most):
        run = room.start(words, lambda: resource.setrlimit(resource.RLIMIT_DATA, (most, most)), BARE)
        return end_of(run)[0]

    # below that it is not even loaded
    least = next(most for most in range(PAGE, 4 << 20, 8 * PAGE) if end(most) in (MEMORY, IO))
    ends_of_sweep([end(most) for most in range(least, least + 80 * PAGE, PAGE)], IO)


def case_script_memory(room):
    """want of memory for a script"""
    script, printed = example()
    ends = []
    for pages in range(60):
        run, go_on = begin_replay(room, script, variables=BARE)
        limit_now(run, resource.RLIMIT_DATA, size_of(run, "VmData") + pages * PAGE)
        go_on()
        found, output = end_of(run)
        ends.append(found)
        expect("what was printed", output, printed if found == DONE else b"")
    ends_of_sweep(ends, DONE)
