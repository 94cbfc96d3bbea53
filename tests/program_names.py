"""Cases of tests/program.py: names for addresses, and what is done with the numbers that are found for them."""
import contextlib
import json
import socket
import subprocess
import sys
import time

from program_room import (
    Backend, DONE, Untried, WAIT, Wrong, answers, at_once, call, client, expect, free_port, is_quiet, mount,
    plan, read_message, read_reply, reply, serve_words,
)
from program_waits import NameServer, name_in, named_plan, serve_with_names

# what a process of its own is asked: the numbers of a name, in the system's order
NUMBERS = """
import socket, sys
print("\\n".join(found[4][0] for found in socket.getaddrinfo(sys.argv[1], 80, type=socket.SOCK_STREAM)))
"""

NO_HOSTS = "it can't have hosts of its own"


def hosts_of(room, lines):
    """What has a process find the names of these lines, and no others."""
    files = [(room.file("hosts", lines), "/etc/hosts"), (room.file("switch", b"hosts: files\n"), "/etc/nsswitch.conf")]
    return lambda: mount(files)


def start(room, sees, plans, streams=None, listen=None):
    """Starts the gateway with hosts of its own. Returns its run, and its port."""
    port = free_port()
    words = serve_words(port, room.file("plans", plans), streams=streams)
    if listen:
        words[2] = listen
    try:
        return room.start(words, limit=sees), port
    except subprocess.SubprocessError:
        raise Untried(NO_HOSTS) from None


def numbers_of(name, sees):
    """The numbers of a name, in the order in which the system tells them."""
    words = [sys.executable, "-c", NUMBERS, name]
    try:
        said = subprocess.run(words, preexec_fn=sees, capture_output=True, timeout=WAIT, check=True)
    except subprocess.SubprocessError:
        raise Untried(NO_HOSTS) from None
    return said.stdout.decode().split()


def listener_at(number, port):
    """A socket that listens at that number and port, if this machine has it."""
    family = socket.AF_INET6 if ":" in number else socket.AF_INET
    try:
        made = socket.create_server((number, port), family=family, backlog=4_096)
    except OSError:
        raise Untried(f"it can't be listened at {number}") from None
    made.settimeout(WAIT)
    return made


def is_asked(backend, stream, path="/call"):
    """Makes a call, and sees that this backend is asked, and its answer told."""
    call(stream, path=path)
    with backend.accept()[0] as asked:
        read_message(asked)
        asked.sendall(reply("1"))
        expect("the reply", read_reply(stream), ("200", b'{"b0":1}'))


def case_names_at_once(room):
    """of names that are looked up at the same time each gets its own numbers"""
    names = {f"name{at}": f"127.0.0.{at + 2}" for at in range(4)}
    sees = hosts_of(room, "".join(f"{number} {name}\n" for name, number in names.items()).encode())
    port_asked = free_port()
    with contextlib.ExitStack() as opened:
        for number in names.values():
            opened.enter_context(Backend(json.dumps(number), listening=listener_at(number, port_asked)))
        branches = [{"name": name, "address": f"{name}:{port_asked}", "path": "/"} for name in names]
        _run, port = start(room, sees, json.dumps([{"path": "/call", "limit": 4, "branches": branches}]).encode())

        def ask(_number):
            with client(port) as stream:
                for _ in range(25):
                    call(stream)
                    status, said = read_reply(stream)
                    expect("the reply", (status, json.loads(said)), ("200", names))

        at_once(8, ask)


def case_names_with_many_numbers(room):
    """a name's numbers are tried in the system's order, and the last too, where the others refuse"""
    sees = hosts_of(room, b"".join(b"127.0.0.%d many\n" % at for at in range(2, 18)))
    numbers = numbers_of("many", sees)
    expect("how many there are", len(numbers), 16)
    port_asked = free_port()
    plans = plan([port_asked], 1).replace(b"127.0.0.1", b"many")
    run, port = start(room, sees, plans, streams=1)
    with client(port) as stream:
        with listener_at(numbers[-1], port_asked) as last:
            is_asked(last, stream)
            with listener_at(numbers[7], port_asked) as middle, listener_at(numbers[8], port_asked) as next_one:
                for _ in range(3):
                    is_asked(middle, stream)
                expect("whether later ones are asked", is_quiet(last) and is_quiet(next_one), True)
        call(stream)
        expect("where nobody listens", read_reply(stream)[0], "503")
    room.ends("the program", run, DONE)


def case_name_that_moves(room):
    """a name that gets another number is asked there at the next call"""
    sees = hosts_of(room, b"127.0.0.2 moves\n")
    port_asked = free_port()
    with listener_at("127.0.0.2", port_asked) as before, listener_at("127.0.0.3", port_asked) as after:
        run, port = start(room, sees, plan([port_asked], 1).replace(b"127.0.0.1", b"moves"), streams=1)
        with client(port) as stream:
            for backend, line in ((before, b"127.0.0.2 moves\n"), (after, b"127.0.0.3 moves\n")) * 2:
                # the same file, with another text
                room.file("hosts", line)
                is_asked(backend, stream)
                is_asked(backend, stream)
    room.ends("the program", run, DONE)


def case_names_of_version_6(room):
    """a backend is asked at a number of version 6 that is given, found, or beside one of version 4 that refuses"""
    sees = hosts_of(room, b"::1 six\n127.0.0.2 both\n::1 both\n")
    port_asked = free_port()
    with listener_at("::1", port_asked) as backend:
        paths = {"/number": ("[::1]", port_asked), "/name": ("six", port_asked), "/both": ("both", port_asked)}
        run, port = start(room, sees, named_plan(paths), streams=1)
        with client(port) as stream:
            for path in paths:
                is_asked(backend, stream, path)
    room.ends("the program", run, DONE)


def case_listens_at_the_second_number(room):
    """it listens at the second number of a name where the first is in use"""
    sees = hosts_of(room, b"127.0.0.2 both\n127.0.0.3 both\n")
    first, second = numbers_of("both", sees)
    port = free_port()
    with listener_at(first, port):
        run, _port = start(room, sees, b"[]", streams=1, listen=f"both:{port}")
        end = time.monotonic() + WAIT
        while True:
            with contextlib.suppress(ConnectionRefusedError), socket.create_connection((second, port), WAIT) as stream:
                answers("who comes there", stream)
                break
            expect("whether it listens there in time", time.monotonic() < end, True)
    room.ends("the program", run, DONE)


class HoldingServer(NameServer):
    """A server of names that keeps each question, and answers them all later: by 127.0.0.1."""

    def __init__(self):
        self.kept = []
        super().__init__(answers=False)

    def take(self, question, who):
        self.kept.append((question, who))

    def wait_for(self, name):
        """Waits until the name was asked for, by both versions."""
        end = time.monotonic() + WAIT
        while [name_in(question) for question, _ in self.kept].count(name) < 2:
            if time.monotonic() > end:
                raise Wrong(f"{name} is not asked for")
            time.sleep(0.01)

    def answer_all(self):
        for question, who in self.kept:
            is_of_version_4 = question[-4:-2] == b"\0\1"
            found = b"\xc0\x0c\0\1\0\1\0\0\0\0\0\4\x7f\0\0\1" if is_of_version_4 else b""
            counts = b"\0\1\0%c\0\0\0\0" % is_of_version_4
            self.socket.sendto(question[:2] + b"\x81\x80" + counts + question[12:] + found, who)
        self.kept = []


def case_who_leaves_a_name(room):
    """of calls that wait for the same name one ends at its deadline, whichever it is: the others are answered"""
    with HoldingServer() as names, Backend("1") as backend, contextlib.ExitStack() as opened:
        paths = {f"/{at}": (f"held{at}.test.", backend.port) for at in range(3)}
        _run, port = serve_with_names(room, paths, b"\n", workers=1)
        streams = [opened.enter_context(client(port)) for _ in range(3)]
        for leaving in range(3):
            for at, stream in enumerate(streams):
                call(stream, "Connect-Timeout-Ms: 300\r\n" if at == leaving else "", path=f"/{leaving}")
            names.wait_for(f"held{leaving}")
            expect("at the deadline", read_reply(streams[leaving])[0], "504")
            names.answer_all()
            for at, stream in enumerate(streams):
                if at != leaving:
                    expect(f"one that stays as the {leaving}th leaves", read_reply(stream), ("200", b'{"b0":1}'))
