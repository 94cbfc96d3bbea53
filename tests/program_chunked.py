"""Cases of tests/program.py: replies in chunks, with `serve --chunked` and without it, as docs/EXTENSIONS.md has it."""
import contextlib
import json
import os
import signal
import socket
import subprocess
import time

from program_log import branches_told
from program_loops import PLACES, need_descriptors
from program_room import (
    Backend, CASE_TIME, DONE, HERE, WAIT, at_once, call, client, expect, is_quiet, listener, long_listener,
    processor_time_of, read_message, read_reply, read_to, stopped,
)

# the bounds of docs/EXTENSIONS.md
MOST_BODY = 65_536
MOST_DROPPED = 8_192

# Connect's error document, and what comes of it
DOCUMENT = b'{"code":"not_found","message":"no trip"}'
LOST = ("503", b'{"code":"unavailable","message":"b: backend unreachable"}')


TYPE = "application/json"


def head_of(coding="chunked", status="200 OK", version="1.1", name="Transfer-Encoding", content=TYPE, further=()):
    """The head of a reply whose body is in that coding."""
    fields = [f"Content-Type: {content}", f"{name}: {coding}", *further]
    return "\r\n".join([f"HTTP/{version} {status}", *fields, "", ""]).encode("latin-1")


def chunks(body, size=MOST_BODY, form="{:x}", end=b"0\r\n\r\n"):
    """A body in chunks of so many bytes, whose sizes are written so."""
    pieces = [body[at:at + size] for at in range(0, len(body), size)]
    return b"".join(form.format(len(piece)).encode() + b"\r\n" + piece + b"\r\n" for piece in pieces) + end


def text_of(count):
    """JSON of so many bytes."""
    return b"1" if count == 1 else b'"' + b"x" * (count - 2) + b'"'


def dropped(count):
    """Chunks of `{}`, with so many bytes of an extension and of two trailers."""
    return b"2;" + b"e" * 3_999 + b"\r\n{}\r\n0\r\nA:" + b"v" * 3_998 + b"\r\nB:" + b"v" * (count - 8_002) + b"\r\n\r\n"


LONG = text_of(MOST_BODY)

# The bytes behind a head, and the body that they are. With the word they are taken.
BODIES = [
    ("one chunk", b"2\r\n{}\r\n0\r\n\r\n", b"{}"),
    ("many", chunks(b'{"a":[1,2,3]}', 4), b'{"a":[1,2,3]}'),
    ("one byte", chunks(b"7"), b"7"),
    ("no byte", b"0\r\n\r\n", b""),
    ("zeros as the last size", b"2\r\n{}\r\n000\r\n\r\n", b"{}"),
    ("a line end in the data", b"5\r\n[\r\n1]\r\n0\r\n\r\n", b"[\r\n1]"),
    ("what looks like chunks in the data", b'd\r\n["0\\r\\n\\r\\n"]\r\n0\r\n\r\n', b'["0\\r\\n\\r\\n"]'),
    ("small letters", b"a\r\n[12345678]\r\n0\r\n\r\n", b"[12345678]"),
    ("capitals", b"A\r\n[12345678]\r\n0\r\n\r\n", b"[12345678]"),
    ("sixteen digits", b"0000000000000002\r\n{}\r\n0000000000000000\r\n\r\n", b"{}"),
    ("extensions", b'2;a\r\n{}\r\n0;b=c;d="e;f";g\r\n\r\n', b"{}"),
    ("an extension behind blanks", b"2 \t;a = b\r\n{}\r\n0\r\n\r\n", b"{}"),
    ("a trailer", b"2\r\n{}\r\n0\r\nX-Sum: 5\r\n\r\n", b"{}"),
    ("a length as a trailer", b"2\r\n{}\r\n0\r\nContent-Length: 1\r\n\r\n", b"{}"),
    ("a type as a trailer", b"2\r\n{}\r\n0\r\ncontent-type: text/plain\r\n\r\n", b"{}"),
    ("codings as trailers", b"2\r\n{}\r\n0\r\nTransfer-Encoding: gzip\r\nContent-Encoding: gzip\r\n\r\n", b"{}"),
    ("what a client would see", b"2\r\n{}\r\n0\r\nConnection: close\r\nSet-Cookie: a=b\r\nEmpty:\r\n\r\n", b"{}"),
    ("the most that is dropped", dropped(MOST_DROPPED), b"{}"),
    ("the longest, in one chunk", chunks(LONG), LONG),
    ("the longest, in two", chunks(LONG, MOST_BODY - 1), LONG),
    ("the longest, a chunk a byte", chunks(LONG, 1), LONG),
    ("the longest, a chunk a byte, with long sizes", chunks(LONG, 1, "{:016X}"), LONG),
    ("more behind the last chunk", b"2\r\n{}\r\n0\r\n\r\nHTTP/1.1 500 No\r\nContent-Length: 0\r\n\r\n", b"{}"),
    ("an error's document", chunks(DOCUMENT, 7), DOCUMENT),
    ("text", chunks(b"trip", 3), b"trip"),
]

# Heads of a reply in chunks that is taken, and the status and type that they name.
HEADS = [
    ("Chunked", head_of("Chunked"), "200 OK", TYPE),
    ("CHUNKED", head_of("CHUNKED", name="TRANSFER-ENCODING"), "200 OK", TYPE),
    ("blanks around it", head_of("\t chunked \t", name="transfer-encoding"), "200 OK", TYPE),
    ("a reply that keeps its connection", head_of(further=["Connection: keep-alive"]), "200 OK", TYPE),
    ("announced trailers", head_of(further=["Trailer: X-Sum", "Vary: *"]), "200 OK", TYPE),
    ("400", head_of(status="400 No"), "400 No", TYPE),
    ("404 as text", head_of(status="404 Not Found", content="text/plain"), "404 Not Found", "text/plain"),
    ("500", head_of(status="500 No"), "500 No", TYPE),
    ("201", head_of(status="201 Created"), "201 Created", TYPE),
    ("another type", head_of(content="text/html"), "200 OK", "text/html"),
]

# the reply in chunks, and the same with a length
TAKEN = [(name, head_of() + body, "200 OK", TYPE, whole) for name, body, whole in BODIES]
TAKEN += [(f"{name}, {about}", head + body, status, content, whole)
          for name, head, status, content in HEADS
          for about, body, whole in (BODIES[0], BODIES[3], BODIES[-2], BODIES[-1])]

# Heads whose framing is in doubt or no chunks, and the cause and the status that are told of them.
FRAMINGS = [
    ("two codings", head_of("gzip, chunked"), "no fixed length", 200),
    ("the coding twice in a list", head_of("chunked, chunked"), "no fixed length", 200),
    ("another coding behind it", head_of("chunked, identity"), "no fixed length", 200),
    ("an empty member", head_of("chunked,"), "no fixed length", 200),
    ("two fields, another coding first", head_of(further=["Transfer-Encoding: gzip"]), "no fixed length", 200),
    ("two fields, the coding twice", head_of(further=["Transfer-Encoding: chunked"]), "no fixed length", 200),
    ("a parameter", head_of("chunked;q=1"), "no fixed length", 200),
    ("quotes", head_of('"chunked"'), "no fixed length", 200),
    ("another name", head_of("xchunked"), "no fixed length", 200),
    ("a name that goes on", head_of("chunked\u00a0"), "no fixed length", 200),
    ("no name", head_of(""), "no fixed length", 200),
    ("identity", head_of("identity"), "no fixed length", 200),
    ("the field's name with _", head_of(name="Transfer_Encoding"), "no fixed length", 200),
    ("its length beside it", head_of(further=["Content-Length: 2"]), "no fixed length", 200),
    ("the chunks' length before it", head_of(name="Content-Length: 12\r\nTransfer-Encoding"), "no fixed length", 200),
    ("a length of nothing beside it", head_of(further=["Content-Length: 0"]), "no fixed length", 200),
    ("no number as a length beside it", head_of(further=["Content-Length: x"]), "no fixed length", 200),
    ("HTTP/1.0", head_of(version="1.0"), "no fixed length", 200),
    ("HTTP/1.0, kept", head_of(version="1.0", further=["Connection: keep-alive"]), "no fixed length", 200),
    ("204", head_of(status="204 No Content"), "no fixed length", 204),
    ("304", head_of(status="304 Not Modified"), "no fixed length", 304),
    ("an error of two codings", head_of("gzip, chunked", status="500 No"), "no fixed length", 500),
    ("a blank behind the name", head_of(name="Transfer-Encoding "), "bad head", None),
    ("a line of tab and coding", head_of("\r\n\tchunked"), "bad head", None),
    ("another blank before the coding", head_of("\x0bchunked"), "bad head", None),
    ("HTTP/1.2", head_of(version="1.2"), "bad head", None),
    ("100 first", head_of(status="100 Continue"), "bad head", None),
]

# Bytes behind a head that are no body in chunks.
BAD_BODIES = [
    ("a negative size", b"-2\r\n{}\r\n0\r\n\r\n", "bad chunk", 200),
    ("a size with +", b"+2\r\n{}\r\n0\r\n\r\n", "bad chunk", 200),
    ("a negative zero", b"2\r\n{}\r\n-0\r\n\r\n", "bad chunk", 200),
    ("0x", b"0x2\r\n{}\r\n0\r\n\r\n", "bad chunk", 200),
    ("h behind it", b"2h\r\n{}\r\n0\r\n\r\n", "bad chunk", 200),
    ("_ within it", b"0_2\r\n{}\r\n0\r\n\r\n", "bad chunk", 200),
    ("a point", b"2.0\r\n{}\r\n0\r\n\r\n", "bad chunk", 200),
    ("a digit of another script", "\u0662\r\n{}\r\n0\r\n\r\n".encode(), "bad chunk", 200),
    ("two sizes", b"2,2\r\n{}\r\n0\r\n\r\n", "bad chunk", 200),
    ("two sizes and a blank", b"2 2\r\n{}\r\n0\r\n\r\n", "bad chunk", 200),
    ("no size", b"\r\n{}\r\n0\r\n\r\n", "bad chunk", 200),
    ("no size before an extension", b";a\r\n{}\r\n0\r\n\r\n", "bad chunk", 200),
    ("an empty line first", b"\r\n2\r\n{}\r\n0\r\n\r\n", "bad chunk", 200),
    ("no chunks at all", b"{}", "closed early", None),
    ("no chunks, and a line", b'{"a":1}\r\n', "bad chunk", 200),
    ("seventeen digits", b"00000000000000002\r\n{}\r\n0\r\n\r\n", "bad chunk", 200),
    ("a size of 2^64 and two", b"10000000000000002\r\n{}\r\n0\r\n\r\n", "bad chunk", 200),
    ("a blank before it", b" 2\r\n{}\r\n0\r\n\r\n", "bad chunk", 200),
    ("a blank behind it", b"2 \r\n{}\r\n0\r\n\r\n", "bad chunk", 200),
    ("a tab behind it", b"2\t\r\n{}\r\n0\r\n\r\n", "bad chunk", 200),
    ("LF alone behind it", b"2\n{}\r\n0\r\n\r\n", "bad chunk", 200),
    ("CR alone behind it", b"2\r{}\r\n0\r\n\r\n", "bad chunk", 200),
    ("another byte for its CR", b"2;\n{}\r\n0\r\n\r\n", "bad chunk", 200),
    ("two CR behind it", b"2\r\r\n{}\r\n0\r\n\r\n", "bad chunk", 200),
    ("LF alone in an extension", b"2;a\n{}\r\n0\r\n\r\n", "bad chunk", 200),
    ("CR alone in an extension", b"2;a\r2\r\n{}\r\n0\r\n\r\n", "bad chunk", 200),
    ("a control byte in an extension", b"2;a\x01\r\n{}\r\n0\r\n\r\n", "bad chunk", 200),
    ("a zero byte in an extension", b"2;a\x00\r\n{}\r\n0\r\n\r\n", "bad chunk", 200),
    ("more data than its size", b"1\r\n{}\r\n0\r\n\r\n", "bad chunk", 200),
    ("less data than its size", b"3\r\n{}\r\n0\r\n\r\n", "bad chunk", 200),
    ("nothing behind the data", b"2\r\n{}0\r\n\r\n", "bad chunk", 200),
    ("two other bytes behind the data", b"2\r\n{}xx0\r\n\r\n", "bad chunk", 200),
    ("LF and CR behind the data", b"2\r\n{}\n\r0\r\n\r\n", "bad chunk", 200),
    ("LF alone behind the data", b"2\r\n{}\n0\r\n\r\n", "bad chunk", 200),
    ("CR alone behind the data", b"2\r\n{}\r0\r\n\r\n", "bad chunk", 200),
    ("LF alone behind the last size", b"2\r\n{}\r\n0\n\r\n", "bad chunk", 200),
    ("another byte for the last CR", b"2\r\n{}\r\n0\r\n \n", "bad chunk", 200),
    ("LF alone at the end", b"2\r\n{}\r\n0\r\n\n", "bad chunk", 200),
    ("LF alone behind a trailer", b"2\r\n{}\r\n0\r\nX: y\n\r\n", "bad chunk", 200),
    ("a trailer without a colon", b"2\r\n{}\r\n0\r\ntrailer\r\n\r\n", "bad chunk", 200),
    ("a trailer without a name", b"2\r\n{}\r\n0\r\n: y\r\n\r\n", "bad chunk", 200),
    ("a trailer whose name is none", b"2\r\n{}\r\n0\r\nHTTP/1.1: 200 OK\r\n\r\n", "bad chunk", 200),
    ("a trailer with a blank behind its name", b"2\r\n{}\r\n0\r\nX : y\r\n\r\n", "bad chunk", 200),
    ("a trailer that is folded", b"2\r\n{}\r\n0\r\nX: y\r\n z\r\n\r\n", "bad chunk", 200),
    ("a control byte in a trailer", b"2\r\n{}\r\n0\r\nX: \x7f\r\n\r\n", "bad chunk", 200),
    ("a reply behind the last size", b"2\r\n{}\r\n0\r\nHTTP/1.1 200 OK\r\n\r\n", "bad chunk", 200),
    ("a chunk behind the last size", b"2\r\n{}\r\n0\r\n2\r\n{}\r\n0\r\n\r\n", "bad chunk", 200),
    ("a byte more that is dropped", dropped(MOST_DROPPED + 1), "bad chunk", 200),
    ("an extension of 8,193 bytes", b"2;" + b"e" * MOST_DROPPED + b"\r\n{}\r\n0\r\n\r\n", "bad chunk", 200),
    ("8,193 bytes of small extensions", b"1;ab\r\n \r\n" * 2_731 + b"2\r\n{}\r\n0\r\n\r\n", "bad chunk", 200),
    ("8,193 bytes of trailers", b"2\r\n{}\r\n0\r\n" + b"A:v\r\n" * 2_731 + b"\r\n", "bad chunk", 200),
    ("an extension without an end", b"2;" + b"e" * 100_000, "bad chunk", 200),
    ("a trailer without an end", b"2\r\n{}\r\n0\r\nA:" + b"v" * 100_000, "bad chunk", 200),
    ("a byte too many, in one chunk", chunks(text_of(MOST_BODY + 1), MOST_BODY + 1), "too long", 200),
    ("a byte too many, in the last chunk", chunks(text_of(MOST_BODY + 1)), "too long", 200),
    ("a byte too many, a chunk a byte", chunks(text_of(MOST_BODY + 1), 1), "too long", 200),
    ("a size without its data", b"10001\r\n", "too long", 200),
    ("sixteen digits of a large size", b"FFFFFFFFFFFFFFFF\r\n{}\r\n0\r\n\r\n", "too long", 200),
    ("a size of 2^63", b"8000000000000000\r\n{}\r\n0\r\n\r\n", "too long", 200),
    ("a size of 2^32 and two", b"100000002\r\n{}\r\n0\r\n\r\n", "too long", 200),
    ("no chunk", b"", "closed early", None),
    ("half a size line", b"2\r", "closed early", None),
    ("half the data", b"2\r\n{", "closed early", None),
    ("data without its end", b"2\r\n{}", "closed early", None),
    ("no last chunk", b"2\r\n{}\r\n", "closed early", None),
    ("no end behind the last size", b"2\r\n{}\r\n0\r\n", "closed early", None),
    ("half an end", b"2\r\n{}\r\n0\r\n\r", "closed early", None),
    ("no end behind a trailer", b"2\r\n{}\r\n0\r\nX: y\r\n", "closed early", None),
]

# what is not taken: its name, its bytes, the cause and the status that are told
REFUSED = [(name, head + BODIES[0][1], *told) for name, head, *told in FRAMINGS]
REFUSED += [(name, head_of() + body, *told) for name, body, *told in BAD_BODIES]
REFUSED += [(f"an error, {name}", head_of(status="500 No") + body, cause, status and 500)
            for name, body, cause, status in BAD_BODIES[::9]]


def with_length(status, content, body):
    """The reply that states its length."""
    head = f"HTTP/1.1 {status}\r\nContent-Type: {content}\r\nContent-Length: {len(body)}\r\n\r\n"
    return head.encode() + body


def number_asked(stream):
    """The number that a request on the stream asks for."""
    return int(stream.recv(65536).split(b" ")[1][1:])


class Telling(Backend):
    """A backend that sends the reply whose number is the path that it is asked at, and ends the stream. It sends it in
    pieces at these places, with a pause before each."""

    def __init__(self, replies, places=lambda number: (), pause=0.0):
        self.replies, self.places = replies, places
        super().__init__("", pause)

    def answer_on(self, stream):
        with contextlib.suppress(OSError), stream:
            stream.setsockopt(socket.IPPROTO_TCP, socket.TCP_NODELAY, 1)
            number = number_asked(stream)
            told, begin = self.replies[number], 0
            for place in [*self.places(number), len(told)]:
                if self.pause:
                    time.sleep(self.pause)
                stream.sendall(told[begin:place])
                begin = place


def plans_of(port, count):
    """A plan for each number, whose branch is asked at that number."""
    branch = {"name": "b", "address": f"127.0.0.1:{port}"}
    paths = [f"/{at}" for at in range(count)]
    return json.dumps([{"path": path, "limit": 1, "branches": [{**branch, "path": path}]} for path in paths]).encode()


def asks_all(room, backend, count, words, streams=16):
    """What one loop answers to so many calls, made over so many streams at once. With each answer stands what the log
    tells of its branch: the cause and the status."""
    found = [None] * count

    def ask(port, number):
        with client(port) as stream:
            for at in range(number, count, streams):
                call(stream, path=f"/{at}")
                found[at] = read_message(stream)

    with open(f"{room.folder}/log", "w+b") as log:
        plans, words = plans_of(backend.port, count), [*words, "--log", "all"]
        run, port = room.serve(plans, streams=streams, words=words, stderr=log)
        at_once(streams, lambda number: ask(port, number))
        expect("the status", run.wait(timeout=WAIT), 0)
        log.seek(0)
        lines = {line["path"]: (line["cause"], line["status"]) for line in branches_told(log.read())}
    return [(head + body, lines.pop(f"/{at}", None)) for at, (head, body) in enumerate(found)]


def brief(answer):
    """The status and the body of a reply."""
    head, _, body = answer.partition(b"\r\n\r\n")
    return head[9:12].decode(), body


def case_chunks_taken(room):
    """with --chunked a reply in chunks is told as the same reply with a length, byte for byte, and so is its cause"""
    replies = [told for _, told, _, _, _ in TAKEN] + [with_length(*told) for _, _, *told in TAKEN]
    with Telling(replies) as backend:
        found = asks_all(room, backend, len(replies), ["--chunked"])
    for at, (name, _, status, content, body) in enumerate(TAKEN):
        expect(f"whether {name} is as with a length", found[at] == found[at + len(TAKEN)], True)
        answer, (cause, number) = found[at]
        expect(f"the status that is told of {name}", number, int(status[:3]))
        if status == "200 OK" and content == TYPE and body not in (b"", b"trip"):
            expect(f"whether {name} is answered right", brief(answer) == ("200", b'{"b":%s}' % body), True)
            expect(f"the cause of {name}", cause, "answer")


def case_chunks_of_errors(room):
    """with --chunked an error in chunks is told by its document, or by its status; and 200 with no JSON is no answer"""
    replies = [head_of(status=status, content=content) + chunks(body, 5) for status, content, body in (
        ("404 Not Found", TYPE, DOCUMENT), ("500 No", "text/plain", DOCUMENT), ("500 No", "text/html", b"<p>no</p>"),
        ("200 OK", TYPE, b""), ("200 OK", "text/plain", b"{}"))]
    with Telling(replies) as backend:
        found = asks_all(room, backend, len(replies), ["--chunked"], streams=4)
    expect("what is told", [(*brief(answer), *told) for answer, told in found], [
        ("404", b'{"code":"not_found","message":"b: no trip"}', "status", 404),
        ("404", b'{"code":"not_found","message":"b: no trip"}', "status", 500),
        ("500", b'{"code":"unknown","message":"b: HTTP status 500"}', "status", 500),
        ("500", b'{"code":"internal","message":"b: response is not JSON"}', "not JSON", 200),
        ("500", b'{"code":"internal","message":"b: unexpected content type"}', "unexpected content type", 200),
    ])


def case_chunks_refused(room):
    """with --chunked a reply of doubtful framing, or whose chunks are not those of RFC 9112, is lost, and its cause told"""
    with Telling([told for _, told, _, _ in REFUSED]) as backend:
        found = asks_all(room, backend, len(REFUSED), ["--chunked"])
    for (name, _, *wanted), (answer, told) in zip(REFUSED, found):
        expect(f"what is told of {name}", told, tuple(wanted))
        expect(f"what a client gets of {name}", brief(answer), LOST)


def case_chunks_not_asked_for(room):
    """without --chunked each reply in chunks is lost, as one without a fixed length, whatever its chunks are"""
    replies = [told for _, told, _, _, _ in TAKEN] + [head_of() + body for _, body, _, _ in BAD_BODIES]
    with Telling(replies) as backend:
        found = asks_all(room, backend, len(replies), [])
    for at, (answer, told) in enumerate(found):
        status = int(TAKEN[at][2][:3]) if at < len(TAKEN) else 200
        expect(f"what is told of {replies[at][:400]}", told, ("no fixed length", status))
        expect(f"what a client gets of {replies[at][:400]}", brief(answer), LOST)


def case_chunks_cut_anywhere(room):
    """with --chunked a reply in chunks is the same wherever its stream is cut, and none where it ends sooner"""
    told = head_of() + b'1;a="b"\r\n{\r\n000c\r\n"a":[1,2,34]\r\n1 ;x\r\n}\r\n0\r\nX-Sum: 5\r\nY:\r\n\r\n'
    count = len(told)
    for pause, replies, places in (
        (0.03, [told] * count, lambda number: (number,)),
        (0.001, [told], lambda number: range(1, count)),
        (0.0, [told[:at] for at in range(count)], lambda number: ()),
    ):
        with Telling(replies, places, pause) as backend:
            found = asks_all(room, backend, len(replies), ["--chunked"])
        for at, (answer, line) in enumerate(found):
            if pause:
                wanted = ("200", b'{"b":{"a":[1,2,34]}}'), ("answer", 200)
                expect(f"the reply cut at {at}", (brief(answer), line), wanted)
            else:
                cause = "closed early" if at else "ended without a byte"
                expect(f"the reply that ends at {at}", (brief(answer), line), (LOST, (cause, None)))


# it makes some hundred calls, and most of them wait
case_chunks_cut_anywhere.time = 3 * CASE_TIME


def case_chunks_of_many(room):
    """with --chunked one loop reads the replies of 1,024 branches at once, in chunks and with lengths, each its own"""
    need_descriptors(4_096)
    bodies = [b'{"at":%d,"x":"%s"}' % (at, b"x" * 997 * at) for at in range(16)]
    replies = [head_of() + chunks(body, 1 + 321 * at) if at % 4 else with_length("200 OK", TYPE, body)
               for at, body in enumerate(bodies)]
    with long_listener() as backend, contextlib.ExitStack() as opened:
        address = f"127.0.0.1:{backend.getsockname()[1]}"
        branches = [{"name": f"b{at}", "address": address, "path": f"/{at}"} for at in range(16)]
        plans = json.dumps([{"path": "/call", "limit": 16, "branches": branches}]).encode()
        run, port = room.serve(plans, streams=64, words=["--chunked"])
        streams = [opened.enter_context(client(port)) for _ in range(64)]
        for stream in streams:
            call(stream)
        asked = [opened.enter_context(backend.accept()[0]) for _ in range(PLACES)]
        told = [replies[number_asked(one)] for one in asked]
        # the halves of all replies are there at once
        for half in (lambda text: text[:len(text) // 2]), (lambda text: text[len(text) // 2:]):
            with stopped(run):
                for one, text in zip(asked, told):
                    one.sendall(half(text))
        wanted = b"{" + b",".join(b'"b%d":%s' % (at, body) for at, body in enumerate(bodies)) + b"}"
        for stream in streams:
            expect("whether the reply is right", read_reply(stream) == ("200", wanted), True)
    room.ends("the program", run, DONE)


def case_chunks_cost(room):
    """with --chunked the longest reply, a chunk a byte, costs a loop little, also in as many pieces"""
    told = head_of() + chunks(LONG, 1)
    with Telling([told], places=lambda number: range(6, len(told), 6)) as backend:
        run, port = room.serve(plans_of(backend.port, 1), streams=1, words=["--chunked"])
        with client(port) as stream:
            before = processor_time_of(run)
            call(stream, path="/0")
            expect("whether the reply is right", read_reply(stream) == ("200", b'{"b":%s}' % LONG), True)
            used = processor_time_of(run) - before
            expect(f"whether {used} seconds are few", used < 2, True)
    room.ends("the program", run, DONE)


def case_chunks_end_by_themselves(room):
    """with --chunked a reply in chunks is told though its stream stays open, and a call ends while one is half-read"""
    with listener() as backend:
        plans = json.loads(plans_of(backend.getsockname()[1], 2))
        plans[1]["timeout_ms"] = 400
        run, port = room.serve(json.dumps(plans).encode(), streams=2, words=["--chunked"])
        with client(port) as stream:
            call(stream, path="/0")
            with backend.accept()[0] as asked:
                read_message(asked)
                asked.sendall(head_of() + b"2\r\n{}\r\n0\r\nX: y\r\n")
                expect("whether it waits for the trailers' end", is_quiet(stream), True)
                asked.sendall(b"\r\n")
                expect("the reply", read_reply(stream), ("200", b'{"b":{}}'))
            call(stream, path="/1")
            with backend.accept()[0] as asked:
                read_message(asked)
                asked.sendall(head_of() + b"2\r\n{")
                expect("at the deadline", read_reply(stream)[0], "504")
                expect("what the backend sees then", read_to(asked, 1), b"")
        with client(port) as stream:
            call(stream, path="/0")
            asked = backend.accept()[0]
            read_message(asked)
            asked.sendall(head_of() + b"2\r\n{}\r\n0\r\n")
        with asked:
            expect("what the backend sees where the client is gone", read_to(asked, 1), b"")
    room.ends("the program", run, DONE)


def case_hostile_chunks(room):
    """changed and cut replies in chunks are read as others read them, and as the grammar has it: tests/hostile_chunks"""
    run = subprocess.Popen([f"{HERE}/hostile_chunks", room.program], stdout=subprocess.PIPE, stderr=subprocess.STDOUT,
                           start_new_session=True)
    try:
        said = run.communicate()[0].decode()
        expect("what it says", (run.returncode, said[-3_000:] if run.returncode else ""), (0, ""))
    finally:
        with contextlib.suppress(ProcessLookupError):
            os.killpg(run.pid, signal.SIGKILL)


case_hostile_chunks.time = 5 * CASE_TIME
