"""Cases of tests/program.py: what a client gets for each mistake of a backend, as docs/BACKENDS.md has it."""
import gzip
import json
import shutil
import subprocess

from program_room import Backend, Untried, call, client, expect, free_port, plan, read_reply

# what a backend answers, and what the client gets for it
DOCUMENT = '{"code":"invalid_argument","message":"no such day"}'
ANSWERS = [
    ("201", "201 Created", '{"id":7}', "500", "unknown", "HTTP status 201"),
    ("204 of a body", "204 No Content", "", "500", "unknown", "HTTP status 204"),
    ("400 without a document", "400 Bad Request", '{"error":"no such day"}', "500", "internal", "HTTP status 400"),
    ("400 with one", "400 Bad Request", DOCUMENT, "400", "invalid_argument", "no such day"),
    ("404 without one", "404 Not Found", "not found", "501", "unimplemented", "HTTP status 404"),
    ("404 with one", "404 Not Found", '{"code":"not_found","message":"no trip"}', "404", "not_found", "no trip"),
    ("422 without one", "422 X", '{"detail":[{"loc":["body","to"],"msg":"missing"}]}', "500", "unknown", "HTTP status 422"),
    ("422 with one", "422 X", DOCUMENT, "400", "invalid_argument", "no such day"),
    ("grpc-gateway", "404 Not Found", '{"code":5,"message":"no trip","details":[]}', "501", "unimplemented", "no trip"),
    ("gzip", "200 OK", gzip.compress(b"{}"), "500", "internal", "response is not JSON"),
]

# a backend in Node: by writeHead alone, by writeHead with the length, and by setHeader
NODE = """
require('http').createServer((asked, res) => {
    const body = '{"ok":"\\u00e4"}', fields = {'Content-Type': 'application/json'}
    asked.resume().on('end', () => {
        if (asked.url == '/set') { res.setHeader('Content-Type', 'application/json'); res.end(body) }
        else if (asked.url == '/head') res.writeHead(200, fields).end(body)
        else res.writeHead(200, {...fields, 'Content-Length': Buffer.byteLength(body)}).end(body)
    })
}).listen(PORT, '127.0.0.1')
"""


class Answering(Backend):
    """A backend that answers so."""

    def __init__(self, status, body):
        super().__init__("")
        body = body.encode() if isinstance(body, str) else body
        head = f"HTTP/1.1 {status}\r\nContent-Type: application/json\r\nContent-Length: {len(body)}\r\n\r\n"
        self.answer = head.encode() + body


def asks(port, path="/call"):
    """The status and the body that a call is answered by."""
    with client(port) as stream:
        call(stream, path=path)
        status, body = read_reply(stream)
        return status, json.loads(body)


def case_mistakes_of_backends(room):
    """a client gets for each mistake of a backend what docs/BACKENDS.md says"""
    for name, status, body, told, code, message in ANSWERS:
        with Answering(status, body) as backend:
            _run, port = room.serve(plan([backend.port], 1, 10_000))
            expect(name, asks(port), (told, {"code": code, "message": f"b0: {message}"}))


def case_backend_of_tls(room):
    """a backend that wants TLS is told as one that can't be reached"""
    with Backend("") as backend:
        # the alert "unexpected message" of TLS 1.2
        backend.answer = bytes([21, 3, 3, 0, 2, 2, 10])
        _run, port = room.serve(plan([backend.port], 1, 10_000))
        expect("TLS", asks(port), ("503", {"code": "unavailable", "message": "b0: backend unreachable"}))


def case_backend_in_node(room):
    """Node's writeHead with end sends chunks, and states the length where that is given, or set by no writeHead"""
    if not shutil.which("node"):
        raise Untried("there is no node")
    where = free_port()
    room.started.append(subprocess.Popen(["node", "-e", NODE.replace("PORT", str(where))],
                                         stdout=subprocess.PIPE, stderr=subprocess.PIPE))
    client(where).close()
    plans = [{"path": path, "limit": 1, "timeout_ms": 10_000,
              "branches": [{"name": "b0", "address": f"127.0.0.1:{where}", "path": path}]}
             for path in ("/set", "/head", "/length")]
    _run, port = room.serve(json.dumps(plans).encode())
    expect("writeHead", asks(port, "/head")[0], "503")
    for path in ("/set", "/length"):
        expect(path, asks(port, path), ("200", {"b0": {"ok": "\u00e4"}}))
