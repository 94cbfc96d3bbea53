#!/usr/bin/env python3
"""A backend to try the gateway with: python3 examples/backend.py [--port N] [--delay MS] [--fail STATUS] [--chunked]

It answers any POST of JSON with a JSON object that names the path asked for and its own port, and has the body in it
as it came. With --delay it waits so many milliseconds first; with --fail it answers that status and a message. With
--chunked its replies are sent in chunks, which the gateway takes with `serve --chunked` alone.
"""

import argparse
import json
import time
from http.server import BaseHTTPRequestHandler, ThreadingHTTPServer


class Handler(BaseHTTPRequestHandler):
    protocol_version = "HTTP/1.1"
    disable_nagle_algorithm = True

    def do_POST(self):
        options = self.server.options
        body = self.rfile.read(int(self.headers.get("Content-Length", 0)))
        time.sleep(options.delay / 1000)
        if options.fail:
            self.answer(options.fail, b'{"message":"told to fail"}')
            return
        try:
            json.loads(body)
        except ValueError:
            self.answer(400, b'{"code":"invalid_argument","message":"not JSON"}')
            return
        path = json.dumps(self.path).encode()
        self.answer(200, b'{"path":%s,"port":%d,"body":%s}' % (path, options.port, body))

    def answer(self, status, body):
        self.send_response_only(status)
        self.send_header("Content-Type", "application/json")
        if self.server.options.chunked:
            self.send_header("Transfer-Encoding", "chunked")
            body = b"%x\r\n%s\r\n0\r\n\r\n" % (len(body), body)
        else:
            self.send_header("Content-Length", str(len(body)))
        self.end_headers()
        self.wfile.write(body)

    def log_message(self, *_arguments):
        pass


class Server(ThreadingHTTPServer):
    request_queue_size = 1024
    daemon_threads = True

    def handle_error(self, request, client_address):
        """A gateway that hangs up in the middle is no news."""


def main():
    parser = argparse.ArgumentParser(description=__doc__.splitlines()[0])
    parser.add_argument("--port", type=int, default=9001)
    parser.add_argument("--delay", type=int, default=0, metavar="MS")
    parser.add_argument("--fail", type=int, metavar="STATUS")
    parser.add_argument("--chunked", action="store_true")
    options = parser.parse_args()
    server = Server(("127.0.0.1", options.port), Handler)
    server.options = options
    server.serve_forever()


if __name__ == "__main__":
    try:
        main()
    except KeyboardInterrupt:
        pass
