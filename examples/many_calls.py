#!/usr/bin/env python3
"""Makes many calls at once, and counts what was answered: python3 examples/many_calls.py PORT PATH [options]

Each of the clients has a connection of its own, which it uses as long as it is let, and makes one call after the other;
after one that failed it waits for half a second.
Each call has a body of its own, and its answer must have that body in it, as examples/backend.py answers. With --chunked
the bodies are sent in chunks. With --at a command is run once a quarter of the calls have been answered; the clients go
on until it has ended, and each makes five calls more then. With --until a call that began before that command had ended
may fail; its value says which moment that is. It prints the counts of statuses, of connections that ended without an
answer, of wrong answers, how many of those that failed may fail, and how long it took. Its status is 0 where each other
call was answered with 200, and right.
"""

import argparse
import asyncio
import collections
import time


class Outcomes:
    """What came of the calls so far."""

    def __init__(self, options):
        self.options = options
        self.counts = collections.Counter()
        # when the calls that failed had begun
        self.failed = []
        self.command_ended = None

    async def add(self, outcome, began):
        self.counts[outcome] += 1
        if outcome != 200:
            self.failed.append(began)
            await asyncio.sleep(0.5)

    async def run_command(self):
        """Runs the command of --at in its time."""
        while self.options.at and self.counts.total() < self.options.calls // 4:
            await asyncio.sleep(0.01)
        if self.options.at:
            command = await asyncio.create_subprocess_shell(self.options.at)
            if await command.wait():
                raise SystemExit(f"many_calls: failed: {self.options.at}")
            self.command_ended = time.monotonic()

    def goes_on(self, calls, since):
        """Whether a client makes one more call that has made so many, and `since` of them once the command had ended."""
        if self.options.at and (self.command_ended is None or since < 5):
            return True
        return calls < self.options.calls // self.options.clients

    def may_fail(self):
        """How many of those that failed may fail."""
        return sum(began < self.command_ended for began in self.failed) if self.options.until else 0

    def told(self):
        each = ", ".join(f"{count} of {what}" for what, count in sorted(self.counts.items(), key=str))
        return f"{self.options.clients} clients, {self.counts.total()} calls: {each}" + (
            f" ({self.may_fail()} of these began before {self.options.until})" if self.failed and self.options.until else "")

    def are_right(self):
        return self.counts[200] + self.may_fail() == self.counts.total() >= self.options.calls


async def read_reply(reader):
    """The status, whether the connection ends, and the body of a reply; None where there is none."""
    head = await reader.readuntil(b"\r\n\r\n")
    lines = head.decode().split("\r\n")
    fields = dict(line.lower().split(": ", 1) for line in lines[1:] if ": " in line)
    if fields.get("transfer-encoding") == "chunked":
        body = b""
        while size := int(await reader.readline(), 16):
            body += await reader.readexactly(size)
            await reader.readexactly(2)
        await reader.readexactly(2)
    else:
        body = await reader.readexactly(int(fields.get("content-length", 0)))
    return int(lines[0].split()[1]), fields.get("connection") == "close", body


def request(options, client, call):
    """The bytes of a call, and what its answer must contain."""
    body = b'{"client":%d,"call":%d}' % (client, call)
    head = f"POST {options.path} HTTP/1.1\r\nHost: g\r\nContent-Type: application/json\r\n"
    if options.chunked:
        half = len(body) // 2
        parts = b"".join(b"%x\r\n%s\r\n" % (len(part), part) for part in (body[:half], body[half:]))
        return (head + "Transfer-Encoding: chunked\r\n\r\n").encode() + parts + b"0\r\n\r\n", body
    return (head + f"Content-Length: {len(body)}\r\n\r\n").encode() + body, body


async def run_client(options, client, outcomes):
    stream, call, since = None, 0, 0
    while outcomes.goes_on(call, since):
        sent, wanted = request(options, client, call)
        call += 1
        since += outcomes.command_ended is not None
        began = time.monotonic()
        try:
            if not stream:
                stream = await asyncio.open_connection("127.0.0.1", options.port)
            stream[1].write(sent)
            status, ends, body = await asyncio.wait_for(read_reply(stream[0]), 60)
            await outcomes.add(status if status != 200 or wanted in body else "wrong", began)
        except (OSError, asyncio.IncompleteReadError, asyncio.TimeoutError):
            await outcomes.add("no answer", began)
            ends = True
        if ends and stream:
            stream[1].close()
            stream = None
    if stream:
        stream[1].close()


async def main():
    parser = argparse.ArgumentParser(description=__doc__.splitlines()[0])
    parser.add_argument("port", type=int)
    parser.add_argument("path")
    parser.add_argument("--clients", type=int, default=200)
    parser.add_argument("--calls", type=int, default=4000)
    parser.add_argument("--chunked", action="store_true")
    parser.add_argument("--at", metavar="COMMAND")
    parser.add_argument("--until", metavar="MOMENT")
    options = parser.parse_args()
    if options.until and not options.at:
        parser.error("--until is of the command of --at")
    outcomes, began = Outcomes(options), time.monotonic()
    clients = (run_client(options, client, outcomes) for client in range(options.clients))
    await asyncio.gather(outcomes.run_command(), *clients)
    print(f"{outcomes.told()}, in {time.monotonic() - began:.1f} seconds")
    return 0 if outcomes.are_right() else 1


if __name__ == "__main__":
    raise SystemExit(asyncio.run(main()))
