#!/usr/bin/env python3
"""Clients that hold places: python3 examples/slow_clients.py PORT PATH [--senders N] [--readers N] [--from ADDRESS]

A sender sends 20 KB of a request with a body of 60 KB, and then a byte every four seconds. A reader sends such a request
whole, and reads a kilobyte of its reply a second; eight of them begin at a time. Once all have begun it prints "begun"; it
goes on until it is ended. One whose connection is closed is gone.
"""

import argparse
import asyncio
import socket

BODY = b'"' + b"x" * 60_000 + b'"'
BEGUN = 20_000
# so many readers wait for their replies at a time
BEGIN_AT_ONCE = 8


async def connect(options):
    """A stream with a small buffer, so that what is not read waits at the other end."""
    made = socket.socket()
    made.setsockopt(socket.SOL_SOCKET, socket.SO_RCVBUF, 4096)
    made.bind((options.source, 0))
    made.setblocking(False)
    await asyncio.get_running_loop().sock_connect(made, ("127.0.0.1", options.port))
    return made


def request(options):
    head = f"POST {options.path} HTTP/1.1\r\nHost: g\r\nContent-Type: application/json\r\nContent-Length: {len(BODY)}\r\n\r\n"
    return head.encode() + BODY


async def send(options, begun):
    loop, bytes_ = asyncio.get_running_loop(), request(options)
    with await connect(options) as stream:
        await loop.sock_sendall(stream, bytes_[:BEGUN])
        begun()
        for at in range(BEGUN, len(bytes_)):
            await asyncio.sleep(4)
            await loop.sock_sendall(stream, bytes_[at : at + 1])


async def read(options, begun):
    loop = asyncio.get_running_loop()
    async with options.gate:
        stream = await connect(options)
        await loop.sock_sendall(stream, request(options))
        piece = await loop.sock_recv(stream, 1024)
    begun()
    with stream:
        while piece:
            await asyncio.sleep(1)
            piece = await loop.sock_recv(stream, 1024)


async def hold(client, options, begun):
    try:
        await client(options, begun)
    except OSError:
        pass
    begun()


async def main():
    parser = argparse.ArgumentParser(description=__doc__.splitlines()[0])
    parser.add_argument("port", type=int)
    parser.add_argument("path")
    parser.add_argument("--senders", type=int, default=0)
    parser.add_argument("--readers", type=int, default=0)
    parser.add_argument("--from", dest="source", default="127.0.0.1", metavar="ADDRESS")
    options = parser.parse_args()
    options.gate = asyncio.Semaphore(BEGIN_AT_ONCE)
    clients = [send] * options.senders + [read] * options.readers
    all_begun = [asyncio.Event() for _ in clients]
    held = asyncio.gather(*(hold(client, options, event.set) for client, event in zip(clients, all_begun)))
    for event in all_begun:
        await event.wait()
    print("begun", flush=True)
    await held


if __name__ == "__main__":
    asyncio.run(main())
