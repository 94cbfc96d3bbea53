"""Cases of tests/program.py: which fields of a call's request a backend is sent, as docs/EXTENSIONS.md has it."""
import json

from program_room import DONE, call, client, expect, listener, plan, read_message, read_reply, reply, request


def passing(listeners, names, limit=16):
    """A plan file: a branch for each of these backends, which passes on fields of these names; None for no such key."""
    made = json.loads(plan([one.getsockname()[1] for one in listeners], limit, 20_000))
    for branch, passed in zip(made[0]["branches"], names):
        if passed is not None:
            branch["pass"] = passed
    return made


def passed_to(backend, answer):
    """Takes the next request to a backend, and answers it. Returns the lines between `Connect-Timeout-Ms` and `Connection`."""
    with backend.accept()[0] as asked:
        head, _body = read_message(asked)
        asked.sendall(reply(answer))
    lines = head.split(b"\r\n")
    at = next(place for place, line in enumerate(lines) if line.startswith(b"Connect-Timeout-Ms: "))
    expect("the end of the head", lines[-3:], [b"Connection: close", b"", b""])
    return lines[at + 1:-3]


def case_passed_byte_for_byte(room):
    """a backend is sent the fields that its branch passes on, in the request's order, each with its value, and no others"""
    with listener() as first, listener() as second, listener() as third:
        made = passing([first, second, third], [["authorization", "X-Tenant-Id"], None, ["traceparent", "x_tenant_id"]])
        run, port = room.serve(json.dumps(made).encode(), streams=1)
        further = (
            "Cookie: c=1\r\nx_tenant_id:\t7 \r\nAUTHORIZATION: Bearer  a.b/c==\r\nX-Request-Id: r-7\r\n"
            "Traceparent: 00-4bf9-00f0-01\r\nAuthorizations: no\r\nX-Tenant-Id:\r\n"
        )
        with client(port) as stream:
            call(stream, further)
            expect("the first", passed_to(first, "1"), [
                b"X-Request-Id: r-7", b"X-Tenant-Id: 7", b"authorization: Bearer  a.b/c==", b"X-Tenant-Id: "])
            expect("the second", passed_to(second, "2"), [b"X-Request-Id: r-7"])
            expect("the third", passed_to(third, "3"), [
                b"X-Request-Id: r-7", b"x_tenant_id: 7", b"traceparent: 00-4bf9-00f0-01", b"x_tenant_id: "])
            expect("the reply", read_reply(stream), ("200", b'{"b0":1,"b1":2,"b2":3}'))
    room.ends("the program", run, DONE)


def case_passed_to_no_other(room):
    """a field goes to no branch of another plan, to none that names no field, and not if the call's Connection names it"""
    with listener() as backend:
        made = passing([backend], [["authorization"]])
        made += [{**passing([backend], [passed])[0], "path": path} for path, passed in (("/none", []), ("/keyless", None))]
        run, port = room.serve(json.dumps(made).encode(), streams=1)
        secret = "Authorization: secret\r\n"
        with client(port) as stream:
            for path, further, wanted in (
                ("/call", secret, [b"authorization: secret"]),
                ("/none", secret, []),
                ("/keyless", secret, []),
                ("/call", f"Connection: keep-alive, AUTHORIZATION\r\n{secret}", []),
                ("/call", f"{secret}Connection: x-a\r\nConnection: \tAuthorization ,\r\n", []),
                ("/call", f"Connection: authorizations\r\n{secret}", [b"authorization: secret"]),
                ("/call", "", []),
            ):
                call(stream, further, path=path)
                expect(f"{path} with {further!r}", passed_to(backend, "1"), wanted)
                expect("its reply", read_reply(stream)[0], "200")
    room.ends("the program", run, DONE)


def case_passed_of_its_own_call(room):
    """each of several calls on a connection passes on its own fields, also where a branch starts later"""
    with listener() as first, listener() as second:
        made = passing([first, second], [["x-a"], ["x-a"]], limit=1)
        run, port = room.serve(json.dumps(made).encode(), streams=1)
        with client(port) as stream:
            stream.sendall(request(further="X-A: one\r\n"))
            expect("the first", passed_to(first, "1"), [b"x-a: one"])
            # the next call comes before the second branch of the first one is answered
            with second.accept()[0] as asked:
                stream.sendall(request(further="X-A: two\r\n"))
                expect("the first of the second call", passed_to(first, "3"), [b"x-a: two"])
                expect("the second branch", b"\r\nx-a: one\r\n" in read_message(asked)[0], True)
                asked.sendall(reply("2"))
            expect("the second of the second call", passed_to(second, "4"), [b"x-a: two"])
            for wanted in (b'{"b0":1,"b1":2}', b'{"b0":3,"b1":4}'):
                expect("the reply", read_reply(stream), ("200", wanted))
    room.ends("the program", run, DONE)


def case_passed_at_most(room):
    """sixteen branches are each sent all that a head has room for: 60 fields, and 8,000 bytes"""
    backends = [listener() for _ in range(16)]
    names = [f"x-{at}" for at in range(16)]
    fields = [(names[at % 16], f"{at:03}" + "v" * 117) for at in range(60)]
    further = "".join(f"{name}: {value}\r\n" for name, value in fields)
    run, port = room.serve(json.dumps(passing(backends, [names] * 16)).encode(), streams=1)
    with client(port) as stream:
        call(stream, further)
        for backend in backends:
            expect("the fields", passed_to(backend, "1"), [f"{name}: {value}".encode() for name, value in fields])
        expect("the reply", read_reply(stream)[0], "200")
    for backend in backends:
        backend.close()
    room.ends("the program", run, DONE)
