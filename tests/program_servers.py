"""Cases of tests/program.py: servers of other languages that answer in chunks, with `serve --chunked` and without it. One
that this machine has not is named, and counts as neither."""
import json
import os
import shutil
import subprocess
import sys

from program_log import branches_told
from program_room import CASE_TIME, HERE, Untried, WAIT, Wrong, call, client, expect, free_port, read_reply

# the longest body whose length Go states by itself, and one that it sends in chunks
SHORT = json.dumps("x" * 2_046)
LONG = json.dumps("x" * 2_047)

GO = """
package main

import (
	"io"
	"net/http"
	"os"
	"strings"
)

func main() {
	tell := func(path string, parts ...string) {
		http.HandleFunc(path, func(w http.ResponseWriter, r *http.Request) {
			io.Copy(io.Discard, r.Body)
			w.Header().Set("Content-Type", "application/json")
			for at, part := range parts {
				if at > 0 {
					w.(http.Flusher).Flush()
				}
				io.WriteString(w, part)
			}
		})
	}
	tell("/short", `"` + strings.Repeat("x", 2046) + `"`)
	tell("/long", `"` + strings.Repeat("x", 2047) + `"`)
	tell("/flushed", `{"a":`, `[1,2`, `,3]}`)
	http.ListenAndServe("127.0.0.1:" + os.Args[1], nil)
}
"""

NODE = """
require('http').createServer((asked, res) => asked.resume().on('end', () => {
    if (asked.url == '/end') { res.writeHead(200, {'Content-Type': 'application/json'}).end('{"ok":"\\u00e4"}'); return }
    res.setHeader('Content-Type', 'application/json')
    if (asked.url == '/trailer') { res.setHeader('Trailer', 'Content-Length'); res.addTrailers({'Content-Length': '1'}) }
    res.write('{"a":')
    setTimeout(() => { res.write('[1,2'); setImmediate(() => res.end(',3]}')) }, 5)
})).listen(process.argv[1], '127.0.0.1')
"""

JAVA = """
import com.sun.net.httpserver.HttpServer;
import java.net.InetSocketAddress;

public class Telling {
    public static void main(String[] words) throws Exception {
        var server = HttpServer.create(new InetSocketAddress("127.0.0.1", Integer.parseInt(words[0])), 0);
        server.createContext("/", asked -> {
            asked.getRequestBody().readAllBytes();
            asked.getResponseHeaders().set("Content-Type", "application/json");
            asked.sendResponseHeaders(200, 0);
            try (var body = asked.getResponseBody()) {
                body.write("{\\"a\\":".getBytes());
                body.flush();
                body.write("[1,2,3]}".getBytes());
            }
        });
        server.start();
    }
}
"""

FLASK = """
import sys
from flask import Flask, Response

app = Flask("telling")

@app.post("/")
def tell():
    return Response((part for part in ('{"a":', '[1,2', ',3]}')), content_type="application/json")

app.run(port=int(sys.argv[1]))
"""

FASTAPI = """
import sys
import uvicorn
from fastapi import FastAPI
from fastapi.responses import StreamingResponse

app = FastAPI()

@app.post("/")
async def tell():
    return StreamingResponse((part for part in ('{"a":', '[1,2', ',3]}')), media_type="application/json")

uvicorn.run(app, port=int(sys.argv[1]), log_level="error")
"""

SINATRA = """
require 'sinatra/base'

class Telling < Sinatra::Base
  set :port, ARGV[0].to_i
  set :bind, '127.0.0.1'
  set :server, 'puma'
  set :traps, false
  post '/' do
    content_type :json
    stream { |out| ['{"a":', '[1,2', ',3]}'].each { |part| out << part } }
  end
  run!
end
"""

NGINX = """
daemon off;
master_process off;
pid FOLDER/nginx.pid;
error_log stderr;
events { }
http {
    access_log off;
    gzip off;
    client_body_temp_path FOLDER/body;
    proxy_temp_path FOLDER/proxy;
    fastcgi_temp_path FOLDER/fastcgi;
    uwsgi_temp_path FOLDER/uwsgi;
    scgi_temp_path FOLDER/scgi;
    server {
        listen 127.0.0.1:PORT;
        location / {
            proxy_http_version 1.1;
            proxy_pass http://127.0.0.1:BACKEND;
        }
    }
}
"""

STREAMED = '{"a":[1,2,3]}'


def needs(*commands):
    for command in commands:
        if not shutil.which(command):
            raise Untried(f"there is no {command}")


def python_with(*modules):
    """A python3 that has these modules."""
    for python in (sys.executable, "/usr/bin/python3"):
        found = subprocess.run([python, "-c", f"import {', '.join(modules)}"], capture_output=True, check=False)
        if found.returncode == 0:
            return python
    raise Untried(f"there is no {' and no '.join(modules)} of python3")


def start(room, command):
    """Starts a server, whose last word is the port that it listens at. Returns that port."""
    where = int(command[-1])
    with open(f"{room.folder}/said", "ab") as said:
        room.started.append(subprocess.Popen(command, stdin=subprocess.DEVNULL, stdout=said, stderr=said))
    try:
        client(where).close()
    except Wrong:
        with open(f"{room.folder}/said", encoding="utf-8", errors="replace") as said:
            raise Wrong(f"{command[0]} does not listen, and says: {said.read()[-500:]}") from None
    return where


def asks(room, where, paths, words):
    """What a client gets of a server at each of these paths, and the causes that the log tells."""
    branch = {"name": "b", "address": f"127.0.0.1:{where}"}
    plans = [{"path": path, "limit": 1, "branches": [{**branch, "path": path}]} for path in paths]
    with open(f"{room.folder}/log", "w+b") as log:
        run, port = room.serve(json.dumps(plans).encode(), streams=1, words=[*words, "--log", "all"], stderr=log)
        with client(port) as stream:
            found = []
            for path in paths:
                call(stream, path=path)
                found.append(read_reply(stream))
        expect("the status", run.wait(timeout=WAIT), 0)
        log.seek(0)
        return found, [(line["cause"], line["status"]) for line in branches_told(log.read())]


def try_server(room, where, in_chunks, with_length=()):
    """Sees what comes of a server's replies, whose paths and bodies these are: in chunks, and with a length."""
    told = [*in_chunks, *with_length]
    paths = [path for path, _ in told]
    whole = [("200", b'{"b":%s}' % body.encode()) for _, body in told]
    expect("with the word", asks(room, where, paths, ["--chunked"]), (whole, [("answer", 200)] * len(told)))
    lost = ("503", b'{"code":"unavailable","message":"b: backend unreachable"}')
    count = len(in_chunks)
    wanted = [lost] * count + whole[count:], [("no fixed length", 200)] * count + [("answer", 200)] * len(with_length)
    expect("without it", asks(room, where, paths, []), wanted)


def case_server_in_go(room):
    """Go's net/http: chunks of a reply above 2,048 bytes, and of one that is flushed, are taken with --chunked alone"""
    needs("go")
    source = room.file("telling.go", GO.encode())
    env = {"HOME": room.folder, **os.environ, "GO111MODULE": "off", "GOFLAGS": ""}
    subprocess.run(["go", "build", "-o", f"{room.folder}/telling", source], check=True, env=env)
    where = start(room, [f"{room.folder}/telling", str(free_port())])
    try_server(room, where, [("/long", LONG), ("/flushed", STREAMED)], [("/short", SHORT)])


def case_server_in_node(room):
    """Node: chunks of writeHead with end, of write, and with a trailer, are taken with --chunked alone"""
    needs("node")
    where = start(room, ["node", "-e", NODE, str(free_port())])
    try_server(room, where, [("/end", '{"ok":"\u00e4"}'), ("/write", STREAMED), ("/trailer", STREAMED)])


def case_server_in_java(room):
    """Java's HttpServer: chunks of sendResponseHeaders(200, 0) are taken with --chunked alone"""
    needs("java", "javac")
    where = start(room, ["java", room.file("Telling.java", JAVA.encode()), str(free_port())])
    try_server(room, where, [("/", STREAMED)])


def case_server_in_python(room):
    """Python's http.server that writes chunks: they are taken with --chunked alone"""
    where = free_port()
    start(room, [sys.executable, "-B", f"{HERE}/../examples/backend.py", "--chunked", "--port", str(where)])
    try_server(room, where, [("/a", '{"path":"/a","port":%d,"body":{}}' % where)])


def case_server_in_flask(room):
    """Flask: chunks of a generator are taken with --chunked alone"""
    python = python_with("flask")
    try_server(room, start(room, [python, "-c", FLASK, str(free_port())]), [("/", STREAMED)])


def case_server_in_fastapi(room):
    """FastAPI: chunks of a StreamingResponse are taken with --chunked alone"""
    python = python_with("fastapi", "uvicorn")
    try_server(room, start(room, [python, "-c", FASTAPI, str(free_port())]), [("/", STREAMED)])


def case_server_in_sinatra(room):
    """Ruby's Sinatra: chunks of a stream are taken with --chunked alone"""
    needs("ruby")
    if subprocess.run(["ruby", "-e", "require 'sinatra/base'; require 'puma'"], capture_output=True, check=False).returncode:
        raise Untried("there is no sinatra, or no puma, of ruby")
    try_server(room, start(room, ["ruby", room.file("telling.rb", SINATRA.encode()), str(free_port())]), [("/", STREAMED)])


def case_server_behind_nginx(room):
    """nginx before a backend that answers in chunks: it passes them on, and they are taken with --chunked alone"""
    needs("nginx")
    backend, where = free_port(), free_port()
    start(room, [sys.executable, "-B", f"{HERE}/../examples/backend.py", "--chunked", "--port", str(backend)])
    made = NGINX.replace("FOLDER", room.folder).replace("PORT", str(where)).replace("BACKEND", str(backend))
    room.started.append(subprocess.Popen(["nginx", "-e", "stderr", "-c", room.file("nginx.conf", made.encode())],
                                         stdin=subprocess.DEVNULL, stdout=subprocess.DEVNULL, stderr=subprocess.PIPE))
    client(where).close()
    try_server(room, where, [("/a", '{"path":"/a","port":%d,"body":{}}' % backend)])


# compilers take their time on a busy machine
case_server_in_go.time = case_server_in_java.time = 3 * CASE_TIME
