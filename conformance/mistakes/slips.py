#!/usr/bin/env python3
"""usage: conformance/mistakes/slips.py PROGRAM

Makes every file that differs from a plan file by one slip of the hand: a bracket, comma, colon or quote that is left
out, doubled or taken for another, and a letter of a number or of a literal. `check` must place each that is no JSON at
the first token that may not stand where it does, which is found here by the tokens alone. A line for each that is
placed elsewhere, and last 'N passed, M failed'."""
import json
import os
import re
import subprocess
import sys
import tempfile

GOOD = """[
  {
    "path": "/acme.v1.Trip/Quote",
    "limit": 2,
    "timeout_ms": 5000,
    "branches": [
      {"name": "flight", "address": "127.0.0.1:9001", "path": "/acme.v1.Flight/Find"},
      {"name": "hotel", "address": "127.0.0.1:9002", "path": "/acme.v1.Hotel/Find", "timeout_ms": 800}
    ],
    "_flags": [true, false, null, 1.5, -2e3]
  },
  {"path": "/p", "limit": 1, "timeout_ms": 100, "branches": [{"name": "a", "address": "h:1", "path": "/a"}]}
]
"""
# what is taken for another
TAKEN = {"{": "[(", "}": "])", "[": "{(", "]": "})", ",": ":;.", ":": ",=;", '"': "'`"}
SCALAR = re.compile(r'(?<![\w"./])(?:true|false|null|-?\d[\w.]*)(?![\w"])')
TOKEN = re.compile(r'[{}\[\],:]|"(?:\\.|[^"\\])*(?:"|$)|[^\s{}\[\],:"][^\s{}\[\],:]*', re.S)


def slips():
    """The files, each once."""
    for at, letter in enumerate(GOOD):
        if letter in TAKEN:
            for other in ["", letter * 2, *TAKEN[letter]]:
                yield GOOD[:at] + other + GOOD[at + 1:]
    for found in SCALAR.finditer(GOOD):
        if GOOD[:found.start()].count('"') % 2 == 0:
            for at in range(*found.span()):
                for other in ["", GOOD[at] * 2, "x", "0", GOOD[at].upper(), GOOD[at] + "e999"]:
                    yield GOOD[:at] + other + GOOD[at + 1:]


def is_whole(token):
    """Whether a text in double quotes, a number or a literal is one."""
    if token[0] != '"' and not re.fullmatch(r"true|false|null|-?(0|[1-9]\d*)(\.\d+)?([eE][-+]?\d+)?", token):
        return False
    try:
        return json.loads(token) not in (float("inf"), float("-inf"))
    except ValueError:
        return False


def first_stray(text):
    """Where the first token stands from which no JSON goes on; the length, where there is none."""
    opened, wants = [], "value"
    for found in TOKEN.finditer(text):
        token, fits = found.group(), False
        if token in "[{":
            fits = wants in ("value", "item", "item or end")
            opened.append(token)
            wants = "item or end" if token == "[" else "key or end"
        elif token in "]}":
            fits = "".join(opened[-1:]) + token in ("[]", "{}") and wants.endswith("end")
            opened = opened[:-1]
            wants = "comma or end" if opened else "nothing"
        elif token == ",":
            fits = wants == "comma or end"
            wants = "item" if opened[-1:] == ["["] else "key"
        elif token == ":":
            fits = wants == "colon"
            wants = "value"
        elif wants in ("key", "key or end"):
            fits = token[0] == '"' and is_whole(token)
            wants = "colon"
        elif wants in ("value", "item", "item or end"):
            fits = is_whole(token)
            wants = "comma or end" if opened else "nothing"
        if not fits:
            return found.start()
    return len(text)


def main():
    if len(sys.argv) != 2:
        sys.exit(__doc__.split("\n", 1)[0])
    program = os.path.realpath(sys.argv[1])
    passed = failed = 0
    with tempfile.TemporaryDirectory() as room:
        for text in dict.fromkeys(slips()):
            with open(f"{room}/f", "w", encoding="utf-8") as file:
                file.write(text)
            words = [program, "check", "--plans", "f"]
            said = subprocess.run(words, cwd=room, capture_output=True, text=True, check=False)
            at = first_stray(text)
            if at == len(text):
                continue
            start = text.rfind("\n", 0, at) + 1
            place = f"refused: f: line {text.count(chr(10), 0, at) + 1}, column {at - start + 1}: "
            if said.stdout.startswith(place):
                passed += 1
            else:
                failed += 1
                print(f"FAILED one slip: wanted {place!r}, and it said {said.stdout.splitlines()[:1]}")
    print(f"{passed} passed, {failed} failed")
    sys.exit(1 if failed else 0)


main()
