#!/usr/bin/env python3
"""The program drill against a model of the device in Python.

    drill.py [SEED] [LINES]

Builds drill (./drill), and runs it on sessions of the page's words from gen.py,
SEED (1), SEED + 1 and so on, until at least LINES (200000) lines are read: each
session as it stands; with lines damaged (bytes changed, put in and left out,
lines of 79 to 5000 characters, lines joined and parted); and with the input
moved so that every byte of a session stands once at the end of a block of 4096,
and once written to a pipe in pieces of random length.  Each line's answer is
compared with the one of xdrill.py.

Prints how many lines agreed, and how many of them were `?`, refusals, `ok` and
numbers.  Ends with status 1 at the first difference, and shows the line; with
status 2 if something is missing or cannot be built.

    ORACLE   the folder of gen.py and xdrill.py (../shared/oracle, from the repository)
"""

import collections
import os
import random
import subprocess
import sys

import sessions

ROOT = os.path.dirname(os.path.dirname(os.path.abspath(__file__)))
ORACLE = os.environ.get("ORACLE") or os.path.join(ROOT, "..", "shared", "oracle")
DRILL = os.path.join(ROOT, "drill")
BLOCK = 4096
if not os.path.isfile(os.path.join(ORACLE, "xdrill.py")):
    print("drill.py: no xdrill.py in %s; set ORACLE" % ORACLE)
    sys.exit(2)
gen, xdrill = sessions.load(ORACLE)

agreed = collections.Counter()


def expected(text):
    """The model's answers.  Its words beside the page's are no words of drill."""
    model = xdrill.Drill()
    for line in xdrill.split_lines(text):
        page = line.split(b" ")[0] in xdrill.PLAIN
        yield line, (model.line(line) if page else "?")


def kind(answer):
    return answer if answer in ("?", "ok") else "refused" if answer[0] == "-" else "number"


def compare(name, text, pieces=None):
    """Runs drill on a text, in one piece or written in pieces of these lengths."""
    if pieces is None:
        got = subprocess.run([DRILL], input=text, stdout=subprocess.PIPE).stdout
    else:
        run = subprocess.Popen([DRILL], stdin=subprocess.PIPE, stdout=subprocess.PIPE, bufsize=0)
        at = 0
        for piece in pieces:
            run.stdin.write(text[at:at + piece])
            at += piece
        got = run.communicate(text[at:])[0]
    wanted = list(expected(text))
    answers = got.decode("latin-1").split("\n")
    if answers.pop() != "" or len(answers) != len(wanted):
        print("%s: %d lines, %d answers" % (name, len(wanted), len(answers)))
        sys.exit(1)
    for number, ((line, answer), found) in enumerate(zip(wanted, answers), 1):
        if answer != found:
            print("%s, line %d: %r: the model answers %s, drill %s" % (name, number, line[:200], answer, found))
            sys.exit(1)
        agreed[kind(answer)] += 1


def damaged(text, r):
    """The same session with many of its lines changed; the first ones set a device up, and are spared."""
    lines = xdrill.split_lines(text)
    out = lines[:8]
    for line in lines[8:]:
        line, how, at = bytearray(line), r.random(), r.randrange(len(line) + 1)
        if how < 0.08 and line:
            line[r.randrange(len(line))] = r.randrange(256)
        elif how < 0.14:
            line[at:at] = bytes([r.choice(b"0123456789abcdefABCX -x\t\r\0\x80?")])
        elif how < 0.20 and line:
            del line[min(at, len(line) - 1)]
        elif how < 0.24:
            line += b" " * r.randint(0, 3) + b"0" * r.randint(0, 17)
        elif how < 0.28:
            line = line.ljust(r.choice([79, 80, 81, 82, 100, BLOCK - 1, BLOCK, 5000]), r.choice([b" ", b"0", b"x"]))
        elif how < 0.32:
            parts = bytes(line).split(b" ")
            line = bytearray(b" ".join(p.rjust(r.choice([8, 16, 17]), b"0") if i else p for i, p in enumerate(parts)))
        elif how < 0.34:
            line = bytearray(r.randrange(256) for _ in range(r.randint(0, 90)))
        elif how < 0.36:
            line = bytearray()
        out.append(bytes(line))
    return b"\n".join(out) + r.choice([b"", b"\n"])


def cuts(r, length):
    while length > 0:
        piece = r.choice([1, 2, 7, 80, 81, r.randint(1, 2 * BLOCK)])
        length -= piece
        yield piece


def main():
    seed = int(sys.argv[1]) if len(sys.argv) > 1 else 1
    lines = int(sys.argv[2]) if len(sys.argv) > 2 else 200000
    if subprocess.run([DRILL], stdin=subprocess.DEVNULL).returncode != 0:
        print("drill.py: drill is not built")
        sys.exit(2)
    r = random.Random(seed)
    compare("no input", b"")
    while sum(agreed.values()) < lines:
        text = gen.generate(str(seed), 4000, "drill")
        compare("session %d" % seed, text)
        compare("session %d, damaged" % seed, damaged(text, r))
        compare("session %d, in pieces" % seed, text, cuts(r, len(text)))
        seed += 1
    text = gen.generate(str(seed), 40, "drill")
    for shift in range(len(text) + 1):
        compare("session %d, a block ends after byte %d" % (seed, shift),
                b"?" * (BLOCK - shift - 1) + b"\n" + text if shift < BLOCK else text)
    total = sum(agreed.values())
    print("%d lines agreed: %s" % (total, ", ".join("%d %s" % (agreed[k], k) for k in ("?", "ok", "refused", "number"))))


main()
