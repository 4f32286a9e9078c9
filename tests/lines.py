"""Lines for the driver, and what the Python model xdrill answers to each: sessions for compare.py."""

import collections
import os
import random
import sys

import sessions

ROOT = os.path.dirname(os.path.dirname(os.path.abspath(__file__)))
ORACLE = os.environ.get("ORACLE") or os.path.join(ROOT, "..", "shared", "oracle")
if not os.path.isfile(os.path.join(ORACLE, "xdrill.py")):
    print("compare.py: no xdrill.py in %s; set ORACLE" % ORACLE)
    sys.exit(2)
gen, xdrill = sessions.load(ORACLE)

GROUPS = (1, 3, 4, 5, 6, 7)
UNKNOWN = (0, 2, 8, 9, 1 << 32 | 1, 1 << 32 | 6, 1 << 63)
U32, U64 = xdrill.U32, xdrill.U64
# 32 bits are the limit of the program `drill`; the calls take 64
for name in (b"irqs", b"run", b"line", b"dr", b"dw", b"rr", b"rw", b"sr", b"sw",
             b"sig"):
    limits, reads, action = xdrill.PLAIN[name]
    limits = tuple(U64 if limit == U32 else limit for limit in limits)
    xdrill.PLAIN[name] = (limits, reads, action)


CALLS = {**sessions.NUMBERS, b"save": lambda n: ("save", n)}


def call_of(line):
    """The call of a line and its numbers, or None if the driver has none."""
    word, *numbers = line.split(b" ")
    if word == b"restore":
        return ("restore", *numbers)
    if word not in CALLS or not all(map(xdrill.HEX.fullmatch, numbers)):
        return None
    try:
        call = CALLS[word](*[int(n, 16) for n in numbers])
    except TypeError:
        return None
    return call


def kind_of(call, answer):
    if call[0] in ("save", "restore"):
        return "%s, %s" % (call[0], "refused with " + answer
                           if answer.startswith("-") else "done")
    if call[0] in ("get_attribute", "set_attribute"):
        return "%s, %s" % (call[0], "group %d" % call[1] if call[1] in GROUPS
                           else "unknown group")
    return call[0]


def moments(device):
    """The AP registers and the latches of SGIs of each vCPU."""
    return [(list(v.apr), [irq.latch for irq in v.private[:16]])
            for v in device.vcpus]


def came_to(call, answer, before, after):
    """What an answered call of the CPU interface came to, if to anything."""
    if call[0] == "query_signal":
        return ["signal not 0"] if answer != "0" else []
    if call[0] == "read_system" and call[2] in gen.IAR and answer != "3ff":
        deeper = any(before[call[1]][0])
        return ["IAR that gave an ID"] + ["  of these, preemptions"] * deeper
    if call[0] != "write_system" or before == after:
        return []
    if call[2] in gen.EOIR:
        return ["EOIR that cleared a bit"]
    if call[2] in (gen.SGI0R, gen.SGI1R):
        return ["SGI write that latched"]
    return []


def words_text(words):
    return "".join([" %d:%x" % (p, w) for p, w in enumerate(words) if w])


class Session:
    """Lines, and what xdrill answers to each; all words after each `every` calls and each record restored."""

    def __init__(self, name, every):
        self.name, self.every = name, every
        self.r = random.Random("compare/%s" % name)
        self.drill, self.other = xdrill.Drill(), xdrill.Drill()
        self.lines, self.answers = [], []
        self.kinds, self.errnos = collections.Counter(), collections.Counter()
        self.events = collections.Counter()
        self.calls = 0

    @property
    def device(self):
        return self.drill.device

    def add(self, line, answer):
        self.lines.append(line)
        self.answers.append(answer)

    def add_call(self, line, call, answer):
        self.add(line, answer)
        self.calls += 1
        self.kinds[kind_of(call, answer)] += 1
        if answer.startswith("-"):
            self.errnos[int(answer[1:])] += 1
        restored = call[0] == "restore" and answer == "ok"
        if restored or self.calls % self.every == 0:
            self.look()

    def look(self):
        self.add(b"words", words_text(sessions.encode(self.device)))
        self.add(b"dump", self.drill.dump())

    def call(self, line):
        """Adds a line, if it is a call that the driver has; its answer."""
        call = call_of(line)
        if call is None:
            return None
        before = moments(self.device)
        answer = self.drill.line(line)
        if answer == "?":
            return None
        self.add_call(line, call, answer)
        if not answer.startswith("-"):
            self.events.update(came_to(call, answer, before, moments(self.device)))
        return answer

    def every_call(self, lines):
        for line in lines:
            self.call(line)

    def number(self, word, *numbers):
        return self.call(b" ".join([word, *(b"%x" % n for n in numbers)]))

    def swap(self):
        """The lines that follow go to the other of two devices."""
        self.drill, self.other = self.other, self.drill
        self.add(b"swap", "swapped")

    def same(self):
        """All words of the two devices must be equal."""
        self.add(b"same", "same")

    def poked(self, at, word, line, answer):
        """A call that is refused with one word of the state replaced."""
        self.add_call(b"poke %x %x %s" % (at, word, line), call_of(line), answer)

    def unsound(self, line):
        """A call on a state that is not sound: 14, but for a make of the right length."""
        call = call_of(line)
        if call is None or xdrill.Drill().line(line) == "?":
            return
        words = sessions.encode(self.device)
        state = self.r.choice(sessions.damages(words, self.r))
        makes = call[0] == "make"
        if len(state) != len(words):
            line, makes = b"length %x %s" % (len(state), line), False
        else:
            at = next(p for p in range(len(words)) if words[p] != state[p])
            line = b"poke %x %x %s" % (at, state[at], line)
        if makes:
            self.drill = xdrill.Drill()
        self.add_call(line, call, "ok" if makes else "-14")
