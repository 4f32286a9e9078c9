#!/usr/bin/env python3
"""Random sessions of calls as theorems of the definitions in crates/model.

    sessions.py ORACLE SEED LINES [options] > crates/worked/proofs/SessionsNAME.antt
    sessions.py ORACLE SEED LINES [options] --log FILE
    sessions.py ORACLE SEED LINES [options] --calls N --probe [--log FILE]

ORACLE is the folder of xdrill.py, a model of the device in Python, and of
gen.py, which makes LINES random lines from SEED.  Each line is one call (lines
that are answered '?' are none, 'dump' ends a chunk).  The calls are cut into
chunks.  For each chunk the file has a theorem: from the state before it, each
call gives the answer that xdrill gives, and the state after it is xdrill's.

    --chunk N       about N calls to a chunk (a search or a record counts for more)
    --counts N:N..  the counts that devices are set up with (0: unset)
    --count N       leave out calls on a device whose count is above N
    --search N      and those that look for the best interrupt if the count is above N
    --record N      and those that save or restore if the count is above N
    --calls LIST    only these calls of the session, numbered from 1: 3-7,12
    --unsound       instead, for each chunk, the state before it with one word (or
                    the length) out of range: every call of it answers -14

--log reads what a check of the file printed and says for each theorem that
failed which calls it has, with the state before and the answers expected.
With --chunk 1 a theorem is one call, so that the call that differs is named.
--probe writes theorems on the bits of what the definitions answer to call N and
of the first word that they leave otherwise.  Those that fail are the bits that
are 0: --probe --log reads them from what the check printed.
"""

import argparse
import random
import re
import sys

STATE_WORDS = 1760
FILLER = 0xA5                     # what a buffer holds that is lent to save


# ---- the device as words ---------------------------------------------------

def bits(irqs, field):
    return sum(getattr(irq, field) << n for n, irq in enumerate(irqs)
               if irq is not None)


def bank(irqs):
    """The 16 words of 32 interrupts; None where one is absent."""
    words = [bits(irqs, f) for f in
             ("group", "enabled", "latch", "active", "line")]
    for k in range(0, 32, 4):
        words.append(sum(irq.priority << (8 * n)
                         for n, irq in enumerate(irqs[k:k + 4])
                         if irq is not None))
    return words + [bits(irqs[:16], "edge"), bits(irqs[16:], "edge"), 0]


def encode(device):
    words = [0] * STATE_WORDS
    words[0:5] = [int(device.initialised), device.count, len(device.vcpus),
                  device.grpen[0] + 2 * device.grpen[1], device.statusr]
    for v, vcpu in enumerate(device.vcpus):
        at = 16 + 32 * v
        words[at:at + 16] = bank(vcpu.private)
        words[at + 16:at + 27] = [
            vcpu.affinity, vcpu.running, vcpu.statusr, vcpu.pmr,
            2 * vcpu.eoimode, *vcpu.bpr, *vcpu.apr, *vcpu.grpen]
    if device.initialised:
        for w in range(1, device.count // 32):
            at = 256 + 16 * w
            words[at:at + 16] = bank([device.spi(i) for i in
                                      range(32 * w, 32 * w + 32)])
        for i in device.spi_ids():
            words[736 + i] = device.spi(i).route
    return words


BANK = (["group", "enabled", "latch", "active", "line"]
        + ["priority %d" % (4 * k) for k in range(8)]
        + ["edge flags 0-15", "edge flags 16-31", "bank word 15"])
OWN = ["affinity", "running", "STATUSR", "PMR", "CTLR bits", "BPR0", "BPR1",
       "AP0R", "AP1R", "IGRPEN0", "IGRPEN1"]


def place_name(p):
    if p < 5:
        return ["initialised", "count", "vCPUs", "group enables", "STATUSR"][p]
    if p < 16:
        return "word %d" % p
    if p < 272:
        v, k = divmod(p - 16, 32)
        if k < 16:
            return "vCPU %d %s" % (v, BANK[k])
        return "vCPU %d %s" % (v, OWN[k - 16] if k < 27 else "word %d" % k)
    if p < 768:
        w, k = divmod(p - 256, 16)
        return "SPI word %d %s" % (w, BANK[k])
    return "route of %d" % (p - 736)


# ---- lines as calls ----------------------------------------------------------

def number(n):
    return str(n) if n < 10 else hex(n)


def word_list(words):
    """A list of numbers; runs of one number by replicate."""
    parts, plain, at = [], [], 0
    while at < len(words):
        end = at
        while end < len(words) and words[end] == words[at]:
            end += 1
        if end - at >= 6:
            if plain:
                parts.append("(%s ∷ [])" % " ∷ ".join(map(number, plain)))
            plain = []
            parts.append("replicate %d %s" % (end - at, number(words[at])))
        else:
            plain += words[at:end]
        at = end
    if plain or not parts:
        text = " ∷ ".join([*map(number, plain), "[]"])
        parts.append("(%s)" % text if parts else text)
    return " ++ ".join(parts)


NUMBERS = {
    b"irqs": lambda n: ("set_attribute", 3, 0, n),
    b"init": lambda: ("set_attribute", 4, 0, 0),
    b"vcpu": lambda a: ("add_vcpu", a),
    b"run": lambda v, l: ("set_running", v, bool(l)),
    b"line": lambda v, i, l: ("change_line", v, i, bool(l)),
    b"sig": lambda v: ("query_signal", v),
    b"dr": lambda v, o: ("read_distributor", v, o, 4),
    b"dw": lambda v, o, x: ("write_distributor", v, o, 4, x),
    b"rr": lambda v, f, o: ("read_frame", v, f, o, 4),
    b"rw": lambda v, f, o, x: ("write_frame", v, f, o, 4, x),
    b"sr": lambda v, e: ("read_system", v, e),
    b"sw": lambda v, e, x: ("write_system", v, e, x),
    b"get": lambda g, a: ("get_attribute", g, a),
    b"set": lambda g, a, x: ("set_attribute", g, a, x),
    b"rdb": lambda v, o: ("read_distributor", v, o, 1),
    b"wdb": lambda v, o, x: ("write_distributor", v, o, 1, x),
    b"rrb": lambda v, f, o: ("read_frame", v, f, o, 1),
    b"wrb": lambda v, f, o, x: ("write_frame", v, f, o, 1, x),
    b"rdw": lambda v, o, s: ("read_distributor", v, o, s),
    b"wdw": lambda v, o, s, x: ("write_distributor", v, o, s, x),
    b"rrw": lambda v, f, o, s: ("read_frame", v, f, o, s),
    b"wrw": lambda v, f, o, s, x: ("write_frame", v, f, o, s, x),
    b"new": lambda: ("make",),
}
SEARCHES = (0xC640, 0xC642, 0xC660, 0xC662)     # IARg, HPPIRg


class Row:
    """One call, what it answers, and the states around it."""

    def __init__(self, line, answer, before, after, count):
        word, *args = line.split(b" ")
        self.before, self.after, self.count = before, after, count
        self.errno = int(answer[1:]) if answer.startswith("-") else None
        self.handed = None
        if word == b"save":
            self.kind = "save"
            self.length = int(args[0], 16)
            if self.errno is None:
                # a longer buffer only makes the list longer
                self.handed = list(bytes.fromhex(answer))
                self.length = min(self.length, len(self.handed) + 3)
            elif self.errno != 28:
                self.length = min(self.length, 20)
            self.value = None if self.handed is None else len(self.handed)
        elif word == b"restore":
            self.kind = "restore"
            self.record = [] if args[0] == b"." else list(
                bytes.fromhex(args[0].decode()))
            self.value = 0
        else:
            self.kind, *self.args = NUMBERS[word](*[int(a, 16) for a in args])
            self.value = (0 if answer == "ok" else None
                          if self.errno is not None else int(answer, 16))

    def searches(self):
        return self.kind == "query_signal" or (
            self.kind == "read_system" and self.args[1] in SEARCHES)

    def records(self):
        return self.kind in ("save", "restore")

    def weight(self):
        if self.errno == 14:
            return 1
        if self.searches():
            return 1 + self.count / 64
        if self.records():
            return 2 + self.count / 64
        return 1

    def call(self):
        if self.kind == "save":
            return "save (replicate %d %s)" % (self.length, number(FILLER))
        if self.kind == "restore":
            text = word_list(self.record)
            return "restore (%s)" % text if " " in text else "restore " + text
        return " ".join([self.kind, *(str(a).lower() if isinstance(a, bool)
                                      else number(a) for a in self.args)])

    def term(self):
        if self.errno is not None:
            return "refuses (%s) %d" % (self.call(), self.errno)
        if self.kind == "save":
            return "saves %d (%s)" % (self.length, word_list(self.handed))
        call = self.call()
        return "gives %s %s" % ("(%s)" % call if " " in call else call,
                                number(self.value))

    def expected(self):
        if self.errno is not None:
            return "-%d" % self.errno
        if self.handed is not None:
            return "%d, %s" % (self.value, bytes(self.handed).hex())
        return "0x%x" % self.value


def call_numbers(text):
    numbers = set()
    for part in filter(None, text.split(",")):
        first, _, last = part.partition("-")
        numbers.update(range(int(first), int(last or first) + 1))
    return numbers


def load(oracle):
    """gen.py and xdrill.py of a folder."""
    sys.dont_write_bytecode = True
    sys.path.insert(0, oracle)
    import gen
    import xdrill
    # xdrill has accesses of any size in the distributor only: here also in frames
    u64 = xdrill.U64
    xdrill.EXTRA[b"rrw"] = ((u64,) * 4, True,
                            lambda d, v, f, o, s: d.guest_mmio_read(v, f, o, s))
    xdrill.EXTRA[b"wrw"] = ((u64,) * 5, False, lambda d, v, f, o, s, x:
                            d.guest_mmio_write(v, f, o, s, x))
    return gen, xdrill


def play(options):
    """The rows of the session, cut into chunks."""
    gen, xdrill = load(options.oracle)
    if options.counts:
        gen.COUNTS = list(options.counts)
    drill = xdrill.Drill()
    chunks, chunk, weight, made = [], [], 0, 0
    wanted = call_numbers(options.calls)
    before = encode(drill.device)
    r = random.Random("frames/%s" % options.seed)
    for line in xdrill.split_lines(gen.generate(options.seed, options.lines)):
        word, *args = line.split(b" ")
        if word in (b"rdw", b"wdw") and len(args) > 2 and r.randrange(2):
            frame = b"%x" % r.randrange(len(drill.device.vcpus) + 1)
            line = b" ".join([word[:1] + b"rw", args[0], frame, *args[1:]])
        answer = drill.line(line)
        if answer == "?":
            continue
        ends = line == b"dump"
        if not ends:
            after = encode(drill.device)
            row = Row(line, answer, before, after, drill.device.count or 256)
            before = after
            made += 1
            row.number = made
            count = max(row.before[1], row.after[1])
            if (count > options.count or wanted and made not in wanted
                    or row.searches() and row.count > options.search
                    or row.records() and row.count > options.record):
                ends = True
            else:
                if weight + row.weight() > options.chunk and chunk:
                    chunks.append(chunk)
                    chunk, weight = [], 0
                chunk.append(row)
                weight += row.weight()
        if ends and chunk:
            chunks.append(chunk)
            chunk, weight = [], 0
    if chunk:
        chunks.append(chunk)
    return chunks


# ---- states that are not sound -------------------------------------------------

def damages(words, r):
    """States with one word, or the length, out of range."""
    initialised, count, n = words[:3]
    at = 16 + 32 * r.randrange(n) if n else None
    last = 256 + 16 * (count // 32 - 1)
    spi = 256 + 16 * r.randrange(1, count // 32) if count else None
    found = [(0, 2), (1, 32), (1, 65), (1, 1056), (2, 9), (3, 4), (4, 16),
             (r.randrange(5, 16), 1), (r.randrange(1756, 1760), 1)]
    if initialised:
        found += [(1, 0), (2, 0)]
    else:
        found += [(0, 1 if n == 0 else 2), (3, 1), (4, 1), (272, 1), (768, 1)]
    if n < 8:
        found += [(16 + 32 * n + 21, 2), (16 + 32 * n, 1), (2, n + 1)]
    if n:
        found += [(at + 4, 1 << r.randrange(16)), (at + 5, 1 << r.randrange(3)),
                  (at + 12, 4 << 24), (at + 13, 0xFFFE), (at + 13, 0),
                  (at + 14, 1), (at + 15, 1), (at + 16, 0x10),
                  (at + 16, 0x1000000), (at + 17, 2), (at + 18, 16),
                  (at + 19, 4), (at + 19, 0x100), (at + 20, 1), (at + 20, 4),
                  (at + 21, 1), (at + 21, 8), (at + 22, 2), (at + 22, 8),
                  (at + 25, 2), (at + 26, 2), (at + 27, 1), (at + 31, 1)]
        if not initialised:
            found += [(at, 1), (at + 17, 1), (at + 19, 8), (at + 21, 3),
                      (at + 23, 1), (at + 26, 1)]
    if n > 1:
        found += [(16 + 32 * (n - 1) + 16, words[32])]
    if initialised and spi:
        found += [(spi + 5 + r.randrange(8), 1 << r.randrange(3)),
                  (spi + 13, 0x10000), (spi + 14, 0x10000), (spi + 15, 1),
                  (736 + 32, 0x1000000)]
        if count < 1024:
            found += [(last + 16 + r.randrange(5), 1), (736 + count, 1)]
        else:
            found += [(last + r.randrange(5), 1 << 28), (last + 12, 8),
                      (last + 14, 1 << 12)]
    states = [words[:p] + [w] + words[p + 1:] for p, w in found
              if words[p] != w]
    return states + [words[:-1], words + [0], []]


def unsound(chunks, options):
    """Each chunk from a damaged state; now and then a make at its end."""
    r = random.Random("unsound/%s" % options.seed)
    out = []
    for chunk in chunks:
        state = r.choice(damages(chunk[0].before, r))
        right = len(state) == STATE_WORDS
        rows = [row for row in chunk if row.kind != "make"]
        for row in rows:
            row.before = row.after = state
            row.errno, row.value, row.handed = 14, None, None
            if row.kind == "save":
                row.length = min(row.length, 20)     # never looked at
        if r.randrange(3) == 0:
            rows.append(Row(b"new", "ok" if right else "-14", state,
                            [0] * STATE_WORDS if right else state, 64))
            rows[-1].number = chunk[-1].number
        if rows:
            out.append(rows)
    return out


# ---- files ----------------------------------------------------------------------

HEAD = """\
use mathlib.Core.Path.{◌≡◌, refl}
use Prim.Native.Nat.{ℕ}
use mathlib.Core.Bool.{true, false}
use mathlib.Core.List.{List, [], ◌∷◌, ◌++◌}
use lib.ListN.{replicate}
use Rattle.model.specs.Calls.{make, add_vcpu, set_running, change_line, query_signal, read_distributor, write_distributor, read_frame, write_frame, read_system, write_system, get_attribute, set_attribute, save, restore}
use Rattle.worked.proofs.Rows.{Row, gives, refuses, saves, words, changed, differs}
"""
USED = ("true", "false", "◌++◌", "replicate", "make", "add_vcpu", "set_running",
        "change_line", "query_signal", "read_distributor", "write_distributor",
        "read_frame", "write_frame", "read_system", "write_system", "get_attribute",
        "set_attribute", "save", "restore", "gives", "refuses", "saves",
        "changed")


def head(body):
    """The use lines, without the names that the body does not use."""
    text = HEAD
    tokens = set(re.findall(r"[^\s(){}.,;]+", body))
    for name in USED:
        if name.strip("◌") not in tokens:
            text = re.sub(r"(, |(?<=\{))%s(?=[,}])" % re.escape(name), "", text)
    text = text.replace("{, ", "{")
    return "".join(l for l in text.splitlines(True) if "{}" not in l)


def pairs_term(pairs):
    """A list of places and words, on lines of their own if it is long."""
    lines, line = [], ""
    for item in ["(%d, %s) ∷ " % (p, number(w)) for p, w in pairs] + ["[]"]:
        if len(line) + len(item) > 150:
            lines.append(line.rstrip())
            line = ""
        line += item
    lines.append(line)
    if not pairs:
        return "[]"
    if len(lines) == 1:
        return "(%s)" % lines[0]
    return "(\n    %s\n    )" % "\n    ".join(lines)


def state_term(words):
    return "words %d %s" % (len(words), pairs_term(
        [(p, w) for p, w in enumerate(words) if w]))


def end_term(name, before, after):
    """The state after a chunk, by what is changed in the one before it."""
    if before == after:
        return name
    if not any(after):
        return "(%s)" % state_term(after)
    return "(changed %s %s)" % (name, pairs_term(
        [(p, y) for p, (x, y) in enumerate(zip(before, after)) if x != y]))


def chunk_text(prefix, k, chunk, states):
    """The theorem of a chunk, after the state and the rows that it names."""
    name, state, rows = ("%s-%s-%d" % (prefix, part, k)
                         for part in ("chunk", "state", "rows"))
    text, key = "", tuple(chunk[0].before)
    if key not in states:
        states[key] = state
        text = "abbrev %s : List ℕ\n%s = %s\n\n" % (
            state, state, state_term(chunk[0].before))
    state = states[key]
    return text + """\
abbrev %s : List Row
%s =
    %s
    ∷ []

%s : differs %s %s %s ≡ 0
unfolding differs
%s = refl
""" % (rows, rows,
       "\n    ∷ ".join(r.term() for r in chunk), name, rows, state,
       end_term(state, chunk[0].before, chunk[-1].after), name)


def command(options):
    words = ["tests/sessions.py", "ORACLE", options.seed, str(options.lines)]
    for name, default in DEFAULTS.items():
        value = getattr(options, name)
        if value != default:
            words += ["--" + name, ":".join(map(str, value))
                      if isinstance(value, tuple) else str(value)]
    return " ".join(words + (["--unsound"] if options.unsound else []))


def write(chunks, options):
    prefix = ("unsound-%s" if options.unsound else "session-%s") % options.seed
    states = {}
    body = "\n".join(chunk_text(prefix, k, chunk, states)
                     for k, chunk in enumerate(chunks, 1))
    what = ("Calls on states with one word, or the length, out of range: each answers -14 and leaves the state. Making a device looks at the length alone."
            if options.unsound else
            "A random session of calls: from each state the calls give these answers and leave the next state.")
    print("-- %s\n-- Made by: %s\n-- %d calls in %d theorems. ORACLE's model of the device, in Python, gave the answers and the states.\n%s\n%s"
          % (what, command(options), sum(map(len, chunks)), len(chunks),
             head(body), body), end="")


def show_state(words):
    for p, w in enumerate(words):
        if w:
            print("    %4d  %-26s 0x%x" % (p, place_name(p), w))


def read_log(chunks, options):
    prefix = ("unsound-%s" if options.unsound else "session-%s") % options.seed
    text = open(options.log, encoding="utf-8").read()
    failed = set(re.findall(r"error: `%s-chunk-(\d+)`" % re.escape(prefix), text))
    for k in sorted(map(int, failed)):
        print("chunk %d differs\n  before" % k)
        show_state(chunks[k - 1][0].before)
        for row in chunks[k - 1]:
            changed = ["%s 0x%x" % (place_name(p), y) for p, (x, y)
                       in enumerate(zip(row.before, row.after)) if x != y]
            print("  call %d  %s\n    expected %s, then %s" % (
                row.number, row.call(), row.expected(),
                ", ".join(changed) or "no change"))


ANSWER_BITS, LEFT_BITS = 34, 44


def probe(row):
    bits_ = [("answer", i) for i in range(ANSWER_BITS)] + [
        ("left", i) for i in range(LEFT_BITS)]
    print(HEAD.replace("{ℕ}", "{ℕ, suc, ◌+◌, ◌*◌, ◌/◌, ◌%◌, ◌^◌}")
          .replace("{true,", "{Bool, true,")
          .replace("Calls.{", "Calls.{Outcome, call, ")
          .replace("{Row, gives, refuses, saves, words, changed,", "{words,")
          + """\
use lib.Dec.{eqb}
use lib.IntN.{ℤ, pos, negsuc}

-- twice the number, and 1 more for a negative one
doubled : ℤ → ℕ
doubled (pos n) = 2 * n
doubled (negsuc n) = 2 * suc n + 1

-- 2047, or the place of the first word that is otherwise than wanted and 2048 times the word
otherwise : ℕ → List ℕ → List ℕ → ℕ
otherwise p [] ys = 2047
otherwise p (x ∷ xs) [] = 2047
otherwise p (x ∷ xs) (y ∷ ys) = elim (eqb x y) [ true ↦ otherwise (suc p) xs ys | false ↦ p + 2048 * x ]

is_set : ℕ → ℕ → Bool
is_set n i = eqb (n / 2 ^ i %% 2) 1

abbrev before : List ℕ
before = %s

abbrev wanted : List ℕ
wanted = %s

abbrev outcome : Outcome
outcome = call (%s) before

abbrev answer : ℕ
answer = doubled outcome.answer

abbrev left : ℕ
left = otherwise 0 outcome.state wanted
""" % (state_term(row.before), state_term(row.after), row.call()))
    for name, i in bits_:
        print("%s-%d : is_set %s %d ≡ true\nunfolding differs doubled otherwise is_set\n%s-%d = refl\n"
              % (name, i, name, i, name, i))


def read_probe(row, log):
    text = open(log, encoding="utf-8").read()

    def value(name, bits_):
        return sum(1 << i for i in range(bits_)
                   if "error: `%s-%d`" % (name, i) not in text)

    answer, left = value("answer", ANSWER_BITS), value("left", LEFT_BITS)
    print("call %d  %s\n  before" % (row.number, row.call()))
    show_state(row.before)
    print("  expected %s, found %s" % (
        row.expected(), "-%d" % (answer // 2) if answer % 2
        else "0x%x" % (answer // 2)))
    if left % 2048 != 2047:
        print("  leaves %s 0x%x, expected 0x%x" % (
            place_name(left % 2048), left // 2048, row.after[left % 2048]))


DEFAULTS = {"chunk": 12, "count": 1024, "search": 1024, "record": 1024,
            "counts": (), "calls": ""}


def main():
    def numbers(text):
        return tuple(map(int, text.split(":")))
    parser = argparse.ArgumentParser(
        description=__doc__, formatter_class=argparse.RawDescriptionHelpFormatter)
    parser.add_argument("oracle")
    parser.add_argument("seed")
    parser.add_argument("lines", type=int)
    for name, default in DEFAULTS.items():
        parser.add_argument("--" + name, default=default,
                            type=numbers if isinstance(default, tuple)
                            else type(default))
    parser.add_argument("--unsound", action="store_true")
    parser.add_argument("--log")
    parser.add_argument("--probe", action="store_true")
    options = parser.parse_args()
    chunks = play(options)
    if options.unsound:
        chunks = unsound(chunks, options)
    if options.probe and options.log:
        read_probe(chunks[0][0], options.log)
    elif options.probe:
        probe(chunks[0][0])
    elif options.log:
        read_log(chunks, options)
    else:
        write(chunks, options)


if __name__ == "__main__":
    main()
