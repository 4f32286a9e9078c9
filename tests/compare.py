#!/usr/bin/env python3
"""The compiled public calls against a model of the device in Python.

    compare.py [SEED] [LINES] [DEVICES]

Builds libvgic.a (host/run library) and tests/driver.c, which makes its calls.
The driver and xdrill.py get the same lines: some that visit every offset, every
encoding by attribute, every priority at every binary point and running level, and
chains of preemption; records saved into buffers of every
length, and restored whole and damaged at every place into devices of every kind
(records.py); DEVICES (60) random stopped devices, each made again from a fresh
one by puts of every listed attribute or by its record, and then the same calls on
both; then at least LINES random calls (100000), from gen.py's sessions SEED (1),
SEED + 1 and so on, with accesses and unsound states of this script's own between
them.  Each answer is compared, a record with all its bytes, and often all words of
the state, always after a restore.  The driver itself sees to it that a refused
call changes no word, a read only where it is of IAR, and that save changes no byte
but the record's.

Prints how many calls of each kind were compared, how many were refused, and how
often an acknowledge, an end of interrupt, an SGI or a signal came to something.
Ends with status 1 at the first difference, and shows the line; with status 2 if
something is missing or cannot be built.

    ORACLE   the folder of gen.py and xdrill.py (../shared/oracle, from the repository)
    LIBRARY  a libvgic.a to compare in place of the one that rt builds
"""

import collections
import itertools
import os
import subprocess
import sys

import records
import sessions
from lines import GROUPS, ROOT, U32, U64, UNKNOWN, Session, gen, xdrill

MADE = os.path.join(ROOT, "target", "compare")


# ---- random accesses -------------------------------------------------------

DISTRIBUTOR = [(0, 0x20), (0x80, 0x400), (0x400, 0x800), (0xC00, 0xD00),
               (0x6000, 0x8000), (0, 0x10000)]
FRAME = [(0, 0x20), (0x10080, 0x10400), (0x10400, 0x10420), (0x10C00, 0x10C10),
         (0, 0x20000)]
# by a vCPU: both groups on, PMR f8
READY = (b"dw %x 0 3", b"sw %x c230 f8", b"sw %x c666 1", b"sw %x c667 1")
UNLISTED = [0, 0xC22F, 0xC231, 0xC645, 0xC649, 0xC65A, 0xC65C, 0xC65E, 0xC668, 0x4660,
            0x1C660, 0x1C230, 1 << 32 | 0xC660, 1 << 63 | 0xC230, U64]
SIZES = [4] * 8 + [1] * 6 + [0, 2, 3, 8, 1 << 32 | 4, 1 << 32 | 1, U64]


class Accesses:
    """Random lines: any size, any offset, any encoding, any value."""

    def __init__(self, session):
        self.s, self.r = session, session.r

    def offset(self, ranges):
        at = self.r.randrange(*self.r.choice(ranges))
        if self.r.random() < 0.7:
            at -= at % 4
        if self.r.random() < 0.04:
            at += self.r.getrandbits(32) << 32
        if self.r.random() < 0.02:
            at = self.r.choice([U64, U64 - 3, 1 << 63, self.r.getrandbits(64)])
        return at

    def value(self):
        return self.r.choice([self.r.getrandbits(64), self.r.getrandbits(32),
                              1 << self.r.randrange(64), U64, 0,
                              self.r.choice(gen.WORDS)])

    def index(self, wanted):
        """Mostly one of those wanted."""
        n = len(self.s.device.vcpus)
        if not wanted or self.r.random() < 0.03:
            return self.r.choice([n, 8, 1 << 32, U64, self.r.randrange(8)])
        return self.r.choice(wanted)

    def write_and_read(self, write, read, place, value):
        if self.r.random() < 0.6:
            self.s.number(write, *place, value)
        if self.r.random() < 0.6:
            self.s.number(read, *place)

    def running(self):
        """Mostly the index of a vCPU that runs."""
        return self.index([i for i, vcpu in enumerate(self.s.device.vcpus)
                           if vcpu.running])

    def guest(self):
        vcpus, v = self.s.device.vcpus, self.running()
        size, value = self.r.choice(SIZES), self.value()
        if self.r.random() < 0.6:
            place = (v, self.offset(DISTRIBUTOR), size)
            self.write_and_read(b"wdw", b"rdw", place, value)
        else:
            place = (v, self.index(range(len(vcpus))), self.offset(FRAME), size)
            self.write_and_read(b"wrw", b"rrw", place, value)

    def raised(self, v):
        """Makes some interrupt a candidate at vCPU v, which runs."""
        r, device, number = self.r, self.s.device, self.s.number
        i = r.choice([r.randrange(32), r.choice(device.spi_ids())])
        for block in (0x100, 0x380, 0x200):      # enabled, inactive, latched
            place = (v, v, 0x10000 + block) if i < 32 else (v, block + i // 32 * 4)
            number(b"rw" if i < 32 else b"dw", *place, 1 << i % 32)
        if i < 32:
            number(b"wrb", v, v, 0x10400 + i, r.getrandbits(8))
        else:
            number(b"wdb", v, 0x400 + i, r.getrandbits(8))
            number(b"dw", v, 0x6000 + 8 * i, device.vcpus[v].affinity)
        if r.random() < 0.5:
            self.s.every_call(line % v for line in READY)

    def acknowledged(self, v):
        """The signal, both HPPIRs, both IARs and RPR of a vCPU."""
        self.s.number(b"sig", v)
        for encoding in self.r.sample((*gen.HPPIR, *gen.IAR), 4):
            self.s.number(b"sr", v, encoding)
        self.s.number(b"sr", v, gen.RPR)

    def active_id(self, v):
        """Mostly an ID that is active at a vCPU, now and then with bits above it."""
        r, device = self.r, self.s.device
        found = [i for i, irq in device.spis.items() if irq.active]
        if v < len(device.vcpus):
            found += [i for i, irq in enumerate(device.vcpus[v].private) if irq.active]
        i = r.choice(found) if found and r.random() < 0.8 else r.choice(
            [r.randrange(1100), 1019, 1020, 1023, device.count])
        if r.random() < 0.1:
            i |= 1 << r.randrange(10, 64)
        return i

    def sgi_value(self):
        """An SGI to affinities of the device, to all others, or to anyone."""
        r = self.r
        a = r.choice([v.affinity for v in self.s.device.vcpus] or [0])
        value = (a >> 16 & 0xFF) << 32 | (a >> 8 & 0xFF) << 16 | r.randrange(16) << 24
        value |= r.choice([1 << (a & 15), 0xFFFF, r.getrandbits(16)])
        if r.random() < 0.2:
            value |= 1 << 40
        if r.random() < 0.2:
            value |= 1 << r.randrange(64)
        return r.getrandbits(64) if r.random() < 0.05 else value

    def system_value(self, v, encoding):
        """A value that matters to the register, now and then with more bits."""
        r = self.r
        if encoding in (*gen.EOIR, gen.DIR):
            return self.active_id(v)
        if encoding in (gen.SGI0R, gen.SGI1R):
            return self.sgi_value()
        if encoding in gen.APR:
            value = r.choice([0, 0, 0, 1 << r.randrange(32), r.getrandbits(32)])
        else:
            value = r.choice([r.getrandbits(8), r.randrange(8), 0xF8])
        return value | (r.getrandbits(64) << 32 & U64 if r.random() < 0.1 else 0)

    def system(self):
        r, v = self.r, self.running()
        known = v < len(self.s.device.vcpus)
        if known and self.s.device.initialised and r.random() < 0.5:
            self.raised(v)
        if r.random() < 0.4:
            self.acknowledged(v)
        encoding = r.choice(r.choice([gen.SYS_BOTH, gen.SYS_WRITE, gen.SYS_WRITE,
                                      gen.SYS_ALL, UNLISTED]))
        if r.random() < 0.7:
            self.s.number(b"sw", v, encoding, self.system_value(v, encoding))
        if r.random() < 0.4:
            self.s.number(b"sr", v, encoding)

    def low(self, group):
        """Bits 31-0 of an attribute, and now and then more."""
        if group == 6:
            low = self.r.choice(self.r.choice([gen.SYS_BOTH, gen.SYS_ALL, UNLISTED]))
            return low | (1 << self.r.randrange(16, 32) if self.r.random() < 0.05 else 0)
        if group != 7:
            return self.offset(DISTRIBUTOR if group == 1 else FRAME)
        odd = self.r.choice([1, 31, 1 << self.r.randrange(10, 32)])
        return 32 * self.r.randrange(33) + (odd if self.r.random() < 0.1 else 0)

    def set_value(self, group, low):
        """Mostly of 32 bits; for CTLR and SRE mostly one that matters."""
        r, value = self.r, self.value()
        if group == 6 and low in (gen.CTLR, gen.SRE):
            return r.choice([0x400, 0x402, 7, r.randrange(0x800), 1 << 32 | 0x400,
                             1 << 32 | 7, value])
        return value & U32 if r.random() < 0.8 else value

    def attribute(self):
        r = self.r
        group = r.choice((1, 1, 1, 5, 5, 6, 6, 7, 7, r.choice(GROUPS),
                          r.choice(UNKNOWN)))
        high = r.choice([v.affinity for v in self.s.device.vcpus]
                        + [0, r.getrandbits(32)])
        low = self.low(group)
        place = (group, (high << 32) + low & U64)
        self.write_and_read(b"set", b"get", place, self.set_value(group, low))

    def any(self):
        stopped = not self.s.device.any_running()
        if self.r.random() < (0.8 if stopped else 0.04):
            self.attribute()
        elif self.r.random() < 0.5:
            self.system()
        else:
            self.guest()


# ---- sessions --------------------------------------------------------------

def random_session(seed, lines):
    """gen.py's lines, with accesses and unsound states between them."""
    session = Session("seed %s" % seed, 10)
    accesses = Accesses(session)
    for line in xdrill.split_lines(gen.generate(seed, lines)):
        session.call(line)
        if session.r.random() < 0.2:
            accesses.any()
        if session.r.random() < 0.02:
            session.unsound(line)
    session.look()
    return session


def sweep(session, write, read, places):
    """Writes a random word at each place and reads it."""
    for place in places:
        session.number(write, *place, session.r.getrandbits(32))
        session.number(read, *place)


def every_offset(count):
    """Each aligned offset around the listed ones, and each byte of IPRIORITYR."""
    session = Session("every offset, count %d" % count, 64)
    affinities = (0x10203, 0xF)
    for line in (b"new", b"irqs %x" % count, b"vcpu 10203", b"vcpu f", b"init"):
        session.call(line)
    words = range(0, 0x8040, 4)
    frame = [*range(0, 0x100, 4), *range(0x10000, 0x10D00, 4), 0x20000, 0x20080]
    sweep(session, b"set", b"get", [(1, at) for at in words])
    sweep(session, b"set", b"get", [(5, a << 32 | at) for at in frame
                                    for a in affinities])
    sweep(session, b"set", b"get", [(7, a << 32 | i) for i in range(0, 1024, 32)
                                    for a in affinities])
    session.number(b"run", 0, 1)
    sweep(session, b"dw", b"dr", [(0, at) for at in words])
    sweep(session, b"rw", b"rr", [(0, f, at) for at in frame for f in (0, 1)])
    sweep(session, b"wdb", b"rdb", [(0, at) for at in range(0x3F0, 0x810)])
    sweep(session, b"wrb", b"rrb", [(0, f, at) for at in range(0x103F0, 0x10430)
                                    for f in (0, 1)])
    session.look()
    return session


def every_encoding():
    """Each encoding around the listed ones by attribute, bits 31-16 of each, each value of CTLR and SRE."""
    session = Session("every encoding", 64)
    session.every_call([b"new", b"irqs 60", b"vcpu 10203", b"vcpu f", b"init"])
    affinities = (0x10203, 0xF)
    encodings = [*range(0xC200, 0xC240), *range(0xC600, 0xC680),
                 *(e | 1 << k for e in gen.SYS_ALL for k in range(16, 32))]
    sweep(session, b"set", b"get", [(6, a << 32 | e) for e in encodings
                                    for a in affinities])
    for encoding, values in ((gen.CTLR, range(0x810)), (gen.SRE, range(0x20))):
        for value in (*values, *(v | 1 << k for k in range(11, 64) for v in (0x402, 7))):
            session.number(b"set", 6, 0xF << 32 | encoding, value)
            session.number(b"get", 6, 0xF << 32 | encoding)
    session.look()
    return session


def started(name, every, count, affinities):
    """A device whose vCPUs run, with both groups on and PMR f8."""
    session, indexes = Session(name, every), range(len(affinities))
    session.every_call([b"new", b"irqs %x" % count,
                        *(b"vcpu %x" % a for a in affinities), b"init",
                        *(b"run %x 1" % v for v in indexes),
                        *(line % v for v in indexes for line in READY)])
    return session


def every_priority():
    """An SGI of each group at each priority, binary point and running level."""
    session = started("every priority", 256, 64, [0])
    number, sgis = session.number, (9, 5)
    number(b"rw", 0, 0, 0x10100, U32)
    number(b"rw", 0, 0, 0x10080, 1 << sgis[1])
    for g, bpr, priority in itertools.product((0, 1), range(8), range(0, 256, 8)):
        i, other = sgis[g], gen.APR[1 - g]
        number(b"sw", 0, gen.BPR[g], bpr)
        number(b"wrb", 0, 0, 0x10400 + i, priority)
        number(b"rw", 0, 0, 0x10200, 1 << i)
        session.every_call(line for level in range(32) for line in
                           (b"sw 0 %x %x" % (other, 1 << level), b"sig 0"))
        number(b"sw", 0, other, 0)
        number(b"sr", 0, gen.IAR[g])
        number(b"sr", 0, gen.RPR)
        number(b"sr", 0, gen.APR[g])
        number(b"sw", 0, gen.EOIR[g], i)
        number(b"rw", 0, 0, 0x10280, U32)
    session.look()
    return session


def acknowledge_each(session, ids):
    """Raises each in turn at a lower priority number: what IAR gave, with its group."""
    number, taken = session.number, []
    for k, i in enumerate(ids):
        place = (1, 1, 0x10400 + i) if i < 32 else (1, 0x400 + i)
        number(b"wrb" if i < 32 else b"wdb", *place, 0xF8 - 8 * k)
        number(b"line", 1, i, 1)
        number(b"sig", 1)
        given = [number(b"sr", 1, encoding) for encoding in gen.IAR]
        taken += [(g, int(x, 16)) for g, x in enumerate(given) if x != "3ff"]
        number(b"sr", 1, gen.RPR)
    return taken


def end_each(session, taken):
    """Ends each, the last first, by EOIR of the other group and of its own, and DIR."""
    number = session.number
    for g, i in reversed(taken):
        number(b"line", 1, i, 0)
        number(b"sw", 1, gen.EOIR[1 - g], i)
        number(b"sw", 1, gen.EOIR[g], i)
        number(b"sw", 1, gen.DIR, i)
        number(b"sr", 1, gen.RPR)


def every_chain():
    """Chains of preemption in one group and in both, in both EOImodes, at each binary point."""
    session = started("every chain", 64, 96, [1, 0])
    number, ids = session.number, [*range(16, 32), *range(40, 56)]
    number(b"rw", 1, 1, 0x10100, U32)
    number(b"dw", 1, 0x104, U32)
    for groups, mode, bpr in itertools.product(
            (0, U32, 0xAAAAAAAA, 0xFF00FF00), (0, 2), range(8)):
        number(b"sw", 1, gen.CTLR, mode)
        number(b"sw", 1, gen.BPR[0], bpr)
        number(b"sw", 1, gen.BPR[1], bpr)
        number(b"rw", 1, 1, 0x10080, groups)
        number(b"dw", 1, 0x84, groups)
        end_each(session, acknowledge_each(session, ids))
        session.every_call(b"line 1 %x 0" % i for i in ids)
    session.look()
    return session


# ---- comparing -------------------------------------------------------------

def run_tool(*words, cwd=None):
    """What the tool prints is shown only if it fails, with status 2."""
    run = subprocess.run(words, cwd=cwd, stdout=subprocess.PIPE,
                         stderr=subprocess.STDOUT)
    if run.returncode:
        print(run.stdout.decode() + "compare.py: failed: " + " ".join(words))
        sys.exit(2)


def build():
    """The driver, linked with the library."""
    os.makedirs(MADE, exist_ok=True)
    library = os.environ.get("LIBRARY")
    if not library:
        run_tool(os.path.join(ROOT, "host", "run"), "library", cwd=ROOT)
        library = os.path.join(ROOT, "target", "staticlib", "libvgic.a")
    driver = os.path.join(MADE, "driver")
    source = os.path.join(ROOT, "tests", "driver.c")
    run_tool("cc", "-O2", "-Wall", "-Wextra", "-o", driver, source, library)
    return driver


def show_words(expected, got):
    """The first word that differs."""
    xdrills, librarys = (dict(item.split(":") for item in text.split())
                         for text in (expected, got))
    for at in map(str, range(sessions.STATE_WORDS)):
        x, y = xdrills.get(at, "0"), librarys.get(at, "0")
        if x != y:
            print("word %s, %s:" % (at, sessions.place_name(int(at))))
            return x, y
    return expected, got


def show(session, at, got):
    """The line at which the two differ; all lines since the last `new` go to a file."""
    line, expected = session.lines[at], session.answers[at]
    first = max((i for i in range(at) if session.lines[i] == b"new"), default=0)
    print("DIFFERENT: %s, line %d: %s" % (session.name, at + 1, line.decode()))
    if line == b"words":
        expected, got = show_words(expected, got)
    print("xdrill:  %s\nlibrary: %s" % (expected[:400], got[:400]))
    calls = [l for l in session.lines[first:at] if l not in (b"words", b"dump")]
    print("after:\n  " + b"\n  ".join(calls[-session.every:]).decode())
    path = os.path.join(MADE, "lines")
    with open(path, "wb") as file:
        file.write(b"\n".join(session.lines[first:at + 1]) + b"\n")
    print("all lines since the device was made: " + os.path.relpath(path, ROOT))


def compare(driver, session):
    """Whether the driver prints what xdrill does."""
    run = subprocess.run([driver], input=b"\n".join(session.lines) + b"\n",
                         capture_output=True)
    printed = run.stdout.decode().split("\n")[:-1]
    at = next((i for i, (x, y) in enumerate(zip(printed, session.answers)) if x != y),
              len(printed))
    if at == len(session.lines) and run.returncode == 0:
        return True
    show(session, at, printed[at] if at < len(printed)
         else "nothing, status %d. %s" % (run.returncode, run.stderr.decode()))
    return False


EVENTS = ("IAR that gave an ID", "  of these, preemptions", "EOIR that cleared a bit",
          "SGI write that latched", "signal not 0", *records.EVENTS)


def report(done):
    kinds = sum((s.kinds for s in done), collections.Counter())
    errnos = sum((s.errnos for s in done), collections.Counter())
    events = sum((s.events for s in done), collections.Counter())
    for kind, n in sorted(kinds.items()):
        print("%-28s %8d" % (kind, n))
    for errno, n in sorted(errnos.items()):
        print("%-28s %8d" % ("refused with -%d" % errno, n))
    for event in EVENTS:
        print("%-28s %8d" % (event, events[event]))
    print("%d calls compared, %d of them refused, and all words %d times; none differ"
          % (sum(kinds.values()), sum(errnos.values()),
             sum(s.lines.count(b"words") for s in done)))


def every_session(seed, wanted, devices):
    yield from records.every_session(seed, devices)
    yield every_offset(64)
    yield every_offset(1024)
    yield every_encoding()
    yield every_priority()
    yield every_chain()
    calls = 0
    while calls < wanted:
        session = random_session(seed, min(10000, 2 * wanted))
        calls += session.calls
        seed += 1
        yield session


def main():
    seed = int(sys.argv[1]) if len(sys.argv) > 1 else 1
    wanted = int(sys.argv[2]) if len(sys.argv) > 2 else 100000
    devices = int(sys.argv[3]) if len(sys.argv) > 3 else 60
    driver, done = build(), []
    for session in every_session(seed, wanted, devices):
        if not compare(driver, session):
            return 1
        done.append(session)
    report(done)
    return 0


if __name__ == "__main__":
    sys.exit(main())
