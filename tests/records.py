"""Sessions of save and restore for compare.py, and demand 3 as it runs."""

import sessions
from lines import U32, Session, gen, xdrill

LARGE = 0x10000
EVENTS = ("devices made by puts", "devices made by a record", "later calls made on both")
SYSTEM = (gen.PMR, gen.CTLR, *gen.BPR, *gen.APR, *gen.GRPEN)
VALUES = sorted({0, 3, 5, 7, 9, 0xF, 0x1F, 0x50, 0x51, 0x52, 0x53, 0x54, 0x58, 0x60, 0x61, 0x7F,
                 0xF0, 0xF8, 0xFC, 0xFF, 0x3FF, 0x401, 0x402, 0x403, 0x404, 0x3FFF, 0xFFFF,
                 0xFFFF0000, 0xFFFFFF, 0x1FFFFF, 0x0FFFFFFF, 0x1FFFFFFF, 0xAAAAAA, 0x2AAAAAA,
                 0xAAAAAAAA, 0x55555555, 0xF8F8F8F8, 0xF8F8F8F9, 0xF8000000, U32,
                 *(1 << k for k in range(32))})
# forms of no number: not the shortest, above 2^32 - 1, cut off
ILL_FORMED = [b"\x80\x00", b"\x81\x00", b"\x80\x80\x00", b"\xff\xff\xff\xff\x00",
              b"\xff\xff\xff\xff\x10", b"\xff\xff\xff\xff\x1f", b"\xff\xff\xff\xff\x7f",
              b"\xff\xff\xff\xff\x8f\x00", b"\x80\x80\x80\x80\x80\x01",
              b"\xff\xff\xff\xff\xff\x01", b"\x80\x80\x80\x80\x10",
              b"\x80" * 9 + b"\x01", b"\xff" * 10 + b"\x01", b""]


def listed(device):
    """The listed attributes in the record's order, each a group and a number."""
    found = [(1, 0x0), (1, 0x10)]
    for w in range(1, device.count // 32):
        found += [(1, block + 4 * w) for block in (0x80, 0x100, 0x200, 0x300)]
        found += [(7, 32 * w)]
        found += [(1, 0x400 + 32 * w + 4 * k) for k in range(8)]
        found += [(1, 0xC00 + 8 * w + 4 * k) for k in range(2)]
    found += [(1, 0x6000 + 8 * i) for i in device.spi_ids()]
    for vcpu in device.vcpus:
        a = vcpu.affinity << 32
        found += [(5, a + at) for at in (0x10, 0x10080, 0x10100, 0x10200, 0x10300)]
        found += [(7, a)]
        found += [(5, a + 0x10400 + 4 * k) for k in range(8)]
        found += [(6, a + encoding) for encoding in SYSTEM]
    return found


# ---- devices and records ---------------------------------------------------

def added(session, count, affinities):
    """A device that is not initialised; count 0 stays unset."""
    session.call(b"new")
    if count:
        session.number(b"irqs", count)
    session.every_call(b"vcpu %x" % a for a in affinities)


def fresh(session, count, affinities):
    added(session, count, affinities)
    session.call(b"init")


def random_setup(r):
    count = r.choice([64, 64, 96, 128, 256, 992, 1024])
    return count, r.sample(gen.AFFINITIES, r.choice([1, 1, 2, 3, 8]))


def helper(session):
    """gen.py's functions on records, with the session's random numbers."""
    made = gen.Gen(session.name, 0, "x")
    made.r = session.r
    return made


def restore(session, record):
    return session.call(b"restore " + (record.hex().encode() or b"."))


def restore_fresh(session, record, setup):
    """A restore after which the device is fresh again."""
    if restore(session, record) == "ok":
        fresh(session, *setup)


def joined(numbers):
    return b"".join(xdrill.encode_number(x) for x in numbers)


def replaced(coded, k, form):
    return b"".join([*coded[:k], form, *coded[k + 1:]])


class Target:
    """What gen.py's actions call in place of its own device."""

    def __init__(self, session, call):
        self.session, self.call = session, call

    @property
    def device(self):
        return self.session.device

    def line(self, line):
        return self.call(line) or "?"


def random_actions(session, number, call):
    """`number` random lines from gen.py's actions, each given to `call`."""
    actor = gen.Gen(session.name, number, "x")
    actor.r, actor.drill = session.r, Target(session, call)
    actor.choose_hot()
    names, weights = zip(*gen.Gen.ACTIONS)
    try:
        while True:
            getattr(actor, session.r.choices(names, weights)[0])()
    except gen.Done:
        pass


def stop(session):
    session.every_call(b"run %x 0" % i for i, v in enumerate(session.device.vcpus)
                       if v.running)


def random_device(session):
    """A stopped device: from a record of random values, or after random calls."""
    count, affinities = random_setup(session.r)
    fresh(session, count, affinities)
    if session.r.random() < 0.5:
        restore(session, helper(session).random_record(count, affinities))
    if session.r.random() < 0.6 or session.device.is_fresh():
        session.every_call(b"run %x 1" % v for v in range(len(affinities)))
        random_actions(session, session.r.randint(50, 300), session.call)
    if not session.device.initialised:
        fresh(session, count, affinities)
    stop(session)


# ---- save and restore ------------------------------------------------------

def every_buffer():
    """Buffers of each length up to two more than the record; devices that are refused."""
    session = Session("every buffer", 50)
    for count, affinities in ((64, [0]), (64, [0x10203, 0xF]), (96, [1, 0, 2])):
        added(session, count, affinities)
        session.number(b"save", LARGE)
        session.call(b"init")
        for record in (None, helper(session).random_record(count, affinities)):
            if record:
                restore(session, record)
            length = len(session.device.record())
            for n in (*range(length + 3), LARGE):
                session.number(b"save", n)
            for n in (0, length - 1, length, LARGE):
                session.number(b"run", 0, 1)
                session.number(b"save", n)
                session.number(b"run", 0, 0)
                session.unsound(b"save %x" % n)
    session.look()
    return session


def every_byte():
    """Each byte of the fresh record of count 64 and vCPU 0 as each other byte; each cut; each byte after it."""
    session, setup = Session("every byte", 500), (64, [0])
    fresh(session, *setup)
    record = session.device.record()
    for k, old in enumerate(record):
        for new in range(256):
            if new != old:
                restore_fresh(session, record[:k] + bytes([new]) + record[k + 1:], setup)
    for k in range(len(record)):
        restore(session, record[:k])
    for new in range(256):
        restore(session, record + bytes([new]))
    restore(session, record)
    return session


def every_number(setup, places):
    """At each place of a record: values, forms of no number, a cut, and two faults at once."""
    session = Session("every number, count %d" % setup[0], 500)
    fresh(session, *setup)
    numbers = gen.Gen.numbers(helper(session).random_record(*setup))
    coded = [xdrill.encode_number(x) for x in numbers]
    readable = [field.can_read for field in session.device.record_fields()]
    for k in places(len(coded)):
        for value in {*VALUES, numbers[k] + 1 & U32, numbers[k] ^ 1}:
            restore_fresh(session, replaced(coded, k, xdrill.encode_number(value)), setup)
        for form in (*ILL_FORMED, coded[k][:-1] + bytes([coded[k][-1] | 0x80]) + b"\0"):
            restore_fresh(session, replaced(coded, k, form), setup)
        restore(session, joined(numbers[:k]))
        restore(session, joined(numbers[:k + 1])[:-1])
        unread = [x for x in VALUES if not readable[k](x)]
        if unread:
            two_faults(session, coded, k, session.r.choice(unread))
    return session


def places_at_1024(total):
    """The header, the distributor, the last SPI word, the first and last route, the ends of the last of eight vCPUs."""
    own, routes = total - 22 * 8, total - 22 * 8 - 988
    return [0, 1, 2, 3, 10, 11, 12, *range(routes - 15, routes), routes, own - 1,
            total - 22, total - 1]


def two_faults(session, coded, k, value):
    """A value that no device reads, and beside it a form of no number, a cut or bytes that follow."""
    bad, broken = xdrill.encode_number(value), b"\x80\x00"
    front, back = coded[:k], coded[k + 1:]
    for record in ([*front, bad], [*front, bad, *back, b"\0"], [*front, bad, broken, *back[1:]],
                   [*front[:-1], broken, bad, *back], [*front, bad, *back[:-1]],
                   [*front, broken, *back, b"\0"], [*front, bad[:-1] + bytes([bad[-1] | 0x80]), b"\0"]):
        restore(session, b"".join(record))


def every_cut(setup):
    """A record of random values cut at each length, and each of its bytes changed."""
    session = Session("every cut", 500)
    fresh(session, *setup)
    record = helper(session).random_record(*setup)
    while len(record) < 200:
        record = helper(session).random_record(*setup)
    for k in range(len(record)):
        restore(session, record[:k])
        for new in {record[k] ^ 1 << i for i in range(8)} | {0, 0xFF}:
            restore_fresh(session, record[:k] + bytes([new]) + record[k + 1:], setup)
    restore(session, record)
    return session


def every_place(setup):
    """A fresh device but for one word: 17; but for a vCPU that runs: 16; whatever the record."""
    session = Session("every place, count %d" % setup[0], 500)
    fresh(session, *setup)
    record = session.device.record()
    lines = [b"restore " + text.hex().encode() for text in (record, record[:-1])]
    words = sessions.encode(session.device)
    for _ in range(3):
        session.swap()
        fresh(session, *setup)
        restore(session, helper(session).random_record(*setup))
        other = sessions.encode(session.device)
        session.swap()
        for at, (old, new) in enumerate(zip(words, other)):
            if old != new:
                session.poked(at, new, session.r.choice(lines), "-17")
    for v in range(len(setup[1])):
        session.poked(16 + 32 * v + 17, 1, session.r.choice(lines), "-16")
    restore(session, record)
    return session


def other_setups(r, count, affinities):
    """Set-ups beside that of a record: another count, other affinities, their order, more or fewer."""
    swapped = affinities[1:] + affinities[:1]
    spare = [a for a in gen.AFFINITIES if a not in affinities]
    yield count, affinities
    yield r.choice([64, 96, 128, 256, 1024]), affinities
    yield count, swapped
    yield count, affinities[:-1] + [r.choice(spare)]
    if len(affinities) > 1:
        yield count, affinities[:-1]
    if len(affinities) < 8:
        yield count, affinities + [r.choice(spare)]


def touched(session, record):
    """A device that is fresh but for a line: 17; with the line low again it is fresh."""
    session.number(b"line", 0, 32, 1)
    restore(session, record)
    session.number(b"line", 0, 32, 0)


def into_targets(session, record, setup):
    """A record into a device of a set-up in each of its phases."""
    line = b"restore " + (record.hex().encode() or b".")
    added(session, *setup)
    session.call(line)
    session.unsound(line)
    session.call(b"init")
    session.number(b"run", 0, 1)
    session.call(line)
    session.number(b"run", 0, 0)
    session.unsound(line)
    touched(session, record)
    session.call(line)
    session.number(b"save", LARGE)
    session.call(line)


def every_target(seed):
    """Random records, whole and damaged, into devices of the same set-up and of others."""
    session = Session("every target, seed %s" % seed, 20)
    for _ in range(8):
        random_device(session)
        record = session.device.record()
        count, affinities = session.device.count, [v.affinity for v in session.device.vcpus]
        for length in (0, len(record) - 1, len(record), len(record) + 1, LARGE):
            session.number(b"save", length)
        restore(session, record)
        for setup in list(other_setups(session.r, count, affinities)):
            into_targets(session, record, setup)
        for _ in range(6):
            into_targets(session, helper(session).damage(record), (count, affinities))
    return session


# ---- demand 3 --------------------------------------------------------------

def refused_attribute(r, device):
    """An attribute call that a stopped device refuses, as a word and its numbers."""
    known = r.choice(device.vcpus).affinity << 32
    missing = next(a for a in (0xE, 0xD, *gen.AFFINITIES)
                   if device.vcpu_of_affinity(a) is None) << 32
    group, large = r.choice((1, 5, 7)), r.getrandbits(64) | 1 << r.randrange(32, 64)
    return r.choice([
        (b"get", r.choice((0, 2, 8, 1 << 32 | 1)), r.getrandbits(64)),
        (b"set", r.choice((0, 2, 8, 1 << 32 | 1)), 0, r.getrandbits(64)),
        (b"get", 4, 0), (b"set", 4, 1, 0), (b"set", 3, 0, r.choice((64, 1024, 7))),
        (b"get", r.choice((5, 6, 7)), missing), (b"set", r.choice((5, 6, 7)), missing, 0),
        (b"set", group, known + {1: 0x104, 5: 0x10100, 7: 0}[group], large),
        (b"set", 1, 0x8, 0x01001001), (b"set", 5, known + 4, 0),
        (b"set", 6, known + gen.CTLR, r.choice((0, 2, 0x401, 0x403, 0x404))),
        (b"set", 6, known + gen.SRE, r.choice((0, 5, 6, 0xF))),
        (b"get", 6, known + gen.IAR[1]), (b"set", 6, known + gen.EOIR[1], 0),
        (b"set", 6, known + (1 << 16 | gen.PMR), 0xF8), (b"set", 1, 0x102, U32),
        (b"get", 1, 0x60F8), (b"set", 5, known + 0x10084, U32), (b"set", 7, known + 31, U32),
        (b"set", 7, 0x400, U32)])


def put_each(session, values):
    """Puts of every listed attribute in random order, some twice, with gets and refused calls between."""
    r, attributes = session.r, list(values)
    order = attributes + r.choices(attributes, k=r.randrange(len(attributes)))
    r.shuffle(order)
    for attribute in order:
        assert session.number(b"set", *attribute, values[attribute]) == "ok"
        if r.random() < 0.1:
            session.number(b"get", *r.choice(attributes))
        if r.random() < 0.1:
            assert session.number(*refused_attribute(r, session.device)).startswith("-")


def demand_3(seed):
    """A stopped device, and a fresh one that is made equal by puts or by a record; then the same calls on both."""
    session = Session("demand 3, seed %s" % seed, 25)
    random_device(session)
    setup = session.device.count, [v.affinity for v in session.device.vcpus]
    attributes = listed(session.device)
    values = {at: int(session.number(b"get", *at), 16) for at in attributes}
    record = bytes.fromhex(session.number(b"save", LARGE))
    assert list(values.values()) == gen.Gen.numbers(record)[3 + len(setup[1]):]
    session.swap()
    fresh(session, *setup)
    if session.r.random() < 0.7:
        put_each(session, values)
        session.events[EVENTS[0]] += 1
    else:
        restore(session, record)
        session.events[EVENTS[1]] += 1
    assert sessions.encode(session.drill.device) == sessions.encode(session.other.device)
    session.same()
    random_actions(session, 200, lambda line: on_both(session, line))
    return session


def on_both(session, line):
    """A call on both devices: the answers are equal, and so are all words after it."""
    answer = session.call(line)
    if answer is None:
        return None
    session.swap()
    assert session.call(line) == answer
    session.swap()
    session.same()
    session.events[EVENTS[2]] += 1
    return answer


def every_session(seed, number):
    """`number` devices of demand 3, and a tenth as many sessions of targets, beside the fixed ones."""
    yield every_buffer()
    yield every_byte()
    yield every_number((64, [0x10203, 0xF]), range)
    yield every_number((1024, list(range(8))), places_at_1024)
    yield every_cut((64, [0xF, 0x7F0003]))
    yield every_place((64, [0x10203, 0xF]))
    yield every_place((1024, list(range(8))))
    for k in range(max(1, number // 10)):
        yield every_target("%s.%d" % (seed, k))
    for k in range(number):
        yield demand_3("%s.%d" % (seed, k))
