#!/usr/bin/env python3
"""A second reader and writer of the formats in docs/FORMATS.md, and a second judge, in another language.

  model.py explain [L]            explains lines on standard input, as the program `explain` does
  model.py samples                the lines of crates/explain/stdin; the last are packets of the run with a liar, which
                                  site_model.py plays
  model.py fuzz SEED N            N lines: packets whole, cut and damaged, drafts with tags, certificates to be judged
  model.py small [FROM TO [STEP]] every small certificate of the fleet of four sites, as lines to be judged: three
                                  entries for view 4, each with any prepare and any commit of two fixes in views 1 to 3,
                                  or those with a number from FROM to below TO of 117,649

It shares no code with the library, so that the two can be compared. The same hands wrote both, and knew the
library when they wrote this: a misreading of the formats, or of the rules in docs/JUDGING.md, could stand in both.
"""
import random
import struct
import sys


# ---- writing ----

def word(n):
    return struct.pack(">I", n & 0xFFFFFFFF)


def tag(t):
    return word(len(t)) + t + b"\0" * (-len(t) % 4)


def report(r):
    return word(0) if r is None else word(1) + word(r[0]) + b"".join(map(word, r[1]))


def claim(kind, rnd, view, site, fix):
    return b"".join(map(word, (kind, rnd, view, site) + tuple(fix)))


def change(rnd, view, site, prepared, committed):
    return b"".join(map(word, (4, rnd, view, site))) + report(prepared) + report(committed)


def certificate(votes):
    return word(len(votes)) + b"".join(word(s) + tag(t) for s, t in votes)


def progress(new_views):
    return word(len(new_views)) + b"".join(new_views)


def new_view(rnd, view, site, prepared, committed, t, votes=()):
    attached = certificate(votes) if committed is not None else b""
    return change(rnd, view, site, prepared, committed) + tag(t) + attached


# ---- reading ----

class Fault(Exception):
    """The layout is broken at a place."""

    def __init__(self, place):
        self.place = place


class Reader:
    def __init__(self, data, limit):
        self.data, self.limit, self.at = data, limit, 0

    def word(self):
        chunk = self.data[self.at:self.at + 4]
        if len(chunk) < 4:
            raise Fault(self.at)
        self.at += 4
        return int.from_bytes(chunk, "big")

    def words(self, n):
        return tuple(self.word() for _ in range(n))

    def tag(self):
        start = self.at
        n = self.word()
        whole = n + (-n % 4)
        body = self.data[self.at:self.at + whole] if n <= self.limit else b""
        if n > self.limit or len(body) < whole or any(body[n:]):
            raise Fault(start)
        self.at += whole
        return start, n

    def report(self):
        start = self.at
        flag = self.word()
        if flag > 1:
            raise Fault(start)
        return (self.word(), self.words(3)) if flag else None

    def count(self):
        start = self.at
        n = self.word()
        if n > 16:
            raise Fault(start)
        return n

    def certificate(self):
        start = self.at
        return start, [(self.word(), self.tag()) for _ in range(self.count())]

    def statement(self, kinds):
        start = self.at
        kind = self.word()
        if kind not in kinds:
            raise Fault(start)
        said = {"kind": kind, "head": self.words(3)}
        if kind == 4:
            said["places"] = {}
            for name in ("prepared", "committed"):
                said["places"][name] = self.at
                said[name] = self.report()
        else:
            said["fix"] = self.words(3)
        return said

    def attachment(self, said):
        if said["kind"] == 1:
            start = self.at
            return start, [self.message((4,)) for _ in range(self.count())]
        if said["kind"] == 3 or said.get("committed") is not None:
            return self.certificate()
        return None

    def message(self, kinds):
        start = self.at
        said = self.statement(kinds)
        said["start"] = start
        said["tag"] = self.tag()
        said["attached"] = self.attachment(said)
        return said

    def ends(self):
        if self.at != len(self.data):
            raise Fault(self.at)


def read_message(data, limit):
    r = Reader(data, limit)
    said = r.message((1, 2, 3, 4))
    r.ends()
    return said


def read_progress(data, limit):
    """The new-views of a packet that is one progress certificate."""
    r = Reader(data, limit)
    start, entries = r.attachment({"kind": 1})
    r.ends()
    return start, entries


def seal(draft, t, limit):
    """The sealed message, or the refusal's number and place."""
    if len(t) > limit:
        return None, (3, 0)
    r = Reader(draft, limit)
    try:
        said = r.statement((1, 2, 3, 4))
        end = r.at
        r.attachment(said)
        r.ends()
    except Fault as f:
        return None, (3, f.place)
    return draft[:end] + tag(t) + draft[end:], None


# ---- judging ----

class Refused(Exception):
    """A refusal: its number, and what comes with it."""

    def __init__(self, number, place=None, cause=None, depth=None):
        self.number, self.place, self.cause, self.depth = number, place, cause, depth


def legal(words):
    return 1 <= words[0] <= 999 and abs(signed(words[1])) <= 108000000 and abs(signed(words[2])) <= 54000000


def row(site, statement):
    return word(site) + word(len(statement)) + statement.ljust(64, b"\0")


class Bench:
    """One judging: the fleet, the round and the view, the register, and the certificate."""

    def __init__(self, terms, register, data):
        self.f, self.t, self.limit, self.round, self.view = terms
        self.register, self.data = register, data
        self.n = 3 * self.f + 2 * self.t + 1
        if not 1 <= self.f <= 5 or self.t > self.f or self.n > 16:
            raise Refused(1)
        if not 4 <= self.limit <= 2048 or self.limit % 4:
            raise Refused(1)

    def vouched(self, site, statement, t):
        """Whether the register has the statement in the row that a tag names; the tag is given by place and length."""
        place, size = t
        k = int.from_bytes(self.data[place + 4:place + 4 + size], "big")
        return size == 4 and self.register[72 * k:72 * k + 72] == row(site, statement)

    def report_faults(self, entry):
        """What is wrong with the views of an entry's reports, and then with their fixes, as cause and place."""
        reports = [(entry["places"][name], entry[name]) for name in ("prepared", "committed") if entry[name] is not None]
        views = [(3, place + 4) for place, (view, _) in reports if not 1 <= view < self.view]
        fixes = [(5, place + 8) for place, (_, fix) in reports if not legal(fix)]
        return views, fixes

    def entry_faults(self, entry, before):
        """What is wrong with an entry by itself, in order."""
        start, (rnd, view, site), (end, _) = entry["start"], entry["head"], entry["tag"]
        views, fixes = self.report_faults(entry)
        if rnd != self.round:
            yield 2, start + 4
        if view != self.view:
            yield 3, start + 8
        yield from views
        if site >= self.n or site <= before:
            yield 4, start + 12
        yield from fixes
        if not self.vouched(site, self.data[start:end], entry["tag"]):
            yield 6, end

    def votes_faults(self, entry):
        """What is wrong with the commit certificate of an entry, in order."""
        if entry["committed"] is None:
            return
        view, fix = entry["committed"]
        start, votes = entry["attached"]
        if len(votes) != self.n - self.f - self.t:
            yield 1, start
        before = -1
        for site, t in votes:
            if site >= self.n or site <= before:
                yield 4, t[0] - 4
            if not self.vouched(site, claim(2, self.round, view, site, fix), t):
                yield 6, t[0]
            before = site

    def faults(self, entries):
        """All that is wrong, in order, as cause, place and depth."""
        if len(entries) != (0 if self.view == 1 else self.n - self.f):
            yield 1, 0, 1
        before = -1
        for entry in entries:
            yield from ((cause, place, 1) for cause, place in self.entry_faults(entry, before))
            yield from ((cause, place, 2) for cause, place in self.votes_faults(entry))
            before = entry["head"][2]

    def verdict(self, entries):
        """None if any fix may be proposed; else the kind of certificate that forces a fix, its view, and the fix."""
        prepared = [e["prepared"] for e in entries if e["prepared"] is not None]
        committed = [e["committed"] for e in entries if e["committed"] is not None]
        fast, fast_fix = 0, None
        for fix in {fix for _, fix in prepared}:
            views = sorted((view for view, other in prepared if other == fix), reverse=True)
            if len(views) >= self.f + self.t + 1:
                assert fast == 0
                fast, fast_fix = views[self.f + self.t], fix
        top = max((view for view, _ in committed), default=0)
        if fast > top:
            return "fast", fast, fast_fix
        if top == 0:
            return None
        fixes = {fix for view, fix in committed if view == top}
        if len(fixes) > 1:
            raise Refused(14)
        return "commit", top, fixes.pop()

    def judge(self):
        try:
            _, entries = read_progress(self.data, self.limit)
        except Fault as f:
            raise Refused(3, f.place)
        if self.view == 0:
            raise Refused(5, 0)
        for cause, place, depth in self.faults(entries):
            raise Refused(12, place, cause, depth)
        return self.verdict(entries)


# ---- showing ----

NAMES = {1: "propose", 2: "prepare", 3: "commit", 4: "new-view"}
MEANS = {1: "outside the limits of a fleet or a tag",
         3: "the layout is broken there: a word or a tag is cut, a kind is unknown or not allowed, a bool is above 1, "
            "a count is above 16, a tag is too long or filled wrongly, or bytes are left over",
         5: "the view is 0",
         14: "two fixes are certified in the highest view that has a commit certificate"}
CAUSES = {1: "it has more entries than it takes, or fewer",
          2: "an entry is of another round",
          3: "an entry is of another view, or reports a view that is 0 or not below the judged one",
          4: "a site is no site of the fleet, or not above the one before",
          5: "a reported fix is not legal",
          6: "a tag is not vouched for"}
DEPTHS = {1: "in the certificate itself", 2: "in the commit certificate of an entry"}
LEAST = {1: 36, 2: 32, 3: 36, 4: 28}


def signed(n):
    return n - (1 << 32) if n >> 31 else n


def angle(z, up, down):
    whole, parts = divmod(abs(z), 10000)
    degrees, minutes = divmod(whole, 60)
    return "%d°%02d.%04d'%s" % (degrees, minutes, parts, down if z < 0 else up)


def fix_text(words):
    track, lon, lat = words[0], signed(words[1]), signed(words[2])
    tail = "" if legal(words) else ", not legal"
    return "fix %d %d %d, %s %s%s" % (track, lon, lat, angle(lat, "N", "S"), angle(lon, "E", "W"), tail)


def tag_text(t):
    return "tag of %d bytes at %d" % (t[1], t[0])


def certificate_lines(attached, pad):
    start, votes = attached
    yield "%scommit certificate at %d, %d entries" % (pad, start, len(votes))
    for site, t in votes:
        yield "%s  site %d, %s" % (pad, site, tag_text(t))


def change_lines(said, pad):
    yield "%sround %d, view %d, site %d" % ((pad,) + said["head"])
    for name in ("prepared", "committed"):
        r = said[name]
        yield pad + name + (" nothing" if r is None else " in view %d %s" % (r[0], fix_text(r[1])))
    yield pad + tag_text(said["tag"])
    if said["committed"] is not None:
        yield from certificate_lines(said["attached"], pad)


def progress_lines(attached, pad):
    start, entries = attached
    yield "%sprogress certificate at %d, %d entries" % (pad, start, len(entries))
    for entry in entries:
        yield "%s  new-view at %d" % (pad, entry["start"])
        yield from change_lines(entry, pad + "    ")


def message_lines(data, said, pad):
    yield "%s, %d bytes" % (NAMES[said["kind"]], len(data))
    if said["kind"] == 4:
        yield from change_lines(said, pad)
    else:
        yield "%sround %d, view %d, site %d" % ((pad,) + said["head"])
        yield pad + fix_text(said["fix"])
        yield pad + tag_text(said["tag"])
    if said["kind"] == 3:
        yield from certificate_lines(said["attached"], pad)
    if said["kind"] == 1:
        yield from progress_lines(said["attached"], pad)
    yield "%swritten back, the same %d bytes" % (pad, len(data))


def packet_lines(data, limit, pad):
    try:
        said = read_message(data, limit)
    except Fault as f:
        yield "refused with 3 at %d: %s" % (f.place, MEANS[3])
        kind = int.from_bytes(data[:4], "big") if len(data) >= 4 else 0
        if len(data) < LEAST.get(kind, 0):
            yield "%sit has %d bytes, and kind %d at least %d" % (pad, len(data), kind, LEAST[kind])
        return
    yield from message_lines(data, said, pad)


def refusal_text(r):
    text = "refused with %d" % r.number
    if r.place is not None:
        text += " at %d" % r.place
    if r.cause is None:
        return "%s: %s" % (text, MEANS[r.number])
    return "%s, cause %d, depth %d: %s (depth %d: %s)" % (text, r.cause, r.depth, CAUSES[r.cause], r.depth, DEPTHS[r.depth])


def verdict_text(verdict):
    if verdict is None:
        return "free: any legal fix may be proposed"
    kind, view, fix = verdict
    return "forced by the %s certificate of view %d: %s" % (kind, view, fix_text(fix))


def bench_lines(terms, register, data):
    try:
        bench = Bench(terms, register, data)
    except Refused as r:
        yield refusal_text(r)
        return
    yield ("progress certificate of %d bytes, judged for view %d of round %d in a fleet of %d sites (f %d, t %d), register of %d rows"
           % (len(data), bench.view, bench.round, bench.n, bench.f, bench.t, len(register) // 72))
    try:
        yield from progress_lines(read_progress(data, bench.limit), "  ")
    except Fault:
        pass
    try:
        yield "  " + verdict_text(bench.judge())
    except Refused as r:
        yield "  " + refusal_text(r)


def decode(text, start=0):
    """The bytes that a text spells, or what is bad about it; it starts at a character of its line."""
    digits = ""
    for at, c in enumerate(text):
        if c in " \t\r":
            continue
        if c not in "0123456789abcdefABCDEF":
            return None, "no hexadecimal digit at character %d" % (start + at)
        digits += c
    if len(digits) % 2:
        return None, "half a byte is left over"
    return bytes.fromhex(digits), None


def decode_all(parts, start=0):
    """The bytes of parts of a line with a mark between each two, or what is bad about the first bad one."""
    data = []
    for part in parts:
        value, bad = decode(part, start)
        if bad:
            return None, bad
        data.append(value)
        start += len(part) + 1
    return data, None


def numbers(text):
    """The words of a text as numbers, or None."""
    words = text.replace("\t", " ").replace("\r", " ").split(" ")
    words = [w for w in words if w]
    if any(c not in "0123456789" for w in words for c in w):
        return None
    values = [int(w) for w in words]
    return values if all(v < 1 << 32 for v in values) else None


def judging_lines(start, text):
    parts = text.split("|", 2)
    if len(parts) < 3:
        yield start + "bad line: two parts where three have to be"
        return
    terms = numbers(parts[0])
    if terms is None or len(terms) != 5:
        yield start + "bad line: the first part is not five numbers of 32 bits"
        return
    data, bad = decode_all(parts[1:], len(parts[0]) + 1)
    lines = ["bad line: " + bad] if bad else list(bench_lines(terms, *data))
    yield start + lines[0]
    yield from lines[1:]


def line_lines(number, line, limit):
    text = line.split("#", 1)[0]
    if not text.strip(" \t\r"):
        return
    start = "line %d: " % number
    if "|" in text:
        yield from judging_lines(start, text)
        return
    data, bad = decode_all(text.split("+", 1))
    if bad:
        yield start + "bad line: " + bad
        return
    if len(data) == 1:
        lines = list(packet_lines(data[0], limit, "  "))
        yield start + lines[0]
        yield from lines[1:]
        return
    yield start + "draft of %d bytes, tag of %d bytes" % (len(data[0]), len(data[1]))
    sealed, refusal = seal(data[0], data[1], limit)
    if refusal:
        yield "  refused with %d at %d: %s" % (refusal[0], refusal[1], MEANS[refusal[0]])
        return
    yield "  sealed: " + " ".join(sealed[i:i + 4].hex() for i in range(0, len(sealed), 4))
    lines = list(packet_lines(sealed, limit, "    "))
    yield "  " + lines[0]
    yield from lines[1:]


def explain(lines, limit):
    for number, line in enumerate(lines, 1):
        yield from line_lines(number, line.rstrip("\n"), limit)


# ---- samples ----

D = (7, 600000, 30000000)
E = (7, 600001, 30000000)
WEST = (999, (1 << 32) - 108000000, (1 << 32) - 54000000)


def grouped(data):
    return " ".join(data[i:i + 4].hex() for i in range(0, len(data), 4))


def packet_samples():
    votes = [(0, b"\x00\x00\x00\x01"), (1, b"\x00\x00\x00\x02"), (3, b"\x00\x00\x00\x05")]
    prepare = claim(2, 9, 1, 1, D) + tag(b"\x05\x06\x07")
    propose = claim(1, 9, 1, 0, D) + tag(b"\x00\x00\x00\x00") + progress([])
    commit = claim(3, 9, 1, 2, D) + tag(b"\x00\x00\x00\x09") + certificate(votes)
    plain = new_view(9, 2, 3, None, None, b"")
    full = new_view(9, 2, 0, (1, E), (1, D), b"\xaa\xbb\xcc\xdd\xee", votes)
    gathered = progress([full, new_view(9, 2, 1, (1, E), None, b"\x00\x00\x00\x0b"), plain])
    later = claim(1, 9, 2, 1, D) + tag(b"\x00\x00\x00\x0c") + gathered
    yield "a prepare, its tag filled up with one zero", grouped(prepare)
    yield "the same without blanks, in capitals", prepare.hex().upper()
    yield "a propose of view 1", grouped(propose)
    yield "a commit with its certificate", grouped(commit)
    yield "a new-view that reports nothing, with an empty tag", grouped(plain)
    yield "a new-view that reports a prepare and a commit", grouped(full)
    yield "a propose of view 2 over three new-views", grouped(later)
    yield "the far corner: the last legal fix in the south west", grouped(claim(2, 4294967295, 4294967295, 4294967295, WEST) + tag(b"12345678"))
    yield "one step farther west, and track 0: read, but no legal fix", grouped(claim(2, 9, 1, 1, (0, WEST[1] - 1, 0)) + tag(b""))
    yield "kind 5", grouped(b"".join(map(word, (5, 9, 1, 1))))
    yield "a cut word inside the fix", grouped(prepare[:22])
    yield "a filling byte that is not zero", grouped(prepare[:35] + b"\x01")
    yield "a tag of 9 bytes", grouped(claim(2, 9, 1, 1, D) + tag(b"123456789"))
    yield "a tag that is cut", grouped(prepare[:32])
    yield "a byte left over", grouped(prepare + b"\x00")
    yield "a bool of 2", grouped(word(4) + word(9) + word(2) + word(3) + word(2))
    yield "a count of 17", grouped(claim(3, 9, 1, 2, D) + tag(b"") + word(17))
    yield "five whole entries are good layout", grouped(claim(3, 9, 1, 2, D) + tag(b"") + certificate([(s, b"") for s in range(5)]))
    yield "five entries announced, four there", grouped((claim(3, 9, 1, 2, D) + tag(b"") + certificate([(s, b"") for s in range(5)]))[:-8])
    yield "a prepare inside a progress certificate", grouped(claim(1, 9, 2, 1, D) + tag(b"") + progress([prepare]))
    yield "a fault deep inside: the last tag of a nested certificate", grouped(later[:36] + gathered[:len(word(3) + full) - 8] + word(9))
    yield "no digit", "0000002g"
    yield "half a byte", "0000 0002 0"
    yield "sealed: the draft of a prepare with three bytes", grouped(claim(2, 9, 1, 1, D)) + " + 050607"
    yield "sealed with an empty tag: the draft of the commit", grouped(claim(3, 9, 1, 2, D) + certificate(votes)) + " +"
    yield "sealed: a new-view with its certificate", grouped(change(9, 2, 0, (1, E), (1, D)) + certificate(votes)) + " + aabbccddee"
    yield "a tag longer than the limit speaks first", "0000 + 112233445566778899"
    yield "a draft of a commit without its certificate", grouped(claim(3, 9, 1, 2, D)) + " + 00000001"
    yield "a draft with a tag in it already", grouped(prepare) + " + 050607"
    yield "no digit in a tag", grouped(claim(2, 9, 1, 1, D)) + " + 05x"
    yield "not even text", "0002\udcff"
    yield "half a tag", grouped(claim(2, 9, 1, 1, D)) + " + 0"


class Book:
    """A register that is filled row by row."""

    def __init__(self):
        self.rows, self.numbers = [], {}

    def tag(self, site, statement):
        """The tag of a statement of a site, which stands in the register from now on."""
        made = row(site, statement)
        if made not in self.numbers:
            self.numbers[made] = len(self.rows)
            self.rows.append(made)
        return word(self.numbers[made])


class Turn:
    """A new-view to be written. Its tag is made of the one that the register vouches for, and so is that of a voter,
    who is given as a site, or as a site and what its tag is made by."""

    def __init__(self, rnd, view, site, prepared=None, committed=None, voters=()):
        self.round, self.view, self.site, self.voted_round = rnd, view, site, rnd
        self.prepared, self.committed, self.voters, self.tag = prepared, committed, list(voters), lambda t: t

    def vote(self, book, voter):
        site, made = voter if isinstance(voter, tuple) else (voter, lambda t: t)
        view, fix = self.committed
        return site, made(book.tag(site, claim(2, self.voted_round, view, site, fix)))

    def write(self, book):
        said = change(self.round, self.view, self.site, self.prepared, self.committed)
        t = self.tag(book.tag(self.site, said))
        votes = [self.vote(book, voter) for voter in self.voters] if self.committed is not None else []
        return new_view(self.round, self.view, self.site, self.prepared, self.committed, t, votes)


def judging(terms, register, data, spell=grouped):
    return "%d %d %d %d %d | %s | %s" % (tuple(terms) + (spell(register), spell(data)))


def judged(view, turns, fleet=(1, 0), limit=8, edit=lambda data: data):
    """The line that judges new-views of round 9."""
    book = Book()
    data = edit(progress([turn.write(book) for turn in turns]))
    return judging(fleet + (limit, 9, view), b"".join(book.rows), data)


def reported(view, reports, fleet=(1, 0)):
    """The line that judges what the first sites report, each a prepare and a commit."""
    quorum = 2 * fleet[0] + fleet[1] + 1
    turns = [Turn(9, view, site, *report, range(quorum)) for site, report in enumerate(reports)]
    return judged(view, turns, fleet)


def changed(place, judged_for=2, edit=lambda data: data, **fields):
    """A good certificate for view 2, with something else in one of its entries, which stand at 4, 52 and 156."""
    turns = [Turn(9, 2, 0, (1, E)), Turn(9, 2, 1, (1, D), (1, D), (0, 2, 3)), Turn(9, 2, 3, (1, E))]
    for name, value in fields.items():
        setattr(turns[place], name, value)
    return judged(judged_for, turns, edit=edit)


def at(place, new):
    """The edit that puts bytes in place of those at a place."""
    return lambda data: data[:place] + new + data[place + len(new):]


def verdict_samples():
    d, e = D, E
    yield "site 0 lies: it hides its commit certificate from the leader of view 2, who is left with the other fix", \
        judged(2, [Turn(9, 2, 0, (1, e)), Turn(9, 2, 1, (1, d)), Turn(9, 2, 3, (1, e))])
    yield "and shows it to the leader of view 3, who has to stay with that fix", \
        judged(3, [Turn(9, 3, 0, (1, d), (1, d), range(3)), Turn(9, 3, 2, (2, e)), Turn(9, 3, 3, (2, e))])
    yield "one site has a commit certificate: its fix is forced, although two report a prepare of the other", \
        reported(2, [((1, e), None), ((1, d), (1, d)), ((1, e), None)])
    yield "the same without that commit certificate: the fast certificate of the other fix forces it", \
        reported(2, [((1, e), None), ((1, d), None), ((1, e), None)])
    yield "a fast certificate of a later view prevails over a commit certificate", \
        reported(3, [((1, d), (1, d)), ((2, e), None), ((2, e), None)])
    yield "prepares of one fix in views 3 and 2: a fast certificate of view 2", \
        reported(4, [((3, d), None), ((2, d), None), (None, None)])
    yield "and a commit certificate of view 2 for another fix: that prevails", \
        reported(4, [((3, d), None), ((2, d), None), (None, (2, e))])
    yield "and a commit certificate of view 1 alone: it does not", \
        reported(4, [((3, d), None), ((2, d), None), (None, (1, e))])
    yield "two fixes, one prepare of each: any fix", reported(2, [((1, d), None), ((1, e), None), (None, None)])
    yield "three prepares of one fix, in views 1, 3 and 3", reported(4, [((1, d), None), ((3, d), None), ((3, d), None)])
    yield "two commit certificates: the higher view prevails", \
        reported(4, [(None, (1, d)), (None, (3, e)), (None, (2, d))])
    yield "two commit certificates of one view for two fixes", \
        reported(3, [(None, (2, d)), (None, (2, e)), (None, None)])
    yield "the same below a fast certificate of a later view", \
        reported(4, [((3, d), (2, d)), ((3, d), (2, e)), (None, None)])
    yield "six sites, five entries: a fast certificate takes three", \
        reported(3, [((1, d), None), ((2, e), None), ((2, d), None), ((1, d), None), ((2, e), (1, e))], (1, 1))
    yield "view 1, with no entries", judged(1, [])
    yield "a certificate that is good but for what is changed below", changed(0)


def other(k):
    """What makes the tag of row k of any tag."""
    return lambda t: word(k)


def cause_samples():
    trackless = (0, 600000, 30000000)
    yield "one entry more than it takes", judged(2, [Turn(9, 2, site) for site in range(4)])
    yield "entries in view 1", judged(1, [Turn(9, 1, site) for site in range(3)])
    yield "none in view 2", judged(2, [])
    yield "an entry of round 8", changed(1, round=8)
    yield "an entry of view 3", changed(1, view=3)
    yield "a prepare of view 0", changed(0, prepared=(0, E))
    yield "a prepare of the judged view", changed(1, prepared=(2, D))
    yield "a commit of a view above", changed(1, committed=(3, D))
    yield "a site that the fleet does not have", changed(2, site=4)
    yield "a site twice", changed(2, site=1)
    yield "a site below the one before", changed(1, site=0)
    yield "a prepared fix with track 0", changed(0, prepared=(1, trackless))
    yield "a committed fix one step too far west", changed(1, committed=(1, (7, WEST[1] - 1, 30000000)))
    yield "a tag of another row", changed(0, tag=other(1))
    yield "a tag of no row", changed(2, tag=other(9))
    yield "a tag of three bytes, which would be the number of the row", changed(1, tag=lambda t: t[1:])
    yield "a tag of five bytes, which would be that as well", changed(1, tag=lambda t: b"\x00" + t)
    yield "two entries in a commit certificate", changed(1, voters=[0, 2])
    yield "four entries in a commit certificate", changed(1, voters=[0, 1, 2, 3])
    yield "a site twice in a commit certificate", changed(1, voters=[0, 2, 2])
    yield "a site in a commit certificate that the fleet does not have", changed(1, voters=[0, 2, 4])
    yield "a commit certificate of round 8", changed(1, voted_round=8)
    yield "a tag in a commit certificate that is another site's", changed(1, voters=[0, (2, other(2)), 3])
    yield "two faults: the round speaks before the view", changed(1, round=8, view=3)
    yield "a reported view before the site", changed(1, committed=(2, D), site=4)
    yield "the view of the commit before the fix of the prepare", changed(1, prepared=(1, trackless), committed=(2, D))
    yield "the site before the fixes", changed(1, prepared=(1, trackless), site=4)
    yield "the first fix before the second", changed(1, prepared=(1, trackless), committed=(1, trackless))
    yield "the fix before the tag", changed(1, committed=(1, trackless), tag=other(9))
    yield "the tag before the commit certificate", changed(1, tag=other(9), voters=[])
    yield "the first entry's tag before the second entry's round", changed(1, round=8, edit=at(48, word(99)))
    yield "the count of a commit certificate before its sites", changed(1, voters=[3, 0])
    yield "a site in a commit certificate before its tag", changed(1, voters=[0, (0, other(9)), 3])
    yield "a tag in a commit certificate before the next site", changed(1, voters=[0, (2, other(9)), 1])
    yield "a commit certificate before the next entry's round", \
        judged(2, [Turn(9, 2, 0, None, (1, D), (0, 1, 1)), Turn(8, 2, 1), Turn(9, 2, 2)])


def fault_samples():
    yield "view 0", changed(0, judged_for=0)
    yield "view 0 speaks before the entries' count", judged(0, [])
    yield "the layout speaks before view 0", judged(0, [], edit=lambda data: data + b"\x00")
    yield "no certificate at all", judged(2, [], edit=lambda data: b"")
    yield "a count of 17", judged(2, [], edit=lambda data: word(17))
    yield "a prepare as an entry", changed(1, edit=at(52, word(2)))
    yield "a bool of 2", changed(1, edit=at(68, word(2)))
    yield "a tag longer than the limit", changed(0, tag=lambda t: bytes(9))
    yield "a filling byte that is not zero", changed(2, tag=lambda t: t[:3], edit=lambda data: data[:-1] + b"\x04")
    yield "a count of 17 in a commit certificate", changed(1, edit=at(116, word(17)))
    yield "cut in the last tag", changed(1, edit=lambda data: data[:-2])
    yield "bytes left over", changed(1, edit=lambda data: data + word(0))


def line_samples():
    empty = " 9 2 | | " + grouped(progress([]))
    yield "a fleet of 17 sites", "4 2 8" + empty
    yield "no site may break the rules", "0 0 8" + empty
    yield "a tag limit of 6", "1 0 6" + empty
    yield "a fleet of 16 sites, a last row that is cut, as many blanks as one likes", \
        "\t5  0 8 9  1|" + bytes(73).hex() + "|0000 0000"
    yield "the greatest numbers", "1 0 2048 4294967295 4294967295 | | " + grouped(progress([]))
    yield "four numbers", "1 0 8 9 | | 00000000"
    yield "six numbers", "1 0 8 9 1 0 | | 00000000"
    yield "a number of 33 bits", "1 0 8 4294967296 1 | | 00000000"
    yield "a number below zero", "1 0 8 9 -1 | | 00000000"
    yield "two parts", "1 0 8 9 1 | 00000000"
    yield "four parts", "1 0 8 9 1 | | 00000000 |"
    yield "no digit in a register", "1 0 8 9 1 | 0x | 00000000"
    yield "no digit in a certificate", "1 0 8 9 1 | 00 | 0000000o"
    yield "a + is no digit here", "1 0 8 9 1 | | 00 + 00"


def rehearsal_samples():
    """Packets of a run with a liar, as the second site plays it. It stands on this file, and is asked for here alone."""
    from site_model import rehearsal_packets
    for comment, packet in rehearsal_packets():
        yield comment, grouped(packet)


def samples():
    """Comment and line, in order; the limit is 8."""
    yield from packet_samples()
    yield from verdict_samples()
    yield from cause_samples()
    yield from fault_samples()
    yield from line_samples()
    yield from rehearsal_samples()


# ---- small certificates ----

def small(numbers_of):
    """Lines that judge the small certificates with these numbers."""
    reports = [None] + [(view, fix) for fix in (D, E) for view in (1, 2, 3)]
    entries = [(prepared, committed) for prepared in reports for committed in reports]
    for k in numbers_of:
        book = Book()
        picked = (entries[k // 49 ** 2], entries[k // 49 % 49], entries[k % 49])
        turns = [Turn(9, 4, site, *entry, range(3)) for site, entry in enumerate(picked)]
        data = progress([turn.write(book) for turn in turns])
        yield judging((1, 0, 4, 9, 4), b"".join(book.rows), data, bytes.hex)


# ---- random lines ----

FLEETS = [(f, t) for f in range(1, 6) for t in range(f + 1) if 3 * f + 2 * t + 1 <= 16]


class Case:
    """A random certificate to be judged, good but for some damage."""

    def __init__(self, rng):
        self.rng = rng
        self.f, self.t = rng.choice(FLEETS)
        self.n = 3 * self.f + 2 * self.t + 1
        self.limit = rng.choice([4, 8, 64])
        self.round = rng.choice([0, 1, 9, 0xFFFFFFFF])
        self.view = rng.choice([1, 2, 2, 3, 3, 4, 4, 5, 0xFFFFFFFF])
        self.fixes = [D, E, WEST, (999, 0, 54000000)][:rng.choice([1, 2, 2, 3, 4])]
        self.certified = {}
        self.damaged_turn = None
        self.book = Book()
        if rng.random() < 0.3:
            self.book.tag(rng.randrange(self.n), claim(2, 9, 1, 0, D))
        quorum = 0 if self.view == 1 else self.n - self.f
        chances = rng.choice([0, 0.5, 0.9, 1]), rng.choice([0, 0, 0.1, 0.4, 1])
        self.turns = [self.turn(site, *chances) for site in sorted(rng.sample(range(self.n), quorum))]

    def view_below(self):
        return self.rng.choice([v for v in (1, 2, 3, self.view - 2, self.view - 1) if 1 <= v < self.view] or [1])

    def turn(self, site, prepares, commits):
        rng = self.rng
        prepared = committed = None
        if rng.random() < prepares:
            prepared = self.view_below(), rng.choice(self.fixes + self.fixes[:1] * 2)
        if rng.random() < commits:
            view = self.view_below()
            usual = self.certified.setdefault(view, rng.choice(self.fixes))
            committed = view, usual if rng.random() < 0.95 else rng.choice(self.fixes)
        voters = sorted(rng.sample(range(self.n), self.n - self.f - self.t))
        return Turn(self.round, self.view, site, prepared, committed, voters)

    def damage(self):
        """Damages the certificate, an entry, or an entry's commit certificate."""
        rng = self.rng
        if not self.turns or rng.random() < 0.2:
            self.damage_whole()
            return
        if self.damaged_turn not in self.turns or rng.random() < 0.3:
            self.damaged_turn = rng.choice(self.turns)
        turn = self.damaged_turn
        if turn.committed is not None and rng.random() < 0.4:
            self.damage_votes(turn)
        else:
            self.damage_entry(turn)

    def damage_whole(self):
        rng, turns = self.rng, self.turns
        way = rng.randrange(5)
        if way == 0 and turns:
            turns.pop(rng.randrange(len(turns)))
        elif way == 1:
            turns.append(Turn(self.round, self.view, rng.randrange(self.n)))
        elif way == 2 and len(turns) > 1:
            k = rng.randrange(len(turns) - 1)
            turns[k], turns[k + 1] = turns[k + 1], turns[k]
        elif way == 3:
            self.view = rng.choice([0, 1, self.view + 1 & 0xFFFFFFFF])
        else:
            self.round ^= 1

    def damage_entry(self, turn):
        rng = self.rng
        bad_view = rng.choice([0, turn.view, turn.view + 1 & 0xFFFFFFFF, 0xFFFFFFFF])
        bad_fix = rng.choice([(0, 0, 0), (1000, 0, 0), (1, 108000001, 0), (1, 0, 54000001), (7, WEST[1] - 1, 0), (7, 0, WEST[2] - 1)])
        way = rng.randrange(8)
        if way == 0:
            turn.round ^= rng.choice([1, 2, 1 << 31])
        elif way == 1:
            turn.view = rng.choice([0, 1, turn.view - 1, turn.view + 1 & 0xFFFFFFFF])
        elif way == 2:
            turn.site = rng.choice([0, self.n - 1, self.n, turn.site - 1 & 0xFFFFFFFF, turn.site + 1, 0xFFFFFFFF])
        elif way == 3:
            turn.prepared = bad_view, rng.choice(self.fixes)
        elif way == 4:
            turn.committed = bad_view, rng.choice(self.fixes)
        elif way == 5:
            turn.prepared = self.view_below(), bad_fix
        elif way == 6:
            turn.committed = self.view_below(), bad_fix
        else:
            turn.tag = self.bad_tag()

    def bad_tag(self):
        """What makes a tag that is mostly bad of a good one."""
        rng = self.rng
        whole = rng.choice([b"", bytes(3), bytes(5), bytes(9), bytes(64), bytes(65), word(0), word(1), word(0xFFFFFFFF)])
        return rng.choice([
            lambda t: whole,
            lambda t: t[1:],
            lambda t: t[:3],
            lambda t: b"\0" + t,
            lambda t: b"\0" * 4 + t,
            lambda t: t + b"\0",
            lambda t: word(int.from_bytes(t, "big") ^ 1),
        ])

    def damage_votes(self, turn):
        rng, voters = self.rng, turn.voters
        k = rng.randrange(len(voters)) if voters else 0
        way = rng.randrange(6)
        if way == 0:
            turn.voted_round ^= 1
        elif way == 1 or not voters:
            voters.insert(k, rng.randrange(self.n))
        elif way == 2:
            voters.pop(k)
        elif way == 3:
            voters[k] = rng.choice([0, self.n, 0xFFFFFFFF, rng.randrange(self.n)])
        elif way == 4:
            voters[k] = rng.randrange(self.n), self.bad_tag()
        else:
            rng.shuffle(voters)

    def line(self, damaged):
        """The line, whose bytes are damaged as well, sometimes."""
        rng = self.rng
        for _ in range(rng.choice([0, 0, 0, 1, 1, 2, 3])):
            self.damage()
        data = progress([turn.write(self.book) for turn in self.turns])
        register = b"".join(self.book.rows)
        if rng.random() < 0.15:
            data = damaged(data)
        if rng.random() < 0.05:
            data = self.misfilled(data)
        if rng.random() < 0.1:
            register = damaged(register)
        terms = [self.f, self.t, self.limit, self.round, self.view]
        if rng.random() < 0.05:
            terms[:3] = rng.randint(0, 6), rng.randint(0, 6), rng.choice([0, 2, 4, 6, 8, 2048, 2052, 0xFFFFFFFF])
        text = judging(terms, register, data, bytes.hex)
        return text if rng.random() < 0.95 else self.misspelled(text)

    def misfilled(self, data):
        """The bytes with a last byte that is not zero: where a tag ends there, maybe its filling is wrong."""
        return data[:-1] + b"\x01" if data else data

    def misspelled(self, text):
        rng = self.rng
        at = rng.choice([rng.randrange(len(text)), rng.randrange(10)])
        return text[:at] + rng.choice(["", "|", " ", "g", "+", "-", "0", "4294967295", "\t"]) + text[at + rng.randint(0, 1):]


def fuzz(seed, n):
    rng = random.Random(seed)

    def number():
        return rng.choice([0, 1, 2, 3, 4, 5, 9, 16, 17, 999, 1000, 108000000, 0xFFFFFFFF, rng.getrandbits(32)])

    def fix():
        return tuple(number() for _ in range(3))

    def some_tag():
        return bytes(rng.getrandbits(8) for _ in range(rng.choice([0, 1, 2, 3, 4, 5, 7, 8, 8, 9])))

    def votes():
        return [(number(), some_tag()) for _ in range(rng.choice([0, 1, 2, 3, 16, 17]))]

    def some_report():
        return rng.choice([None, (number(), fix())])

    def turn():
        return new_view(number(), number(), number(), some_report(), some_report(), some_tag(), votes())

    def packet(with_tag):
        kind = rng.randint(1, 4)
        t = tag(some_tag()) if with_tag else b""
        if kind == 4:
            committed = some_report()
            body = change(number(), number(), number(), some_report(), committed)
            return body + t + (certificate(votes()) if committed is not None else b"")
        body = claim(kind, number(), number(), number(), fix()) + t
        if kind == 1:
            return body + progress([turn() for _ in range(rng.choice([0, 1, 2, 3, 4]))])
        return body + (certificate(votes()) if kind == 3 else b"")

    def damaged(data):
        way = rng.randint(0, 5)
        if way <= 1 or not data:
            return data
        if way == 2:
            return data[:rng.randint(0, len(data))]
        if way == 3:
            return data + bytes(rng.randint(1, 5))
        at = rng.randrange(len(data))
        return data[:at] + bytes([rng.choice([0, 1, 2, 4, 16, 17, 255, rng.getrandbits(8)])]) + data[at + 1:]

    for _ in range(n):
        if rng.random() < 0.5:
            yield Case(rng).line(damaged)
        elif rng.random() < 0.25:
            yield damaged(packet(False)).hex() + " + " + some_tag().hex()
        else:
            yield damaged(packet(True)).hex() or "00"


def main():
    sys.stdout.reconfigure(encoding="utf-8", errors="surrogateescape")
    mode = sys.argv[1]
    if mode == "explain":
        limit = int(sys.argv[2]) if len(sys.argv) > 2 else 2048
        text = sys.stdin.buffer.read().decode("latin-1")
        for line in explain(text.split("\n"), limit):
            print(line)
    elif mode == "samples":
        print("# Explained with tag limit 8. Made by tools/model.py samples.")
        for comment, line in samples():
            print("# " + comment)
            print(line)
    elif mode == "small":
        bounds = [int(word) for word in sys.argv[2:5]]
        for line in small(range(*bounds) if bounds else range(49 ** 3)):
            print(line)
    else:
        for line in fuzz(int(sys.argv[2]), int(sys.argv[3])):
            print(line)


if __name__ == "__main__":
    main()
