"""The scripts that replay_model.py makes for `replay`: a rehearsal, and every refusal. Each line is played when it is written,
and its answer has to be the expected one.
"""
import contextlib
import copy
import re

import model
import site_model
from model import D, E, WEST, Reader, at, read_message, word
from replay_model import BOOKS, HUGE, Replay, fix_text, refusal_text, replayed, spelled
from site_model import lengths

KINDS = {1: "proposal", 2: "prepare", 3: "commit", 4: "new-view"}


# ---- messages in parts ----

class Letter:
    """A message in its parts, to be changed and written. A tag that is None is made when it is written, by what signs."""

    def __init__(self, kind, rnd, view, site, fix=None, prepared=None, committed=None, tag=None, votes=(), turns=()):
        self.kind, self.round, self.view, self.site, self.fix = kind, rnd, view, site, fix
        self.prepared, self.committed, self.tag = prepared, committed, tag
        # the entries of a commit certificate, each a site and a tag; those of a progress certificate; a count that is not theirs
        self.votes, self.turns, self.count = list(votes), list(turns), None

    @classmethod
    def of(cls, data, limit):
        return cls.read(data, read_message(data, limit))

    @classmethod
    def read(cls, data, said):
        def tag(t):
            return data[t[0] + 4:t[0] + 4 + t[1]]
        letter = cls(said["kind"], *said["head"], said.get("fix"), said.get("prepared"), said.get("committed"), tag(said["tag"]))
        entries = said["attached"][1] if said["attached"] else []
        if letter.kind == 1:
            letter.turns = [cls.read(data, entry) for entry in entries]
        else:
            letter.votes = [(site, tag(t)) for site, t in entries]
        return letter

    def but(self, **changes):
        other = copy.deepcopy(self)
        vars(other).update(changes)
        return other

    def statement(self):
        if self.kind == 4:
            return model.change(self.round, self.view, self.site, self.prepared, self.committed)
        return model.claim(self.kind, self.round, self.view, self.site, self.fix)

    def vote(self, sign, site, tag):
        view, fix = self.committed if self.kind == 4 else (self.view, self.fix)
        return word(site) + model.tag(sign(site, model.claim(2, self.round, view, site, fix)) if tag is None else tag)

    def attachment(self, sign):
        if self.kind == 2 or self.kind == 4 and self.committed is None:
            return b""
        parts = [turn.write(sign) for turn in self.turns] or [self.vote(sign, *vote) for vote in self.votes]
        return word(len(parts) if self.count is None else self.count) + b"".join(parts)

    def draft(self, sign):
        return self.statement() + self.attachment(sign)

    def write(self, sign):
        said = self.statement()
        return said + model.tag(sign(self.site, said) if self.tag is None else self.tag) + self.attachment(sign)


def statement_of(draft, limit):
    reader = Reader(draft, limit)
    reader.statement((1, 2, 3, 4))
    return draft[:reader.at]


# ---- logs ----

class Register(model.Book):
    """A register, as bytes that grow with its rows."""

    def __init__(self):
        super().__init__()
        self.bytes = bytearray()

    def data(self):
        for row in self.rows[len(self.bytes) // 72:]:
            self.bytes += row
        return self.bytes


class Log:
    """Lines, each answered when it is written. The register has all of its rows from the first line on."""

    def __init__(self, register=None):
        self.register, self.program = register or Register(), Replay()
        # None stands for the line of the whole register
        self.lines, self.answers, self.whole = [None], [], True

    def line(self, text):
        if self.whole:
            self.program.register = self.register.data()
        self.lines.append(text)
        answer = self.program.answer(text)
        if answer is not None:
            self.answers.append(answer)
        return answer

    def comment(self, text):
        self.lines.append("# " + text)

    def show(self):
        self.line("books")
        self.line("record")

    def nobody_vouches(self):
        self.line("register -")
        self.whole = False

    def all_vouch(self):
        self.lines.append(None)
        self.whole = True

    def lend(self, sizes, fill=0):
        self.line("lend %d %d %d %d %d" % (*sizes, fill))

    def opens(self, *terms):
        return self.line("open %d %d %d %d %d" % terms)

    @contextlib.contextmanager
    def poked(self, which, place, new):
        """Bytes are laid over a book, as few as can be, and put back."""
        old = bytes(self.program.books[which][place:place + len(new)])
        differ = [k for k in range(len(new)) if new[k] != old[k]]
        span = slice(differ[0], differ[-1] + 1)
        self.poke(which, place + span.start, new[span])
        yield
        self.poke(which, place + span.start, old[span])

    def poke(self, which, place, data):
        self.line("poke %s %d %s" % (BOOKS[which], place, spelled(data)))

    def written(self):
        whole = "register " + spelled(self.register.data())
        return [whole if line is None else line for line in self.lines]


def draft_of(answer):
    """What propose, hear, leave or seal wrote, by its answer."""
    found = re.fullmatch("ok (?:[a-z]+ )?[1-9][0-9]* ([0-9a-f]+)", answer)
    return bytes.fromhex(found[1]) if found else b""


def joined(mode, parts):
    """Logs one behind the other, each with its title, as one script. It is answered what its lines were answered."""
    lines, answers = ["# Made by tools/replay_model.py %s." % mode], []
    for title, log in parts:
        lines += ["", "# " + title] + log.written()
        answers += log.answers

    def unnumbered(texts):
        return [re.sub("^bad line [0-9]+", "bad line", text) for text in texts]
    assert unnumbered(replayed(lines)) == unnumbered(answers)
    return lines


# ---- the rehearsal ----

def packet_text(data, limit):
    m = Letter.of(data, limit)
    text = "the %s of site %d in view %d: " % (KINDS[m.kind], m.site, m.view)
    if m.fix:
        return text + fix_text(m.fix, " ")
    reports = [(name, *report) for name, report in (("prepared", m.prepared), ("committed", m.committed)) if report]
    return text + (", ".join("%s in view %d %s" % (name, view, fix_text(fix, " ")) for name, view, fix in reports) or "nothing")


class Logged(site_model.Play):
    """A run that site_model.py plays, and each site's log of it. Both come to the same record."""

    def __init__(self):
        super().__init__()
        self.book = Register()
        self.logs = {own: Log(self.book) for own in range(len(self.sites))}
        for own, log in self.logs.items():
            log.lend(lengths(1, 0, self.limit))
            log.opens(1, 0, own, self.limit, 9)

    def event(self, text, site, call, expected):
        super().event(text, site, call, expected)
        assert vars(self.sites[site]) == vars(self.logs[site].program.site)

    def called(self, site, text):
        """A call, and what is to be seen behind it."""
        log = self.logs[site]
        if text.startswith("leave"):
            log.line("books")
        answer = log.line(text)
        if text.startswith(("leave", "propose")) or answer.startswith(("ok gathered", "ok decided")):
            log.line("record")

    def hears(self, site, m, *expected):
        self.logs[site].comment(packet_text(m.data, self.limit))
        self.called(site, "hear " + spelled(m.data))
        super().hears(site, m, *expected)

    def proposes(self, site, fix, *expected):
        self.called(site, "propose " + fix_text(fix, " "))
        super().proposes(site, fix, *expected)

    def leaves(self, site, view, *expected):
        self.called(site, "leave %d" % view)
        super().leaves(site, view, *expected)

    def judges(self, site, view, name, turns, *expected):
        self.called(site, "judge %d %s" % (view, spelled(model.progress([m.data for m in turns]))))
        super().judges(site, view, name, turns, *expected)

    def reads(self, site, *expected):
        self.called(site, "read")
        super().reads(site, *expected)

    def seals(self, site, m):
        draft = self.drafts[site]
        self.called(site, "seal %s %s" % (spelled(draft), spelled(self.tag(site, statement_of(draft, self.limit)))))
        super().seals(site, m)

    def shown(self, site):
        self.logs[site].show()
        return self.logs[site]


def nobody_yet():
    log = Log()
    for text in ("record", "propose 7 600000 30000000", "hear 0", "read x", "open 1 0 4 4 9", "read", "books"):
        log.line(text)
    return log


def rehearsal():
    lied, recovered = Logged(), Logged()
    site_model.lie_in_view_1(lied)
    site_model.decide_in_view_2(lied)
    site_model.stay_in_view_3(lied)
    site_model.decisions_of_two(recovered, *site_model.commits_of_three(recovered))
    site_model.forced_by_commits(recovered)
    return joined("rehearsal", (
        ("before a site is open", nobody_yet()),
        ("site 0 lies: the log of site 1, which leads view 2, has to propose the other fix there, and decides it fast", lied.shown(1)),
        ("another run: the log of site 0, which leads view 1, commits, and decides fast", recovered.shown(0)),
        ("the log of site 3, which decides by recovery, and leaves", recovered.shown(3)),
        ("the log of site 1, which commits, and leads view 2, where a commit certificate forces the fix", recovered.shown(1))))


# ---- refusals: four sites, round 9, tags of 4 bytes ----

SIZES = lengths(1, 0, 4)
OWN = "propose 7 600001 30000000"
TRACKLESS = 1000, 600000, 30000000
ILLEGAL = (((0, 600000, 30000000), "track 0"), (TRACKLESS, "track 1,000"),
           ((7, 108000001, 0), "a step too far east"), ((7, WEST[1] - 1, 0), "a step too far west"),
           ((7, 0, 54000001), "a step too far north"), ((7, 0, WEST[2] - 1), "a step too far south"))
NO_ROW = word(9999)


def votes(*voters):
    """Entries of a commit certificate, each a site, or a site with a tag."""
    return [voter if isinstance(voter, tuple) else (voter, None) for voter in voters]


def proposing(site, view, fix=D, turns=()):
    return Letter(1, 9, view, site, fix, turns=turns)


def preparing(site, view=1, fix=D):
    return Letter(2, 9, view, site, fix)


def committing(site, voters=(0, 1, 2), fix=D):
    return Letter(3, 9, 1, site, fix, votes=votes(*voters))


def moving(site, prepared=None, committed=None, voters=(0, 1, 2)):
    return Letter(4, 9, 2, site, None, prepared, committed, votes=votes(*voters) if committed else ())


class Refusing(Log):
    """The log of a site, in which what a call is refused with stands before it."""

    def __init__(self, own, view=1):
        super().__init__()
        self.own = own
        self.lend(SIZES)
        self.good("open 1 0 %d 4 9" % own)
        if view > 1:
            self.good("leave %d" % view)

    def refused(self, text, why, *refusal):
        place, tail = refusal[1:2], refusal[2:]
        title = "%d" % refusal[0] + (" cause %d depth %d" % tail if tail else "") + (" at %d" % place if place else "")
        self.comment("%s: %s" % (title, why))
        answer = self.line(text)
        assert answer == refusal_text(*refusal), (title, why, answer)

    def good(self, text, why=None):
        if why:
            self.comment(why)
        answer = self.line(text)
        assert answer.startswith("ok"), (text, answer)
        return answer

    def packet(self, letter):
        return letter.write(self.register.tag)

    def progress(self, turns):
        return spelled(model.progress([self.packet(turn) for turn in turns]))

    def hear(self, m):
        """The line by which a message is heard, which is given in parts or in bytes."""
        return "hear " + spelled(m if isinstance(m, bytes) else self.packet(m))

    def hears(self, *letters):
        for letter in letters:
            self.good(self.hear(letter))

    def seal(self, draft, tag):
        return "seal %s %s" % (spelled(draft), spelled(tag))


def opening():
    log = Refusing(1)
    log.line("record")
    for terms, why in (("0 0 0 4 9", "f is 0"), ("6 0 0 4 9", "f is 6"), ("1 2 0 4 9", "t is above f"), ("4 2 0 4 9", "17 sites"),
                       ("4294967295 4294967295 0 4 9", "the greatest words"), ("1 0 4 4 9", "there is no site 4"),
                       ("1 0 0 0 9", "L is 0"), ("1 0 0 6 9", "L is no multiple of 4"), ("1 0 0 2052 9", "L is above 2,048")):
        log.refused("open " + terms, why, 1)
    log.comment("the site that was open stays")
    log.line("record")
    log.good("open 5 0 15 2048 4294967295", "16 sites")
    log.line("record")
    return log


def short():
    log = Refusing(1)
    for k, name in enumerate(("the tag book", "the certificate book", "the view book", "out")):
        log.lend([size - (j == k) for j, size in enumerate(SIZES)])
        for text in ("propose 1000 600000 30000000", "hear -", "leave 0"):
            log.refused(text, name + " is a byte too short", 2)
    draft = preparing(1).statement()
    log.lend((0, 0, 0, 35))
    log.refused(log.seal(draft, word(0)), "out has 35 bytes: 28, L and 4 are 36", 2)
    log.good("judge 1 00000000", "judge and read look at nothing that is lent")
    log.good("read")
    log.lend((0, 0, 0, 37), 170)
    log.good(log.seal(draft, b"\5"), "out has a byte more")
    log.line("books")
    log.lend([size + 2 for size in SIZES], 170)
    log.good("leave 2", "all are longer")
    log.line("books")
    return log


def packet_faults(log):
    """Packets with a broken layout: what is wrong, the packet, and the place."""
    prepare, commit, full = map(log.packet, (preparing(1), committing(2), moving(0, (1, D), (1, D))))
    plain, committed = map(log.packet, (moving(0), moving(0, None, (1, D))))
    offer = log.packet(proposing(1, 2, D, [moving(0, (1, E), (1, D)), moving(3)]))
    yield "no bytes", b"", 0
    for name, data, places in (
            ("prepare", prepare, (0, 4, 8, 12, 16, 20, 24, 28)), ("commit", commit, (36, 40, 44)),
            ("new-view", full, (16, 20, 24, 36, 40, 44, 56, 64, 68, 72)), ("proposal", offer, (36, 40, 56, 96, 104, 112, 156))):
        for place in places:
            yield "the %s is cut in this word" % name, data[:place + 3], place
    for name, data, place in (("prepare", prepare, 28), ("commit", commit, 68), ("new-view", plain, 24), ("proposal", offer, 168)):
        yield "the %s is cut in its last tag" % name, data[:place + 7], place
        yield "that tag is longer than L", data[:place] + word(5) + bytes(8), place
        yield "that tag's filling is not zero", data[:place] + word(3) + b"\0\0\0\1", place
        yield "a byte is left over", data + b"\0", len(data)
    for kind in (0, 5, HUGE):
        yield "kind %d" % kind, word(kind) + prepare[4:], 0
    yield "a prepare in a progress certificate", at(144, word(2))(offer), 144
    for name, data, place in (("prepared", full, 16), ("committed, behind a prepare", full, 36), ("committed", committed, 20),
                              ("prepared, in an entry", offer, 56)):
        yield "a bool of 2: " + name, at(place, word(2))(data), place
    for name, data, place in (("a commit", commit, 36), ("a new-view", full, 64), ("a proposal", offer, 36), ("an entry", offer, 104)):
        yield "a count of 17: " + name, at(place, word(17))(data), place


def layouts():
    log = Refusing(1)
    log.show()
    for why, data, place in packet_faults(log):
        log.refused(log.hear(data), why, 3, place)
    log.show()
    return log


def sealed_layouts():
    log = Refusing(1)
    log.line("books")
    sign, prepare, commit = log.register.tag, preparing(1), committing(3)
    said = prepare.statement()
    for why, place, draft, tag in (
            ("a tag of five bytes", 0, said, bytes(5)), ("the same, and no draft", 0, b"", bytes(5)), ("no draft", 0, b"", word(0)),
            ("kind 5", 0, word(5) + said[4:], word(0)), ("the draft is cut", 20, said[:23], word(0)),
            ("a message, not a draft", 28, log.packet(prepare), word(0)), ("a commit without its certificate", 28, commit.statement(), b""),
            ("a new-view without its certificate", 56, moving(0, (1, D), (1, D)).statement(), word(0)),
            ("a prepare in a proposal's certificate", 32, proposing(0, 1, D, [prepare]).draft(sign), word(0))):
        log.refused(log.seal(draft, tag), why, 3, place)
    log.line("books")
    log.good(log.seal(said, b""), "no tag")
    log.good(log.seal(said, b"\xa1\xb2\xc3"), "a tag of three bytes")
    log.good(log.seal(commit.draft(sign), word(9)), "a draft of another site")
    log.line("books")
    return log


def judged_layouts():
    log = Refusing(1)
    none = model.progress([])
    for why, place, view, data in (
            ("no bytes", 0, 1, b""), ("a count of 17", 0, 2, word(17)), ("a prepare as an entry", 4, 2, word(1) + log.packet(preparing(1))),
            ("the certificate is cut", 4, 2, word(1)), ("a byte is left over", 4, 1, none + b"\0"), ("the same, for view 0", 4, 0, none + b"\0")):
        log.refused("judge %d %s" % (view, spelled(data)), why, 3, place)
    return log


def heads():
    log = Refusing(0)
    log.show()
    offer, prepare, commit, turn = letters = proposing(0, 1), preparing(2), committing(2), moving(2).but(view=1)

    def refused(letter, what, *refusal):
        log.refused(log.hear(letter), "a %s %s" % (KINDS[letter.kind], what), *refusal)
    for letter in letters:
        refused(letter.but(round=8), "of round 8", 4, 4)
    for letter in letters:
        refused(letter.but(view=2), "of view 2", 5, 8)
    for view in (0, HUGE):
        refused(prepare.but(view=view), "of view %d" % view, 5, 8)
    refused(offer.but(site=1), "of site 1; site 0 leads", 6, 12)
    refused(prepare.but(site=4), "of site 4", 6, 12)
    refused(commit.but(site=HUGE), "of site 4,294,967,295", 6, 12)
    refused(turn, "in view 1", 6, 12)
    for letter in (offer, commit):
        refused(letter.but(fix=TRACKLESS), "of track 1,000", 7, 16)
    for fix, why in ILLEGAL:
        refused(prepare.but(fix=fix), "of " + why, 7, 16)
    for letter in letters[:3]:
        refused(letter.but(tag=NO_ROW), "with a tag of no row", 8, 28)
    tag = log.register.tag(2, prepare.statement())
    for why, other in (("no tag", b""), ("a tag of three bytes", tag[1:]), ("another's tag", log.register.tag(1, preparing(1).statement()))):
        refused(prepare.but(tag=other), "with " + why, 8, 28)
    log.show()
    return log


def heard():
    log = Refusing(1)
    log.refused(log.hear(proposing(0, 1, D, [moving(0)])), "an entry in view 1", 12, 36, 1, 1)
    log.hears(proposing(0, 1))
    log.refused(log.hear(proposing(0, 1)), "the proposal again", 9)
    log.refused(log.hear(proposing(0, 1, E)), "another proposal", 9)
    log.hears(preparing(2))
    log.show()
    log.refused(log.hear(preparing(2)), "the prepare again", 9)
    log.refused(log.hear(preparing(2, 1, E)), "a prepare of another fix", 10)
    for why, cause, place, voters in (
            ("two entries", 1, 36, (0, 1)), ("four entries", 1, 36, (0, 1, 2, 3)),
            ("the first is of site 4", 4, 40, (4, 5, 6)), ("site 0 twice", 4, 52, (0, 0, 1)),
            ("not ascending", 4, 64, (0, 2, 1)), ("the last is of site 4", 4, 64, (0, 1, 4)),
            ("the first tag", 6, 44, ((0, NO_ROW), 1, 2)), ("the second tag", 6, 56, (0, (1, b""), 2)),
            ("the third tag", 6, 68, (0, 1, (2, word(0))))):
        log.refused(log.hear(committing(2, voters)), why, 12, place, cause, 1)
    log.show()
    log.hears(committing(2))
    log.refused(log.hear(committing(2, (0, 1))), "the commit again, whatever its certificate", 9)
    log.refused(log.hear(committing(2, (0, 1), E)), "a commit of another fix", 10)
    log.show()
    return log


def refused_turns():
    """New-views for view 2: what is wrong, the new-view, and the refusal."""
    full, committed = moving(0, (1, E), (1, D)), moving(0, None, (1, D))
    yield "of round 8", moving(0).but(round=8), (4, 4)
    yield "for view 3", moving(0).but(view=3), (5, 8)
    for view in (0, 2, HUGE):
        yield "prepared in view %d" % view, moving(0, (view, D)), (5, 20)
    yield "committed in view 0", moving(0, None, (0, D)), (5, 24)
    yield "prepared, and committed in view 2", moving(0, (1, E), (2, D)), (5, 40)
    yield "of site 4", moving(4), (6, 12)
    yield "prepared track 1,000", moving(0, (1, TRACKLESS)), (7, 24)
    yield "committed track 1,000", moving(0, None, (1, TRACKLESS)), (7, 28)
    yield "prepared, and committed track 1,000", moving(0, (1, E), (1, TRACKLESS)), (7, 44)
    yield "its tag, behind no report", moving(0).but(tag=NO_ROW), (8, 24)
    yield "its tag, behind one", moving(0, (1, D)).but(tag=b""), (8, 40)
    yield "its tag, behind two", full.but(tag=NO_ROW), (8, 56)
    yield "two entries in its certificate", full.but(votes=votes(0, 1)), (12, 64, 1, 1)
    yield "no entries, behind one report", committed.but(votes=[]), (12, 48, 1, 1)
    yield "the first entry is of site 4", full.but(votes=votes(4, 5, 6)), (12, 68, 4, 1)
    yield "site 0 twice", full.but(votes=votes(0, 0, 1)), (12, 80, 4, 1)
    yield "the last entry is of site 4, behind one report", committed.but(votes=votes(0, 1, 4)), (12, 76, 4, 1)
    yield "the first entry's tag", full.but(votes=votes((0, NO_ROW), 1, 2)), (12, 72, 6, 1)
    yield "the second entry's tag", full.but(votes=votes(0, (1, bytes(3)), 2)), (12, 84, 6, 1)
    yield "the third entry's tag, behind one report", committed.but(votes=votes(0, 1, (2, NO_ROW))), (12, 80, 6, 1)


# a certificate for view 2, whose entries stand at 4, 52 and 156. It forces d
ENTRIES = [moving(0, (1, E)), moving(1, (1, D), (1, D), (0, 2, 3)), moving(3, (1, E))]
# two fixes are certified in view 1
CLASH = [moving(0, None, (1, D)), moving(2, None, (1, E), (0, 2, 3)), moving(3)]


def bad_entries():
    """That certificate with something wrong: what, the cause, the depth, the place, and the entries."""
    first, second, third = ENTRIES

    def but(k, **changes):
        return [turn.but(**changes) if k == j else turn for j, turn in enumerate(ENTRIES)]

    def voting(*voters):
        return but(1, votes=votes(*voters))

    yield "two entries", 1, 1, 0, [first, second]
    yield "four entries", 1, 1, 0, [first, second, moving(2), third]
    yield "no entries", 1, 1, 0, []
    yield "an entry of round 8", 2, 1, 56, but(1, round=8)
    yield "an entry for view 3", 3, 1, 60, but(1, view=3)
    yield "prepared in view 0", 3, 1, 24, but(0, prepared=(0, E))
    yield "prepared in view 2", 3, 1, 72, but(1, prepared=(2, D))
    yield "committed in view 2", 3, 1, 92, but(1, committed=(2, D))
    yield "an entry of site 4", 4, 1, 168, but(2, site=4)
    yield "site 1 again", 4, 1, 168, but(2, site=1)
    yield "site 0 again", 4, 1, 64, but(1, site=0)
    yield "prepared track 1,000", 5, 1, 28, but(0, prepared=(1, TRACKLESS))
    yield "committed track 1,000", 5, 1, 96, but(1, committed=(1, TRACKLESS))
    yield "the first entry's tag", 6, 1, 44, but(0, tag=NO_ROW)
    yield "the second entry's tag", 6, 1, 108, but(1, tag=NO_ROW)
    yield "the third entry's tag", 6, 1, 196, but(2, tag=word(0))
    yield "two prepares", 1, 2, 116, voting(0, 2)
    yield "four prepares, in as many bytes as three", 1, 2, 116, voting((0, b""), (1, b""), (2, b""), 3)
    yield "the first prepare is of site 4", 4, 2, 120, voting(4, 5, 6)
    yield "site 0 prepares twice", 4, 2, 132, voting(0, 0, 3)
    yield "the last prepare is of site 4", 4, 2, 144, voting(0, 2, 4)
    yield "the first prepare's tag", 6, 2, 124, voting((0, NO_ROW), 2, 3)
    yield "the second prepare's tag", 6, 2, 136, voting(0, (2, word(0)), 3)
    yield "the third prepare's tag", 6, 2, 148, voting(0, 2, (3, NO_ROW))


def judging():
    log = Refusing(3)
    log.show()
    log.refused("judge 0 00000000", "view 0", 5, 0)
    log.refused("judge 0 " + log.progress(ENTRIES), "view 0, whatever the entries", 5, 0)
    log.refused("judge 1 " + log.progress(ENTRIES), "entries in view 1", 12, 0, 1, 1)
    for why, cause, depth, place, turns in bad_entries():
        log.refused("judge 2 " + log.progress(turns), why, 12, place, cause, depth)
    log.refused("judge 2 " + log.progress(CLASH), "two fixes are certified in view 1", 14)
    log.show()
    log.good("judge 1 00000000", "good ones: free, free, forced by a commit certificate, and by a fast one")
    log.good("judge 2 " + log.progress([moving(0), moving(1), moving(2)]))
    log.good("judge 2 " + log.progress(ENTRIES))
    log.good("judge 2 " + log.progress([moving(0, (1, E)), moving(1), moving(3, (1, E))]))
    return log


def hearing_proposals():
    log = Refusing(2, 2)
    log.show()
    log.refused(log.hear(proposing(2, 2, D, ENTRIES)), "a proposal of site 2; site 1 leads", 6, 12)
    log.refused(log.hear(moving(0)), "a new-view; site 1 leads", 6, 12)
    for why, cause, depth, place, turns in bad_entries():
        log.refused(log.hear(proposing(1, 2, D, turns)), why, 12, 36 + place, cause, depth)
    log.refused(log.hear(proposing(1, 2, D, CLASH)), "two fixes are certified in view 1", 14)
    log.refused(log.hear(proposing(1, 2, E, ENTRIES)), "d is forced, not e", 15)
    log.show()
    log.hears(proposing(1, 2, D, ENTRIES))
    log.refused(log.hear(proposing(1, 2, E, ENTRIES)), "it has prepared", 9)
    log.show()
    return log


def hearing_turns():
    log = Refusing(1)
    log.refused(OWN, "site 0 leads", 13)
    log.refused("leave 0", "not above 1", 16)
    log.refused("leave 1", "not above 1", 16)
    log.good("leave 2")
    log.refused("leave 2", "not above 2", 16)
    log.show()
    for why, turn, refusal in refused_turns():
        log.refused(log.hear(turn), why, *refusal)
    log.show()
    log.hears(ENTRIES[0], ENTRIES[1])
    log.refused(OWN, "two new-views are gathered, not three", 13)
    log.refused(log.hear(moving(0)), "another new-view of site 0", 9)
    log.hears(ENTRIES[2])
    log.show()
    log.refused(log.hear(ENTRIES[2]), "that of site 3 again", 9)
    log.refused(log.hear(moving(2, None, (1, D), ())), "three are gathered, whatever its certificate", 11)
    log.show()
    return log


def proposals():
    """Propose over a view book that was changed from outside. The entries are in rows 0, 1 and 3, of 104 bytes."""
    log = Refusing(1, 2)
    log.hears(*ENTRIES)
    for fix, why in ILLEGAL:
        log.refused("propose " + fix_text(fix, " "), why, 7, 0)
    log.show()
    for why, book_place, changed, place in (
            ("a bool of site 0's new-view", 16, 2, 20), ("the length of its tag", 40, 5, 44), ("the kind of site 1's", 104, 2, 52),
            ("a count of 17", 168, 17, 116), ("bytes are left over in the row", 168, 2, 144), ("an entry goes on behind the row", 168, 4, 156),
            ("the filling of site 3's tag", 352, 3, 196)):
        with log.poked(2, book_place, word(changed)):
            log.refused(OWN, why, 3, place)
    rows = [log.packet(turn) for turn in ENTRIES]
    for why, cause, depth, place, turns in bad_entries():
        bad = [log.packet(turn) for turn in turns]
        if list(map(len, bad)) == list(map(len, rows)):
            k = [new == old for new, old in zip(bad, rows)].index(False)
            with log.poked(2, 104 * ENTRIES[k].site, bad[k]):
                log.refused(OWN, why, 12, place, cause, depth)
    log.nobody_vouches()
    log.refused(OWN, "nobody vouches any more", 12, 44, 6, 1)
    log.all_vouch()
    log.show()
    log.poke(2, 48, bytes(56))
    log.poke(2, 208, b"\xee" * 104)
    log.good(OWN, "what is behind a new-view in its row, and row 2, are never looked at. d is forced, and proposed")
    log.refused(OWN, "it has proposed", 13)
    log.show()
    return log


def conflict():
    log = Refusing(1, 2)
    log.hears(*CLASH)
    log.show()
    log.refused(OWN, "two fixes are certified in view 1", 14)
    log.show()
    return log


def tampered_books():
    """What is drafted from a tag book and a certificate book that were changed from outside."""
    log = Refusing(1)
    log.hears(proposing(0, 1), preparing(0), preparing(1))
    log.line("books")
    log.poke(0, 4, word(255))
    commit = draft_of(log.good(log.hear(preparing(2)), "site 0's tag is another in the tag book, and so in the commit"))
    packet = draft_of(log.good(log.seal(commit, log.register.tag(1, commit[:28]))))
    log.refused(log.hear(packet), "the site's own commit", 12, 44, 6, 1)
    log.show()
    log.poke(1, 0, word(4))
    turn = draft_of(log.good("leave 6", "the count is 4 in the certificate book, and so in the new-view"))
    tag = log.register.tag(1, turn[:56])
    log.refused(log.seal(turn, tag), "there are three entries", 3, 96)
    log.poke(1, 0, word(3))
    log.show()
    packet = draft_of(log.good(log.seal(at(56, word(3))(turn), tag), "with the count as it was, and still that tag"))
    log.refused(log.hear(packet), "the site's own new-view", 12, 72, 6, 1)
    log.lend(SIZES)
    turn = draft_of(log.good("leave 10", "the books are lent anew, and the certificate is zeros"))
    log.refused(log.seal(turn, b""), "bytes are left over behind a count of 0", 3, 60)
    log.show()
    log.good("open 1 0 1 4 10", "another round. What is lent stays")
    log.show()
    return log


BAD_LINES = (
    ("unknown word", ("hello", "Read", "00000002", "hear- 00", "\x0bread", "\xff")),
    ("too few words", ("hear", "open 1 0 0 4", "lend 32 40 416 352", "poke none 0", "seal x", "register")),
    ("too many words", ("read now", "books 1", "record -", "hear 0000 0002", "leave x y", "open 1 0 0 4 9 -")),
    ("not a number", (
        "leave -1", "leave +2", "leave 2.0", "leave 0x2", "leave -", "leave 4294967296", "leave 99999999999999999999999", "leave \xb2",
        "propose -7 0 0", "propose 7 2147483648 0", "propose 7 0 -2147483649", "propose 7 --1 0", "propose 7 - 0", "open 1 0 0 4 4294967296",
        "lend 0 0 0 0 256", "lend 0 0 0 -1 0", "judge x zz", "poke tags x zz", "poke views -1 00")),
    ("bad bytes", (
        "hear 0", "hear 000", "hear 0g", "hear 0x00", "hear --", "seal 00 0", "seal 0 zz", "judge 1 0-", "register 123", "poke tags 0 z0",
        "poke tags 99 0")),
    ("no such book", ("poke out 0 00", "poke Tags 0 00", "poke certificate x zz", "poke - 0 00")),
    ("outside the book", (
        "poke tags 32 00", "poke cert 39 0000", "poke views 417 -", "poke views 4294967295 00", "poke tags 0 " + "00" * 33)),
)


def bad_lines():
    log = Refusing(0)
    for why, texts in BAD_LINES:
        log.comment("bad: " + why)
        for text in texts:
            assert log.line(text) == "bad line 0: " + why, text
    log.show()
    log.comment("good: no bytes at a book's end, blanks, capitals, zeros in front, the least and the greatest numbers")
    for text in ("poke views 416 -", "\t poke  tags\t28 00aBcDeF \r", "read#", "  hear 0000000A # kind 10", "leave 0000000000000000000001",
                 "propose 4294967295 -2147483648 2147483647", "propose 007 -0 -00054000000", "leave 4294967295", "seal - -"):
        log.line(text)
    log.show()
    return log


SCENES = (
    ("number 1", opening), ("number 2", short), ("number 3, of hear", layouts), ("number 3, of seal", sealed_layouts),
    ("number 3, of judge", judged_layouts), ("numbers 4 to 8, in view 1", heads), ("numbers 9, 10 and 12, in view 1", heard),
    ("numbers 5, 12 and 14, of judge", judging), ("numbers 6, 9, 12, 14 and 15, of proposals", hearing_proposals),
    ("numbers 4 to 9, 11 and 12, of new-views; 13 and 16", hearing_turns), ("numbers 3, 7, 12 and 13, of propose", proposals),
    ("number 14, of propose", conflict), ("tampered books", tampered_books), ("bad lines", bad_lines),
)


def refusals():
    logs = [(title, scene()) for title, scene in SCENES]
    return joined("refusals", [("%s: the log of site %d" % (title, log.own), log) for title, log in logs])
