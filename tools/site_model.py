#!/usr/bin/env python3
"""A second site, in another language: the calls of a site on bytes.

  site_model.py        plays the runs of crates/calls/specs/Examples.antt, and prints each event with its answer,
                       as it stands there, and the lines of Refusals and of Sizing; fails if an answer is not the
                       expected one, or a line does not stand there
  site_model.py show   only prints

It shares no code with the library or its definitions. Packets are read and certificates judged by model.py, which
takes packets of the first run from here into the lines of crates/explain/stdin.
"""
import copy
import os
import sys

import model
from model import D, E, Bench, Fault, Reader, Refused, legal, read_message, word


# ---- a site ----

def certificate_size(f, t, limit):
    return 4 + (2 * f + t + 1) * (limit + 8)


def view_row(f, t, limit):
    return 60 + limit + certificate_size(f, t, limit)


def lengths(f, t, limit):
    """How long the tag book, the certificate book, the view book and out have to be."""
    n = 3 * f + 2 * t + 1
    view = view_row(f, t, limit)
    return n * (limit + 4), certificate_size(f, t, limit), n * view, 36 + limit + (n - f) * view


def open_site(f, t, own, limit, rnd):
    """The answer, and the site if it is opened."""
    n = 3 * f + 2 * t + 1
    if not 1 <= f <= 5 or not 0 <= t <= f or n > 16 or own >= n or not 4 <= limit <= 2048 or limit % 4:
        return ("refused", 1, None, None, None), None
    return ("ok",), Site(f, t, own, limit, rnd)


class Site:
    """What a site keeps of a round. The three books, out and the register are lent to each call; a call that is
    refused changes nothing, and answers ('refused', number, place, cause, depth)."""

    def __init__(self, f, t, own, limit, rnd):
        self.f, self.t, self.own, self.limit, self.round = f, t, own, limit, rnd
        self.n = 3 * f + 2 * t + 1
        self.view = 1
        self.proposed = False
        self.prepared = self.committed = self.decision = None
        self.certificate_length = 0
        self.forget()

    def forget(self):
        """Nothing is heard in this view."""
        self.prepares, self.commits = {}, {}
        self.tag_lengths, self.view_lengths = {}, {}

    # ---- what it works with ----

    def leader(self):
        return (self.view - 1) % self.n

    def room(self, books, out):
        have = tuple(len(b) for b in books) + (len(out),)
        if any(a < b for a, b in zip(have, lengths(self.f, self.t, self.limit))):
            raise Refused(2)

    def bench(self, register, data, view=None):
        return Bench((self.f, self.t, self.limit, self.round, self.view if view is None else view), register, data)

    def gathered(self):
        return sorted(self.view_lengths)

    def gathered_rows(self, books):
        """What the rows of the view book hold: a length past a row's end counts as the whole row."""
        size = view_row(self.f, self.t, self.limit)
        return [bytes(books[2][j * size:j * size + min(size, self.view_lengths[j])]) for j in self.gathered()]

    def read_rows(self, rows):
        """Each row is read by itself, as one whole new-view. Places are those in the certificate that the rows make."""
        place = 4
        for row in rows:
            reader = Reader(row, self.limit)
            try:
                reader.message((4,))
                reader.ends()
            except Fault as fault:
                raise Fault(place + fault.place)
            place += len(row)

    def statement(self, kind, fix):
        return model.claim(kind, self.round, self.view, self.own, fix)

    @staticmethod
    def answered(call):
        """What a call answers, refusals included."""
        try:
            return ("ok",) + call()
        except Refused as r:
            return "refused", r.number, r.place, r.cause, r.depth
        except Fault as f:
            return "refused", 3, f.place, None, None

    # ---- propose ----

    def propose(self, books, out, register, fix):
        def call():
            self.room(books, out)
            if not legal(fix):
                raise Refused(7, 0)
            enough = self.view == 1 or len(self.view_lengths) >= self.n - self.f
            if self.own != self.leader() or self.proposed or not enough:
                raise Refused(13)
            rows = self.gathered_rows(books)
            self.read_rows(rows)
            progress = model.progress(rows)
            verdict = self.bench(register, progress).judge()
            draft = self.statement(1, fix if verdict is None else verdict[2]) + progress
            self.proposed = True
            out[:len(draft)] = draft
            return ("proposed", len(draft))
        return self.answered(call)

    # ---- hear ----

    def hear(self, books, out, register, packet):
        def call():
            self.room(books, out)
            said = read_message(packet, self.limit)
            self.first_tests(said, register, packet)
            hear = {1: self.hear_propose, 2: self.hear_prepare, 3: self.hear_commit, 4: self.hear_new_view}[said["kind"]]
            return hear(books, out, register, packet, said)
        return self.answered(call)

    def first_tests(self, said, register, packet):
        """Numbers 4 to 8."""
        rnd, view, site = said["head"]
        reports = []
        if said["kind"] == 4:
            reports = [(said["places"][name], said[name]) for name in ("prepared", "committed") if said[name] is not None]
        if rnd != self.round:
            raise Refused(4, 4)
        if view != self.view:
            raise Refused(5, 8)
        for place, (reported_view, _) in reports:
            if reported_view == 0 or reported_view >= self.view:
                raise Refused(5, place + 4)
        known = site < self.n
        if said["kind"] == 1:
            known = site == self.leader()
        if said["kind"] == 4:
            known = known and self.own == self.leader() and self.view != 1
        if not known:
            raise Refused(6, 12)
        fixes = [(place + 8, fix) for place, (_, fix) in reports] if said["kind"] == 4 else [(16, said["fix"])]
        for place, fix in fixes:
            if not legal(fix):
                raise Refused(7, place)
        end = said["tag"][0]
        if not self.bench(register, packet).vouched(site, packet[:end], said["tag"]):
            raise Refused(8, end)

    def hear_propose(self, books, out, register, packet, said):
        if self.prepared is not None and self.prepared[0] == self.view:
            raise Refused(9)
        start = said["attached"][0]
        try:
            verdict = self.bench(register, packet[start:]).judge()
        except Refused as r:
            raise Refused(r.number, None if r.place is None else r.place + start, r.cause, r.depth)
        if verdict is not None and verdict[2] != said["fix"]:
            raise Refused(15)
        draft = self.statement(2, said["fix"])
        self.prepared = self.view, said["fix"]
        out[:len(draft)] = draft
        return ("heard", "noted", len(draft))

    @staticmethod
    def row_test(rows, site, fix):
        if site in rows:
            raise Refused(9 if rows[site] == fix else 10)

    def decide(self, reached, fix, way):
        """Whether this is the first decision."""
        if not reached or self.decision is not None:
            return False
        self.decision = self.view, fix, way
        return True

    def hear_prepare(self, books, out, register, packet, said):
        site, fix = said["head"][2], said["fix"]
        self.row_test(self.prepares, site, fix)
        whole = packet[28:]
        at = site * (self.limit + 4)
        self.prepares[site] = fix
        books[0][at:at + len(whole)] = whole
        self.tag_lengths[site] = len(whole)
        voters = sorted(j for j, other in self.prepares.items() if other == fix)
        draft = b""
        if len(voters) == self.n - self.f - self.t:
            certificate = word(len(voters))
            for j in voters:
                at = j * (self.limit + 4)
                certificate += word(j) + bytes(books[0][at:at + self.tag_lengths[j]])
            self.committed = self.view, fix
            books[1][:len(certificate)] = certificate
            self.certificate_length = len(certificate)
            draft = self.statement(3, fix) + certificate
            out[:len(draft)] = draft
        decides = self.decide(len(voters) >= self.n - self.t, fix, "fast")
        return ("heard", "decided" if decides else "noted", len(draft))

    def hear_commit(self, books, out, register, packet, said):
        site, fix = said["head"][2], said["fix"]
        self.row_test(self.commits, site, fix)
        self.votes_test(register, packet, dict(said, committed=(self.view, fix)))
        self.commits[site] = fix
        same = sum(other == fix for other in self.commits.values())
        decides = self.decide(same >= self.n - self.f - self.t, fix, "recovery")
        return ("heard", "decided" if decides else "noted", 0)

    def votes_test(self, register, packet, entry):
        for cause, place in self.bench(register, packet).votes_faults(entry):
            raise Refused(12, place, cause, 1)

    def hear_new_view(self, books, out, register, packet, said):
        site = said["head"][2]
        if site in self.view_lengths:
            raise Refused(9)
        if len(self.view_lengths) >= self.n - self.f:
            raise Refused(11)
        self.votes_test(register, packet, said)
        at = site * view_row(self.f, self.t, self.limit)
        books[2][at:at + len(packet)] = packet
        self.view_lengths[site] = len(packet)
        return ("heard", "gathered_all" if len(self.view_lengths) == self.n - self.f else "noted", 0)

    # ---- leave ----

    def leave(self, books, out, view):
        def call():
            self.room(books, out)
            if view <= self.view:
                raise Refused(16)
            self.view = view
            self.proposed = False
            self.forget()
            draft = model.change(self.round, view, self.own, self.prepared, self.committed)
            if self.committed is not None:
                draft += bytes(books[1][:self.certificate_length])
            out[:len(draft)] = draft
            return ("wrote", len(draft))
        return self.answered(call)

    # ---- seal, judge, read ----

    def seal(self, out, draft, tag):
        def call():
            if len(tag) > self.limit:
                raise Refused(3, 0)
            if len(out) < len(draft) + self.limit + 4:
                raise Refused(2)
            sealed, refusal = model.seal(draft, tag, self.limit)
            if refusal:
                raise Refused(*refusal)
            out[:len(sealed)] = sealed
            return ("wrote", len(sealed))
        return self.answered(call)

    def judge(self, register, view, data):
        return self.answered(lambda: ("judged", self.bench(register, data, view).judge()))

    def read(self):
        return self.answered(lambda: ("found", self.decision))


# ---- runs, and how their events are written ----

TRACKLESS = (1000, 600000, 30000000)
FIXES = {D: "d", E: "e", TRACKLESS: "illegal_track"}
REFUSALS = {1: "limits", 2: "short", 3: "layout", 4: "other_round", 5: "wrong_view", 6: "wrong_site", 7: "illegal", 8: "bad_tag",
            9: "repeated", 10: "equivocation", 11: "gathered_already", 12: "bad_certificate", 13: "may_not_propose",
            14: "conflicting", 15: "not_forced", 16: "not_higher"}


def refusal_text(answer):
    values = [str(v) for v in answer[2:] if v is not None]
    name = REFUSALS[answer[1]]
    return "Err %s" % ("(%s)" % " ".join([name] + values) if values else name)


def answer_text(answer):
    kind = answer[0] if answer[0] == "refused" else answer[1]
    if kind == "refused":
        return "(%s)" % refusal_text(answer)
    if kind in ("proposed", "wrote"):
        return "(Ok (%s %d))" % answer[1:]
    if kind == "heard":
        return "(Ok (heard %s %d))" % answer[2:]
    if kind == "judged":
        if answer[2] is None:
            return "(Ok (judged told_free))"
        by, view, fix = answer[2]
        return "(Ok (judged (told_forced %d %s %d)))" % ({"fast": 1, "commit": 2}[by], FIXES[fix], view)
    if answer[2] is None:
        return "(Ok (found None))"
    view, fix, way = answer[2]
    return "(Ok (found (Some (record { report = viewed %d %s; way = %s }))))" % (view, FIXES[fix], way)


def report_text(r):
    return "None" if r is None else "(Some (viewed %d %s))" % (r[0], FIXES[r[1]])


class Message:
    """A packet, and how it is written in the runs."""

    def __init__(self, text, data):
        self.text, self.data = text, data

    def named(self, text):
        return Message(text, self.data)


class Play:
    """A run of the sites of a fleet with f = 1, in round 9, with tags of 4 bytes: rows of a register."""

    def __init__(self, limit=4, t=0):
        fleet = range(4 + 2 * t)
        sizes = lengths(1, t, limit)
        opened = [open_site(1, t, own, limit, 9) for own in fleet]
        self.limit = limit
        assert all(answer == ("ok",) for answer, _ in opened)
        self.sites = [site for _, site in opened]
        self.books = [tuple(map(bytearray, sizes[:3])) for _ in fleet]
        self.out = [bytearray(sizes[3]) for _ in fleet]
        self.drafts = [b"" for _ in fleet]
        self.book = model.Book()
        self.events = []

    def register(self):
        return b"".join(self.book.rows)

    # ---- packets, with tags that the register vouches for unless another row is asked for ----

    def tag(self, site, statement, row=None):
        return self.book.tag(site, statement) if row is None else word(row)

    def votes(self, view, fix, sites):
        """Entries of a commit certificate: sites, or sites with rows."""
        pairs = [s if isinstance(s, tuple) else (s, None) for s in sites]
        return [(s, self.tag(s, model.claim(2, 9, view, s, fix), row)) for s, row in pairs]

    def proposing(self, site, view, fix, turns=(), row=None):
        said = model.claim(1, 9, view, site, fix)
        return Message(None, said + model.tag(self.tag(site, said, row)) + model.progress([m.data for m in turns]))

    def preparing(self, site, view, fix, row=None, rnd=9):
        said = model.claim(2, rnd, view, site, fix)
        t = self.tag(site, said, row)
        text = "(preparing %d %d %s %d)" % (site, view, FIXES[fix], int.from_bytes(t, "big"))
        return Message(text, said + model.tag(t))

    def committing(self, site, voters, votes_text):
        """A commit of d in view 1."""
        said = model.claim(3, 9, 1, site, D)
        t = self.tag(site, said)
        text = "(committing %d %s %d)" % (site, votes_text, int.from_bytes(t, "big"))
        return Message(text, said + model.tag(t) + model.certificate(self.votes(1, D, voters)))

    def moving(self, site, view, prepared, committed=None, voters=(), row=None):
        t = self.tag(site, model.change(9, view, site, prepared, committed), row)
        votes = self.votes(committed[0], committed[1], voters) if committed else ()
        text = "(new_view (moving %d %d %s %d))" % (site, view, report_text(prepared), int.from_bytes(t, "big"))
        return Message(None if committed else text, model.new_view(9, view, site, prepared, committed, t, votes))

    # ---- events ----

    def event(self, text, site, call, expected):
        """A call of a site with its expected answer. A refusal changes nothing."""
        before = copy.deepcopy((self.sites[site].__dict__, self.books[site], self.out[site]))
        answer = call(self.sites[site], self.books[site], self.out[site])
        assert answer == expected, (text, answer)
        if answer[0] == "refused":
            assert before == (self.sites[site].__dict__, self.books[site], self.out[site]), text
        elif answer[1] in ("proposed", "wrote") or answer[1] == "heard" and answer[3]:
            self.drafts[site] = bytes(self.out[site][:answer[-1]])
        self.events.append("%s %s" % (text, answer_text(answer)))

    def hears(self, site, m, *expected):
        self.event("hears %d %s" % (site, m.text), site, lambda s, b, o: s.hear(b, o, self.register(), m.data), expected)

    def hears_all(self, site, messages, *answers):
        assert len(messages) == len(answers)
        for m, answer in zip(messages, answers):
            self.hears(site, m, *answer)

    def hears_bytes(self, site, text, data, *expected):
        self.event("calls %d (to_hear %s)" % (site, text), site, lambda s, b, o: s.hear(b, o, self.register(), data), expected)

    def proposes(self, site, fix, *expected):
        text = "calls %d (to_propose %s)" % (site, FIXES[fix])
        self.event(text, site, lambda s, b, o: s.propose(b, o, self.register(), fix), expected)

    def leaves(self, site, view, *expected):
        self.event("calls %d (to_leave %d)" % (site, view), site, lambda s, b, o: s.leave(b, o, view), expected)

    def judges(self, site, view, name, turns, *expected):
        data = model.progress([m.data for m in turns])
        text = "calls %d (to_judge %d (progress_bytes %s))" % (site, view, name)
        self.event(text, site, lambda s, b, o: s.judge(self.register(), view, data), expected)

    def reads(self, site, *expected):
        self.event("calls %d to_read" % site, site, lambda s, b, o: s.read(), expected)

    def sealed(self, site, draft):
        """What comes out when a draft is sealed with its row's tag."""
        out = self.out[site]
        r = Reader(draft, self.limit)
        r.statement((1, 2, 3, 4))
        answer = self.sites[site].seal(out, draft, self.tag(site, draft[:r.at]))
        assert answer[:2] == (OK, "wrote"), answer
        return bytes(out[:answer[2]])

    def seals(self, site, m):
        """The site's last draft is sealed, with its row's tag, and this packet comes out."""
        assert self.sealed(site, self.drafts[site]) == m.data, m.text
        self.events.append("seals %d %s" % (site, m.text))


OK, NO = "ok", "refused"
NOTED = OK, "heard", "noted", 0
PREPARED = OK, "heard", "noted", 28
GATHERED = OK, "heard", "gathered_all", 0
DECIDED = OK, "heard", "decided", 0
FOUR_HEARD = OK, "heard", "noted", 28 + 4 + 4 * 12


def at(number, place, cause=None, depth=None):
    return NO, number, place, cause, depth


def plain(number):
    return at(number, None)


# ---- a run with a liar ----

def lie_in_view_1(p):
    """Site 0 proposes d to sites 1 and 2, and e to site 3; all prepare what they hear."""
    offer_d = p.proposing(0, 1, D).named("offer_d")
    offer_e = p.proposing(0, 1, E).named("offer_e")
    for site, offer, fix in ((1, offer_d, D), (2, offer_d, D), (3, offer_e, E)):
        p.hears(site, offer, *PREPARED)
        p.seals(site, p.preparing(site, 1, fix))
    p.preparing(0, 1, D)
    for site in (1, 2, 3):
        p.leaves(site, 2, OK, "wrote", 40)


def second_turns(p):
    """The new-views that the leader of view 2 gathers."""
    return [p.moving(0, 2, (1, E)).named("(new_view lie)"), p.moving(1, 2, (1, D)), p.moving(3, 2, (1, E))]


def decide_in_view_2(p):
    """The new-views force e, which site 1 proposes and decides fast."""
    second = second_turns(p)
    p.seals(1, second[1])
    p.seals(3, second[2])
    p.hears_all(1, second, NOTED, NOTED, GATHERED)
    p.judges(1, 2, "second", second, OK, "judged", ("fast", 1, E))
    p.proposes(1, D, OK, "proposed", 32 + 3 * 48)
    offer = p.proposing(1, 2, E, second).named("offer")
    p.seals(1, offer)
    for site in (1, 2, 3):
        p.hears(site, offer, *PREPARED)
    votes = [p.preparing(site, 2, E) for site in range(4)]
    for site in (1, 2, 3):
        p.seals(site, votes[site])
    p.hears_all(1, votes, NOTED, NOTED, (OK, "heard", "noted", 28 + 4 + 3 * 12), DECIDED)
    p.reads(1, OK, "found", (2, E, "fast"))


def third_turns(p):
    """The new-views that the leader of view 3 gathers."""
    late = p.moving(0, 3, (1, D), (1, D), (0, 1, 2)).named("(new_view late)")
    return [late, p.moving(2, 3, (2, E)), p.moving(3, 3, (2, E))]


def stay_in_view_3(p):
    """The fast certificate of view 2 is above the commit certificate that site 0 shows."""
    p.leaves(1, 3, OK, "wrote", 56 + 4 + 3 * 12)
    p.leaves(2, 3, OK, "wrote", 40)
    p.leaves(3, 3, OK, "wrote", 40)
    third = third_turns(p)
    p.seals(2, third[1])
    p.seals(3, third[2])
    p.hears_all(2, third, NOTED, NOTED, GATHERED)
    p.judges(2, 3, "third", third, OK, "judged", ("fast", 2, E))
    p.proposes(2, D, OK, "proposed", 32 + 104 + 2 * 48)
    p.reads(1, OK, "found", (2, E, "fast"))


def rehearsal():
    """Site 0 lies: it hides a commit certificate for d from the leader of view 2, and shows it to the leader of view 3."""
    p = Play()
    lie_in_view_1(p)
    decide_in_view_2(p)
    stay_in_view_3(p)
    return p


def rehearsal_packets():
    """Packets of this run: what each says, and its bytes. The commit and the last proposal stay drafts in the run;
    here they are sealed, with rows behind the others."""
    p = Play()
    lie_in_view_1(p)
    decide_in_view_2(p)
    commit = p.drafts[1]
    stay_in_view_3(p)
    second, third = second_turns(p), third_turns(p)
    yield "site 0 lies: in view 1 it proposes one fix to sites 1 and 2", p.proposing(0, 1, D).data
    yield "and another to site 3", p.proposing(0, 1, E).data
    yield "site 1 prepares the first", p.preparing(1, 1, D).data
    yield "to the leader of view 2, site 0 says that it prepared the other, and shows no commit certificate", second[0].data
    yield "site 1, which leads view 2, prepared the first", second[1].data
    yield "and site 3 the other", second[2].data
    yield "over these three, site 1 can propose the other fix only", p.proposing(1, 2, E, second).data
    yield "and commits it, when it has heard three prepares", p.sealed(1, commit)
    yield "to the leader of view 3, site 0 shows a commit certificate of view 1 for the first fix", third[0].data
    yield "site 2, which leads view 3, prepared the other in view 2", third[1].data
    yield "over these and that of site 3, site 2 can propose the other fix only", p.sealed(2, p.drafts[2])


# ---- a run in which commits decide ----

def commits_of_three(p):
    """Sites 0, 1 and 2 prepare and commit d in view 1. The proposal and the commits are used again."""
    offer_d = p.proposing(0, 1, D).named("offer_d")
    p.proposes(0, D, OK, "proposed", 32)
    p.seals(0, offer_d)
    votes = [p.preparing(site, 1, D) for site in range(3)]
    for site in range(3):
        p.hears(site, offer_d, *PREPARED)
        p.seals(site, votes[site])
    commits = [p.committing(site, range(3), "three_votes") for site in range(3)]
    for site in range(3):
        p.hears_all(site, votes, NOTED, NOTED, (OK, "heard", "noted", 28 + 4 + 3 * 12))
        p.seals(site, commits[site])
    return offer_d, commits


def decisions_of_two(p, offer_d, commits):
    """Site 3 decides by the commits. With its late prepare site 0 decides fast, and commits that it hears then change nothing."""
    p.hears_all(3, commits, NOTED, NOTED, DECIDED)
    p.reads(3, OK, "found", (1, D, "recovery"))
    p.hears(3, offer_d, *PREPARED)
    fourth = p.preparing(3, 1, D)
    p.seals(3, fourth)
    p.hears(0, fourth, *DECIDED)
    p.hears_all(0, commits, NOTED, NOTED, NOTED)
    p.reads(0, OK, "found", (1, D, "fast"))


def forced_by_commits(p):
    """In view 2 the commit certificates force d; in view 3 site 2 still shows its commit of view 1."""
    for site, size in ((1, 96), (2, 96), (3, 40)):
        p.leaves(site, 2, OK, "wrote", size)
    turns = [p.moving(site, 2, (1, D), (1, D), range(3)).named("(new_view (committed_by %d))" % site) for site in (1, 2)]
    turns.append(p.moving(3, 2, (1, D)))
    for site, m in zip((1, 2, 3), turns):
        p.seals(site, m)
    p.hears_all(1, turns, NOTED, NOTED, GATHERED)
    p.judges(1, 2, "recovered", turns, OK, "judged", ("commit", 1, D))
    p.proposes(1, E, OK, "proposed", 32 + 2 * 104 + 48)
    offer = p.proposing(1, 2, D, turns).named("recovered_offer")
    p.seals(1, offer)
    p.hears(2, offer, *PREPARED)
    p.hears(3, offer, *PREPARED)
    again = p.preparing(2, 2, D)
    p.seals(2, again)
    p.hears(2, again, *NOTED)
    p.leaves(2, 3, OK, "wrote", 96)
    p.seals(2, p.moving(2, 3, (2, D), (1, D), range(3)).named("(new_view last_move)"))


def recovery():
    """Three sites commit d in view 1, the fourth decides by their commits, and d is forced in view 2. The tag limit is 8."""
    p = Play(8)
    decisions_of_two(p, *commits_of_three(p))
    forced_by_commits(p)
    p.reads(3, OK, "found", (1, D, "recovery"))
    p.reads(1, OK, "found", None)
    return p


# ---- a run of six sites ----

LOW, HIGH = (range(4), "low_votes"), (range(2, 6), "high_votes")
# what sites 0 to 3 certify
CERTIFIED = LOW, HIGH, LOW, LOW


def prepares_of_six(p):
    """All six prepare d in view 1. Site 0 commits with the fourth prepare, and decides with the fifth."""
    offer_d = p.proposing(0, 1, D).named("offer_d")
    votes = [p.preparing(site, 1, D) for site in range(6)]
    p.proposes(0, D, OK, "proposed", 32)
    p.seals(0, offer_d)
    for site in range(6):
        p.hears(site, offer_d, *PREPARED)
        p.seals(site, votes[site])
    commits = [p.committing(site, *CERTIFIED[site]) for site in range(4)]
    p.hears_all(0, votes[:4], NOTED, NOTED, NOTED, FOUR_HEARD)
    p.seals(0, commits[0])
    p.hears(0, votes[4], *DECIDED)
    p.hears(0, votes[5], *NOTED)
    p.reads(0, OK, "found", (1, D, "fast"))
    return votes, commits


def commits_of_six(p, votes, commits):
    """Sites 1, 2 and 3 commit too, site 1 with other prepares, from the last on. Site 5 decides with the fourth commit."""
    for site in (1, 2, 3):
        p.hears_all(site, votes[:1:-1] if site == 1 else votes[:4], NOTED, NOTED, NOTED, FOUR_HEARD)
        p.seals(site, commits[site])
    p.hears_all(5, commits, NOTED, NOTED, NOTED, DECIDED)
    p.reads(5, OK, "found", (1, D, "recovery"))


def view_2_of_six(p):
    """The leader, site 1, needs five new-views and takes no sixth. Their commit certificates force d."""
    turns = []
    for site, (voters, text) in enumerate(CERTIFIED):
        turns.append(p.moving(site, 2, (1, D), (1, D), voters).named("(new_view (committed_of_six %d %s))" % (site, text)))
    for site in (4, 5):
        turns.append(p.moving(site, 2, (1, D)).named("(new_view (prepared_of_six %d))" % site))
    for site, m in enumerate(turns):
        p.leaves(site, 2, OK, "wrote", 56 + 4 + 4 * 12 if site < 4 else 40)
        p.seals(site, m)
    p.hears_all(1, [turns[site] for site in (5, 3, 1, 0)], NOTED, NOTED, NOTED, NOTED)
    p.proposes(1, E, *plain(13))
    p.hears(1, turns[4], *GATHERED)
    p.hears(1, turns[2], *plain(11))
    five = turns[:2] + turns[3:]
    p.judges(1, 2, "five", five, OK, "judged", ("commit", 1, D))
    p.proposes(1, E, OK, "proposed", 32 + 3 * 116 + 2 * 48)
    offer = p.proposing(1, 2, D, five).named("offer_of_five")
    p.seals(1, offer)
    p.hears(4, offer, *PREPARED)
    p.seals(4, p.preparing(4, 2, D))


def six_sites():
    """A fleet with f = 1 and t = 1: 5 prepares decide, 4 make a commit, and 5 new-views are enough."""
    p = Play(4, 1)
    commits_of_six(p, *prepares_of_six(p))
    view_2_of_six(p)
    p.reads(0, OK, "found", (1, D, "fast"))
    p.reads(4, OK, "found", None)
    return p


# ---- refusals in a run ----

class Refusing:
    """The messages of the run, in the order of their rows."""

    def __init__(self, p):
        self.offer_d = p.proposing(0, 1, D).named("offer_d")
        self.prepare_d, self.prepare_e = p.preparing(2, 1, D), p.preparing(2, 1, E)
        p.votes(1, D, (0, 1))
        p.votes(1, E, (0, 3))
        self.two_voted = p.committing(2, (0, 1), "(vote 0 3 ∷ vote 1 4 ∷ [])")
        self.clash = [p.moving(0, 2, None, (1, D), (0, 1, 2)).named("(new_view commits_d)"),
                      p.moving(2, 2, None, (1, E), (0, 2, 3)).named("(new_view commits_e)"), p.moving(3, 2, None)]
        self.own = p.moving(1, 2, (1, D))
        self.forcing = [p.moving(0, 2, (1, E)), self.own, p.moving(3, 2, (1, E))]
        p.proposing(1, 2, D)
        p.proposing(1, 2, E)


def refused_packets(p, m):
    """View 1: propose, and packets by themselves."""
    p.proposes(0, TRACKLESS, *at(7, 0))
    p.proposes(1, D, *plain(13))
    p.proposes(0, D, OK, "proposed", 32)
    p.proposes(0, D, *plain(13))
    p.seals(0, m.offer_d)
    p.hears_bytes(1, "(take 30 (message_bytes offer_d))", m.offer_d.data[:30], *at(3, 28))
    p.hears(1, p.preparing(2, 1, D, 1, 8).named("of_round_8"), *at(4, 4))
    p.hears(1, p.preparing(2, 2, D, 1), *at(5, 8))
    p.hears(1, p.preparing(4, 1, D, 1), *at(6, 12))
    p.hears(1, p.proposing(2, 1, D, (), 0).named("not_by_the_leader"), *at(6, 12))
    p.hears(1, p.moving(2, 1, None, row=1), *at(6, 12))
    p.hears(0, p.moving(2, 1, None, row=1), *at(6, 12))
    p.hears(1, p.preparing(2, 1, TRACKLESS, 1), *at(7, 16))
    p.hears(1, p.preparing(2, 1, D, 2), *at(8, 28))
    p.hears(1, p.proposing(0, 1, D, [m.own]).named("with_an_entry"), *at(12, 36, 1, 1))


def refused_behind_others(p, m):
    """View 1: what was heard already, commits with bad certificates, and views."""
    p.hears(1, m.offer_d, *PREPARED)
    p.hears(1, m.offer_d, *plain(9))
    p.hears(1, m.prepare_d, *NOTED)
    p.hears(1, m.prepare_d, *plain(9))
    p.hears(1, m.prepare_e, *plain(10))
    p.hears(1, m.two_voted, *at(12, 36, 1, 1))
    p.hears(1, p.committing(2, (0, 0, 1), "(vote 0 3 ∷ vote 0 3 ∷ vote 1 4 ∷ [])"), *at(12, 52, 4, 1))
    p.hears(1, p.committing(2, (0, 1, (2, 2)), "(vote 0 3 ∷ vote 1 4 ∷ vote 2 2 ∷ [])"), *at(12, 68, 6, 1))
    p.judges(1, 0, "[]", [], *at(5, 0))
    p.leaves(1, 1, *plain(16))


def refused_new_views(p, m):
    """View 2 at its leader."""
    p.leaves(1, 2, OK, "wrote", 40)
    p.proposes(1, D, *plain(13))
    p.hears(1, p.moving(0, 2, (2, D), row=8), *at(5, 20))
    p.hears(1, p.moving(0, 2, (0, D), row=8), *at(5, 20))
    p.hears(1, p.moving(0, 2, (1, TRACKLESS), row=8), *at(7, 24))
    m.two_voters = p.moving(0, 2, None, (1, D), (0, 1)).named("(new_view two_voters)")
    p.hears(1, m.two_voters, *at(12, 48, 1, 1))
    p.hears(1, m.clash[0], *NOTED)
    p.hears(1, m.clash[0], *plain(9))
    p.hears(1, m.clash[1], *NOTED)
    p.hears(1, m.clash[2], *GATHERED)
    p.hears(1, m.own, *plain(11))
    p.proposes(1, D, *plain(14))
    p.judges(1, 2, "clash", m.clash, *plain(14))


def refused_proposals(p, m):
    """View 2 at another site."""
    p.leaves(2, 2, OK, "wrote", 24)
    p.hears(2, m.own, *at(6, 12))
    p.hears(2, p.proposing(1, 2, D, m.clash).named("(offering d 14 clash)"), *plain(14))
    text = "(offering d 14 (two_voters ∷ commits_e ∷ moving 3 2 None 10 ∷ []))"
    p.hears(2, p.proposing(1, 2, D, [m.two_voters] + m.clash[1:]).named(text), *at(12, 88, 1, 2))
    p.hears(2, p.proposing(1, 2, D, m.forcing[:2]).named("(offering d 14 (take 2 forcing))"), *at(12, 36, 1, 1))
    p.hears(2, p.proposing(1, 2, D, m.forcing).named("(offering d 14 forcing)"), *plain(15))
    p.hears(2, p.proposing(1, 2, E, m.forcing).named("(offering e 15 forcing)"), *PREPARED)


def forgotten_in_later_views(p):
    """What was gathered, and that a site has proposed."""
    p.leaves(1, 6, OK, "wrote", 40)
    p.proposes(1, D, *plain(13))
    p.leaves(0, 5, OK, "wrote", 24)
    fifth = [p.moving(site, 5, None) for site in range(3)]
    p.hears_all(0, fifth, NOTED, NOTED, GATHERED)
    p.judges(0, 5, "fifth", fifth, OK, "judged", None)
    p.proposes(0, E, OK, "proposed", 32 + 3 * 32)
    p.seals(0, p.proposing(0, 5, E, fifth).named("(propose (claim 0 5 e) (row 19) fifth)"))


def refusals():
    """Each refusal of a call by what it is handed or when it comes."""
    p = Play()
    m = Refusing(p)
    refused_packets(p, m)
    refused_behind_others(p, m)
    refused_new_views(p, m)
    refused_proposals(p, m)
    forgotten_in_later_views(p)
    return p


# ---- lines outside a run ----

PREPARE = model.claim(2, 9, 1, 1, D)
ROOM = lengths(1, 0, 4)


def first_call(room, call):
    """A call of site 1 in a fresh round, over no register, with books of zeros and an out, so long."""
    _, site = open_site(1, 0, 1, 4, 9)
    tags, certificate, views, out = map(bytearray, room)
    return call(site, [tags, certificate, views], out)


def opening_lines():
    for name, terms in (("no_such_site", (1, 0, 4, 4, 9)), ("no_such_limit", (1, 0, 0, 6, 9)), ("too_many", (4, 2, 0, 4, 9))):
        answer, site = open_site(*terms)
        assert answer == plain(1) and site is None
        yield name, "opening %d %d %d %d %d ≡ %s" % (terms + (refusal_text(answer),))
    answer, site = open_site(1, 0, 3, 4, 9)
    assert answer == (OK,) and (site.f, site.t, site.limit, site.own, site.round) == (1, 0, 4, 3, 9)
    yield "opened", "opening 1 0 3 4 9 ≡ Ok (member 0 4 3, fresh 9)"


def short_lines():
    """Each call that tests the room refuses with 2 where one book, or out, is a byte too short."""
    calls = {"(to_leave 1)": lambda s, b, o: s.leave(b, o, 1), "(to_hear [])": lambda s, b, o: s.hear(b, o, b"", b""),
             "(to_propose illegal_track)": lambda s, b, o: s.propose(b, o, b"", TRACKLESS)}
    texts = {"out": "(to_leave 1)", "tags": "(to_leave 1)", "certificate": "(to_hear [])", "views": "(to_propose illegal_track)"}
    for what, text in texts.items():
        room = dict(zip(("tags", "certificate", "views", "out"), ROOM))
        room[what] -= 1
        assert all(first_call(room.values(), call) == plain(2) for call in calls.values())
        books = "zeros" if what == "out" else "(record zeros { %s = replicate %d 0 })" % (what, room[what])
        yield what + "_short", "first_call %s %d %s ≡ Err short" % (books, room["out"], text)


def sealing_lines():
    for name, out, draft, text, tag, tag_text, answer in (
            ("no_room", 35, PREPARE, "prepare_draft", word(0), "(row 0)", plain(2)),
            ("room", 36, PREPARE, "prepare_draft", word(0), "(row 0)", (OK, "wrote", 36)),
            ("long_tag", 0, PREPARE, "prepare_draft", bytes(5), "(replicate 5 0)", at(3, 0)),
            ("cut_draft", 352, PREPARE[:20], "(take 20 prepare_draft)", word(0), "(row 0)", at(3, 20))):
        assert first_call(ROOM[:3] + (out,), lambda s, b, o: s.seal(o, draft, tag)) == answer
        call = "first_call zeros %d (to_seal %s %s)" % (out, text, tag_text)
        if answer[0] == NO:
            yield name, "%s ≡ %s" % (call, refusal_text(answer))
        else:
            yield name, "answer_of (%s) ≡ Ok (wrote %d)" % (call, answer[2])


def proposed_over(views, view_lengths):
    """Site 1, as if it had gathered new-views of these lengths in view 2, proposes d over a view book."""
    def call(site, books, out):
        site.view, site.view_lengths = 2, view_lengths
        return site.propose(books[:2] + [bytearray(views)], out, b"", D)
    return first_call(ROOM, call)


def view_book_lines():
    """View books that are not as they were left, with rows of 104 bytes of which three hold 32."""
    held = {0: 32, 2: 32, 3: 32}
    rows = [model.new_view(9, 2, site, None, None, word(0)) if site in held else b"" for site in range(4)]
    views = b"".join(row.ljust(104, b"\0") for row in rows)
    other = proposed_over(views[:104] + bytes(312), held)
    assert other == at(3, 4 + 32)
    yield "other_book", "proposed_over (view_row_of 0 ++ replicate 312 0) ≡ %s" % refusal_text(other)
    altered = views[:19] + b"\1" + views[20:]
    shifted = proposed_over(altered, held)
    assert shifted == at(3, 4 + 32)
    # as one string they would be read on into row 2
    string = model.progress([altered[104 * site:104 * site + 32] for site in held])
    assert Site.answered(Bench((1, 0, 4, 9, 2), b"", string).judge) == at(3, 4 + 36)
    yield "shifted_border", "proposed_over (set gathered_views 19 1) ≡ %s" % refusal_text(shifted)
    # a length past a row's end counts as the whole row: row 0 is full, and the next fault stands behind it, in row 2
    full = model.new_view(9, 2, 0, (1, D), (1, D), word(0), [(site, word(0)) for site in range(3)])
    assert proposed_over(full + bytes(312), {0: 999, 2: 32, 3: 32}) == at(3, 4 + 104)


def refusal_lines():
    yield from opening_lines()
    yield from short_lines()
    yield from sealing_lines()
    yield from view_book_lines()
    yield "others", "Played 0 4 refusing_rows (start 0 4) refusing"


def sizing_lines():
    text = "sizes_of %d %d %d ≡ record { tags = %d; certificate = %d; views = %d; out = %d }"
    names = {"four_sites": (1, 0, 4), "six_sites": (1, 1, 1292), "sixteen_sites": (5, 0, 2048), "longest_out": (3, 3, 2048)}
    for name, terms in names.items():
        yield name, text % (terms + lengths(*terms))
    # the last two have the largest of all fleets
    largest = [max(column) for column in zip(*(lengths(f, t, 2048) for f, t in model.FLEETS))]
    assert largest == [max(pair) for pair in zip(lengths(5, 0, 2048), lengths(3, 3, 2048))]
    yield "prepare_bytes", "prepare_draft ≡ (%s ∷ [])" % " ∷ ".join(map(str, PREPARE))
    drafted, refused = bytearray(b"\xaa" * 352), bytearray(b"\xaa" * 352)
    assert first_call(ROOM, lambda s, b, o: s.leave(b, drafted, 2)) == (OK, "wrote", 24)
    assert drafted == b"".join(map(word, (4, 9, 2, 1, 0, 0))) + b"\xaa" * 328
    yield "out_behind", "out_after old_out (first_call zeros 352 (to_leave 2)) ≡ (short_draft ++ replicate 328 170)"
    assert first_call(ROOM, lambda s, b, o: s.leave(b, refused, 1)) == plain(16)
    assert refused == b"\xaa" * 352
    yield "out_refused", "out_after old_out (first_call zeros 352 (to_leave 1)) ≡ old_out"


# ---- what stands in the definitions ----

def block(head):
    """The lines of a definition, behind its head, without comments."""
    path = os.path.join(os.path.dirname(os.path.abspath(__file__)), "..", "crates", "calls", "specs", "Examples.antt")
    with open(path, encoding="utf-8") as f:
        lines = f.read().split("\n%s\n" % head)[1].split("\n\n")[0].split("\n")
    return [line.strip() for line in lines if not line.strip().startswith("--")]


def joined(lines, mark):
    """The entries that begin with a mark, each as one line. A first line needs none."""
    entries = []
    for line in lines:
        if line.startswith(mark) or not entries:
            entries.append(line.removeprefix(mark))
        else:
            entries[-1] += " " + line
    return entries


def standing_events(name):
    events = joined(block("%s =" % name), "∷ ")
    assert events.pop() == "[]"
    return events


def standing_lines(name):
    return [tuple(line.split(" : ", 1)) for line in joined(block("pub record %s : Type 0 where" % name), "pub ")]


def stand(lines, there):
    """What was played stands in the definitions, line by line, and nothing else does."""
    assert lines == there, [pair for pair in zip(there, lines) if pair[0] != pair[1]][:1] or (len(there), len(lines))


def main():
    only_show = sys.argv[1:] == ["show"]
    for name, run in (("rehearsal", rehearsal), ("recovering", recovery), ("among_six", six_sites), ("refusing", refusals)):
        play = run()
        print("%s, over %d rows" % (name, len(play.book.rows)))
        for k, r in enumerate(play.book.rows):
            print("  row %d: %s" % (k, model.grouped(r[:8 + int.from_bytes(r[4:8], "big")])))
        for event in play.events:
            print("  " + event)
        if not only_show:
            stand(play.events, standing_events(name))
    for name, made in (("Refusals", refusal_lines), ("Sizing", sizing_lines)):
        lines = list(made())
        print(name)
        for line in lines:
            print("  %s : %s" % line)
        if not only_show:
            stand(lines, standing_lines(name))


if __name__ == "__main__":
    main()
