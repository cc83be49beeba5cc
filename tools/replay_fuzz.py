"""Random scripts for `replay`, which replay_model.py makes: logs of sites of all fleets, among liars, and a tally of the answers."""
import random
import sys
from collections import Counter

import model
from model import D, E, FLEETS, WEST, Bench, Fault, Refused, at, word
from replay_model import BOOKS, CALLS, HUGE, Replay, fix_text, judged_text, spelled, words_of
from replay_scripts import ILLEGAL, KINDS, Letter, Log, Register, draft_of, statement_of
from site_model import lengths, view_row

FIXES = [D, E, WEST, (999, 108000000, 54000000), (1, 0, 0)]
# the larger a fleet, the rarer
WEIGHTS = [1 / (3 * f + 2 * t + 1) for f, t in FLEETS]


# ---- damage ----

class Damage:
    """Random damage to bytes and to messages in parts."""

    def __init__(self, rng, n, limit):
        self.rng, self.n, self.limit = rng, n, limit

    def number(self):
        return self.rng.choice([0, 1, 2, 3, 4, self.n - 1, self.n, 16, 17, 999, 1000, 1 << 31, HUGE - 1, HUGE])

    def near(self, value):
        return self.rng.choice([value + 1 & HUGE, value - 1 & HUGE, self.number()])

    def a_word(self, data):
        """The bytes with another word in place of one of theirs."""
        return at(4 * self.rng.randrange(len(data) // 4), word(self.number()))(data)

    def bytes(self, data, other):
        """The bytes cut, longer, overwritten, with two words swapped, or spliced with others."""
        rng, way = self.rng, self.rng.randrange(8)
        if way == 0 or len(data) < 8:
            return data[:rng.randint(0, len(data))]
        if way == 1:
            return data + bytes(rng.choice([1, 4, 5]))
        if way == 2:
            return at(rng.randrange(len(data)), bytes([rng.choice([0, 1, 2, 255, rng.getrandbits(8)])]))(data)
        i, j = sorted(4 * k for k in rng.sample(range(len(data) // 4), 2))
        if way == 3:
            return data[:i] + data[j:j + 4] + data[i + 4:j] + data[i:i + 4] + data[j + 4:]
        return data[:i] + other[i:] if way == 4 else self.a_word(data)

    def tag(self, t=word(0)):
        rng = self.rng
        size = rng.choice([0, 1, 2, 3, 5, 7, rng.randint(0, self.limit), self.limit, self.limit + 1, self.limit + 4])
        like = [t[1:], b"\0" + t, t + b"\0", word(int.from_bytes(t[:4], "big") ^ 1)]
        return rng.choice(like + [bytes(size), rng.randbytes(size), rng.randbytes(size), word(self.number())])

    def fix(self):
        return self.rng.choice(FIXES) if self.rng.random() < 0.4 else tuple(n & HUGE for n in self.rng.choice(ILLEGAL)[0])

    def report(self, report):
        view, fix = report or (1, D)
        return self.rng.choice([None, (self.near(view), fix), (self.near(view), fix), (view, self.fix()), (view, self.fix())])

    def statement(self, m):
        way = self.rng.randrange(9)
        if way < 2:
            m.round = self.near(m.round)
        elif way < 4:
            m.view = self.near(m.view)
        elif way < 6:
            m.site = self.near(m.site)
        elif m.kind != 4:
            m.fix = self.fix()
        elif way == 6:
            m.prepared = self.report(m.prepared)
        else:
            m.committed = self.report(m.committed)

    def entries(self, items, extra):
        """One fewer, one more, two swapped, or one twice."""
        rng = self.rng
        way, k = rng.randrange(5) if items else 0, rng.randrange(len(items)) if items else 0
        if way == 0:
            items.insert(k, extra)
        elif way == 1:
            items.pop(k)
        elif way == 2:
            items[k], items[k - 1] = items[k - 1], items[k]
        else:
            items[k] = items[k - 1]

    def votes(self, m):
        rng, votes = self.rng, m.votes
        way, k = rng.randrange(8), rng.randrange(len(votes)) if votes else 0
        if way == 0:
            m.count = self.near(len(votes))
        elif way < 3 or not votes:
            self.entries(votes, (rng.randrange(self.n + 1), None))
        elif way < 5:
            votes[k] = self.near(votes[k][0]), votes[k][1]
        elif way < 7:
            votes[k] = votes[k][0], self.tag(votes[k][1] or word(0))
        else:
            # one more, in as many bytes
            m.votes = [(j, b"") for j, _ in votes[:3]] + votes[3:] + [(self.n - 1, None)]

    def turns(self, m):
        rng, turns = self.rng, m.turns
        way = rng.randrange(10)
        if way == 0:
            m.count = self.near(len(turns))
        elif way < 3 or not turns:
            self.entries(turns, Letter(4, m.round, m.view, rng.randrange(self.n)))
        else:
            self.message(rng.choice([turn for turn in turns if turn.committed] or turns) if way < 7 else rng.choice(turns))

    def message(self, m):
        """Where the statement is changed, its tag is made again, mostly."""
        rng = self.rng
        if (m.turns or m.votes) and rng.random() < 0.6:
            (self.turns if m.kind == 1 else self.votes)(m)
        elif rng.random() < 0.2:
            m.tag = self.tag(m.tag or word(0))
        else:
            self.statement(m)
            if rng.random() < 0.7:
                m.tag = None


# ---- fleets ----

class Fleet:
    """A fleet in a round or two: sites by the rules, played by the model, and liars. The logs of one or two sites are shown.
    These hear old and damaged messages as well, have their books changed, and are called when it is not due."""

    def __init__(self, rng):
        self.rng, self.register = rng, Register()
        self.f, self.t = rng.choices(FLEETS, WEIGHTS)[0]
        self.n = 3 * self.f + 2 * self.t + 1
        self.limit = rng.choice([4, 4, 4, 8, 8, 12, 64])
        if self.n < 7 and rng.random() < 0.05:
            self.limit = rng.choice([1292, 2048])
        self.sizes = lengths(self.f, self.t, self.limit)
        self.round = rng.choice([0, 1, 9, 9, HUGE])
        self.fixes = rng.sample(FIXES, rng.choice([1, 2, 2, 3]))
        self.damage = Damage(rng, self.n, self.limit)
        self.shown = rng.sample(range(self.n), rng.choice([1, 1, 2]))
        self.liars = self.some_liars([j for j in range(self.n) if j not in self.shown])
        # whether there are tags in the names of sites that follow the rules, for what they have not said
        self.forging = rng.random() < 0.2
        self.logs = {own: Log(self.register) for own in range(self.n) if own not in self.liars}
        self.calls, self.heard = 0, []

    def some_liars(self, others):
        """At most f of them; or more; or all."""
        least = self.rng.choice([0, 0, 0, len(others), len(others)])
        most = self.rng.choice([self.f, self.f, len(others)])
        return set(self.rng.sample(others, self.rng.randint(least, max(least, min(most, len(others))))))

    def chance(self, p):
        return self.rng.random() < p

    def shuffled(self, items):
        return self.rng.sample(items, len(items))

    def leader(self):
        return (self.view - 1) % self.n

    # ---- lines ----

    def line(self, own, text):
        """A line in a site's log, and its answer. Now and then one behind it shows what is kept."""
        log = self.logs[own]
        answer = log.line(text)
        if own in self.shown and text.startswith(CALLS):
            self.calls += 1
            if self.chance(0.25):
                log.line("record")
            if self.chance(0.1 if sum(self.sizes) < 3000 else 0.03 if sum(self.sizes) < 20000 else 0.005):
                log.line("books")
        return answer

    def hear(self, own, packet):
        return self.line(own, "hear " + spelled(packet))

    def propose(self, own, fix):
        """What the leader proposes is remembered."""
        draft = draft_of(self.line(own, "propose " + fix_text(fix, " ")))
        self.proposed = draft or self.proposed

    def lend(self, own, sizes):
        self.logs[own].lend(sizes, self.rng.choice([0, 0, 170, 255]) if own in self.shown else 0)

    def sign(self, site, statement):
        """A tag by which a site vouches for a statement: of one that follows the rules what it has said, or else some tag."""
        said = model.row(site, statement) in self.register.numbers
        if said or site in self.liars or site >= self.n or self.forging:
            return self.register.tag(site, statement)
        return word(self.rng.randrange(len(self.register.rows) + 2))

    def seal(self, own, draft):
        """What a site has drafted, with its tag; nothing if the draft is broken, as it may be where a book was changed."""
        if not draft:
            return b""
        if own in self.shown and self.chance(0.2):
            self.seals_anything(own, draft)
        tag = self.register.tag(own, statement_of(draft, self.limit))
        message = draft_of(self.line(own, "seal %s %s" % (spelled(draft), spelled(tag))))
        self.heard += [message] if message else []
        return message

    def hears(self, own, packet):
        """What a site drafts when it hears a packet, sealed. One that is shown is disturbed before."""
        if own in self.shown:
            # proposals and new-views are fewer, and have more parts
            for _ in range(self.rng.choice([0, 0, 0, 1, 1, 3] if packet[3] in (2, 3) else [1, 2, 4, 8])):
                self.disturb(own, packet)
        return self.seal(own, draft_of(self.hear(own, packet)))

    # ---- rounds ----

    def play(self):
        for own in self.logs:
            if own in self.shown:
                self.begin(own)
            self.lend(own, [size + self.rng.choice([0, 0, 0, 1, 7]) for size in self.sizes])
        for _ in range(self.rng.choice([1, 1, 2])):
            for own in self.logs:
                self.logs[own].opens(self.f, self.t, own, self.limit, self.round)
            self.play_round()
            self.round = self.rng.choice([self.round, self.round + 1 & HUGE])
        for own in self.shown:
            self.line(own, "read")
            self.logs[own].show()

    def begin(self, own):
        """Another fleet, and buffers that may be too short."""
        if self.chance(0.5):
            self.line(own, "open %d %d %d %d %d" % (*self.rng.choice(FLEETS), 0, self.limit, 7))
        if self.chance(0.5):
            self.lend(own, [max(0, size + self.rng.choice([-1, 0, 0, 0])) for size in self.sizes])
            for text in ("leave 2", self.rng.choice(["propose 7 0 0", "hear -", "read"]), "leave 3"):
                self.line(own, text)

    def play_round(self):
        self.view, self.past, self.moved, self.proposed = 1, [], {}, b""
        for _ in range(self.rng.choice([1, 2, 3, 3, 4, 6])):
            self.mood()
            self.play_view()
            higher = self.next_view()
            if not self.view < higher <= HUGE:
                return
            self.view = higher

    def next_view(self):
        """The next, one that a shown site leads, or a far one."""
        way = self.rng.random()
        if way < 0.45:
            return self.view + 1
        if way < 0.92:
            return self.view + 1 + (self.rng.choice(self.shown) - self.view) % self.n
        return self.view + self.rng.randint(1, 20) if way < 0.97 else HUGE - self.rng.randrange(40)

    def mood(self):
        """How many take part in a view; how many liars report a commit, maybe all of one view; what many report as prepared."""
        self.share, self.committers = self.rng.choice([1, 1, 0.95, 0.7]), self.rng.choice([0, 0, 0.1, 0.6])
        self.clash = None
        if self.chance(0.25):
            self.clash, self.committers = self.view_below(), 0.6
        self.common = self.rng.choice(self.reports())

    def play_view(self):
        self.proposed, self.moved = b"", self.move() if self.view > 1 else {}
        offers = self.offers()
        if not offers:
            return
        fix = Letter.of(offers[0], self.limit).fix
        self.past.append((self.view, fix))
        prepares = self.prepares(offers, fix)
        if self.chance(0.55):
            commits = self.spread(prepares, self.n - self.f - self.t + 1)
            self.spread(commits + [self.lying_commit(own, fix) for own in self.liars if self.chance(self.share)], 1)

    def takes_part(self, own):
        return own in self.shown or own == self.leader() or self.chance(self.share)

    def move(self):
        """All go to the view. The new-views, by site."""
        moved = {}
        for own in filter(self.takes_part, self.logs):
            if own in self.shown and self.chance(0.05):
                self.poke(own)
            moved[own] = self.seal(own, draft_of(self.line(own, "leave %d" % self.view)))
        for own in self.liars:
            if self.chance(self.share):
                moved[own] = self.lying_turn(own).write(self.sign)
        return {own: turn for own, turn in moved.items() if turn}

    def offers(self):
        leader = self.leader()
        if leader in self.liars:
            return self.lying_offers()
        for turn in self.shuffled(list(self.moved.values())):
            self.hears(leader, turn)
        fix = self.rng.choice(self.fixes)
        if leader in self.shown:
            for _ in range(self.rng.choice([0, 1, 3, 5])):
                self.tamper(leader, fix)
        self.propose(leader, fix)
        offer = self.seal(leader, self.proposed)
        return [offer] if offer else []

    def prepares(self, offers, fix):
        prepares = []
        for own in filter(self.takes_part, self.logs):
            heard = self.rng.sample(offers, 1 if self.chance(0.8) else len(offers))
            prepares += filter(None, [self.hears(own, offer) for offer in heard])
        for own in self.liars:
            for _ in range(self.rng.choice([1, 1, 1, 2])):
                said = fix if self.chance(0.8) else self.rng.choice(self.fixes)
                prepares.append(Letter(2, self.round, self.view, own, said).write(self.sign))
        return prepares

    def spread(self, packets, enough):
        """All hear packets in some order, those that are not shown only so many. What they draft, sealed."""
        drafted = []
        for own in self.logs:
            some = [packet for packet in self.shuffled(packets) if self.chance(self.share)]
            for packet in some if own in self.shown else some[:enough]:
                drafted += filter(None, [self.hears(own, packet)])
                if own in self.shown and self.chance(0.02):
                    self.poke(own)
        return drafted

    # ---- what liars say ----

    def view_below(self):
        return self.rng.choice([v for v in (1, 2, 3, self.view - 2, self.view - 1) if 1 <= v < self.view] or [1])

    def reports(self):
        """What can be reported in the view: anything, or what was proposed before."""
        return [(self.view_below(), self.rng.choice(self.fixes))] + [past for past in self.past if past[0] < self.view] * 3

    def voters(self, view, fix):
        """A quorum of sites whose prepares can be shown; else of any sites, sometimes."""
        able = [j for j in range(self.n) if j in self.liars or self.forging
                or model.row(j, model.claim(2, self.round, view, j, fix)) in self.register.numbers]
        quorum = self.n - self.f - self.t
        if len(able) < quorum:
            able = list(range(self.n)) if self.chance(0.1) else []
        return [(j, None) for j in sorted(self.rng.sample(able, quorum))] if able else None

    def lying_turn(self, site):
        rng, reports = self.rng, self.reports()
        prepared = rng.choice(reports + [self.common] * 2 * len(reports)) if self.chance(0.85) else None
        committed = rng.choice(reports) if self.chance(self.committers) else None
        if committed and self.clash:
            committed = self.clash, rng.choice(self.fixes)
        votes = self.voters(*committed) if committed else None
        return Letter(4, self.round, self.view, site, None, prepared, committed if votes else None, votes=votes or ())

    def picked(self):
        """Some of the new-views of the view, as many as a progress certificate takes, if there are so many."""
        picked = self.rng.sample(sorted(self.moved), min(len(self.moved), self.n - self.f))
        return [self.moved[own] for own in sorted(picked)]

    def lying_offers(self):
        """Proposals over some new-views, of the fix that they force, and maybe of another."""
        data = model.progress(self.picked())
        try:
            verdict = Bench((self.f, self.t, self.limit, self.round, self.view), self.register.data(), data).judge()
        except (Refused, Fault):
            verdict = None
        fixes = [self.rng.choice(self.fixes) if verdict is None else verdict[2]]
        fixes += [self.rng.choice(self.fixes) for _ in range(self.rng.choice([0, 0, 1, 1]))]
        said = [model.claim(1, self.round, self.view, self.leader(), fix) for fix in self.shuffled(fixes)]
        return [s + model.tag(self.sign(self.leader(), s)) + data for s in said]

    def lying_commit(self, own, fix):
        fix = fix if self.chance(0.9) else self.rng.choice(self.fixes)
        votes = self.voters(self.view, fix) or [(j, None) for j in range(self.n - self.f - self.t)]
        return Letter(3, self.round, self.view, own, fix, votes=votes).write(self.sign)

    # ---- what disturbs a site that is shown, before it hears a packet ----

    def disturb(self, own, packet):
        ways = {self.hears_damaged: 7, self.hears_cut: 2, self.hears_old: 2, self.hears_a_liar: 1, self.hears_noise: 1, self.judges: 3,
                self.proposes: 1, self.leaves: 0.5, self.seals_anything: 0.7, self.reads: 0.5, self.opens: 0.2, self.misspells: 0.3,
                self.is_lent_less: 0.5 if sum(self.sizes) < 20000 else 0}
        self.rng.choices(list(ways), list(ways.values()))[0](own, packet)

    def any_packet(self):
        return self.rng.choice(self.heard[-200:] or [b""])

    def hears_damaged(self, own, packet):
        m = Letter.of(packet, self.limit)
        for _ in range(self.rng.choice([1, 1, 1, 2])):
            self.damage.message(m)
        self.hear(own, m.write(self.sign))

    def hears_cut(self, own, packet):
        self.hear(own, self.damage.bytes(packet, self.any_packet()))

    def hears_old(self, own, packet):
        self.hear(own, self.any_packet())

    def hears_a_liar(self, own, packet):
        """Any message of a liar's, or in the leader's name."""
        site, kind = self.rng.choice(sorted(self.liars) or [self.n]), self.rng.choice([1, 2, 2, 3, 4, 4])
        m = Letter(kind, self.round, self.view, self.leader() if kind == 1 else site, self.rng.choice(self.fixes))
        if kind == 3:
            m.votes = self.voters(m.view, m.fix) or []
        self.hear(own, (self.lying_turn(site) if kind == 4 else m).write(self.sign))

    def hears_noise(self, own, packet):
        noise = word(self.rng.randint(0, 5)) + self.rng.randbytes(self.rng.choice([0, 3, 24, 60]))
        self.hear(own, noise if self.chance(0.7) else b"")

    def judges(self, own, packet):
        """A certificate of the view's new-views, or of any, for this view or another one."""
        here, m = self.view, Letter(1, self.round, self.view, own, D)
        if self.chance(0.2):
            self.view = self.rng.choice([1, 2, 3, 4])
        if self.view == here and len(self.moved) >= self.n - self.f and self.chance(0.5):
            m.turns = [Letter.of(turn, self.limit) for turn in self.picked()]
        elif self.view > 1:
            m.turns = [self.lying_turn(j) for j in sorted(self.rng.sample(range(self.n), self.n - self.f))]
        view, self.view = self.view, here
        if self.chance(0.5):
            self.damage.turns(m)
        data = m.attachment(self.sign)
        if self.chance(0.15):
            data = self.damage.bytes(data, self.any_packet())
        self.line(own, "judge %d %s" % (view if self.chance(0.9) else self.damage.near(view), spelled(data)))

    def proposes(self, own, packet):
        self.propose(own, self.damage.fix())

    def leaves(self, own, packet):
        self.line(own, "leave %d" % self.rng.choice([0, 1, self.view - 1, self.view]))

    def seals_anything(self, own, packet):
        """A packet as a draft, or without its tag, and any tag."""
        draft = self.rng.choice([packet, packet[:28] + packet[36:], packet[:28], self.damage.bytes(packet, packet)])
        self.line(own, "seal %s %s" % (spelled(draft), spelled(self.damage.tag())))

    def reads(self, own, packet):
        self.line(own, "read")

    def opens(self, own, packet):
        """An open that is refused."""
        terms = [self.f, self.t, own, self.limit, self.round]
        terms[self.rng.randrange(4)] = self.rng.choice([HUGE, 17, 2050])
        self.line(own, "open %d %d %d %d %d" % tuple(terms))

    def misspells(self, own, packet):
        text = self.rng.choice(["hear " + spelled(packet), "record", "books", "judge 1 00000000", "poke tags 0 00", "propose 7 0 -1", "seal 00 -"])
        k, more = self.rng.randrange(min(len(text), 24)), self.rng.choice(["", " ", "g", "-", "0", "#", " 4294967296", "\t", "\xe4"])
        self.line(own, text[:k] + more + text[k + self.rng.randint(0, 1):])

    def is_lent_less(self, own, packet):
        """Something too short is lent for a call. Then the books come back as they were."""
        log, k = self.logs[own], self.rng.randrange(4)
        books, sizes = [bytes(lent) for lent in log.program.books], [len(lent) for lent in (*log.program.books, log.program.out)]
        short = max(0, self.sizes[k] - self.rng.choice([1, 1, 4, self.sizes[k]]))
        log.lend([short if j == k else size for j, size in enumerate(sizes)], 7)
        texts = ["hear " + spelled(packet), "propose 7 0 0", "leave %d" % self.view, "leave %d" % HUGE]
        self.line(own, "seal %s 00000001" % spelled(packet[:28]) if k == 3 and self.chance(0.5) else self.rng.choice(texts))
        log.lend(sizes)
        for which, data in enumerate(books):
            log.poke(which, 0, data)

    # ---- books that are changed from outside ----

    def poke(self, own):
        """A word of a book is changed, and stays so."""
        which = self.rng.randrange(3)
        lent = self.logs[own].program.books[which]
        self.logs[own].poke(which, 4 * self.rng.randrange(len(lent) // 4), word(self.damage.number()))

    def tamper(self, own, fix):
        """Propose is called while a gathered new-view is changed where it lies."""
        site, views = self.logs[own].program.site, self.logs[own].program.books[2]
        if site.proposed or not site.view_lengths:
            return
        j = self.rng.choice(site.gathered())
        place = j * view_row(self.f, self.t, self.limit)
        old = bytes(views[place:place + site.view_lengths[j]])
        new = self.tampered(old)
        if new != old:
            with self.logs[own].poked(2, place, new):
                self.propose(own, fix)

    def tampered(self, old):
        """Other bytes, as many: another new-view, if that comes about."""
        for _ in range(self.rng.choice([0, 3, 3, 3])):
            try:
                m = Letter.of(old, self.limit)
            except Fault:
                break
            self.damage.message(m)
            new = m.write(self.sign)
            if len(new) == len(old):
                return new
        return self.damage.a_word(old)


# ---- a tally ----

class Tally:
    """What a script is answered, and how often."""

    def __init__(self):
        self.counts, self.program = Counter(), Replay()

    def line(self, text):
        answer = self.program.answer(text)
        words, said = words_of(text), (answer or "").split()
        if said[:1] == ["bad"]:
            self.counts["bad line: " + answer.split(": ")[1]] += 1
        elif said and words[0] in CALLS:
            self.counts["%s %s" % (self.called(*words), self.answered(words[0], said))] += 1

    @staticmethod
    def called(name, *given):
        if name != "hear":
            return name
        kind = given[0][:8]
        return "hear " + KINDS.get(int(kind, 16) if kind != "-" else 0, "no message")

    def answered(self, name, said):
        if said[0] == "refused":
            number, _, cause, depth = said[1:]
            return number if cause == "-" else "%s cause %s depth %s" % (number, cause, depth)
        if name == "propose":
            data = bytes.fromhex(said[2])[28:]
            return "ok " + judged_text(self.program.site.bench(self.program.register, data).judge()).split()[0]
        if name in ("judge", "read"):
            return "ok " + said[1]
        if name != "hear":
            return "ok"
        if said[1] == "decided":
            return "ok decided " + self.program.site.decision[2]
        return "ok %s%s" % (said[1], "" if said[2] == "0" else " and drafts")

    def show(self):
        for key in sorted(set(self.counts) | set(possible())):
            print("%7d  %s" % (self.counts[key], key), file=sys.stderr)
        print("%7d  calls" % sum(self.counts[key] for key in self.counts if not key.startswith("bad")), file=sys.stderr)


def causes(here, deep):
    return ["12 cause %d depth %d" % (cause, depth) for depth, some in ((1, here), (2, deep)) for cause in some]


def possible():
    """All that can be answered. Propose has no cause 1 at depth 1: it counts before it judges."""
    votes, heard = (1, 4, 6), [str(k) for k in range(2, 10)]
    verdicts = ["ok free", "ok fast", "ok certificate"]
    answers = {
        "open": ["1", "ok"], "leave": ["2", "16", "ok"], "seal": ["2", "3", "ok"], "read": ["ok none", "ok fast", "ok recovery"],
        "propose": ["2", "7", "13", "3", "14"] + causes(range(2, 7), votes) + verdicts,
        "judge": ["3", "5", "14"] + causes(range(1, 7), votes) + verdicts,
        "hear proposal": heard + ["14", "15", "ok noted and drafts"] + causes(range(1, 7), votes),
        "hear prepare": heard + ["10", "ok noted", "ok noted and drafts", "ok decided fast"],
        "hear commit": heard + ["10", "ok noted", "ok decided recovery"] + causes(votes, ()),
        "hear new-view": heard + ["11", "ok noted", "ok gathered"] + causes(votes, ()),
        "hear no message": ["2", "3"],
    }
    return ["%s %s" % (name, answer) for name, some in answers.items() for answer in some]


def fuzz(seed, count, tallied):
    rng, tally, calls = random.Random(seed), Tally(), 0
    while calls < count:
        fleet = Fleet(rng)
        fleet.play()
        calls += fleet.calls
        for own in fleet.shown:
            for line in fleet.logs[own].written():
                yield line
                if tallied:
                    tally.line(line)
    if tallied:
        tally.show()
