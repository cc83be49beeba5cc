#!/usr/bin/env python3
"""Seven wrong rules, each with runs in which chosen sites meet in a view, and some of them read no decision after that.

  silent_rules.py    plays each run with the wrong rule, and again with the right rules; prints who reads nothing, what is read with
                     the right rules, and the first call that goes otherwise there; fails if a premise of the promise does not
                     hold, if with the wrong rule all chosen sites read a decision, or with the right rules one does not

The promises are those of crates/liveness/specs/Recovery.antt: that at least n - f chosen sites recover, played with four sites
(f = 1, t = 0), and that at least n - t decide fast, played with six (f = 1, t = 1). Site 0 is the liar, and all others are chosen.
They meet in view 2 of round 9, which site 1 leads. The sites, their check and the liar's packets are those of wrong_rules.py.
"""
import model
from model import D, E, Refused, legal
from site_model import GATHERED, DECIDED, NO, NOTED, OK, PREPARED, at, lengths, plain
from wrong_rules import LIAR, LIMIT, TAG, Check, Right, Run, deciding, parting, reads_text, sites_text, statement, turn, vote

VIEW, LEADER = 2, 1
PROPOSAL, PREPARE, COMMIT, NEW_VIEW = 1, 2, 3, 4
RECOVER, FAST = "ChosenRecover", "ChosenDecideFast"
FLEETS = {RECOVER: (1, 0), FAST: (1, 1)}
# what all hear, in this order
STAGES = {RECOVER: (PROPOSAL, PREPARE, COMMIT), FAST: (PROPOSAL, PREPARE)}


# ---- the wrong rules ----

class RefusesAll(Right):
    def hear(self, *given):
        return plain(2)

    propose = hear


def silent(when, *names):
    """The right rules, but at a site of which that is so these steps draft nothing: they answer 0 and leave out as it is."""
    def silenced(name):
        right = getattr(Right, name)

        def step(site, books, out, *given):
            if not when(site):
                return right(site, books, out, *given)
            answer = right(site, books, bytearray(out), *given)
            return answer if answer[0] == NO else answer[:-1] + (0,)
        return step
    return type("Silent", (Right,), {name: silenced(name) for name in names})


def always(site):
    return True


def has_committed(site):
    return site.committed is not None


def has_decided(site):
    return site.decision is not None


class GathersOneLess(Right):
    def hear_new_view(self, books, out, register, packet, said):
        if said["head"][2] not in self.view_lengths and len(self.view_lengths) >= self.n - self.f - 1:
            raise Refused(11)
        return super().hear_new_view(books, out, register, packet, said)


def keeping(*names):
    """The right rules, but leaving a view does not empty these rows."""
    def leave(site, books, out, view):
        kept = {name: getattr(site, name) for name in names}
        answer = Right.leave(site, books, out, view)
        vars(site).update(kept)
        return answer
    return type("Keeping", (Right,), {"leave": leave})


class TrustsNewViews(Right):
    def votes_test(self, register, packet, entry):
        if entry["kind"] != NEW_VIEW:
            super().votes_test(register, packet, entry)


# ---- a meeting ----

class Meeting(Run):
    """A run in which all sites but the liar meet in the view."""

    def __init__(self, rules, promise):
        super().__init__(rules, FLEETS[promise])
        self.promise, self.fleet, self.ends = promise, FLEETS[promise], {}

    def drafts(self, kind):
        """What they have drafted of this kind in the view: the numbers of the calls, their sites, and the drafts."""
        made = [(p, call[0], written) for p, (call, (_, written)) in enumerate(zip(self.calls, self.results))
                if written and call[1] != "seal"]
        said = [statement(draft)[0] for _, _, draft in made]
        return [one for one, s in zip(made, said) if (s["kind"], s["head"][1]) == (kind, VIEW)]

    def tell(self, kind, hearers):
        """What is drafted of this kind is sealed, and each of these sites hears all of it."""
        packets = [self.call(site, "seal", draft, TAG)[1] for _, site, draft in self.drafts(kind)]
        for site in hearers:
            for packet in packets:
                self.call(site, "hear", packet)
        self.ends[kind] = len(self.calls) - 1

    def meet(self, fix, order=None, lies=()):
        """They leave, in this order. The leader hears what the liar says, and then their new-views, and proposes. Then all hear the
        proposal, and then the prepares of all, and, to recover, the commits of all. What is not drafted is not heard."""
        for site in order or self.sites:
            self.call(site, "leave", VIEW)
        for packet in lies:
            self.call(LEADER, "hear", packet)
        self.tell(NEW_VIEW, [LEADER])
        self.call(LEADER, "propose", fix)
        for kind in STAGES[self.promise]:
            self.tell(kind, self.sites)

    def read_nothing(self):
        return [i for i, site in self.sites.items() if site.read()[2] is None]

    def refusals(self):
        return sorted({answer[1] for answer, _ in self.results if answer[0] == NO})

    # ---- what the promise assumes, and what it says beside the decisions, in the words of Recovery.antt ----

    def left(self, site):
        return self.calls.index((site, "leave", VIEW))

    def leaves_and_stays(self, site):
        """It leaves for the view and is not refused, and after that it does not leave again."""
        left = self.left(site)
        return self.results[left][0][0] == OK and all(call[:2] != (site, "leave") for call in self.calls[left + 1:])

    def hears_all(self, kind, sender, last, hearer, high):
        """What the sender drafts of this kind up to its call number last, the hearer hears, sealed: after that, after its own
        leaving, and up to the call number high."""
        sent = [(max(p, self.left(hearer)), model.seal(draft, TAG, LIMIT)[0]) for p, site, draft in self.drafts(kind)
                if site == sender and p <= last]
        return all((hearer, "hear", packet) in self.calls[low + 1:high + 1] for low, packet in sent)

    def assert_premises(self):
        f, t = self.fleet
        n = 3 * f + 2 * t + 1
        # one site is not chosen and breaks the rules; this check is told of nothing forged, and keeps to each yes
        assert set(self.sites) == set(range(n)) - {LIAR} and len(self.sites) >= n - {RECOVER: f, FAST: t}[self.promise]
        assert all(site.check is Check and self.leaves_and_stays(i) for i, site in self.sites.items())
        assert all(tuple(map(len, books + [self.out])) == lengths(f, t, LIMIT) for books in self.books.values())
        [proposed] = [p for p, call in enumerate(self.calls) if call[:2] == (LEADER, "propose")]
        assert LEADER == (VIEW - 1) % n and self.left(LEADER) < proposed and legal(self.calls[proposed][2])
        for i in self.sites:
            assert self.hears_all(NEW_VIEW, i, self.left(i), LEADER, proposed)
            assert self.hears_all(PROPOSAL, LEADER, proposed, i, self.ends[PROPOSAL])
            for before, kind in zip(STAGES[self.promise], STAGES[self.promise][1:]):
                assert all(self.hears_all(kind, i, self.ends[before], j, self.ends[kind]) for j in self.sites)

    def all_drafted(self):
        """The leader has drafted a proposal, and all have drafted the rest."""
        who = {kind: {site for _, site, _ in self.drafts(kind)} for kind in (NEW_VIEW,) + STAGES[self.promise]}
        return who.pop(PROPOSAL) == {LEADER} and all(sites == set(self.sites) for sites in who.values())


# ---- runs ----

def nothing_before(run):
    """They meet, and site 1 is handed d."""
    run.meet(D)


def one_prepared(run):
    """Site 0 proposes e to site 1, and all hear its prepare. They meet, and site 1 is handed d, which is free."""
    prepare = run.prepare(1, E)
    for site in run.sites:
        run.hear(site, prepare)
    run.meet(D)


def one_commits(run):
    """Site 0 proposes d to sites 1 and 2, and prepares it. Site 1 hears these three prepares and commits d, and all hear that."""
    votes = [vote(LIAR, 1, D)] + [run.prepare(site, D) for site in (1, 2)]
    [commit] = run.hear(1, *votes)
    for site in run.sites:
        run.hear(site, commit)


def committed_same(run):
    """Site 1 has committed d. They meet, and site 1 is handed e, but d is forced."""
    one_commits(run)
    run.meet(E)


def committed_other(run):
    """Site 1 has committed d. They meet, but site 1 hears the liar's new-view first, and its own last, which it refuses. So the
    e that it is handed is free."""
    one_commits(run)
    run.meet(E, (2, 3, 1), [turn(VIEW, None)])


def one_decided(run):
    """Site 0 proposes d to all, all prepare d, and the last site decides it. They meet, and site 1 is handed e, but d is forced."""
    votes = [vote(LIAR, 1, D)] + [run.prepare(site, D) for site in run.sites]
    run.hear(max(run.sites), *votes)
    run.meet(E)


def false_commit(run):
    """They meet, but site 1 first hears that the liar committed e, by prepares that the others have not drafted."""
    f, t = run.fleet
    run.meet(D, lies=[turn(VIEW, None, (1, E), range(2 * f + t + 1))])


FOUR, SIX = {RECOVER: [1, 2, 3]}, {FAST: [1, 2, 3, 4, 5]}
BOTH = {**FOUR, **SIX}

# The wrong rule, and its run; for each promise who reads nothing, and the numbers of what is refused; with the right rules the
# first call that goes otherwise, and its answer
RULES = (
    (1, "hear and propose refuse everything", RefusesAll, nothing_before, BOTH, [2], ("hear", NOTED)),
    (2, "nothing is drafted", silent(always, "propose", "hear", "leave"), nothing_before, BOTH, [13], ("leave", (OK, "wrote", 24))),
    (3, "no more than n - f - 1 new-views are gathered", GathersOneLess, nothing_before, BOTH, [11, 13], ("hear", GATHERED)),
    (3, "n - f + 1 commits decide", deciding("recovery", lambda site: site.n - site.f + 1), nothing_before,
     FOUR, [], ("hear", DECIDED)),
    (3, "n - t + 1 prepares decide", deciding("fast", lambda site: site.n - site.t + 1), nothing_before,
     SIX, [], ("hear", DECIDED)),
    (4, "leaving keeps the rows of prepares", keeping("prepares", "tag_lengths"), one_prepared, BOTH, [10], ("hear", NOTED)),
    (4, "leaving keeps the rows of commits", keeping("commits"), committed_other, FOUR, [10, 11], ("hear", NOTED)),
    (5, "a site that has committed drafts no commit in a later view", silent(has_committed, "hear_prepare"), committed_same,
     FOUR, [], ("hear", (OK, "heard", "noted", 68))),
    (6, "a site that has decided drafts no prepare", silent(has_decided, "hear_propose"), one_decided,
     {RECOVER: [1, 2], FAST: [1, 2, 3, 4]}, [], ("hear", PREPARED)),
    (6, "a site that has decided drafts no commit", silent(has_decided, "hear_prepare"), one_decided,
     {RECOVER: [1, 2]}, [], ("hear", (OK, "heard", "noted", 68))),
    (7, "hear does not test the commit certificate of a new-view", TrustsNewViews, false_commit,
     BOTH, [11, 12], ("hear", at(12, 68, 6, 1))),
)


# ---- what is shown ----

def played(rules, story, promise):
    run = Meeting(rules, promise)
    story(run)
    run.assert_premises()
    return run


def main():
    for number, text, rules, story, lost, refusals, first in RULES:
        for promise, sites in lost.items():
            wrong, right = played(rules, story, promise), played(Right, story, promise)
            parted, parting_text = parting(wrong, right)
            print("%d. %s: %s of %d read nothing, refusals %s (%s)" % (
                number, text, sites_text(sites), len(wrong.sites) + 1, ", ".join(map(str, refusals)) or "none", promise))
            print("   with the right rules %s; %s" % (reads_text(right.read), parting_text))
            assert wrong.read_nothing() == sites != [] and wrong.refusals() == refusals
            assert right.read_nothing() == [] and right.all_drafted()
            assert parted[1:] == first
    print("%d wrong rules, each with chosen sites that read nothing" % len({number for number, *_ in RULES}))


if __name__ == "__main__":
    main()
