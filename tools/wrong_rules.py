#!/usr/bin/env python3
"""Six wrong rules, each with a run in which two sites that follow the rules, this one apart, read two different fixes.

  wrong_rules.py    plays each run with the wrong rule, and the same calls with the right rules; prints what is read, and the
                    first call that goes otherwise there; fails if anything is not as expected

Four sites, f = 1 and t = 0, in round 9. Site 0 is the liar; the calls are those of sites 1, 2 and 3, as site_model.py has them.
"""
import model
from model import D, E, NAMES, Bench, Reader, word
from site_model import FIXES, NOTED, OK, Site, answer_text, at, lengths, plain

LIAR, FLEET, LIMIT, ROUND, TAG = 0, (1, 0), 4, 9, word(0)


# ---- the right rules, and the wrong ones ----

class Check(Bench):
    """The check says yes to all that the liar says, and to what another site has drafted in a call before. What was drafted
    is handed in as the register. So nothing is forged, whatever is called, and the check keeps to each yes."""

    def vouched(self, site, statement, t):
        return site == LIAR or (site, statement) in self.register


class Right(Site):
    """A site by the right rules, with this check."""

    check = Check

    def bench(self, register, data, view=None):
        return self.check((self.f, self.t, self.limit, self.round, self.view if view is None else view), register, data)


class NeverAsked(Check):
    """Says yes to everything. Its run has no propose and no judge, so only hear's questions are left out."""

    def vouched(self, site, statement, t):
        return True


def deciding(way, enough):
    """The right rules, but so many prepares of a fix decide it, if the way is fast, or so many commits, if it is recovery."""
    def decide(site, reached, fix, by):
        rows = {"fast": site.prepares, "recovery": site.commits}[by]
        if by == way:
            reached = list(rows.values()).count(fix) >= enough(site)
        return Right.decide(site, reached, fix, by)
    return type("Deciding", (Right,), {"decide": decide})


def with_a_vote_less(one, call):
    """A call in which n - f - t is one less, and n, t and n - t are what they are."""
    one.f += 1
    try:
        return call()
    finally:
        one.f -= 1


class ShorterVotes(Check):
    def votes_faults(self, entry):
        faults = super().votes_faults
        return with_a_vote_less(self, lambda: list(faults(entry)))


class EarlierCommit(Right):
    check = ShorterVotes

    def hear_prepare(self, *given):
        hear = super().hear_prepare
        return with_a_vote_less(self, lambda: hear(*given))


class Forgets(Right):
    """Its new-view still tells of the last prepare, but the next one does not."""

    def leave(self, books, out, view):
        answer = super().leave(books, out, view)
        if answer[0] == OK:
            self.prepared = None
        return answer


class FastAtTies(Check):
    def verdict(self, entries):
        fast = super().verdict([dict(entry, committed=None) for entry in entries])
        top = max((entry["committed"][0] for entry in entries if entry["committed"]), default=0)
        return fast if fast and fast[1] == top else super().verdict(entries)


class AlwaysFree(Check):
    def verdict(self, entries):
        return None


def judging_by(wrong):
    """The right rules, with another check or another verdict."""
    return type(wrong.__name__, (Right,), {"check": wrong})


# ---- packets that no call has drafted: the liar's, and forged ones ----

def vote(site, view, fix):
    return model.claim(2, ROUND, view, site, fix) + model.tag(TAG)


def offer(view, fix, turns=()):
    return model.claim(1, ROUND, view, LIAR, fix) + model.tag(TAG) + model.progress(turns)


def votes_of(voters):
    """Entries of a commit certificate."""
    return [(j, TAG) for j in voters]


def commit(view, fix, voters):
    return model.claim(3, ROUND, view, LIAR, fix) + model.tag(TAG) + model.certificate(votes_of(voters))


def turn(view, prepared, committed=None, voters=()):
    return model.new_view(ROUND, view, LIAR, prepared, committed, TAG, votes_of(voters))


# ---- runs ----

def statement(data):
    """The statement that data begin with, and where it ends."""
    reader = Reader(data, LIMIT)
    return reader.statement((1, 2, 3, 4)), reader.at


class Run:
    """All sites but the liar: what was called, what was answered and written, and all that was ever read."""

    def __init__(self, rules, fleet=FLEET):
        sizes, (f, t) = lengths(*fleet, LIMIT), fleet
        self.sites = {i: rules(f, t, i, LIMIT, ROUND) for i in range(1, 3 * f + 2 * t + 1)}
        self.books = {i: [bytearray(size) for size in sizes[:3]] for i in self.sites}
        self.out = bytearray(sizes[3])
        self.drafted, self.calls, self.results, self.read = set(), [], [], []

    def call(self, site, name, *given):
        books, drafted = self.books[site], frozenset(self.drafted)
        lent = {"seal": (self.out,), "leave": (books, self.out)}.get(name, (books, self.out, drafted))
        answer = getattr(self.sites[site], name)(*lent, *given)
        written = bytes(self.out[:answer[-1]]) if answer[0] == OK else b""
        if written and name != "seal":
            self.drafted.add((site, written[:statement(written)[1]]))
        self.calls.append((site, name, *given))
        self.results.append((answer, written))
        found = [(i, other.read()[2]) for i, other in self.sites.items()]
        reads = [(i, decision[2], decision[1]) for i, decision in found if decision]
        self.read += [r for r in reads if r not in self.read]
        return answer, written

    def sealed(self, site, name, *given):
        """A list of what the call drafts, sealed by its site: of one message, or of none."""
        answer, draft = self.call(site, name, *given)
        assert answer[0] == OK, (site, name, answer)
        return [self.call(site, "seal", draft, TAG)[1]] if draft else []

    def hear(self, site, *packets):
        return [m for packet in packets for m in self.sealed(site, "hear", packet)]

    def prepare(self, site, fix):
        """The prepare of a site to which the liar proposes a fix in view 1."""
        return self.hear(site, offer(1, fix))[0]

    def decide_later(self, view, fix, a, b, liars_turn):
        """Sites a and b leave for a view, whose leader proposes a fix over the new-views of the liar and of these two. The
        three prepare it, and commit it by their prepares, and b decides it by their commits."""
        turns = [liars_turn] + [self.sealed(site, "leave", view)[0] for site in (a, b)]
        leader = (view - 1) % 4
        if leader == LIAR:
            proposal = offer(view, fix, turns)
        else:
            self.hear(leader, *turns)
            [proposal] = self.sealed(leader, "propose", fix)
        votes = [vote(LIAR, view, fix)] + self.hear(a, proposal) + self.hear(b, proposal)
        commits = [commit(view, fix, (LIAR, a, b))] + self.hear(a, *votes) + self.hear(b, *votes)
        self.hear(b, *commits)


def forged(run):
    """Site 0 proposes d to all, all prepare d, and site 1 decides it. Then site 2 hears a prepare of e in the name of each of
    the four, and decides e."""
    votes = [vote(LIAR, 1, D)] + [run.prepare(site, D) for site in (1, 2, 3)]
    run.hear(1, *votes)
    run.hear(2, *[vote(site, 1, E) for site in (1, 2, 3, LIAR)])


def own_prepares(run):
    """Site 0 proposes d to site 1, and e to site 2. Each prepares what it heard, hears its own prepare, and decides."""
    for site, fix in ((1, D), (2, E)):
        run.hear(site, run.prepare(site, fix))


def two_of_d(run):
    """Site 0 proposes d to sites 1 and 2, and e to site 3, and prepares d: these are the prepares of d."""
    votes = [vote(LIAR, 1, D)] + [run.prepare(site, D) for site in (1, 2)]
    run.prepare(3, E)
    return votes


def too_early(run):
    """Site 2 hears three prepares of d, commits d, and hears two commits, its own and the liar's. Both are one too few; if either
    is enough, it decides d. In view 2 the liar says that it prepared e, as site 3 does. So e is forced, and site 3 decides it."""
    commits = run.hear(2, *two_of_d(run))
    run.hear(2, *commits, commit(1, D, (LIAR, 1, 2)))
    run.decide_later(2, E, 1, 3, turn(2, (1, E)))


def two_commits(run):
    """Site 0 proposes d to site 1, and e to sites 2 and 3: with the liar two prepare d, and two e. Sites 1, 2 and 3 hear all
    four, and commit d, and then e as well. Site 1 hears the commits of d and decides it, site 2 those of e."""
    votes = [vote(LIAR, 1, D), run.prepare(1, D), run.prepare(2, E), run.prepare(3, E)]
    commits = [run.hear(site, *votes) for site in (1, 2, 3)]
    run.hear(1, *[of_d for of_d, of_e in commits])
    run.hear(2, *[of_e for of_d, of_e in commits])


def decided_fast(run):
    """Site 0 proposes d to all, all prepare d, and site 3 decides it. Sites 1 and 2 leave for view 2, and the liar says that it
    prepared nothing. If that seems free to site 1, it proposes e, and site 2 decides e."""
    votes = [vote(LIAR, 1, D)] + [run.prepare(site, D) for site in (1, 2, 3)]
    run.hear(3, *votes)
    run.decide_later(2, E, 1, 2, turn(2, None))


def left_twice(run):
    """Site 0 proposes d to all, all prepare d, and site 3 decides it. Sites 1 and 2 leave for view 2, and again for view 3, and the
    liar says that it prepared nothing. If that seems free to site 2, it proposes e, and decides e."""
    votes = [vote(LIAR, 1, D)] + [run.prepare(site, D) for site in (1, 2, 3)]
    run.hear(3, *votes)
    for site in (1, 2):
        run.sealed(site, "leave", 2)
    run.decide_later(3, E, 1, 2, turn(3, None))


def tied(run):
    """Sites 1 and 2 commit d, and site 2 decides it. In view 5 the liar leads again, and says that it prepared e, as site 3
    does; site 1 shows its commit certificate for d, of the same view. If e is forced, site 3 decides e."""
    votes = two_of_d(run)
    run.hear(2, commit(1, D, (LIAR, 1, 2)), *run.hear(1, *votes), *run.hear(2, *votes))
    run.decide_later(5, E, 1, 3, turn(5, (1, E)))


# The wrong rule, and its run; what is read with it; with the right rules the first call that goes otherwise, and its answer, and
# what is read
RULES = (
    (1, "hear never asks its check", judging_by(NeverAsked), forged,
     [(1, "fast", D), (2, "fast", E)], (2, "hear", at(8, 28)), [(1, "fast", D)]),
    (2, "the first prepare of a fix decides", deciding("fast", lambda site: 1), own_prepares,
     [(1, "fast", D), (2, "fast", E)], (1, "hear", NOTED), []),
    (3, "n - f - t - 1 commits decide", deciding("recovery", lambda site: site.n - site.f - site.t - 1), too_early,
     [(2, "recovery", D), (3, "recovery", E)], (2, "hear", NOTED), [(3, "recovery", E)]),
    (3, "n - t - 1 prepares decide", deciding("fast", lambda site: site.n - site.t - 1), too_early,
     [(2, "fast", D), (1, "fast", E), (3, "fast", E)], (2, "hear", (OK, "heard", "noted", 68)), [(3, "recovery", E)]),
    (3, "n - f - t - 1 prepares are a commit certificate", EarlierCommit, two_commits,
     [(1, "recovery", D), (2, "recovery", E)], (1, "hear", NOTED), []),
    (4, "a site forgets its last prepare when it leaves", Forgets, left_twice,
     [(3, "fast", D), (2, "recovery", E)], (1, "leave", (OK, "wrote", 40)), [(3, "fast", D)]),
    (5, "a tie goes to the fast certificate", judging_by(FastAtTies), tied,
     [(2, "recovery", D), (3, "recovery", E)], (1, "hear", plain(15)), [(2, "recovery", D)]),
    (6, "judging always answers free", judging_by(AlwaysFree), decided_fast,
     [(3, "fast", D), (2, "recovery", E)], (1, "propose", (OK, "proposed", 160)), [(3, "fast", D)]),
)


# ---- what is shown ----

def saying(data):
    said, _ = statement(data)
    return "%s%s of site %d" % (NAMES[said["kind"]], " " + FIXES[said["fix"]] if "fix" in said else "", said["head"][2])


def call_text(site, name, given):
    return "site %d, %s %s" % (site, name, {"hear": saying, "propose": FIXES.get, "leave": str}[name](given))


def result_text(answer, written):
    return answer_text(answer) + (", the %s" % saying(written) if written else "")


def sites_text(sites):
    *most, last = map(str, sites)
    return "sites %s and %s" % (", ".join(most), last) if most else "site " + last


def reads_text(reads):
    """Who reads what. Sites that read the same stand together."""
    readers = {}
    for site, way, fix in reads:
        readers.setdefault((way, fix), []).append(site)
    texts = ["%s %s %s %d %d %d" % ((sites_text(sorted(sites)), "reads" if len(sites) == 1 else "read", way) + fix)
             for (way, fix), sites in readers.items()]
    return ", ".join(texts) or "no site reads a fix"


def parting(wrong, right):
    """The first call that goes otherwise by the right rules: its site, its name and its answer there; and all that as a text."""
    k = [one == other for one, other in zip(wrong.results, right.results)].index(False)
    assert wrong.calls[:k + 1] == right.calls[:k + 1]
    site, name, given = wrong.calls[k][:3]
    text = "call %d of %d (%s) answers %s, not %s" % (
        k + 1, len(wrong.calls), call_text(site, name, given), result_text(*right.results[k]), result_text(*wrong.results[k]))
    return (site, name, right.results[k][0]), text


def main():
    for number, text, rules, story, reads, first, right_reads in RULES:
        wrong, right = Run(rules), Run(Right)
        story(wrong)
        for call in wrong.calls:
            right.call(*call)
        parted, parting_text = parting(wrong, right)
        print("%d. %s: %s" % (number, text, reads_text(wrong.read)))
        print("   with the right rules %s; %s" % (reads_text(right.read), parting_text))
        assert wrong.read == reads and {fix for _, _, fix in reads} == {D, E}
        assert parted == first
        assert right.read == right_reads and len({fix for _, _, fix in right.read}) < 2
    print("%d wrong rules, each with two decisions" % len({number for number, *_ in RULES}))


if __name__ == "__main__":
    main()
