#!/usr/bin/env python3
"""What the program `replay` answers, by docs/REPLAY.md, in another language; and scripts for it.

  replay_model.py < LINES               prints what `replay` prints for these lines
  replay_model.py rehearsal             a script: four logs of sites, from two runs of the four-site fleet, one with a liar
  replay_model.py refusals              a script: every refusal, at the places that it can have; tampered books; bad lines
  replay_model.py fuzz SEED COUNT [-v]  a script: random logs of some COUNT calls, of sites of all fleets, among liars; with -v
                                        a tally of the answers on standard error, with 0 for those that were not met

The first two scripts, one behind the other, are crates/replay/stdin. They are made by replay_scripts.py, the third by
replay_fuzz.py. It all shares no code with the library: sites are played by site_model.py, and packets read by model.py.
"""
import re
import sys

import site_model
from model import signed
from site_model import OK

HUGE = 0xFFFFFFFF


# ---- the words of a line ----

class Bad(Exception):
    """A line is bad: why."""


def number(low, high):
    """What reads a decimal number of a range."""
    form = re.compile("(%s)0*([0-9]{1,10})" % ("-?" if low < 0 else ""))

    def read(text):
        found = form.fullmatch(text)
        if not found or not low <= int(found[1] + found[2]) <= high:
            raise Bad("not a number")
        return int(found[1] + found[2])
    return read


def octets(text):
    if text == "-":
        return b""
    if len(text) % 2 or not re.fullmatch("[0-9A-Fa-f]*", text):
        raise Bad("bad bytes")
    return bytes.fromhex(text)


def spelled(data):
    return data.hex() or "-"


BOOKS = "tags", "cert", "views"


def book(text):
    if text not in BOOKS:
        raise Bad("no such book")
    return BOOKS.index(text)


WORD, SIGNED, BYTE = number(0, HUGE), number(-1 << 31, (1 << 31) - 1), number(0, 255)

# the first word of a line, and what reads the words behind it
LINES = {
    "register": (octets,), "lend": (WORD, WORD, WORD, WORD, BYTE), "poke": (book, WORD, octets),
    "open": (WORD, WORD, WORD, WORD, WORD), "propose": (WORD, SIGNED, SIGNED), "hear": (octets,), "leave": (WORD,),
    "seal": (octets, octets), "judge": (WORD, octets), "read": (),
    "books": (), "record": (),
}
CALLS = "open", "propose", "hear", "leave", "seal", "judge", "read"
OF_A_SITE = CALLS[1:] + ("record",)


def words_of(line):
    return [w for w in re.split("[ \t\r]+", line.split("#", 1)[0]) if w]


# ---- answers ----

def fix_text(fix, between):
    return between.join(map(str, (fix[0], signed(fix[1]), signed(fix[2]))))


def report_text(report):
    return "-" if report is None else "%d:%s" % (report[0], fix_text(report[1], ":"))


def decision_text(decision):
    return "-" if decision is None else "%s:%s" % (decision[2], report_text(decision[:2]))


def draft_text(out, length):
    return "%d %s" % (length, out[:length].hex()) if length else "0"


def judged_text(verdict):
    if verdict is None:
        return "free"
    by, view, fix = verdict
    return "%s %s %d" % ({"fast": "fast", "commit": "certificate"}[by], fix_text(fix, " "), view)


def found_text(decision):
    if decision is None:
        return "none"
    view, fix, way = decision
    return "%s %s %d" % (way, fix_text(fix, " "), view)


def refusal_text(number, place=None, cause=None, depth=None):
    return "refused " + " ".join("-" if value is None else str(value) for value in (number, place, cause, depth))


def answer_text(answer, out):
    if answer[0] != OK:
        return refusal_text(*answer[1:])
    if len(answer) == 1:
        return "ok"
    what, values = answer[1], answer[2:]
    if what == "heard":
        return "ok %s %s" % ("gathered" if values[0] == "gathered_all" else values[0], draft_text(out, values[1]))
    if what in ("proposed", "wrote"):
        return "ok " + draft_text(out, values[0])
    return "ok " + {"judged": judged_text, "found": found_text}[what](values[0])


def record_text(site):
    def of_sites(text, rows, empty):
        return ",".join(text(rows[j]) if j in rows else empty for j in range(site.n))

    def value_text(fix):
        return fix_text(fix, ":")

    return " ".join("%s=%s" % pair for pair in (
        ("f", site.f), ("t", site.t), ("own", site.own), ("L", site.limit), ("round", site.round), ("view", site.view),
        ("proposed", "yes" if site.proposed else "no"),
        ("prepared", report_text(site.prepared)), ("committed", report_text(site.committed)),
        ("prepares", of_sites(value_text, site.prepares, "-")), ("commits", of_sites(value_text, site.commits, "-")),
        ("tags", of_sites(str, site.tag_lengths, "0")), ("certificate", site.certificate_length),
        ("views", of_sites(str, site.view_lengths, "0")), ("decision", decision_text(site.decision))))


# ---- the program ----

class Replay:
    """What the program keeps between lines: the register, what is lent, and the site that is open."""

    def __init__(self):
        self.site, self.register = None, b""
        self.books, self.out = [bytearray() for _ in BOOKS], bytearray()

    def answer(self, line, at=0):
        """What is printed for the line with a number, or None."""
        words = words_of(line)
        try:
            return self.play(*words) if words else None
        except Bad as why:
            return "bad line %d: %s" % (at, why)

    def play(self, name, *given):
        if name not in LINES:
            raise Bad("unknown word")
        if len(given) != len(LINES[name]):
            raise Bad("too few words" if len(given) < len(LINES[name]) else "too many words")
        values = [read(text) for read, text in zip(LINES[name], given)]
        if name in OF_A_SITE and self.site is None:
            raise Bad("no site is open")
        answer = getattr(self, "on_" + name)(*values)
        return answer_text(answer, self.out) if name in CALLS else answer

    def on_register(self, rows):
        self.register = rows

    def on_lend(self, tags, cert, views, out, fill):
        *self.books, self.out = [bytearray([fill]) * size for size in (tags, cert, views, out)]

    def on_poke(self, which, at, data):
        lent = self.books[which]
        if at + len(data) > len(lent):
            raise Bad("outside the book")
        lent[at:at + len(data)] = data

    def on_open(self, *terms):
        answer, site = site_model.open_site(*terms)
        self.site = site or self.site
        return answer

    def on_propose(self, track, lon, lat):
        return self.site.propose(self.books, self.out, self.register, (track, lon & HUGE, lat & HUGE))

    def on_hear(self, packet):
        return self.site.hear(self.books, self.out, self.register, packet)

    def on_leave(self, view):
        return self.site.leave(self.books, self.out, view)

    def on_seal(self, draft, tag):
        return self.site.seal(self.out, draft, tag)

    def on_judge(self, view, data):
        return self.site.judge(self.register, view, data)

    def on_read(self):
        return self.site.read()

    def on_books(self):
        return " ".join(spelled(lent) for lent in (*self.books, self.out))

    def on_record(self):
        return record_text(self.site)


def replayed(lines):
    program = Replay()
    for at, line in enumerate(lines, 1):
        answer = program.answer(line, at)
        if answer is not None:
            yield answer


def made(mode, *given):
    """The lines of a script. What makes them plays them by this module, and so is imported only here."""
    import replay_fuzz
    import replay_scripts
    if mode == "fuzz":
        return replay_fuzz.fuzz(int(given[0]), int(given[1]), given[2:] == ("-v",))
    return {"rehearsal": replay_scripts.rehearsal, "refusals": replay_scripts.refusals}[mode]()


def main():
    # any byte is a character, so that lines that are no text can be read and made
    sys.stdout.reconfigure(encoding="latin-1")
    if sys.argv[1:]:
        lines = made(*sys.argv[1:])
    else:
        lines = replayed(sys.stdin.buffer.read().decode("latin-1").split("\n"))
    for line in lines:
        print(line)


if __name__ == "__main__":
    main()
