#!/usr/bin/env python3
"""texts.py PROGRAM: what the program reads and writes, text by text. The folder texts/ has records, lines and replies, one a line, that
are read or refused; a line that begins with # says of what sort those below it are. Each is given to the program by itself, as a day
file or a journal, and what it says of it is compared. Day files and lines of callers stand here. The last line is 'N passed, M failed'."""
import os
import re
import subprocess
import sys
import tempfile

TEXTS = os.path.join(os.path.dirname(os.path.dirname(os.path.abspath(__file__))), "texts")

FINE, TOO_LONG, WRONG, NO_OPENING, UNREADABLE = 0, 5, 7, 8, 9

# What stands on standard error.
WORDS = {FINE: b"", TOO_LONG: b"too long\n", WRONG: b"wrong\n", NO_OPENING: b"no opening\n", UNREADABLE: b"unreadable\n"}

# After so many seconds a run is given up.
PATIENCE = 60

# How many texts each file has, so that one that is lost is missed.
COUNTS = {
    "records": 64,
    "refused_records": 184,
    "wrong_fields": 121,
    "replies": 82,
    "refused_replies": 87,
    "entries": 9,
    "refused_entries": 20,
    "openings": 9,
    "refused_openings": 35,
}

OPENING = b"2024-03-04 00:00,open,2024-03,1,15\n"
SECOND = b"2024-03-04 00:00,open,2024-03,1,15,2\n"
NEXT = b"2024-03-04 00:01,next,12\n"

# The front of an entry's line, up to its reply, and what is right there.
ENTRY = b"0|2024-03-04 00:01,next,12|2024-03-04 00:01|"
RIGHT = b"unknown vacancy"

# Day files that are read, each with its journal.
DAYS = {
    "an opening without a line feed": (OPENING[:-1], OPENING),
    "a command without a line feed": (OPENING + NEXT[:-1], OPENING + ENTRY + RIGHT + b"\n"),
    "empty lines": (OPENING + b"\n\r\n" + NEXT, OPENING + ENTRY + RIGHT + b"\n"),
    "quoted fields": (b'"2024-03-04 00:00","open","2024-03","1","15"\r\n2024-03-04 00:01,"next",12\r\n', OPENING + ENTRY + RIGHT + b"\n"),
    "carriage returns alone": ((OPENING + NEXT).replace(b"\n", b"\r"), OPENING + ENTRY + RIGHT + b"\n"),
    "a field with text behind its quotes": (OPENING + b'2024-03-04 00:01,"ne"xt,12\n', OPENING + ENTRY + RIGHT + b"\n"),
    "a quote that is not closed": (OPENING + b'2024-03-04 00:01,next,"12', OPENING + ENTRY + RIGHT + b"\n"),
    "a byte order mark": (b"\xef\xbb\xbf" + OPENING, OPENING),
    "a relief vacancy": (
        SECOND + b"2024-03-04 00:01,relief,5,E,-,HOM,2024-03-04 08:00,960,0,P1\n",
        SECOND + b"0|2024-03-04 00:01,relief,5,E,-,HOM,2024-03-04 08:00,960,0,P1|2024-03-04 00:01|unknown board P1\n",
    ),
    "minutes that fall": (
        b"\n" + OPENING[:-1] + b"\r\n\r\n2024-03-04 00:01,board,P1,pool,HOM\n\n2024-03-04 00:02,next,12\r\n2024-03-04 00:01,next,9999999",
        OPENING
        + b"0|2024-03-04 00:01,board,P1,pool,HOM|2024-03-04 00:01|done\n"
        + b"0|2024-03-04 00:02,next,12|2024-03-04 00:02|unknown vacancy\n"
        + b"0|2024-03-04 00:01,next,9999999|2024-03-04 00:02|unknown vacancy\n",
    ),
}

# Day files without an opening.
UNOPENED = [b"", b"\n\r\n\n", NEXT, NEXT + OPENING, b"unlist\nunlist\n"]

# Day files with a wrong field: the number of the record, and the place of the field.
WRONG_DAYS = [
    (OPENING + OPENING, 2, 2),
    (OPENING + b"2024-03-04 00:01,nextt,12\n", 2, 2),
    (OPENING + NEXT + b"2024-03-04 00:01,next\n", 3, 3),
    (OPENING + NEXT + b"2024-03-04 00:01,next,12,1,2,3,4,5,6,7,8,9,10\n", 3, 4),
    (OPENING + b" \n" + NEXT, 2, 1),
    (SECOND + SECOND, 2, 2),
    (SECOND + b"2024-03-04 00:01,relief,5,E,-,HOM,2024-03-04 08:00,960,0\n", 2, 10),
    (OPENING + b"\xef\xbb\xbf" + NEXT, 2, 1),
    (OPENING + b'"2024-03-04 00:01,next,12\n', 2, 1),
    (OPENING + b'2024-03-04 00:01,next,"1""2"\n', 2, 3),
    (OPENING + b'2024-03-04 00:01,ne"xt",12\n', 2, 2),
    (OPENING + b'2024-03-04 00:01,next,"12\n2024-03-04 00:02,next,13\n"\n', 2, 3),
    (OPENING + b"unlist\n" * 200_000, 2, 1),
]

# What stands behind the fifth field of an opening: the second edition's, and what names none.
EDITIONS = [b",2", b',"2"', b",2\r"]
NO_EDITIONS = (
    [b",", b",1", b',"1"', b",3", b",0", b",02", b",22", b",+2", b",-", b", 2", b",2 ", b",2,", b",2,2", b",,2", b",1,2"]
    + [b",2" * count for count in (7, 8, 9)]
)

# What stands behind the plus of a journal with no entries, and what is said of it.
MORE = [
    (b"\xef\xbb\xbf2024-03-04 00:01,\"next\",12\r\n\r\n", FINE, OPENING + ENTRY + RIGHT + b"\n"),
    (b"2024-03-04 00:05,vac,1\n2024-03-04 00:05,vac\n", UNREADABLE, b"unreadable 2 3\n"),
    (OPENING, UNREADABLE, b"unreadable 1 2\n"),
]

# Lines of a caller, each with its reply; behind `malformed` the place of the first wrong field, 0 where the line is no record.
CALLER = [
    (b"2024-03-04 00:01,next,12", b"1|2024-03-04 00:01,next,12|2024-03-04 00:01|unknown vacancy"),
    (b"2024-03-04 00:01,next,12\r", b"1|2024-03-04 00:01,next,12|2024-03-04 00:01|unknown vacancy"),
    (b'2024-03-04 00:01,"next",12', b"1|2024-03-04 00:01,next,12|2024-03-04 00:01|unknown vacancy"),
    (b"\xef\xbb\xbf2024-03-04 00:01,next,12", b"1|2024-03-04 00:01,next,12|2024-03-04 00:01|unknown vacancy"),
    (b"", b"malformed 0"),
    (b"\r", b"malformed 0"),
    (b"2024-03-04 00:01", b"malformed 2"),
    (b"2024-03-04 0:01,next,12", b"malformed 1"),
    (b"2024-03-04 00:01,next,012", b"malformed 3"),
    (b"2024-03-04 00:01,next,12,", b"malformed 4"),
    (b",", b"malformed 1"),
    (b"\xef2024-03-04 00:01,next,12", b"malformed 1"),
    (b'2024-03-04 00:01,next,12"', b"malformed 3"),
    (b"2024-03-04 00:01,vacancy,1,E,-,HOM,2024-03-04 08:00,600,0,P1,x,y,z", b"malformed 11"),
    (b'2024-03-04 00:01,vacancy,1,E,-,HOM,2024-03-04 08:00,600,0,P1,"x",y,z', b"malformed 11"),
]


def lines_of(name):
    """The texts of a file, of which none is missing."""
    with open(f"{TEXTS}/{name}", "rb") as file:
        found = [it for it in file.read().split(b"\n")[:-1] if not it.startswith(b"#")]
    if len(found) != COUNTS[name]:
        sys.exit(f"texts/{name} has {len(found)} texts, and not {COUNTS[name]}")
    return found


class Checks:
    """Runs of a program, counted."""

    def __init__(self, program):
        self.program, self.passed, self.failed = os.path.abspath(program), 0, 0

    def is_so(self, what, found, wanted):
        """Counts a check, and says where it failed."""
        if found == wanted:
            self.passed += 1
        else:
            self.failed += 1
            print(f"texts: {what}: {found!r} is not {wanted!r}"[:600])

    def ended(self, words, given):
        """How the program ends that is run with these words on this input, and what it writes. On standard error stands its status's word."""
        ran = subprocess.run([self.program, *words], input=given, capture_output=True, check=False, timeout=PATIENCE)
        if ran.stderr != WORDS.get(ran.returncode):
            self.is_so(f"the word of status {ran.returncode}", ran.stderr, WORDS.get(ran.returncode))
        return ran.returncode, ran.stdout

    def replay(self, what, day, status, text):
        self.is_so(what, self.ended(["replay"], day), (status, text))

    def audit(self, what, journal, status, text):
        self.is_so(what, self.ended(["audit"], journal), (status, text))


def show_records(checks):
    for record in lines_of("records"):
        status, text = checks.ended(["replay"], OPENING + record + b"\n")
        front = OPENING + b"0|" + record + b"|"
        checks.is_so(f"a record {record!r}", (status, text[: len(front)], text.count(b"\n"), text[-1:]), (FINE, front, 2, b"\n"))
    for record in lines_of("refused_records"):
        status, text = checks.ended(["replay"], OPENING + record + b"\n")
        is_told = re.fullmatch(rb"unreadable 2 [1-9]\d?\n", text) is not None
        checks.is_so(f"a refused record {record!r}", (status, is_told), (UNREADABLE, True))
    for line in lines_of("wrong_fields"):
        place, record = line.split(b" ", 1)
        checks.replay(f"a wrong field {record!r}", OPENING + record + b"\n", UNREADABLE, b"unreadable 2 " + place + b"\n")


def show_replies(checks):
    right = b"right 2024-03-04 00:01|" + RIGHT + b"\n"
    for reply in lines_of("replies"):
        told = (FINE, b"legal 1\n") if reply == RIGHT else (WRONG, b"wrong 2\nwritten 2024-03-04 00:01|" + reply + b"\n" + right)
        checks.audit(f"a reply {reply!r}", OPENING + ENTRY + reply + b"\n", *told)
    for reply in lines_of("refused_replies"):
        checks.audit(f"a refused reply {reply!r}", OPENING + ENTRY + reply + b"\n", UNREADABLE, b"unreadable 2\n")


def show_lines(checks):
    for line in lines_of("entries"):
        status, text = checks.ended(["audit"], OPENING + line + b"\n")
        written = b"wrong 2\nwritten " + line.split(b"|", 2)[2] + b"\n"
        checks.is_so(f"an entry {line!r}", (status, text[: len(written)]), (WRONG, written))
    entry = ENTRY + RIGHT
    for lines in [*[line + b"\n" for line in lines_of("refused_entries")], b"\n", entry, b"\n" + entry + b"\n"]:
        checks.audit(f"a line of no entry {lines!r}", OPENING + lines, UNREADABLE, b"unreadable 2\n")
    checks.audit("an empty line behind an entry", OPENING + entry + b"\n\n", UNREADABLE, b"unreadable 3\n")
    for line in lines_of("openings"):
        checks.audit(f"an opening {line!r}", line + b"\n", FINE, b"legal 0\n")
        checks.replay(f"an opening {line!r}", line + b"\n", FINE, line + b"\n")
    for lines in [*[line + b"\n" for line in lines_of("refused_openings")], b"", b"\n", OPENING[:-1], SECOND[:-1]]:
        checks.audit(f"a line of no opening {lines!r}", lines, NO_OPENING, b"")
    checks.audit("an empty line behind an opening", OPENING + b"\n", UNREADABLE, b"unreadable 2\n")


def show_days(checks):
    for name, (day, journal) in DAYS.items():
        checks.replay(f"a day file with {name}", day, FINE, journal)
    for day in [*UNOPENED, NEXT + b"unlist\n" * 200_000]:
        checks.replay(f"a day file without an opening {day[:60]!r}", day, NO_OPENING, b"")
    for day, record, field in WRONG_DAYS:
        checks.replay(f"a wrong day file {day[:120]!r}", day, UNREADABLE, b"unreadable %d %d\n" % (record, field))
    for first, line in ((OPENING, b"unlist\n"), (NEXT, b"unlist\n"), (OPENING, NEXT)):
        checks.replay("a day file of too many records", first + line * 200_001, TOO_LONG, b"")
    for behind in EDITIONS:
        checks.replay(f"an opening with {behind!r} behind it", OPENING[:-1] + behind + b"\n" + NEXT, FINE, SECOND + ENTRY + RIGHT + b"\n")
    for behind in NO_EDITIONS:
        checks.replay(f"an opening with {behind!r} behind it", OPENING[:-1] + behind + b"\n" + NEXT, NO_OPENING, b"")


def show_more(checks):
    for behind, status, text in MORE:
        checks.is_so(f"behind a journal {behind!r}", checks.ended(["continue"], OPENING + b"+\n" + behind), (status, text))


def served(checks, names, lines):
    """What callers of these names, who have these lines, are answered, and the journal."""
    with tempfile.TemporaryDirectory() as room:
        for name in names:
            with open(f"{room}/{name}.in", "wb") as file:
                file.write(b"".join(line + b"\n" for line in lines))
        status, journal = checks.ended(["serve", *[f"{room}/{name}" for name in names]], OPENING)
        checks.is_so("callers who are served", status, FINE)
        replies = []
        for name in names:
            try:
                with open(f"{room}/{name}.out", "rb") as file:
                    replies.append(file.read().split(b"\n"))
            except FileNotFoundError:
                replies.append([])
    return replies, journal


def show_callers(checks):
    (replies,), _ = served(checks, ["east"], [line for line, _ in CALLER])
    checks.is_so("the replies to a caller", len(replies), len(CALLER) + 1)
    for (line, wanted), reply in zip(CALLER, replies):
        checks.is_so(f"a caller's line {line!r}", reply, wanted)
    # as many callers as there may be, each by its own number
    count = 63
    of_all, journal = served(checks, [f"caller{number}" for number in range(1, count + 1)], [b"2024-03-04 00:01,vac,1"])
    for number, replies in enumerate(of_all, 1):
        checks.is_so(f"the reply to caller {number}", replies, [b"%d|2024-03-04 00:01,vac,1|2024-03-04 00:01|unknown vacancy" % number, b""])
    lines = [b"%d|2024-03-04 00:01,vac,1|2024-03-04 00:01|unknown vacancy" % number for number in range(1, count + 1)]
    checks.is_so("the journal of 63 callers", sorted(journal.split(b"\n")), sorted([OPENING[:-1], *lines, b""]))
    checks.audit("the journal of 63 callers", journal, FINE, b"legal 63\n")


def main(program):
    checks = Checks(program)
    for show in (show_records, show_replies, show_lines, show_days, show_more, show_callers):
        show(checks)
    print(f"{checks.passed} passed, {checks.failed} failed")
    return 0 if checks.passed and not checks.failed else 1


if __name__ == "__main__":
    sys.exit(main(*sys.argv[1:]))
