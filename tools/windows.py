#!/usr/bin/env python3
"""windows.py PROGRAM: the program serves 63 callers at once with looks, whose files are pipes. 40 of them only look at boards, 10,000
times each, while 23 list people and take them off, mark them off and on, have vacancies offered and decline the offers, and look after
each entry. The run has to end well when they do, and its journal has to be legal. The boards are then read from the journal, entry by
entry. Each look has to tell who stands at its place on its board after so many entries as it says; it never says fewer than a look of
the same caller did before, or than the caller was shown of its own entries. The program has to find the same boards itself, by
`continue` and `at` behind some of the journal's beginnings. The last line is 'N passed, M failed'."""
import subprocess
import sys
import tempfile

import piped

LOOKERS, CALLERS = 40, 23
LOOKS, AT_ONCE = 10_000, 50
CALLS = 200
BOARDS = ["P1", "X2"]
PLACES = range(1, 50)

FIRST = 201
PERSONS = range(FIRST, FIRST + 2 * CALLERS)

OPENING = [
    "2024-03-04 00:00,open,2024-03,1,15",
    "2024-03-04 00:01,board,P1,pool,HOM",
    "2024-03-04 00:01,board,X2,extra,HOM",
    *[f"2024-03-04 00:01,enrol,{person},E,HOM,-" for person in PERSONS],
    *[f"2024-03-04 00:02,list,{person},P1" for person in PERSONS if person % 3],
    *[f"2024-03-04 00:03,vacancy,{caller},E,-,HOM,2024-03-04 08:00,600,0,P1+X2" for caller in range(1, CALLERS + 1)],
]
MINUTE = "2024-03-04 00:05"


class Boards:
    """Who stands on each board, by the entries of a journal that were answered `done`."""

    def __init__(self):
        self.members = {}
        self.offered = {}

    def take(self, line):
        _, stated, _, reply = line.split("|")
        _, word, *fields = stated.split(",")
        if word == "next" and reply.startswith("offered "):
            self.offered[fields[0]] = reply.split(" ")[2]
        if reply != "done":
            return
        if word == "board":
            self.members[fields[0]] = []
        elif word == "list":
            self.to_bottom(fields[0], fields[1], True)
        elif word == "unlist":
            self.members[fields[1]].remove(fields[0])
        elif word == "on":
            for board in self.members:
                self.to_bottom(fields[0], board, False)
        elif word == "decline":
            self.to_bottom(fields[1], self.offered[fields[0]], False)

    def to_bottom(self, person, board, put):
        """Somebody goes to the bottom of a board: who is put on it, or stands on it."""
        there = self.members[board]
        if person in there:
            there.remove(person)
            there.append(person)
        elif put:
            there.append(person)

    def seen(self, board, place):
        """What a look tells of a place."""
        if board not in self.members:
            return "no board"
        there = self.members[board]
        return there[place - 1] if place <= len(there) else f"no one {len(there)}"


class Caller(piped.Caller):
    """Who looks at boards, or calls and looks after each entry."""

    def talk(self):
        if self.number <= CALLERS:
            self.call()
        else:
            self.look()

    def ask(self, lines):
        """Says lines at once, and keeps a reply of each."""
        self.say(*lines)
        for line in lines:
            self.got.append((line, self.hear()))

    def a_look(self):
        return f"look,{self.draw.choice([*BOARDS, 'X9'] if self.draw.random() < 0.1 else BOARDS)},{self.draw.choice(PLACES)}"

    def look(self):
        for _ in range(LOOKS // AT_ONCE):
            self.ask([self.a_look() for _ in range(AT_ONCE)])

    def call(self):
        person = FIRST + 2 * (self.number - 1)
        offered = None
        for _ in range(CALLS):
            mine, board = person + self.draw.randrange(2), self.draw.choice(BOARDS)
            word = self.draw.choice(["list", "unlist", "off", "on", "next", "next"])
            if offered and self.draw.random() < 0.7:
                command = f"decline,{self.number},{offered}"
            elif word == "next":
                command = f"next,{self.number}"
            elif word in ("list", "unlist"):
                command = f"{word},{mine},{board}"
            else:
                command = f"{word},{mine}"
            # where what is shown is behind, a line tells so before the look's
            self.say(f"{MINUTE},{command}")
            reply = self.hear()
            self.got.append((command, reply))
            answer = reply.rpartition("|")[2].split(" ")
            offered = answer[1] if answer[0] == "offered" else None if command.startswith("decline") else offered
            look = self.a_look()
            self.say(look)
            reply = self.hear()
            if reply.startswith("behind "):
                self.got.append(("behind", reply))
                reply = self.hear()
            self.got.append((look, reply))


def boards_of(journal):
    """What each look tells after each number of entries."""
    boards = Boards()
    told = []
    for line in [None, *journal[1:]]:
        if line is not None:
            boards.take(line)
        told.append({(board, place): boards.seen(board, place) for board in [*BOARDS, "X9"] for place in PLACES})
    return told


def first_wrong(caller, told, places):
    """The first answer to a caller that isn't right, or nothing. `places` are those of its entries in the journal."""
    least = len(OPENING) - 1
    own = iter(places)
    told_of = None
    for said, reply in caller.got:
        if said == "behind":
            told_of = None
            continue
        if told_of is not None:
            least = max(least, told_of + 1)
            told_of = None
        if said.startswith("look,"):
            _, board, place = said.split(",")
            word, seen, what = (reply + "  ").split(" ", 2)
            if word != "look" or not least <= int(seen) < len(told) or told[int(seen)][board, int(place)] != what.rstrip():
                return said, reply, least
            least = int(seen)
        else:
            told_of = next(own, None)
            if told_of is None:
                return said, reply, least
    return None


def main(program):
    checks = piped.Checks("windows")
    with tempfile.TemporaryDirectory() as room:
        callers = [Caller(room, number) for number in range(1, LOOKERS + CALLERS + 1)]
        journal, status, errors = piped.watched(program, callers, OPENING)
    checks.is_so("its status", (status, errors), (0, ""))
    checks.is_so("an audit of its journal", piped.audited(program, journal), f"legal {len(journal) - 1}\n")
    told = boards_of(journal)
    for caller in callers:
        own = [(place, line) for place, line in enumerate(journal[1:]) if line.startswith(f"{caller.number}|")]
        replies = [reply for said, reply in caller.got if not said.startswith("look,") and said != "behind"]
        checks.is_so(f"the replies of caller {caller.number}", replies, [line for _, line in own])
        checks.is_so(f"what caller {caller.number} says", len(caller.got) - sum(said == "behind" for said, _ in caller.got), 2 * CALLS if caller.number <= CALLERS else LOOKS)
        checks.is_so(f"the first wrong look of caller {caller.number}", first_wrong(caller, told, [place for place, _ in own]), None)
    shown = {reply.split(" ")[1] for caller in callers[CALLERS:] for _, reply in caller.got if " " in reply}
    checks.is_so("somebody who only looks sees what others do", len(shown) > 1, True)
    done = {line.split(",")[1] for line in journal[len(OPENING) :] if line.endswith("|done")}
    checks.is_so("what moves somebody", done, {"list", "unlist", "off", "on", "decline"})
    for count in range(len(OPENING) - 1, len(journal), max(1, len(journal) // 8)):
        asked = "".join(f"{MINUTE},at,{board},{place}\n" for board in BOARDS for place in PLACES)
        front = "".join(line + "\n" for line in journal[: count + 1])
        found = subprocess.run([program, "continue"], input=f"{front}+\n{asked}".encode(), capture_output=True, timeout=piped.PATIENCE, check=False)
        answers = [line.rpartition("|")[2].removeprefix("seen ") for line in found.stdout.decode().splitlines()[count + 1 :]]
        checks.is_so(f"the boards after {count} entries", answers, [told[count][board, place] for board in BOARDS for place in PLACES])
    return checks.end()


if __name__ == "__main__":
    sys.exit(main(*sys.argv[1:]))
