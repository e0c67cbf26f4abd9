#!/usr/bin/env python3
"""crews.py PROGRAM: the program serves 63 callers at once over pipes, each of whom makes 1,000 crew calls on few vacancies, and between them
withdraws offers that are its own, or anybody's. The run has to end well, and its journal has to be legal. Each crew call's lines have to be
the caller's next entries there, in their order, and be those of a crew call that came to what was put: after `both` each vacancy was
offered to the person named; after `neither` no offer that the call made is open at its last entry; after `between` another entry that was
accepted, the first behind the call's offer, ended that before the call's last entry. One caller ends with two calls left, and is refused a crew
call. The last line is 'N passed, M failed'."""
import sys
import tempfile

import piped

CALLERS = 63
CREWS, AT_ONCE = 1_000, 100
CALLS_PER_LINE = 5_000

# engineers are called for the first vacancy of a crew, conductors for the second
ENGINEERS, CONDUCTORS = range(101, 105), range(201, 203)
FIRSTS, SECONDS = range(1, 5), range(5, 9)

OPENING = [
    "2024-03-04 00:00,open,2024-03,1,15",
    "2024-03-04 00:01,board,P1,pool,HOM",
    *[f"2024-03-04 00:01,enrol,{person},{craft},HOM,-" for craft, persons in (("E", ENGINEERS), ("C", CONDUCTORS)) for person in persons],
    *[f"2024-03-04 00:02,list,{person},P1" for person in (*ENGINEERS, *CONDUCTORS)],
    *[f"2024-03-04 00:03,vacancy,{vac},{craft},-,HOM,2024-03-04 08:00,600,0,P1" for craft, vacs in (("E", FIRSTS), ("C", SECONDS)) for vac in vacs],
]
MINUTE = "2024-03-04 00:05"


class Caller(piped.Caller):
    """Who calls crews. Each crew call is kept with how many entries came before it and with the lines that were put for it, the last of
    which tells what it came to; `got` are all lines of entries."""

    def talk(self):
        self.crews = []
        for _ in range(CREWS):
            first, second = self.draw.choice(FIRSTS), self.draw.choice(SECONDS)
            outcome = self.crew(first, second)
            word, *rest = outcome.split(" ")[1:]
            if word == "both":
                self.call(f"withdraw,{first},{rest[0]}", f"withdraw,{second},{rest[1]}")
            elif self.draw.random() < 0.3:
                self.call(f"withdraw,{self.draw.choice(FIRSTS)},{self.draw.choice(ENGINEERS)}")
        if self.number == 1:
            self.call(*[f"vac,{FIRSTS[0]}"] * (CALLS_PER_LINE - 2 - len(self.got)))
            self.crew(FIRSTS[0], SECONDS[0])

    def crew(self, first, second):
        self.say(f"{MINUTE},crew,{first},{second}")
        lines = []
        while not lines or not lines[-1].startswith("crew "):
            line = self.hear()
            if not line:
                break
            lines.append(line)
        self.crews.append((first, second, len(self.got), lines))
        self.got += lines[:-1]
        return lines[-1] if lines else "crew none"

    def call(self, *commands):
        # no more at once than pipes hold
        for begin in range(0, len(commands), AT_ONCE):
            some = commands[begin : begin + AT_ONCE]
            self.say(*[f"{MINUTE},{command}" for command in some])
            self.got += [self.hear() for _ in some]


def parts(line):
    """The caller, the command's word and fields, and the reply of an entry's line."""
    caller, stated, _, reply = line.split("|")
    return int(caller), stated.split(",")[1:], reply


def offered(reply):
    """To whom a reply offers, or nobody."""
    return reply.split(" ")[1] if reply.startswith("offered ") else None


def offers_after(journal):
    """To whom each vacancy is on offer after so many entries: of each number of entries, by vacancy."""
    now = {}
    after = [{}]
    for line in journal:
        _, (word, *fields), reply = parts(line)
        if offered(reply):
            now = {**now, fields[0]: offered(reply)}
        elif reply == "done" and word in ("accept", "decline", "noanswer", "withdraw", "annul"):
            now = {vac: person for vac, person in now.items() if vac != fields[0]}
        after.append(now)
    return after


def is_crew_call(first, second, entries):
    """Whether these entries, of a word, its fields and a reply, are those of a crew call; and the outcome that they have."""
    words = [",".join(command) for command, _ in entries]
    replies = [reply for _, reply in entries]
    if words[:1] != [f"next,{first}"]:
        return None
    person = offered(replies[0])
    if not person:
        return f"crew neither {first}" if len(entries) == 1 else None
    if words[1:2] != [f"next,{second}"]:
        return None
    if offered(replies[1]):
        return f"crew both {person} {offered(replies[1])}" if len(entries) == 2 else None
    if words[2:] != [f"withdraw,{first},{person}"]:
        return None
    return f"crew neither {second}" if replies[2] == "done" else f"crew between {first}"


def ended_by(journal, vac, person, begin, end):
    """The first place between these at which an accepted entry ended the offer of the vacancy to the person, or nothing."""
    ends = [["accept", vac, person], ["decline", vac, person], ["noanswer", vac, person], ["withdraw", vac, person], ["annul", vac]]
    return next((place for place in range(begin + 1, end) if parts(journal[place])[1] in ends and parts(journal[place])[2] == "done"), None)


def first_wrong(caller, journal, offers, own):
    """The first crew call of a caller that isn't right, or nothing; `own` are the places of its entries in the journal."""
    for first, second, before, lines in caller.crews:
        *entries, outcome = lines
        if outcome == "crew too few 2" and not entries:
            continue
        told = [parts(line)[1:] for line in entries]
        if is_crew_call(first, second, told) != outcome:
            return lines
        begin, end = own[before], own[before + len(entries) - 1]
        if outcome.startswith("crew neither") and any(offered(reply) and command[1] in offers[end + 1] for command, reply in told):
            return lines
        if outcome.startswith("crew between"):
            vac, person = str(first), offered(told[0][1])
            by = ended_by(journal, vac, person, begin, end)
            if by is None or offers[by].get(vac) != person or vac in offers[by + 1]:
                return lines
    return None


def main(program):
    checks = piped.Checks("crews")
    with tempfile.TemporaryDirectory() as room:
        callers = [Caller(room, number) for number in range(1, CALLERS + 1)]
        journal, status, errors = piped.watched(program, callers, OPENING)
    checks.is_so("its status", (status, errors), (0, ""))
    checks.is_so("an audit of its journal", piped.audited(program, journal), f"legal {len(journal) - 1}\n")
    entries = journal[1:]
    offers = offers_after(entries)
    own = {number: [] for number in range(CALLERS + 1)}
    for place, line in enumerate(entries):
        own[parts(line)[0]].append(place)
    for caller in callers:
        checks.is_so(f"the crew calls of caller {caller.number}", len(caller.crews), CREWS + (caller.number == 1))
        checks.is_so(f"the entries of caller {caller.number}", caller.got == [entries[place] for place in own[caller.number]], True)
        checks.is_so(f"the first wrong crew call of caller {caller.number}", first_wrong(caller, entries, offers, own[caller.number]), None)
    outcomes = {" ".join(lines[-1].split(" ")[:2]) for caller in callers for *_, lines in caller.crews}
    checks.is_so("what crew calls came to", outcomes, {"crew both", "crew neither", "crew between", "crew too"})
    refused = [(caller.number, lines) for caller in callers for *_, lines in caller.crews if lines[-1].startswith("crew too few")]
    checks.is_so("who has too few calls left", refused, [(1, ["crew too few 2"])])
    return checks.end()


if __name__ == "__main__":
    sys.exit(main(*sys.argv[1:]))
