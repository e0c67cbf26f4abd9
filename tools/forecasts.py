#!/usr/bin/env python3
"""forecasts.py PROGRAM [DAYS]: draws so many days of each edition, 100 where no number is given, and compares what the program says would
be with what it says that is. `forecast K` has to have the lines of the day's journal, with the line `supposed s` before the last s: for
some K, from 0 to more than all. `when V P` has to say what a scan finds: the day is replayed with `explain V P` behind it at
each minute from its last moment to the report, and the first answer `clear`, or the bar in the last one, is what is wanted.
The days have tours with and without excess, told before and after somebody is listed, parts of no minutes at their ends, days in a row,
offers that are declined, not answered or taken back, jobs begun and dropped, and reports within two days. Of 100 days or more each sort
of answer has to come. The last line is 'N passed, M failed'."""
import collections
import datetime
import functools
import random
import re
import subprocess
import sys

# After so many seconds a run is taken for one that hangs.
PATIENCE = 60

BEGIN = datetime.datetime(2024, 3, 4)

PERSONS = range(101, 107)

# Somebody whom nobody enrolled, and a vacancy that nobody made.
NOBODY, NO_VACANCY = 999, 99

# Each sort of answer to `when` that has to come, with the bar that a clear minute ends, or that bars up to the report.
SORTS = ["clear at once", "lapsed", "not listed", "unknown vacancy", "unknown person"]
ENDED = ["B8", "21103(e)"]
BARRED = ["B1", "B2", "B3", "B4", "B5", "B6", "B7", "B8", "21103(a)(3)", "21103(c)(4)", "21103(a)(4)(A)(ii)"]


@functools.lru_cache(maxsize=None)
def at(minute):
    """The text of a minute, which is counted from the begin of the first day."""
    return (BEGIN + datetime.timedelta(minutes=minute)).strftime("%Y-%m-%d %H:%M")


def minute_of(text):
    return int((datetime.datetime.strptime(text, "%Y-%m-%d %H:%M") - BEGIN).total_seconds()) // 60


class Day:
    """A day file that is drawn by a number."""

    def __init__(self, number, edition):
        self.draw = random.Random(2 * number + edition)
        self.now = 0
        self.count = 0
        self.edition = edition
        self.lines = ["2024-03-04 00:00,open,2024-03,2,15" + (",2" if edition == 2 else "")]
        self.set_up()
        for _ in range(self.draw.randrange(4, 16)):
            self.now += self.draw.choice([0, 1, 7, 15, 60, 240])
            self.draw.choice([self.make_vacancy, self.call, self.call, self.call, self.tour, self.change])()
        for _ in range(3):
            self.make_vacancy()

    def say(self, text, minute=None):
        self.lines.append(f"{at(self.now if minute is None else minute)},{text}")

    def set_up(self):
        for board in ("P1,pool,HOM", "X1,extra,HOM", "X2,extra,AWY"):
            self.say(f"board,{board}")
        for person in PERSONS:
            quals = self.draw.choice(["-", "3", "3"])
            self.say(f"enrol,{person},{self.draw.choice('EEEEEEEC')},{self.place()},{quals}")
        self.now = 7 * 1440 + self.draw.randrange(1440)
        for person in PERSONS:
            for days in self.draw.choice([[], [1], [0], [0], [0], [0], [6, 5, 4, 3, 2, 1, 0]]):
                self.tell_tour("past", person, self.now - 1440 * days - self.draw.randrange(600))
        for person in PERSONS:
            for board in self.draw.sample(["P1", "X1", "X2"], self.draw.randrange(1, 4)):
                self.say(f"list,{person},{board}")

    def place(self):
        return self.draw.choice(["HOM"] * 7 + ["AWY"])

    def tell_tour(self, word, person, end):
        """A tour that ends by a minute: of five to thirteen hours on duty; some have hours of limbo behind them, some a last part of no minutes."""
        duty, limbo = self.draw.randrange(300, 780), self.draw.choice([0, 0, 240, 400])
        start, place = end - limbo - duty, self.place()
        self.say(f"{word},{person},duty,{at(start)}")
        if limbo:
            self.say(f"{word},{person},relieve,{at(start + duty)}")
        elif self.draw.randrange(3) == 0:
            self.say(f"{word},{person},interim,{at(start + 60)},D,{place}")
            self.say(f"{word},{person},resume,{at(end)}")
        self.say(f"{word},{person},final,{at(end)},{place}")

    def make_vacancy(self):
        self.count += 1
        word, most = ("relief", 960) if self.edition == 2 and self.draw.randrange(6) == 0 else ("vacancy", 720)
        report = self.now + self.draw.choice([5, 60, 300, 500, 700, 900, 1200, 2000, 2800]) + self.draw.randrange(80)
        chain = self.draw.choice(["P1", "P1", "X1", "P1+X1", "P1+X1", "X1+X2", "P1+X2"])
        quals = self.draw.choice(["-", "-", "3"])
        self.say(f"{word},{self.count},{self.draw.choice('EEEEEC')},{quals},HOM,{at(report)},{self.draw.randrange(60, most)},0,{chain}")

    def call(self):
        """A vacancy is called, and of whoever it is offered to something is told: who it is the desk knows."""
        if not self.count:
            return self.make_vacancy()
        vac = self.draw.randrange(max(1, self.count - 2), self.count + 1)
        self.say(f"next,{vac}")
        what = self.draw.choice(["accept", "decline", "decline", "decline", "decline", "noanswer", "withdraw", ""])
        self.now += 15 if what == "noanswer" else self.draw.randrange(5)
        for person in PERSONS if what else []:
            self.say(f"{what},{vac},{person}")
        if what == "accept" and self.draw.randrange(3) == 0:
            self.say(f"drop,{self.draw.choice(PERSONS)}")

    def tour(self):
        person = self.draw.choice(PERSONS)
        if self.draw.randrange(4) == 0:
            self.say(f"event,{person},duty,{at(self.now)}")
        else:
            self.now += self.draw.choice([0, 400, 900])
            self.tell_tour("event", person, self.now)

    def change(self):
        person, vac = self.draw.choice(PERSONS), self.draw.randrange(1, self.count + 2)
        self.say(self.draw.choice([
            f"off,{person}", f"on,{person}", f"qualify,{person},3", f"unlist,{person},P1", f"list,{person},X1", f"annul,{vac}",
            f"hours,{person},2024-03", f"vac,{vac}", "at,P1,1", f"event,{person},other,{at(self.now - 30)},{at(self.now)},HOM",
        ]), self.draw.choice([None, None, None, self.now - 9, -1]))


class Checks:
    """Runs of a program, counted."""

    def __init__(self, program):
        self.program, self.passed, self.failed = program, 0, 0
        self.came = collections.Counter()

    def is_so(self, what, found, wanted):
        """Counts a check, and says where it failed."""
        if found == wanted:
            self.passed += 1
        else:
            self.failed += 1
            print(f"forecasts: {what}: {found!r} is not {wanted!r}"[:900])

    def lines(self, words, lines):
        """The lines that the program writes of a day file, where it ends well."""
        ran = subprocess.run([self.program, *words], input="".join(f"{line}\n" for line in lines), capture_output=True, text=True,
                             check=False, timeout=PATIENCE)
        return ran.stdout.splitlines(keepends=True) if (ran.returncode, ran.stderr) == (0, "") else [f"status {ran.returncode}"]


def show_forecasts(checks, name, day, journal, draw):
    """The last commands supposed: few, some, and all."""
    many = len(journal) - 1
    for asked in (draw.randrange(3), draw.randrange(many + 1), draw.choice([many - 1, many, many + 1, 200_000])):
        supposed = min(asked, many)
        wanted = [*journal[:len(journal) - supposed], f"supposed {supposed}\n", *journal[len(journal) - supposed:]]
        checks.is_so(f"{name}: forecast {asked}", checks.lines(["forecast", str(asked)], day), wanted)


def reports_in(journal):
    """The report of each vacancy that was made, in minutes."""
    found = {}
    for line in journal:
        made = re.fullmatch(r"0\|[^,]*,(?:vacancy|relief),(\d+),[^,]*,[^,]*,[^,]*,([^,]*),.*\|done\n", line)
        if made:
            found[int(made[1])] = minute_of(made[2])
    return found


def earliest(answers):
    """What is wanted of `when`, by what is answered to `explain` at each minute in turn; and of which sort it is."""
    first, last = answers[0][1], answers[-1][1]
    if not first.startswith(("clear ", "denied ")):
        return first, first.split(" 2")[0]
    clear = [minute for minute, answer in answers if answer.startswith("clear ")]
    if not clear:
        return last.replace("denied ", "barred "), f"barred {bar_in(last)}"
    if clear[0] == answers[0][0]:
        return f"clear {at(clear[0])}", "clear at once"
    return f"clear {at(clear[0])}", f"clear behind {bar_in(answers[clear[0] - answers[0][0] - 1][1])}"


def bar_in(answer):
    """The name of the bar in a denial."""
    return answer.split(" ")[1]


def show_times(checks, name, day, journal, draw):
    """From when on nothing bars each of some persons from each of some vacancies."""
    last = minute_of(journal[-1].split("|")[-2])
    reports = reports_in(journal)
    pairs = draw.sample([(vac, person) for vac in [*reports][-5:] for person in PERSONS], 4 if reports else 0)
    pairs.append(draw.choice([(NO_VACANCY, 101), (NO_VACANCY, NOBODY), (min(reports, default=1), NOBODY)]))
    asked = sorted((minute, *pair) for pair in pairs for minute in range(last, max(last, reports.get(pair[0], last)) + 1))
    explained = checks.lines(["replay"], [*day, *(f"{at(minute)},explain,{vac},{person}" for minute, vac, person in asked)])
    answers = collections.defaultdict(list)
    for (minute, *pair), line in zip(asked, explained[len(journal):]):
        answers[tuple(pair)].append((minute, line.split("|")[-1].rstrip("\n")))
    for vac, person in pairs:
        wanted, sort = earliest(answers[vac, person])
        checks.came[sort] += 1
        checks.is_so(f"{name}: when {vac} {person}", checks.lines(["when", str(vac), str(person)], day), [f"{wanted}\n"])


def main(program, days="100"):
    checks = Checks(program)
    for number in range(int(days)):
        for edition in (1, 2):
            day = Day(number, edition)
            name = f"day {number} of edition {edition}"
            journal = checks.lines(["replay"], day.lines)
            checks.is_so(f"{name}: replay", len(journal), len(day.lines))
            show_forecasts(checks, name, day.lines, journal, day.draw)
            show_times(checks, name, day.lines, journal, day.draw)
    for sort in [*SORTS, *(f"clear behind {bar}" for bar in ENDED), *(f"barred {bar}" for bar in BARRED)] if int(days) >= 100 else []:
        checks.is_so(f"answers of the sort '{sort}'", checks.came[sort] > 0, True)
    print(f"{checks.passed} passed, {checks.failed} failed")
    return 0 if checks.passed and not checks.failed else 1


if __name__ == "__main__":
    sys.exit(main(*sys.argv[1:]))
