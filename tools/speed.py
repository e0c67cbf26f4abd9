#!/usr/bin/env python3
"""speed.py PROGRAM [OTHER]: how long the program takes for the runs of docs/PERFORMANCE.md, each the best of five, with how much memory at
most, and beside it the time in which `cat` copies what the run reads and what it writes. It makes its inputs itself: a year of 1,000 persons
on 16 pools and 8 extra boards with 20,000 vacancies, 200,000 commands in all; that year's journal; 200,000 enrolments outside the window; a
vacancy that is called again and again while all are barred; and 63 callers with 5,000 commands each behind the year. Then it tells how long
a caller waits for a reply who calls over pipes, alone and among 63. OTHER is a program with the same forms: its runs take turns with the
program's, and the ratio of both bests is told. It is no part of the gate."""
import heapq
import os
import random
import select
import statistics
import subprocess
import sys
import tempfile
import time
from datetime import datetime, timedelta

PERSONS, POOLS, VACANCIES, COMMANDS = 1_000, 16, 20_000, 200_000
YEAR = 365 * 24 * 60
CALLERS, CALLS = 63, 5_000
TIMES = 5


def minute(at):
    return (datetime(2024, 1, 1) + timedelta(minutes=at)).strftime("%Y-%m-%d %H:%M")


def year():
    """The records of a year. Who is offered a vacancy is guessed from the boards; where the guess is wrong the desk refuses."""
    drawn = random.Random(1)
    said = []

    def say(at, text):
        if len(said) < COMMANDS:
            said.append(f"{minute(at)},{text}")

    def ask(at):
        say(at, drawn.choice(["hours,{},2024-06", "at,P3,{}", "explain,{0},{0}", "vac,{}"]).format(drawn.randrange(1, 60)))

    boards = [[] for _ in range(POOLS)]
    for pool in range(POOLS):
        say(0, f"board,P{pool},pool,HOM")
    for extra in range(POOLS // 2):
        say(0, f"board,X{extra},extra,HOM")
    for person in range(1, PERSONS + 1):
        pool = person % POOLS
        say(0, f"enrol,{person},{'EC'[pool % 2]},HOM,3")
        say(0, f"list,{person},P{pool}")
        if person % 40 == 0:
            say(0, f"list,{person},X{pool // 2}")
        boards[pool].append(person)
    ready = dict.fromkeys(range(1, PERSONS + 1), 0)
    coming = []
    for vacancy in range(1, VACANCIES + 1):
        now = (YEAR - 2_500) * vacancy // (VACANCIES + 1)
        while coming and coming[0][0] <= now:
            at, person, event = heapq.heappop(coming)
            say(at, f"event,{person},{event},{minute(at)}" + (",HOM" if event == "final" else ""))
            if event == "final":
                boards[person % POOLS].remove(person)
                boards[person % POOLS].append(person)
        for _ in range(4):
            ask(now)
        pool = drawn.randrange(POOLS)
        report, duty = now + drawn.randrange(60, 300), drawn.randrange(120, 700)
        say(now, f"vacancy,{vacancy},{'EC'[pool % 2]},3,HOM,{minute(report)},{duty},0,P{pool}+X{pool // 2}")
        say(now, f"next,{vacancy}")
        person = next((one for one in boards[pool] if ready[one] <= report), boards[pool][0])
        if drawn.randrange(20) == 0:
            say(now + 1, f"decline,{vacancy},{person}")
            boards[pool].remove(person)
            boards[pool].append(person)
            continue
        say(now + 1, f"accept,{vacancy},{person}")
        ready[person] = report + duty + 600
        heapq.heappush(coming, (report, person, "duty"))
        heapq.heappush(coming, (report + duty, person, "final"))
    while len(said) < COMMANDS:
        ask(YEAR - 1)
    return f"{minute(0)},open,2024-01,12,15\n" + "".join(line + "\n" for line in said)


def outside():
    """Enrolments that are stated before the window."""
    return f"{minute(0)},open,2024-01,12,15\n" + "".join(f"2023-01-01 00:00,enrol,{n},E,HOM,3\n" for n in range(1, COMMANDS + 1))


def barred():
    """A vacancy that is called 100,000 times in one minute while 500 persons stand on its four boards, all ready and of another craft."""
    said = [f"{minute(0)},open,2024-01,12,15"]
    said += [f"{minute(0)},board,P{pool},pool,HOM" for pool in range(4)]
    for person in range(1, 501):
        said.append(f"{minute(0)},enrol,{person},C,HOM,3")
        said += [f"{minute(0)},list,{person},P{pool}" for pool in range(4)]
    said.append(f"{minute(1)},vacancy,1,E,3,HOM,{minute(600)},600,0,P0+P1+P2+P3")
    said += [f"{minute(1)},next,1"] * 100_000
    return "".join(line + "\n" for line in said)


def lines(caller):
    """A caller's commands: questions, and one in eight that marks a person of theirs off or on."""
    end = minute(YEAR - 1)
    said = []
    for n in range(CALLS):
        person = caller * 15 + n % 15 + 1
        said.append((f"hours,{person},2024-05", f"at,P{n % POOLS},{n % 40 + 1}", f"vac,{n % VACANCIES + 1}", f"{'off' if n % 16 < 8 else 'on'},{person}")[n % 4 if n % 8 == 3 else n % 3])
    return "".join(f"{end},{text}\n" for text in said)


# Runs the program and prints how long it took, with how much memory at most, and its status. It is run by an interpreter of its own, since a
# child counts the memory of whoever it came from.
ONE = """
import os, sys, time
begin = time.perf_counter()
child = os.fork()
if not child:
    os.dup2(os.open(sys.argv[2], os.O_WRONLY | os.O_CREAT | os.O_TRUNC), 1)
    os.execv(sys.argv[1], [sys.argv[1], *sys.argv[3:]])
_, status, used = os.wait4(child, 0)
print(time.perf_counter() - begin, used.ru_maxrss, os.waitstatus_to_exitcode(status))
"""


def run(program, words, text, into):
    """Seconds, and kilobytes at most, of one run."""
    with tempfile.TemporaryFile() as source:
        source.write(text)
        source.seek(0)
        told = subprocess.run([sys.executable, "-I", "-S", "-c", ONE, program, into, *words], stdin=source, stdout=subprocess.PIPE, check=True).stdout
    took, most, status = told.split()
    if status != b"0":
        raise SystemExit(f"{' '.join(words)}: status {status.decode()}")
    return float(took), int(most)


def copied(text, into):
    """Seconds in which `cat` copies a text and what a run wrote."""
    with tempfile.NamedTemporaryFile() as source:
        source.write(text)
        source.flush()
        begin = time.perf_counter()
        with open("copied", "wb") as target:
            subprocess.run(["cat", source.name, into], stdout=target, check=True)
        return time.perf_counter() - begin


def waits(program, day, callers, calls):
    """Microseconds that callers wait for their replies over pipes, at a desk that has answered the day."""
    names = [f"p{n}" for n in range(1, callers + 1)]
    for name in names:
        os.mkfifo(f"{name}.in")
        os.mkfifo(f"{name}.out")
    with open("day", "wb") as file:
        file.write(day)
    took = []
    with open("day", "rb") as source, open("served", "wb") as target:
        served = subprocess.Popen([program, "serve", *names], stdin=source, stdout=target)
        ends = [(os.open(f"{name}.in", os.O_WRONLY), os.open(f"{name}.out", os.O_RDONLY)) for name in names]
        said = [lines(n).encode().splitlines(keepends=True) for n in range(1, callers + 1)]
        for call in range(calls):
            begun = {}
            for (to, back), commands in zip(ends, said):
                begun[back] = time.perf_counter()
                os.write(to, commands[call])
            while begun:
                for back in select.select(list(begun), [], [])[0]:
                    os.read(back, 4_096)
                    took.append(time.perf_counter() - begun.pop(back))
        for to, _ in ends:
            os.close(to)
        served.wait()
        for _, back in ends:
            os.close(back)
    for name in names:
        os.remove(f"{name}.in")
        os.remove(f"{name}.out")
    # The first call waits until the day is answered.
    return statistics.median(took[callers:]) * 1e6


def main():
    program = os.path.realpath(sys.argv[1])
    other = os.path.realpath(sys.argv[2]) if len(sys.argv) > 2 else None
    with tempfile.TemporaryDirectory() as work:
        os.chdir(work)
        day = year().encode()
        journal = f"{work}/journal"
        run(program, ["replay"], day, journal)
        with open(journal, "rb") as file:
            told = file.read()
        names = [f"c{n}" for n in range(1, CALLERS + 1)]
        for n, name in enumerate(names):
            with open(f"{name}.in", "w", encoding="ascii") as file:
                file.write(lines(n))
        set_up = b"".join(day.splitlines(keepends=True)[:2_050])
        runs = [
            ("replay of a year", ["replay"], day, COMMANDS),
            ("replay of 200,000 enrolments outside the window", ["replay"], outside().encode(), COMMANDS),
            ("tally of 100,000 calls of one vacancy, all barred", ["tally"], barred().encode(), 102_505),
            ("tally of a new desk of 1,000 persons", ["tally"], set_up, 2_049),
            ("forecast of the year's last 1,000", ["forecast", "1000"], day, COMMANDS),
            ("when", ["when", "20000", "1"], day, COMMANDS),
            ("audit of the year's journal", ["audit"], told, COMMANDS),
            ("excess of the year's journal", ["excess"], told, COMMANDS),
            ("gen 20000 7", ["gen", "20000", "7"], b"", 20_000),
            ("serve, 63 callers of 5,000 behind the year", ["serve", *names], day, COMMANDS + CALLERS * CALLS),
            ("watch, the same", ["watch", *names], day, COMMANDS + CALLERS * CALLS),
        ]
        print("| Run | Seconds | Microseconds a command | Memory, MB | `cat`, seconds |" + (" Ratio to the other |" if other else ""))
        print("|---|---|---|---|---|" + ("---|" if other else ""))
        for what, words, text, commands in runs:
            ours, theirs = [], []
            for _ in range(TIMES):
                ours.append(run(program, words, text, f"{work}/out"))
                if other:
                    theirs.append(run(other, words, text, f"{work}/out"))
            best = min(ours)
            cat = min(copied(text, f"{work}/out") for _ in range(TIMES))
            row = f"| {what} | {best[0]:.3f} | {best[0] / commands * 1e6:.2f} | {best[1] / 1024:.0f} | {cat:.3f} |"
            print(row + (f" {best[0] / min(theirs)[0]:.2f} |" if other else ""))
        for callers, calls in ((1, 4_000), (CALLERS, 200)):
            print(f"A reply comes after {waits(program, day, callers, calls):.0f} microseconds to one of {callers} callers, in the median.")


if __name__ == "__main__":
    main()
