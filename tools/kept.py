#!/usr/bin/env python3
"""kept.py PROGRAM [KILLS]: the program keeps the journal of a desk with 8 callers over pipes, and is killed at drawn moments, as many as told
(12), and started again behind the journal that it left. Of the callers some leave and come back, one says garbage between its commands, and
one reads nothing. In the end each caller's replies have to be entries of the journal, in their order; each caller's entries have to be what
it said, in its order; and the journal has to be legal. Beside that: a torn last line of each length is cut off, a second desk is refused, and a
journal that is none, is wrong, or can't be opened is told and stays as it was; and with a clock, what is stated too far ahead of it is answered
with its minute and leaves no entry. The last line is 'N passed, M failed'."""
import datetime
import os
import random
import selectors
import signal
import subprocess
import sys
import tempfile
import time

import piped

CALLERS = 8
SILENT, GARBLED = 7, 5
DAY = [
    "2024-03-04 00:00,open,2024-03,1,15",
    "2024-03-04 00:01,board,P1,pool,HOM",
    *[f"2024-03-04 00:01,enrol,{person},E,HOM,-" for person in range(101, 121)],
    *[f"2024-03-04 00:02,list,{person},P1" for person in range(101, 121)],
    *[f"2024-03-04 00:03,vacancy,{vac},E,-,HOM,2024-03-04 08:00,600,0,P1" for vac in range(1, 9)],
]
MINUTE = "2024-03-04 00:05"
COMMANDS = ["next,{vac}", "vac,{vac}", "at,P1,{place}", "withdraw,{vac},{person}", "decline,{vac},{person}", "noanswer,{vac},{person}"]


class Caller:
    """One who says a command, waits for its reply, and says the next; a command whose reply was lost in a stop is not said again."""

    def __init__(self, room, number):
        self.room, self.number = room, number
        self.draw = random.Random(number)
        self.said, self.got, self.held = [], [], b""
        for end in ("in", "out"):
            os.mkfifo(self.name(end))
        self.come()

    def name(self, end):
        return f"{self.room}/c{self.number}.{end}"

    def come(self):
        self.says = os.open(self.name("in"), os.O_RDWR | os.O_NONBLOCK)
        self.hears = os.open(self.name("out"), os.O_RDWR | os.O_NONBLOCK)

    def leave(self):
        os.close(self.says)
        os.close(self.hears)

    def say(self):
        command = self.draw.choice(COMMANDS).format(vac=self.draw.randint(1, 8), person=self.draw.randint(101, 120), place=self.draw.randint(1, 20))
        self.said.append(command)
        garbage = "x,y\n" * self.draw.randint(0, 2) if self.number == GARBLED else ""
        os.write(self.says, f"{garbage}{MINUTE},{command}\n".encode())

    def hear(self):
        """The replies that are there now; true where one is an entry's."""
        try:
            self.held += os.read(self.hears, 65536)
        except BlockingIOError:
            return False
        *lines, self.held = self.held.split(b"\n")
        new = [line.decode() for line in lines if line[:1].isdigit()]
        self.got += new
        return bool(new)


class Desk:
    """A run of the program over a journal."""

    def __init__(self, program, room, names, day=b"", journal="journal"):
        self.run = subprocess.Popen([program, "keep", journal, *names], cwd=room, stdin=subprocess.PIPE, stdout=subprocess.PIPE, stderr=subprocess.PIPE)
        try:
            self.run.stdin.write(day)
            self.run.stdin.close()
        except BrokenPipeError:
            # It ended, or goes on with a journal, and reads no day file.
            pass

    def kill(self):
        self.run.send_signal(signal.SIGKILL)
        return self.end()

    def end(self):
        self.run.wait(piped.PATIENCE)
        return self.run.stderr.read().decode().splitlines()


def entries_of(text, number):
    return [line for line in text.splitlines() if line.startswith(f"{number}|")]


def is_within(few, many):
    rest = iter(many)
    return all(line in rest for line in few)


def stated(line):
    return line.split("|")[1].split(",", 1)[1]


def killed(program, kills, checks):
    draw = random.Random(kills)
    with tempfile.TemporaryDirectory() as room:
        callers = [Caller(room, number) for number in range(1, CALLERS + 1)]
        names = [f"c{caller.number}" for caller in callers]
        day = "".join(line + "\n" for line in DAY).encode()
        lines = spoke = 0
        for kill in range(kills + 1):
            desk = Desk(program, room, names, day)
            ready = selectors.DefaultSelector()
            for caller in callers:
                if caller.number != SILENT:
                    ready.register(caller.hears, selectors.EVENT_READ, caller)
                caller.say()
            until = time.monotonic() + draw.uniform(0.02, 0.25)
            while time.monotonic() < until:
                for key, _ in ready.select(0.005):
                    if key.data.hear():
                        key.data.say()
                if draw.random() < 0.02:
                    one = draw.choice(callers)
                    if one.number != SILENT:
                        ready.unregister(one.hears)
                        one.leave()
                        one.come()
                        ready.register(one.hears, selectors.EVENT_READ, one)
            told = desk.kill()
            ready.close()
            for caller in callers:
                if caller.number != SILENT:
                    caller.hear()
            with open(f"{room}/journal") as journal:
                text = journal.read()
            word = "begun" if kill == 0 else "resumed"
            # One that is killed at once has said nothing.
            spoke += any(line.startswith(word) for line in told)
            checks.is_so(f"kill {kill}: the journal grows", text.count("\n") >= lines, True)
            lines = text.count("\n")
            for caller in callers:
                mine = entries_of(text, caller.number)
                checks.is_so(f"kill {kill}: replies of {caller.number} are entries", is_within(caller.got, mine), True)
                checks.is_so(f"kill {kill}: entries of {caller.number} are what it said", is_within([stated(line) for line in mine], caller.said), True)
        whole = text[: text.rfind("\n") + 1]
        told = subprocess.run([program, "audit"], input=whole.encode(), capture_output=True).stdout.decode()
        checks.is_so("the journal is legal", told, f"legal {whole.count(chr(10)) - 1}\n")
        checks.is_so("a desk says where it is", spoke * 2 > kills, True)
        checks.is_so("replies came", sum(len(caller.got) for caller in callers) > 20 * kills, True)


def ended(program, checks):
    """A run whose callers end it; and one behind it, whose journal has a torn line of each length."""
    day = "".join(line + "\n" for line in DAY).encode()
    with tempfile.TemporaryDirectory() as room:
        def keep(said, given=b"", journal="journal"):
            for number in (1, 2):
                with open(f"{room}/c{number}.in", "w") as lines:
                    lines.write(said)
            desk = Desk(program, room, ["c1", "c2"], given, journal)
            told = desk.end()
            return desk.run.returncode, told, desk.run.stdout.read().decode()

        def kept():
            with open(f"{room}/journal", "rb") as journal:
                return journal.read()

        one = f"{MINUTE},next,1\nend\n{MINUTE},next,2\n"
        count = len(DAY) - 1
        checks.is_so("a desk begins", keep(one, day), (0, [f"begun {count} 2024-03-04 00:03"], ""))
        with open(f"{room}/c1.out") as replies:
            checks.is_so("a reply is the entry's line", replies.read() in kept().decode(), True)
        checks.is_so("nothing is heard behind the end", kept().count(b"next,2"), 0)
        checks.is_so("and goes on", keep("end\n"), (0, [f"resumed {count + 2} {MINUTE}"], ""))
        whole = kept()
        line = b"1|2024-03-04 00:05,vac,1|2024-03-04 00:05|open\n"
        for cut in range(1, len(line)):
            with open(f"{room}/journal", "wb") as journal:
                journal.write(whole + line[:cut])
            checks.is_so(f"{cut} torn bytes are cut", keep("end\n"), (0, [f"cut {cut} bytes", f"resumed {count + 2} {MINUTE}"], ""))
            checks.is_so(f"{cut} torn bytes are gone", kept(), whole)
        wrong = whole.replace(b"|2024-03-04 00:01|done\n", b"|2024-03-04 00:02|done\n", 1)
        for what, text, status, out in [
            ("a wrong journal", wrong, 7, None),
            ("no journal", b"nothing of that\n", 8, ""),
            ("a text without a line feed", b"2024-03-04 00:00,open", 8, ""),
        ]:
            with open(f"{room}/journal", "wb") as journal:
                journal.write(text)
            came = keep("end\n")
            checks.is_so(f"{what}: status", came[0], status)
            checks.is_so(f"{what}: stays", kept(), text)
            if out is not None:
                checks.is_so(f"{what}: told", came[2], out)
        for names in (["c1", "c1"], ["-c1"], ["x/c1"]):
            came = subprocess.run([program, "keep", "journal", *names], cwd=room, input=b"", capture_output=True)
            checks.is_so(f"{names} are no names", (came.returncode, came.stderr), (2, b"usage\n"))
        missing = Desk(program, room, ["c1", "c9"], day, "other")
        checks.is_so("a caller who can't be served is named", (missing.end()[1], missing.run.returncode), ("c9: cannot be opened", 4))
        os.mkdir(f"{room}/folder")
        checks.is_so("a folder is no journal", keep("end\n", day, "folder")[:2], (4, ["folder: not a file", "write fault"]))
        os.mkfifo(f"{room}/pipe")
        checks.is_so("a pipe is no journal", keep("end\n", day, "pipe")[:2], (4, ["pipe: not a file", "write fault"]))


def shared(program, checks):
    """Two desks on one journal."""
    day = "".join(line + "\n" for line in DAY).encode()
    with tempfile.TemporaryDirectory() as room:
        callers = [Caller(room, number) for number in (1, 2)]
        first = Desk(program, room, ["c1"], day)
        callers[0].say()
        until = time.monotonic() + piped.PATIENCE
        while not callers[0].hear() and time.monotonic() < until:
            time.sleep(0.01)
        second = Desk(program, room, ["c2"], day)
        checks.is_so("a second desk is refused", (second.end(), second.run.returncode), (["journal: in use", "write fault"], 4))
        os.write(callers[0].says, b"end\n")
        told = first.end()
        checks.is_so("the first goes on", (first.run.returncode, told[0].split()[0]), (0, "begun"))


def minute(time):
    return time.strftime("%Y-%m-%d %H:%M")


def guarded(program, checks):
    """Desks with a clock at three offsets; one that is started again without it; and words that are no guard."""
    for offset, minutes in [("+0000", 0), ("-0600", -360), ("+0530", 330)]:
        with tempfile.TemporaryDirectory() as room:
            def civil(ahead=0):
                return minute(datetime.datetime.now(datetime.timezone.utc) + datetime.timedelta(minutes=minutes + ahead))

            def keep(words, said):
                with open(f"{room}/c1.in", "w") as lines:
                    lines.write("".join(line + "\n" for line in said))
                run = subprocess.run([program, "keep", *words, "journal", "c1"], cwd=room, input=day, capture_output=True)
                with open(f"{room}/c1.out") as replies:
                    return run.returncode, replies.read().splitlines()

            begin = f"{civil()[:7]}-01 00:00"
            day = f"{begin},open,{begin[:7]},2,15\n{begin},board,P1,pool,HOM\n".encode()
            month = civil(31 * 1440)
            near = civil(60)
            ahead = [f"{month},at,P1,1", f"{month},crew,1,2", f"{civil(70)},at,P1,2", f'"{month}",at,P1,3']
            before = civil()
            status, replies = keep(["--clock", offset, "--ahead", "60"], [*ahead, f"{month},at,P1", f"{near},at,P1,4", "look,P1,1", "end", f"{near},at,P1,5"])
            answers = [f"ahead {told}" for told in sorted({before, civil()})]
            checks.is_so(f"{offset}: status", status, 0)
            checks.is_so(f"{offset}: what is ahead is answered with the clock's minute", [reply in answers for reply in replies[:4]], [True] * 4)
            checks.is_so(f"{offset}: the rest is answered as ever", replies[4:], ["malformed 4", f"1|{near},at,P1,4|{near}|no one 0", "look 2 no one 0"])
            with open(f"{room}/journal") as journal:
                lines = journal.read().splitlines()
            checks.is_so(f"{offset}: what is ahead has no entry", lines[2:], [f"1|{near},at,P1,4|{near}|no one 0"])
            status, replies = keep([], [f"{month},at,P1,6", "end"])
            checks.is_so(f"{offset}: without a clock it is heard", (status, replies), (0, [f"1|{month},at,P1,6|{month}|no one 0"]))
    for words in [
        ["--clock", "+0000", "journal", "c1"],
        ["--ahead", "60", "journal", "c1"],
        ["--ahead", "60", "--clock", "+0000", "journal", "c1"],
        ["journal", "--clock", "+0000", "--ahead", "60", "c1"],
        ["--clock", "0000", "--ahead", "60", "journal", "c1"],
        ["--clock", "+2400", "--ahead", "60", "journal", "c1"],
        ["--clock", "+0060", "--ahead", "60", "journal", "c1"],
        ["--clock", "+0000", "--ahead", "060", "journal", "c1"],
        ["--clock", "+0000", "--ahead", "1000001", "journal", "c1"],
        ["--clock", "+0000", "--ahead", "-1", "journal", "c1"],
        ["--clock", "+0000", "--ahead", "60", "journal"],
        ["--clock", "+0000", "--ahead", "60"],
        ["--clock", "journal", "c1"],
        ["-journal", "c1"],
    ]:
        came = subprocess.run([program, "keep", *words], input=b"", capture_output=True)
        checks.is_so(f"{words} are no form", (came.returncode, came.stderr, came.stdout), (2, b"usage\n", b""))


def main(program, kills=12):
    checks = piped.Checks("kept")
    program = os.path.abspath(program)
    ended(program, checks)
    shared(program, checks)
    guarded(program, checks)
    killed(program, int(kills), checks)
    return checks.end()


sys.exit(main(*sys.argv[1:]))
