"""Callers of a run of the program over pipes, and checks that are counted."""
import os
import random
import subprocess
import threading
import time

# After so many seconds a run is taken for one that hangs.
PATIENCE = 300


class Caller(threading.Thread):
    """Who says lines and keeps each with its reply, and what came beside. What they say is in `talk`."""

    def __init__(self, room, number):
        super().__init__(daemon=True)
        self.room, self.number = room, number
        self.draw = random.Random(number)
        self.got = []

    def run(self):
        with open(f"{self.room}/c{self.number}.in", "wb", buffering=0) as said, open(f"{self.room}/c{self.number}.out", "rb") as replies:
            self.said, self.replies = said, replies
            self.talk()
            said.close()
            self.got += [("", line.decode()) for line in replies.read().splitlines()]

    def talk(self):
        raise NotImplementedError

    def say(self, *lines):
        """Says lines at once."""
        self.said.write("".join(line + "\n" for line in lines).encode())

    def hear(self):
        """The next line that is put for this caller."""
        return self.replies.readline().decode().removesuffix("\n")


class Checks:
    def __init__(self, name):
        self.name = name
        self.passed = self.failed = 0

    def is_so(self, what, came, wanted):
        if came == wanted:
            self.passed += 1
        else:
            self.failed += 1
            print(f"{self.name}: {what}: {came!r} is not {wanted!r}")

    def end(self):
        """The last line, and the status of the script."""
        print(f"{self.passed} passed, {self.failed} failed")
        return 0 if self.passed and not self.failed else 1


def watched(program, callers, opening):
    """A run that serves these callers with looks behind the opening's lines: its journal's lines, its status and what it wrote of errors."""
    for caller in callers:
        os.mkfifo(f"{caller.room}/c{caller.number}.in")
        os.mkfifo(f"{caller.room}/c{caller.number}.out")
        caller.start()
    names = [f"{caller.room}/c{caller.number}" for caller in callers]
    done = subprocess.run([program, "watch", *names], input="".join(line + "\n" for line in opening).encode(), capture_output=True, timeout=PATIENCE, check=False)
    # who still stands at a pipe that the program never opened is left there
    end = time.monotonic() + 10
    for caller in callers:
        caller.join(max(0, end - time.monotonic()))
    return done.stdout.decode().splitlines(), done.returncode, done.stderr.decode()


def audited(program, journal):
    """What an audit of a journal's lines says."""
    text = "".join(line + "\n" for line in journal).encode()
    return subprocess.run([program, "audit"], input=text, capture_output=True, timeout=PATIENCE, check=False).stdout.decode()
