#!/usr/bin/env python3
"""prove.py PROGRAM [CRATE ...]: proves the crates that the program stands on, or these and all below them, and leaves the program,
where it is among them, at PROGRAM. What was proved before is not proved again.

Crates are proved side by side, those with the longest chain of others above them first. One run of rt holds the folders of its crate
and of all below it, so each lane of work has a copy of the sources: the first is the checkout itself, the others lie in build/lanes.
What is built in one lane, rt takes over in the others. A line is printed for each crate, and all else is kept in build/prove.log."""
import concurrent.futures
import filecmp
import os
import shutil
import subprocess
import sys
import threading
import time

TOP = os.path.dirname(os.path.dirname(os.path.abspath(__file__)))
PARTS = ("src", "specs", "proofs")


def listed():
    """The crates that crates.txt lists, each with those of them that it names."""
    names = {}
    with open(f"{TOP}/crates.txt", encoding="utf-8") as file:
        for line in file:
            head, colon, named = line.partition("#")[0].partition(":")
            if colon:
                names[head.split()[0]] = named.split()
    return {name: [it for it in named if it in names] for name, named in names.items()}


def below(crates, name, found):
    """Adds to a list this crate and all below it, lowest first."""
    for it in crates[name]:
        below(crates, it, found)
    if name not in found:
        found.append(name)
    return found


def is_program(name):
    return os.path.isfile(f"{TOP}/crates/{name}/src/main.rt")


def copied(one, other):
    """Makes a folder hold the files of another, and leaves alone those that it has already."""
    kept = filecmp.dircmp(one, other, ignore=[], hide=[])
    for name in [*kept.right_only, *kept.common_funny]:
        path = f"{other}/{name}"
        shutil.rmtree(path) if os.path.isdir(path) else os.remove(path)
    for name in [*kept.left_only, *kept.common_funny]:
        path = f"{one}/{name}"
        shutil.copytree(path, f"{other}/{name}") if os.path.isdir(path) else shutil.copyfile(path, f"{other}/{name}")
    for name in filecmp.cmpfiles(one, other, kept.common_files, shallow=False)[1]:
        shutil.copyfile(f"{one}/{name}", f"{other}/{name}")
    for name in kept.common_dirs:
        copied(f"{one}/{name}", f"{other}/{name}")


def lane_of(number, names):
    """A folder with the sources of all crates: the checkout, or a copy of it."""
    if number == 0:
        return TOP
    lane = f"{TOP}/build/lanes/{number}"
    for name in names:
        for part in PARTS:
            if os.path.isdir(f"{TOP}/crates/{name}/{part}"):
                os.makedirs(f"{lane}/crates/{name}/{part}", exist_ok=True)
                copied(f"{TOP}/crates/{name}/{part}", f"{lane}/crates/{name}/{part}")
            else:
                shutil.rmtree(f"{lane}/crates/{name}/{part}", ignore_errors=True)
    for file in ("crates.txt", "HANDLES"):
        shutil.copyfile(f"{TOP}/{file}", f"{lane}/{file}")
    return lane


def lines_of(name):
    """How many lines a crate has, by which its work is judged beforehand."""
    found = 0
    for part in PARTS:
        for at, _, files in os.walk(f"{TOP}/crates/{name}/{part}"):
            for file in files:
                with open(f"{at}/{file}", "rb") as text:
                    found += text.read().count(b"\n")
    return found


class Proving:
    """What is proved, is being proved and is still to be proved."""

    def __init__(self, crates, names, program):
        self.crates, self.names, self.program = crates, names, program
        self.begun = time.time()
        self.cores = len(os.sched_getaffinity(0))
        lanes = min(self.cores, len(names))
        self.free = [lane_of(number, crates) for number in range(lanes)]
        self.left, self.proved, self.failed = list(names), [], False
        self.printing = threading.Lock()
        # the longest chain of work that begins with each crate
        self.chain = {}
        for name in reversed(names):
            above = [self.chain[it] for it in names if name in crates[it]]
            self.chain[name] = lines_of(name) + max(above, default=0)

    def ready(self):
        found = [it for it in self.left if all(low in self.proved for low in self.crates[it])]
        return sorted(found, key=lambda it: -self.chain[it])

    def prove(self, name, lane, jobs):
        """Proves a crate in a lane, and says whether that went well."""
        words = ["run", "--jobs", str(jobs), "--", "--version"] if is_program(name) else ["lib", "--jobs", str(jobs)]
        how = {"cwd": f"{lane}/crates/{name}", "stdin": subprocess.DEVNULL, "stdout": subprocess.PIPE, "stderr": subprocess.STDOUT}
        ran = subprocess.run(["rt", *words], **how)
        with self.printing, open(f"{TOP}/build/prove.log", "ab") as log:
            log.write(f"== {name}\n".encode() + ran.stdout)
        if ran.returncode == 0 and is_program(name):
            made = f"{self.program}.new"
            shutil.copy(f"{lane}/crates/{name}/out/{name}", made)
            # a source that was changed meanwhile is newer than the program
            os.utime(made, (self.begun, self.begun))
            os.replace(made, self.program)
        return ran.returncode == 0

    def run(self):
        """Proves all, as many side by side as there are processors, and says whether all are proved."""
        running = {}
        with concurrent.futures.ThreadPoolExecutor(len(self.free)) as pool:
            while (self.left and not self.failed) or running:
                ready = [] if self.failed else self.ready()[: len(self.free)]
                # more jobs for a crate are copies of the checker that read all anew: they get only the processors that are left
                jobs = max(1, self.cores // max(1, len(running) + len(ready)))
                for name in ready:
                    lane = self.free.pop()
                    self.left.remove(name)
                    running[pool.submit(self.prove, name, lane, jobs)] = name, lane
                for task in concurrent.futures.wait(running, return_when="FIRST_COMPLETED").done:
                    name, lane = running.pop(task)
                    self.free.append(lane)
                    self.end(name, task.result())
        return not self.failed

    def end(self, name, well):
        if well:
            self.proved.append(name)
            print(f"{name}: proved ({len(self.proved)} of {len(self.names)})", file=sys.stderr)
        else:
            self.failed = True
            print(f"{name}: not proved; build/prove.log says why", file=sys.stderr)


def main(program, *wanted):
    crates = listed()
    wanted = wanted or [it for it in crates if is_program(it)]
    names = []
    for name in wanted:
        below(crates, name, names)
    os.makedirs(f"{TOP}/build", exist_ok=True)
    with open(f"{TOP}/build/prove.log", "wb"):
        pass
    return 0 if Proving(crates, names, os.path.abspath(program)).run() else 1


if __name__ == "__main__":
    sys.exit(main(*sys.argv[1:]))
