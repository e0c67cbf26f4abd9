#!/usr/bin/env python3
"""costs.py gate [CRATE ..], costs.py program: what the gate, or the proofs that `make` needs, cost from nothing, by crate, in processor
seconds of its proof, of its tests and of its edits. It runs `rt ci CRATE ..` or prove.py on a copy of the checkout with a copy of the kit's
command that keeps nothing of earlier runs, and times each run of the checker; so it takes as long as these. The table is printed for
docs/PROOFS.md, with the seconds of the longest chain of proofs up to each crate; what else is printed goes to build/costs.log.
Measure with nothing else beside it."""
import collections
import os
import shutil
import subprocess
import sys
import tempfile
import time

TOP = os.path.dirname(os.path.dirname(os.path.abspath(__file__)))

# Stands for the kit's checker: it runs it, and notes how long it took.
TIMED = """#!/usr/bin/env python3
import os, sys
words = sys.argv[1:]
child = os.fork()
if not child:
    os.execv({real!r}, [{real!r}, *words])
_, status, used = os.wait4(child, 0)
if "--crate-name" in words and "--help" not in words:
    name = words[words.index("--crate-name") + 1]
    # edits are tried on copies, and so is what they begin with
    kind = "edits" if "rt-edit-" in os.getcwd() else "tests" if "--test" in words else "proof"
    with open({notes!r}, "a") as file:
        file.write(f"{{name}} {{kind}} {{used.ru_utime + used.ru_stime:.2f}}\\n")
code = os.waitstatus_to_exitcode(status)
if code < 0:
    os.kill(os.getpid(), -code)
sys.exit(code)
"""


def listed():
    """The crates that crates.txt lists, in its order, each with those of them that it names."""
    names = {}
    with open(f"{TOP}/crates.txt", encoding="utf-8") as file:
        for line in file:
            head, colon, named = line.partition("#")[0].partition(":")
            if colon:
                names[head.split()[0]] = named.split()
    return {name: [it for it in named if it in names] for name, named in names.items()}


def make_kit(kit, room, notes):
    """A kit like this one, whose checker is timed. What its runs keep lies beside it."""
    os.makedirs(f"{room}/kit/bin")
    for name in os.listdir(kit):
        if name != "bin":
            os.symlink(f"{kit}/{name}", f"{room}/kit/{name}")
    for name in os.listdir(f"{kit}/bin"):
        # what is Python tells by its own place which kit it is of
        if name == "rattle":
            with open(f"{room}/kit/bin/{name}", "w", encoding="utf-8") as file:
                file.write(TIMED.format(real=f"{kit}/bin/rattle", notes=notes))
            os.chmod(f"{room}/kit/bin/{name}", 0o755)
        elif name.startswith("rt"):
            shutil.copy(f"{kit}/bin/{name}", f"{room}/kit/bin/{name}")
        elif not name.startswith("_"):
            os.symlink(f"{kit}/bin/{name}", f"{room}/kit/bin/{name}")


def copy_of_the_checkout(room):
    """The files that git knows, as they stand."""
    files = subprocess.run(["git", "ls-files", "-co", "--exclude-standard", "-z"], cwd=TOP, capture_output=True, check=True).stdout
    for name in files.decode().split("\0"):
        if name and os.path.isfile(f"{TOP}/{name}"):
            os.makedirs(os.path.dirname(f"{room}/tree/{name}"), exist_ok=True)
            shutil.copy(f"{TOP}/{name}", f"{room}/tree/{name}")
    subprocess.run(["git", "init", "-q"], cwd=f"{room}/tree", check=True)


def table(notes):
    """The lines of the table, of the crates that the checker was run on."""
    spent = collections.defaultdict(lambda: collections.Counter())
    with open(notes, encoding="utf-8") as file:
        for line in file:
            name, kind, seconds = line.split()
            spent[name][kind] += float(seconds)
    chain, whole = {}, collections.Counter()
    yield "| Crate | Proof | Tests | Edits | How many | Chain |"
    yield "|---|---|---|---|---|---|"
    for name, low in listed().items():
        used = spent[name]
        chain[name] = used["proof"] + max((chain[it] for it in low), default=0)
        edits = f"{TOP}/crates/{name}/must-fail"
        many = len([it for it in os.listdir(edits) if it.endswith(".edit")]) if os.path.isdir(edits) else 0
        whole += used
        whole["many"] += many
        row = [used["proof"], used["tests"], used["edits"], many, chain[name]]
        if used:
            yield f"| `{name}` | " + " | ".join(f"{it:.0f}" if it else "" for it in row) + " |"
    row = [whole["proof"], whole["tests"], whole["edits"], whole["many"], max(chain.values(), default=0)]
    yield "| all | " + " | ".join(f"{it:.0f}" for it in row) + " |"


def main(what, *names):
    doc = subprocess.run(["rt", "doc"], capture_output=True, text=True, check=True).stdout.strip()
    os.makedirs(f"{TOP}/build", exist_ok=True)
    with tempfile.TemporaryDirectory(dir=f"{TOP}/build") as room:
        # rt runs tests as nobody, who has to reach what runs them
        os.chmod(room, 0o755)
        notes = f"{room}/notes"
        with open(notes, "w", encoding="utf-8"):
            pass
        make_kit(os.path.dirname(doc), room, notes)
        copy_of_the_checkout(room)
        begun = time.time()
        with open(f"{TOP}/build/costs.log", "w", encoding="utf-8") as log:
            words = ["rt", "ci", *names] if what == "gate" else [sys.executable, "tools/prove.py", "build/crewdesk"]
            path = {**os.environ, "PATH": f"{room}/kit/bin:{os.environ['PATH']}"}
            ran = subprocess.run(words, cwd=f"{room}/tree", env=path, stdout=log, stderr=log, check=False)
        minutes = (time.time() - begun) / 60
        print("\n".join(table(notes)))
        used = os.times()
        print(f"\n{(used.children_user + used.children_system) / 60:.0f} processor minutes, {minutes:.0f} of the clock on {len(os.sched_getaffinity(0))} processors")
    return ran.returncode


if __name__ == "__main__":
    sys.exit(main(*sys.argv[1:]))
