#!/usr/bin/env python3
"""listed.py: compares crates.txt with the crates. Each crate lists just the libraries that its own files cite: its code by a path that
begins with the library's name, its definitions and proofs by a name that begins with `Rattle.` and the library's. What a library's
library needs is its own matter. And each file of code is named by a `mod` of another, tests too, which no proof of a library would
miss. The last line is 'N passed, M failed': crates."""
import os
import re
import sys

TOP = os.path.dirname(os.path.dirname(os.path.abspath(__file__)))

IN_CODE = re.compile(r"(?<![\w:.])([a-z]\w*)::|\buse ([a-z]\w*)\b")
IN_PROOFS = re.compile(r"\bRattle\.([a-z]\w*)\b")


def listed():
    """The crates that crates.txt lists, each with the libraries that it names."""
    with open(f"{TOP}/crates.txt", encoding="utf-8") as file:
        for line in file:
            head, colon, named = line.partition("#")[0].partition(":")
            if colon:
                yield head.split()[0], set(named.split())


def cited(name):
    """The first parts of all paths in a crate's files."""
    found = set()
    for part in ("src", "specs", "proofs"):
        for at, _, files in os.walk(f"{TOP}/crates/{name}/{part}"):
            for file in files:
                with open(f"{at}/{file}", encoding="utf-8") as text:
                    said = text.read()
                found.update(IN_PROOFS.findall(said))
                if file.endswith(".rt"):
                    code = re.sub(r"//.*", "", said)
                    found.update(one or other for one, other in IN_CODE.findall(code))
    return found - {name}


def unread(name):
    """The files of a crate's code that no chain of `mod` items from its root names."""
    top = f"{TOP}/crates/{name}/src"
    files = {f"{at}/{file}" for at, _, found in os.walk(top) for file in found if file.endswith(".rt")}
    left = [it for it in (f"{top}/lib.rt", f"{top}/main.rt") if it in files]
    files -= set(left)
    while left:
        path = left.pop()
        inside = os.path.dirname(path) if os.path.basename(path) in ("lib.rt", "main.rt") else path[: -len(".rt")]
        with open(path, encoding="utf-8") as text:
            named = {f"{inside}/{it}.rt" for it in re.findall(r"^(?:pub(?:\(crate\))? )?mod (\w+);", text.read(), re.M)}
        left += named & files
        files -= named
    return sorted(os.path.relpath(it, TOP) for it in files)


def main():
    passed, failed, crates = 0, 0, list(listed())
    # a name of some library, which a path may begin with; others are modules of the crate, or std
    libraries = {name for name, _ in crates}.union(*[named for _, named in crates])
    for name, named in crates:
        names = cited(name)
        wrong = [f"lists `{it}`, which none of its files cites" for it in sorted(named - names)]
        wrong += [f"cites `{it}`, which it does not list" for it in sorted((names & libraries) - named)]
        wrong += [f"has the file {it}, which no `mod` names" for it in unread(name)]
        for it in wrong:
            print(f"crates.txt: `{name}` {it}")
        passed, failed = passed + (not wrong), failed + bool(wrong)
    print(f"{passed} passed, {failed} failed")
    return 0 if passed and not failed else 1


if __name__ == "__main__":
    sys.exit(main())
