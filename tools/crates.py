#!/usr/bin/env python3
"""crates.py: the crates of crates.txt, the libraries that rt built of them, and the words that `rattle` takes over these.

usage: tools/crates.py state          prints a sum of all that a proof of the crates reads, with the kit's line
       tools/crates.py words CRATE    prints the words for `rattle check` and `rattle build` of a crate, one a line, once its libraries are there

After `rt ci` in a clean clone each library lies in crates/NAME/out/rlib as it was proved there; `.ci/run` then writes the state into target/proved.
Where that is still the state, those libraries are taken as they are. Else rt builds what is lacking, over the work that its checks kept.
"""
import functools
import hashlib
import os
import re
import subprocess
import sys

TOP = os.path.dirname(os.path.dirname(os.path.realpath(__file__)))
PARTS = ("src", "specs", "proofs")


@functools.lru_cache(maxsize=None)
def listed():
    """What each crate uses, by crates.txt, and whether it is a static library."""
    found = {}
    with open(f"{TOP}/crates.txt", encoding="utf-8") as file:
        for line in file:
            name, colon, used = line.partition("#")[0].partition(":")
            if colon:
                name, *words = name.split()
                found[name] = (used.split(), "staticlib" in words)
    return found


def below(crate):
    """The repository's libraries below a crate, each after those that it uses."""
    found = []
    for name in listed()[crate][0]:
        if name in listed():
            found += [it for it in (*below_once(name), name) if it not in found]
    return found


@functools.lru_cache(maxsize=None)
def below_once(crate):
    return tuple(below(crate))


@functools.lru_cache(maxsize=None)
def kit():
    said = subprocess.run(["rt", "doc"], stdout=subprocess.PIPE, text=True, check=True).stdout
    return os.path.dirname(said.strip())


@functools.lru_cache(maxsize=None)
def version():
    return subprocess.run(["rt", "version"], stdout=subprocess.PIPE, text=True, check=True).stdout.strip()


@functools.lru_cache(maxsize=None)
def sum_of(crate):
    """A sum of a crate's own files, and of what crates.txt says of it."""
    total = hashlib.sha256(repr((crate, listed()[crate])).encode())
    for part in PARTS:
        for at, folders, names in os.walk(f"{TOP}/crates/{crate}/{part}"):
            folders.sort()
            for name in sorted(names):
                with open(f"{at}/{name}", "rb") as file:
                    total.update(repr((os.path.relpath(f"{at}/{name}", TOP), file.read())).encode())
    return total.hexdigest()


def sums_of(crates):
    """A sum of these crates, with the kit's line."""
    return hashlib.sha256(repr((version(), [(it, sum_of(it)) for it in sorted(crates)])).encode()).hexdigest()


def state():
    return f"{version()} {sums_of(listed())}"


def rlib(crate):
    return f"{TOP}/crates/{crate}/out/rlib/{crate}.rlib"


@functools.lru_cache(maxsize=None)
def is_proved():
    """Is this what `.ci/run` saw proved?"""
    try:
        with open(f"{TOP}/target/proved", encoding="utf-8") as file:
            return file.read().strip() == state()
    except OSError:
        return False


def lacking(crate):
    """The libraries below that are not as `rt ci` left them. One that another command built has a file `stamp`."""
    return [it for it in below(crate) if not os.path.isfile(f"{rlib(it)}/format") or os.path.isfile(f"{TOP}/crates/{it}/out/rlib/stamp")]


# The libraries that rt has seen to be built in this run.
READY = set()


def make_ready(crate):
    """Builds the libraries below a crate where they are not there; says why and ends where one isn't proved."""
    if READY.issuperset(below(crate)) or is_proved() and not lacking(crate):
        return
    ran = subprocess.run(["rt", "check", "--only", ""], cwd=f"{TOP}/crates/{crate}", stdin=subprocess.DEVNULL, stdout=subprocess.PIPE, stderr=subprocess.STDOUT, text=True)
    if not all(os.path.isfile(f"{rlib(it)}/format") for it in below(crate)) or re.search(r"(?m)^rt: the library \w+ did not build", ran.stdout):
        sys.exit(f"{ran.stdout[-2000:]}\n{os.path.basename(sys.argv[0])}: the libraries below {crate} are not proved")
    READY.update(below(crate))


def words(crate):
    """The words for `rattle`, as rt gives them, which begin with the crate's name and its root file."""
    used, is_static = listed()[crate]
    root = "src/main.rt" if os.path.isfile(f"{TOP}/crates/{crate}/src/main.rt") else "src/lib.rt"
    found = ["--crate-name", crate, root]
    for name in ("std", *[it for it in used if it not in listed()]):
        found += ["--extern", f"{name}={kit()}/rlibs/{name}.rlib"]
    found += ["-L", f"dependency={kit()}/rlibs"]
    for name in used:
        if name in listed():
            found += ["--extern", f"{name}={rlib(name)}"]
    for name in below(crate):
        found += ["-L", f"dependency={os.path.dirname(rlib(name))}"]
    found += ["--antt-project", f"{kit()}/rattle/logic/antt-project.json", "--logic-built", f"{kit()}/logic_built", "--links", f"{crate}="]
    return found + ["--crate-type", "staticlib"] * is_static


def main(arguments):
    if arguments == ["state"]:
        print(state())
    elif len(arguments) == 2 and arguments[0] == "words" and arguments[1] in listed():
        make_ready(arguments[1])
        print("\n".join(words(arguments[1])))
    else:
        sys.exit("usage: crates.py state | words CRATE")


if __name__ == "__main__":
    main(sys.argv[1:])
