"""The crates of this repository, as crates.txt names them."""
import os

TOP = os.path.dirname(os.path.dirname(os.path.abspath(__file__)))
PROGRAM = "ngx"


def read(top=TOP):
    """Each crate with the libraries that its line names, in the order of crates.txt."""
    found = {}
    with open(f"{top}/crates.txt", encoding="utf-8") as lines:
        for line in lines:
            line = line.strip()
            if line and not line.startswith("#"):
                name, libraries = line.split(":", 1)
                found[name.split()[0]] = libraries.split()
    return found


def below(name, crates):
    """The crate and all that it rests on, lowest first."""
    seen = []

    def add(one):
        if one in crates and one not in seen:
            for library in crates[one]:
                add(library)
            seen.append(one)

    add(name)
    return seen


def weight(name, top=TOP):
    """About how many processor seconds the proof of a crate takes: some for any, and some for each line."""
    lines = 0
    for part in ("src", "specs", "proofs"):
        for at, _, files in os.walk(f"{top}/crates/{name}/{part}"):
            for file in files:
                with open(f"{at}/{file}", "rb") as text:
                    lines += text.read().count(b"\n")
    return 12 + 0.05 * lines


def chain(name, crates, weights):
    """The weight of the longest chain of crates, one on another, that ends in this one."""
    deepest = max((chain(it, crates, weights) for it in crates[name] if it in crates), default=0)
    return weights[name] + deepest
