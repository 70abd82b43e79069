#!/usr/bin/env python3
"""Respells this repository's own definitions and lemmas: words in snake case, where they stood in mixed case.

usage: python3 tools/respell.py          at the top, once, right after the kit's port.py

It reads which names crates/*/specs and crates/*/proofs define, and turns each that begins with a small letter and has a capital in the
middle, in .antt and .rt files and in the must-fail edits. Types, modules, facts and what Rattle makes of Rust names keep their spelling.
It also renames the crate that has the name of a library of the kit. It refuses to run where a new spelling would fall together with another name that is defined.
"""
import collections
import os
import re
import sys

ROOTS = ["crates"]
HEAD = re.compile(r"\s*(?:abbrev |unfoldable |pub |data |record |module |ruleset )*([^\s:(){}]+)\s*:(?!:)")
TOKEN = re.compile(r"[A-Za-z_ℕ][\w']*(?:-[\w'ℕ]+)*")
MADE = ("returns", "unreachable", "invariant", "loop", "overflow", "prove")
# where the plain respelling is the name of something else in scope, or the word of std has changed
CHOSEN = {
    "at-getD": "at-get_or",
    "getD-nth": "get_or-nth",
    "getD-turned": "get_or-turned",
    "getD-waiting": "get_or-waiting",
    "nth-getD": "nth-get_or",
}
CRATES = {"sha1": "sha_1"}
# names that a `use` line gives
ALIASES = {
    "afterAcknowledged": "after_acknowledged",
    "afterPosted": "after_posted",
    "afterReceived": "after_received",
    "relaySentTo": "relay_sent_to",
    "tooMany": "too_many",
}
# lemmas that would then have the name of the definition that they are about
LEMMAS = {"passes_on": "passes_on_lem", "wrap_left": "wrap_left_lem", "handed_out": "handed_out_lem"}


def files():
    for root in ROOTS:
        for folder, dirs, names in os.walk(root):
            dirs[:] = sorted(d for d in dirs if d != "out")
            for name in sorted(names):
                if name.endswith((".rt", ".antt", ".edit")):
                    yield os.path.join(folder, name)


def read(path):
    with open(path, encoding="utf-8") as f:
        return f.read()


def snake(name):
    parts = []
    for part in name.split("-"):
        if part[:1].islower():
            part = re.sub(r"(?<=[a-z0-9])([A-Z])", lambda m: "_" + m.group(1).lower(), part)
        parts.append(part)
    return "-".join(parts)


def move_crates():
    """A crate may not have the name of a library of the kit."""
    for old, new in CRATES.items():
        if not os.path.isdir(f"crates/{old}"):
            continue
        os.rename(f"crates/{old}", f"crates/{new}")
        for path in files():
            text = read(path)
            out = re.sub(rf"\bRattle\.{old}\.", f"Rattle.{new}.", text)
            out = re.sub(rf"(?<![\w:]){old}::", f"{new}::", out)
            if out != text:
                with open(path, "w", encoding="utf-8") as f:
                    f.write(out)
        lines = [l if l.startswith("#") else re.sub(rf"\b{old}\b", new, l) for l in read("crates.txt").splitlines()]
        with open("crates.txt", "w", encoding="utf-8") as f:
            f.write("\n".join(lines) + "\n")


def main():
    move_crates()
    for path in files():
        if path.endswith(".antt"):
            with open(path, encoding="utf-8") as f:
                text = f.read()
            new = TOKEN.sub(lambda m: LEMMAS.get(m.group(0), m.group(0)), text)
            if new != text:
                with open(path, "w", encoding="utf-8") as f:
                    f.write(new)
    defined = collections.defaultdict(set)
    for path in files():
        if path.endswith(".antt"):
            for line in read(path).splitlines():
                m = HEAD.match(line)
                if m and not line.strip().startswith("--"):
                    defined[m.group(1)].add(path)
    turned = {}
    for name in defined:
        if name[:1].islower() and not name.startswith(MADE) and re.search(r"[a-z0-9][A-Z]", name):
            new = CHOSEN.get(name, snake(name))
            if new != name:
                turned[name] = new
    turned.update(ALIASES)
    bad = 0
    news = collections.Counter(turned.values())
    for name, new in turned.items():
        if new in defined or news[new] > 1:
            bad += 1
            print(f"falls together: {name} -> {new}: {sorted(defined[name])[:2]} {sorted(defined.get(new, []))[:2]}")
    if bad:
        return 1
    n = 0
    for path in files():
        text = read(path)
        new = TOKEN.sub(lambda m: turned.get(m.group(0), m.group(0)), text)
        if new != text:
            n += 1
            with open(path, "w", encoding="utf-8") as f:
                f.write(new)
    print(f"{len(turned)} names, {n} files")
    return 0


if __name__ == "__main__":
    sys.exit(main())
