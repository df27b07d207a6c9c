#!/usr/bin/env python3
"""Spells the names that the texts of specs/ and proofs/ declare as today's Rattle spells its own.

usage: python3 tools/respell.py [--check]        at the top of the repository, once, after the kit's port.py

Types and facts are in upper camel case (Line-laws becomes LineLaws), all else is in snake case (no-point becomes no_point).
It turns whole names alone, in .antt and .rt files. No name of Rust's has a dash, so of code only clauses and ghost items change.
Comments, strings, the names of Rust functions and the names that Rattle makes of goals and steps stay as they are.
Where two names would fall together in one file, it says so and writes nothing.
"""

import collections
import os
import re
import sys

WORD = re.compile(r'[^\s(){}.;,@"«»`]+')
QUIET = re.compile(r'"(?:[^"\\\n]|\\.)*"|(?<![^\s(){}.;,@"«»])--[^\n]*|//[^\n]*')
DECLARED = re.compile(r"^((?:abbrev |unfoldable |pub )*)([^\s(){}.;,@\"«»]+)(?: \{[^{}]*\})* :(?: (.*))?$")
MADE = re.compile(r"^(?:pub )?(?:record|data) (\S+)")
MEMBER = re.compile(r"^ +(?:pub )?([^\s(){}.;,@\"«»]+) : ")
LOCAL = re.compile(r"(?:\blet |\(|\bas |(?m:^) +)([a-z][a-z0-9_]*-[a-z0-9_-]+)(?= [:=]|[,}])|λ ([a-z][a-z0-9_]*-[a-z0-9_-]+)\.")
THEIRS = re.compile(r"use (?:Rattle\.std|Prim)\.[^{}]*\{([^{}]*)\}")

# What no rule says: a test is no fact, and a lemma follows the name of what it is about.
BY_HAND = {"Before": "comes_before", "getD-around": "get_or_around"}
# Where these stand; elsewhere the same word is another's.
WHERE = {"Before": "crates/keyed/"}


def snake(name):
    return name.replace("-", "_")


def camel(name):
    return "".join(part[:1].upper() + part[1:] for part in name.split("-"))


def files(endings):
    for folder, inner, names in os.walk("crates"):
        inner[:] = sorted(d for d in inner if d != "out")
        for name in sorted(names):
            if name.endswith(endings):
                yield os.path.join(folder, name)


def read(path):
    with open(path, encoding="utf-8") as f:
        return f.read()


def declared(text):
    """The names that a text declares, each with whether it is a type or a fact."""
    members = module = False
    lines = QUIET.sub("", text).split("\n")
    for at, line in enumerate(lines):
        if line.startswith(" "):
            found = MEMBER.match(line)
            if members and found:
                yield found[1], False
            if not module:
                continue
            line = line.strip()
        elif line.strip():
            module = line.startswith("module ")
        made = MADE.match(line)
        members = bool(made)
        if made:
            yield made[1], True
            continue
        found = DECLARED.match(line)
        if not found or (found[3] or "").startswith("goal."):
            continue
        whole = [found[3] or ""]
        for more in lines[at + 1 :]:
            if not more.startswith("    " if module else " "):
                break
            whole.append(more.strip())
        result = " ".join(whole).split("→")[-1].strip()
        yield found[2], bool(re.match(r"Type\b", result))
    for found in LOCAL.finditer(QUIET.sub("", text)):
        yield found[1] or found[2], False


def table():
    """The old spelling of each name, with the new one."""
    new = dict(BY_HAND)
    for path in files(".antt"):
        for name, is_type in declared(read(path)):
            spelled = BY_HAND.get(name) or (camel(name) if is_type or name[:1].isupper() and name in new else snake(name))
            if spelled != name and new.setdefault(name, spelled) != spelled:
                raise SystemExit(f"respell: {name} is a type in one file and none in another")
    theirs = {name for path in files(".antt") for items in THEIRS.findall(read(path)) for name in WORD.findall(items)}
    return {old: it for old, it in new.items() if old not in theirs}


def turned(text, path, new):
    """The text with each name turned that stands outside comments and strings."""
    own = {old: it for old, it in new.items() if path.startswith(WHERE.get(old, ""))}
    out, at = [], 0
    for quiet in QUIET.finditer(text):
        out += [WORD.sub(lambda m: own.get(m[0], m[0]), text[at : quiet.start()]), quiet[0]]
        at = quiet.end()
    out.append(WORD.sub(lambda m: own.get(m[0], m[0]), text[at:]))
    return "".join(out)


def fallen(text, path, new):
    """The names of a text that would meet another name in it; of code alone the names that it brings in count, since no clause names a function."""
    code = QUIET.sub("", text)
    words = set(WORD.findall(" ".join(re.findall(r"ghost use [^;]*;", code)) if path.endswith(".rt") else code))
    own = {old: it for old, it in new.items() if old in words and path.startswith(WHERE.get(old, ""))}
    meets = [f"{path}: {old} meets {it}" for old, it in own.items() if it in words]
    twice = collections.Counter(own.values())
    return meets + [f"{path}: two names become {it}" for it, n in twice.items() if n > 1]


def main(argv):
    new = table()
    texts = {path: read(path) for path in files((".antt", ".rt"))}
    said = [it for path, text in texts.items() for it in fallen(text, path, new)]
    print("\n".join(said) + f"\nrespell: {len(new)} names, {len(said)} that fall together")
    if "--check" in argv:
        return 0
    if said:
        return 1
    for path, text in texts.items():
        after = turned(text, path, new)
        if after != text:
            with open(path, "w", encoding="utf-8") as f:
                f.write(after)
    return 0


if __name__ == "__main__":
    raise SystemExit(main(sys.argv[1:]))
