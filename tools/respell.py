#!/usr/bin/env python3
"""Brings the names that specs/ and proofs/ declare to the spelling of the library: functions and lemmas in snake case, types and
facts in upper camel case.

usage: python3 tools/respell.py        at the top of a repository, once, right after the toolchain's port.py
       python3 tools/respell.py --list shows each old and new name, and changes nothing

Names of src/, of goals, and of the library keep their spelling. On standard error it says where two names would fall together.
"""

import collections
import os
import re
import sys

TOKEN = re.compile(r"[^\s(){}\[\],;.|«»`\"@]+")
DECLARED = re.compile(r"^\s*(?:(?:pub|abbrev|unfoldable|data|record|axiom)\s+)*([^\s(){}:]+)(?:\s[^=:]*)?\s*:(?:\s|$)")
KINDED = re.compile(r"^\s*(?:(?:pub|abbrev|unfoldable)\s+)*(?:data|record)\s+(?:pub\s+)?([^\s(){}:]+)")
USE = re.compile(r"^(?:ghost )?(?:pub )?use ([\w.◌·+'-]+?)(?:\.\{(.*)\}|\s+as\s+\S+)?;?\s*$")
GOAL = re.compile(r":\s*goal\.")
# names of goals and steps begin like these
MADE = re.compile(
    r"^(returns|loop|invariant|decreases|ghosts?|overflow|bounds|offset|slice_bounds|nonzero|prove|ensures|requires|in_ok|in_err|in|if|then|else|match|index|type_inv)-"
)


def files(ends):
    for folder, dirs, names in os.walk("crates"):
        dirs[:] = sorted(d for d in dirs if d not in ("out",))
        for n in sorted(names):
            if n.endswith(ends):
                yield os.path.join(folder, n)


def own_crates():
    return {line.split(":")[0].split()[0] for line in open("crates.txt", encoding="utf-8") if line.strip() and not line.startswith("#")}


def deep(path):
    """Whether the file answers the goals of a function."""
    return re.match(r"crates/\w+/proofs/.*/", path) is not None


def new_name(old):
    parts = old.split("-")
    if re.match(r"[A-Z]", old):
        return "".join(p[:1].upper() + p[1:] for p in parts)
    return "_".join(parts)


def functions():
    """The functions of each crate's src/."""
    found = collections.defaultdict(set)
    for path in files((".rt",)):
        for line in open(path, encoding="utf-8"):
            m = re.match(r"\s*(?:pub(?:\([a-z]+\))? )?(?:const )?fn (\w+)", line)
            if m:
                found[path.split(os.sep)[1]].add(m.group(1))
    return found


def names():
    """The names to respell, and every other token with the places where it stands."""
    crates = own_crates()
    declared, imported, seen = collections.defaultdict(set), collections.defaultdict(set), collections.defaultdict(set)
    for path in files((".antt", ".rt")):
        for line in open(path, encoding="utf-8"):
            text = line.split("--")[0] if path.endswith(".antt") else line
            use = USE.match(text.strip())
            if use and use.group(2):
                for item in use.group(2).split(","):
                    part = item.strip().split(" as ")
                    crate = use.group(1).split(".")
                    if crate[0] == "Rattle" and crate[1] in crates:
                        # an own name, and perhaps an own name for it
                        for p in part[1:]:
                            declared[p.strip()].add(path)
                    else:
                        imported[part[0].strip()].add(path)
                        for p in part[1:]:
                            declared[p.strip()].add(path)
            if path.endswith(".antt") and not use:
                for rule in (KINDED, DECLARED):
                    m = rule.match(text)
                    if m and not GOAL.search(text):
                        declared[m.group(1)].add(path)
            for t in TOKEN.findall(text):
                seen[t].add(path)
    respelled, source = {}, functions()
    for n in declared:
        if "-" in n.strip("-") and re.search(r"[A-Za-z]", n) and "◌" not in n and n[0] not in "+-" and not (MADE.match(n) and all(deep(p) for p in declared[n])):
            new = new_name(n)
            # a word that would have the name of a function where it is used
            if any(new in source[path.split(os.sep)[1]] for path in seen[n]):
                new += "_lem"
            respelled[n] = new
    return respelled, imported, seen, declared


def main():
    respelled, imported, seen, declared = names()
    both = sorted(n for n in respelled if n in imported)
    clash = collections.defaultdict(list)
    for old, new in respelled.items():
        clash[new].append(old)
        if new in seen:
            clash[new].append(new)
    together = {n: o for n, o in clash.items() if len(o) > 1}
    if "--list" in sys.argv:
        for old in sorted(respelled):
            print(old, respelled[old])
    # a name of the library that a file of ours declares again is ours only in that file
    local = {n: declared[n] - imported[n] for n in both}
    for n, o in sorted(together.items()):
        print("falls together:", n, o, sorted({p for x in o for p in (seen[x] if x == n else ())})[:4], file=sys.stderr)
    for n in both:
        print("of the library too:", n, sorted(local[n])[:3], file=sys.stderr)
    if "--list" in sys.argv:
        return

    def respell(text, path):
        def one(m):
            t = m.group(0)
            if t in respelled and t not in imported:
                return respelled[t]
            if t in local and path in local[t]:
                return respelled[t]
            return t

        return TOKEN.sub(one, text)

    for path in files((".antt", ".rt", ".edit")):
        with open(path, encoding="utf-8") as f:
            was = f.read()
        now = respell(was, path)
        if now != was:
            with open(path, "w", encoding="utf-8") as f:
                f.write(now)


if __name__ == "__main__":
    main()
