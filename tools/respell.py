#!/usr/bin/env python3
"""Brings this repository's own definitions and lemmas to snake case, after port.py has run.

usage: python3 tools/respell.py [--try]     at the top of the repository, once; --try writes nothing

A definition or lemma of specs/ and proofs/ written in camel case or with dashes gets underscores, as `fieldAt` -> `field_at` and
`number-half` -> `number_half`. In a lemma a dash stays where it joins the names of definitions. A definition that answers a type gets capitals.
Functions of src/, goals of Proof.antt files and names of the kit keep theirs. Names that would fall together are printed and kept.
"""
import collections
import glob
import os
import re
import sys

WORD = r"[A-Za-z0-9_'₀-₉-]"
NAME = re.compile(r"(?<![A-Za-z0-9_'₀-₉-])[A-Za-z_](?:[A-Za-z0-9_'₀-₉]|-(?=[A-Za-z0-9_']))*")
SIG = re.compile(r"^(\s*)((?:unfoldable |abbrev |pattern |pub )*)([A-Za-z_](?:[A-Za-z0-9_'₀-₉]|-(?=[A-Za-z0-9_']))*)(?:\s*\{[^}]*\})? :(?!=)\s*(.*)$", re.M)
GOAL = re.compile(r"^\s*(?:abbrev )?[^\s]+ : tie\.", re.M)
JOINED = {"length", "take", "drop", "set", "sets", "append", "map", "replicate", "get_or", "cond"}


def crates():
    return sorted(os.path.basename(os.path.dirname(p)) for p in glob.glob("crates/*/src"))


def files(*kinds):
    out = []
    for kind in kinds:
        out += glob.glob(f"crates/*/{kind}", recursive=True)
    return sorted(p for p in out if "/out/" not in p)


def snake(n):
    n = re.sub(r"(?<=[a-z0-9])(?=[A-Z])", "_", n)
    return n.lower()


def strip_comments(t):
    return re.sub(r"--[^\n]*", "", t)


def main(argv):
    dry = "--try" in argv
    own = crates()
    antt = files("specs/**/*.antt", "proofs/**/*.antt")
    texts = {p: open(p).read() for p in antt}
    rts = {p: open(p).read() for p in files("src/**/*.rt")}
    edits = {p: open(p).read() for p in files("must-fail/*.edit")}

    # Names that files bring from the kit.
    kit = set()
    ours = re.compile(r"Rattle[.·](?:%s)(?:·\w+)?\." % "|".join(own))
    for p, t in {**texts, **rts}.items():
        lead = r"^ghost use" if p.endswith(".rt") else r"^(?:pub )?use"
        for m in re.finditer(lead + r" ([^\s{;]+?)\.?\{([^}]*)\}", t, re.M):
            if not ours.match(m.group(1)):
                kit |= {x.strip().split(" as ")[0] for x in m.group(2).split(",")}

    defs = collections.defaultdict(set)
    types = {}
    local = collections.defaultdict(set)
    for p, t in texts.items():
        proof = p.endswith("/Proof.antt")
        goals = set(re.findall(r"^\s*(?:abbrev )?([^\s]+) : tie\.", t, re.M))
        for m in SIG.finditer(t):
            n = m.group(3)
            if n in goals or "tie." in m.group(4)[:6]:
                continue
            if proof and m.group(2).strip() == "pub" and n.endswith("-spec"):
                continue
            defs[n].add(p)
            types.setdefault(n, m.group(4))

    functions = {snake(n.replace("-", "_")) for n, ps in defs.items() if any("/specs/" in p for p in ps)} | JOINED

    def new(n):
        if not n[0].islower():
            return n
        ty = types[n]
        if re.search(r"(?:^|→ )Type(?: [0-9ℓ])?\s*$", ty):
            return "".join(w[:1].upper() + w[1:] for w in re.split(r"[-_]", snake(n)))
        parts = [snake(w) for w in n.split("-")]
        if len(parts) == 1:
            return parts[0]
        stated = any("/specs/" in p for p in defs[n])
        out = parts[0]
        for a, b in zip(parts, parts[1:]):
            out += ("-" if not stated and all(w in functions for w in parts) else "_") + b
        return out

    table = {n: new(n) for n in defs if new(n) != n}
    back = collections.defaultdict(list)
    for n, m in table.items():
        back[m].append(n)
    standing = {n for n in defs if n not in table}
    for m, ns in sorted(back.items()):
        first = next((n for n in ns if any("/specs/" in p for p in defs[n]) and "-" not in n), None)
        if m in standing:
            if first:
                table[m] = m + "_lem"
                print("stands already:", m, "->", m + "_lem", "for", first)
            else:
                table[ns[0]] = m + "_lem"
                print("stands already:", m, "and so", ns[0], "->", m + "_lem")
        if len(ns) > 1:
            first = first or ns[0]
            for n in ns:
                if n != first:
                    table[n] = m + "_lem"
                    print("fall together:", n, "->", m + "_lem", "beside", first)
    values = collections.Counter(table.values())
    for m, k in values.items():
        if k > 1 or (m in defs and m not in table) or m in kit:
            print("LOOK:", m, [n for n in table if table[n] == m], "kit" if m in kit else "")

    rust = set()
    for t in rts.values():
        rust |= set(re.findall(r"\bfn (\w+)", t))
    for p, t in rts.items():
        for m in re.finditer(r"\bfn \w+\s*\(([^)]*)\)[^{]*?((?:requires|ensures)[^;]*?)\n\s*\{\n", t):
            params = set(re.findall(r"(\w+):", m.group(1)))
            hid = [n for n in table if table[n] in params and re.search(r"(?<![\w-])%s(?![\w-])" % re.escape(n), m.group(2))]
            if hid:
                print("a parameter hides it:", p, hid)
    words = collections.Counter()
    for p, t in texts.items():
        words.update(NAME.findall(strip_comments(t)))
    for n, m in table.items():
        if words[m] and m not in defs:
            print("the word stands already:", m, words[m], "for", n)

    def turn_antt(p, t):
        proof = p.endswith("/Proof.antt")
        brought = set()
        for m in re.finditer(r"^(?:pub )?use ([^\s{;]+?)\.?\{([^}]*)\}", t, re.M):
            if not ours.match(m.group(1)):
                brought |= {x.strip().split(" as ")[-1] for x in m.group(2).split(",")}
        goals = set(re.findall(r"^\s*(?:abbrev )?([^\s]+) : tie\.", t, re.M))

        def word(m):
            n = m.group(0)
            if n not in table or n in brought or (proof and n in goals):
                return n
            before = t[: m.start()]
            line = before[before.rfind("\n") + 1 :]
            if re.match(r"(?:pub )?use ", line) and "{" not in line and before.endswith("."):
                return n
            if proof and before.endswith(".") and n.replace("-", "_") in rust:
                return n
            return table[n]

        return NAME.sub(word, t)

    def turn_rt(p, t):
        brought = set()
        for m in re.finditer(r"^ghost use ([^\s{;]+?)\.?\{([^}]*)\}", t, re.M):
            if ours.match(m.group(1)):
                brought |= {x.strip().split(" as ")[-1] for x in m.group(2).split(",")}

        def word(m):
            n = m.group(0)
            return table[n] if n in table and (n in brought or re.search("[A-Z]", n)) else n

        out = []
        depth = 0
        for line in t.split("\n"):
            ghost = line.startswith("ghost use") or re.match(r"\s*(requires|ensures|ghost)\b", line) or re.match(r"\s*//", line)
            out.append(NAME.sub(word, line) if ghost or depth else line)
            if ghost and not re.match(r"\s*//", line):
                depth = line.count("{") - line.count("}")
            elif depth:
                depth += line.count("{") - line.count("}")
        return "\n".join(out)

    def turn_edit(p, t):
        return NAME.sub(lambda m: table.get(m.group(0), m.group(0)) if re.search("[a-z][A-Z]", m.group(0)) else m.group(0), t)

    n = 0
    for turn, some in ((turn_antt, texts), (turn_rt, rts), (turn_edit, edits)):
        for p, t in some.items():
            u = turn(p, t)
            if u != t:
                n += 1
                if not dry:
                    open(p, "w").write(u)
    print(len(table), "names,", n, "files")


if __name__ == "__main__":
    main(sys.argv[1:])
