#!/usr/bin/env python3
"""Respells the repository's own definitions, lemmas, record fields and constructors: facts and types in upper camel case,
everything else in snake case. Names that Rattle makes (goals, steps) and names of src/ stay.

usage: python3 tools/respell.py [--dry]      at the top of the repository, once, on the text that port.py wrote
"""
import os
import re
import sys

NAME = r"[A-Za-z_][A-Za-z0-9_']*(?:-[A-Za-z0-9_'*+=<≤]+)*"
TOKEN = re.compile(r"(?<![A-Za-z0-9_'·-])" + NAME)
MADE = re.compile(r"^(goal|given|Goals|Given)\.")

# Names whose plain respelling would fall together with another name.
CHOSEN = {
    "after-post": "after_post_entered",
    "bid-of": "bid_of_lem",
    "bids-between": "bids_between_lem",
    "by-class": "by_class_number",
    "by-grid": "by_grid_shares",
    "can-share": "can_share_lem",
    "fault-at": "fault_at_lem",
    "handed-over": "handed_over_lem",
    "posted-money": "posted_money_lem",
    "price-read": "price_is_read",
    "strip-begun": "strip_begun_lem",
    "tariff-at": "tariff_at_lem",
    "up-to": "all_up_to",
    "getD-exchanged": "get_or_exchanged",
    "climbs-from-getD": "climbs_from_get_or",
}


def respelled(name):
    if name in CHOSEN:
        return CHOSEN[name]
    if name[0].isupper():
        return "".join(w[:1].upper() + w[1:] for w in re.split(r"[-_]", name))
    name = re.sub(r"(?<=[a-z0-9])(?=[A-Z])", "_", name)
    name = re.sub(r"-", "_", name)
    return name.lower() if not re.search(r"_[A-Z]$|_[A-Z]_", name) else re.sub(r"[A-Z]+", lambda m: m.group().lower(), name)


def files(ends):
    for folder, dirs, names in os.walk("crates"):
        dirs[:] = sorted(d for d in dirs if d != "out")
        for f in sorted(names):
            if f.endswith(ends):
                yield os.path.join(folder, f)


def made(path, text, name):
    """Whether the name is a goal that Rattle made: its signature is that of the goals' module."""
    return re.search(r"(?m)^(?:abbrev )?(?:pub )?" + re.escape(name) + r" : (?:goal|given|need|choice)s?\.", text) is not None


def defined(path, text):
    names = set()
    for m in re.finditer(r"(?m)^(?:abbrev |unfoldable )?(?:pub )?(?:record|data) (" + NAME + r")", text):
        names.add(m.group(1))
    for m in re.finditer(r"(?m)^(?:abbrev |unfoldable )?(?:pub )?(" + NAME + r") *:(?: |\n|$)", text):
        names.add(m.group(1))
    for m in re.finditer(r"(?m)^ruleset (?:pub )?(" + NAME + r")", text):
        names.add(m.group(1))
    # fields, constructors and local definitions
    for m in re.finditer(r"(?m)^ +(?:pub )?(" + NAME + r") *:(?: |\n|$)", text):
        names.add(m.group(1))
    return {n for n in names if n not in ("let", "pub", "where", "record", "data") and not made(path, text, n)}


def clauses(text):
    """The parts of a .rt file that are antt: lines of ghost use, clauses, ghost fields and members."""
    spans = []
    for m in re.finditer(r"(?m)^ghost use [^;]*;", text):
        spans.append(m.span())
    for m in re.finditer(r"(?m)^\s*ghost use [^;]*;", text):
        spans.append(m.span())
    for m in re.finditer(r"(?m)^\s*(?:pub )?(?:requires|ensures|ghost)\*?[^\n{]*\{", text):
        depth, i = 1, m.end()
        while depth and i < len(text):
            depth += {"{": 1, "}": -1}.get(text[i], 0)
            i += 1
        spans.append((m.start(), i))
    return sorted(spans)


def put(text, names):
    return TOKEN.sub(lambda m: names.get(m.group(), m.group()), text)


def main(dry):
    texts = {p: open(p, encoding="utf-8").read() for p in files((".antt", ".rt", ".edit"))}
    own = set()
    for p, t in texts.items():
        if p.endswith(".antt"):
            own |= defined(p, t)
    names = {n: respelled(n) for n in own if respelled(n) != n}
    used = set()
    for p, t in texts.items():
        if not p.endswith(".edit"):
            used |= set(TOKEN.findall(t))
    back = {}
    for old, new in sorted(names.items()):
        back.setdefault(new, []).append(old)
    bad = False
    for new, olds in sorted(back.items()):
        if len(olds) > 1 or new in used:
            print(("fall together: " if len(olds) > 1 else "stands already: ") + new + " <- " + " ".join(olds))
            bad = True
    print(f"{len(names)} names are respelled")
    if dry:
        for old, new in sorted(names.items()):
            print("   ", old, "->", new)
        return 1 if bad else 0
    for p, t in texts.items():
        if p.endswith(".antt"):
            new = put(t, names)
        elif p.endswith(".rt"):
            new, at = "", 0
            for a, b in clauses(t):
                if a < at:
                    continue
                new += t[at:a] + put(t[a:b], names)
                at = b
            new += t[at:]
        else:
            new = put(t, {k: v for k, v in names.items() if re.search(r"[A-Z-]", k)})
        if new != t:
            open(p, "w", encoding="utf-8").write(new)
    return 0


if __name__ == "__main__":
    raise SystemExit(main("--dry" in sys.argv))
