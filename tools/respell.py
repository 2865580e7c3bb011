#!/usr/bin/env python3
"""Brings the repository's own definitions and lemmas to today's spelling: usage: python3 tools/respell.py (at the top, once, behind port.py).

Words are in snake case; a dash joins two names of functions, as in `drop-set`; a lemma that would have its function's name
gets `_lem`. Names of the kit, of src/ and of what is generated keep theirs. It goes over crates/ (edits too), README.md and docs/.
"""

import os
import re
import subprocess
import sys

KIT = "/opt/rattle"
WORD = r"[^\s(){}\[\];,.λ«»`\"]+"
# Names of std's functions that a lemma's name may join by a dash.
STD = "length drop take set append get_or map replicate reverse min suc zero paste count sum".split()
# Aliases of common/proofs/Ground.antt with a middle dot.
ALIASES = {
    "List·getD-append": "get_or-append", "List·getD-eq-default": "get_or-eq_default", "List-as-Memᴰ": "Memᴰ",
    "List·Memᴰ·cases-cons": "Memᴰ-cases_cons", "List·Memᴰ·head": "Memᴰ-head", "List·Memᴰ·not-nil": "Memᴰ-not_nil",
    "List·Memᴰ·tail": "Memᴰ-tail", "Memᴰ·append-left": "Memᴰ-append_left", "Memᴰ·append-right": "Memᴰ-append_right",
    "Sublistᴰ·append": "Sublistᴰ-append", "Sublistᴰ·cons": "Sublistᴰ-cons", "Sublistᴰ·cons-cons": "Sublistᴰ-cons_cons",
    "Sublistᴰ·eq-nil": "Sublistᴰ-eq_nil", "Sublistᴰ·nil-sublist": "Sublistᴰ-nil_sublist",
    "Sublistᴰ·refl": "Sublistᴰ-refl", "Sublistᴰ·slnil": "Sublistᴰ-slnil",
}
# Lemmas that port.py gave the name that a definition has in snake case.
LEMMAS = {
    "work": {"first_on": "first_on_lem"},
    "writing": {"kept_from": "kept_from_lem", "kept_record": "kept_record_lem"},
    "order": {"same_move": "same_move_lem"},
    "course": {"fixed_answer": "fixed_answer_lem", "none_left": "none_left_lem", "short_cut": "short_cut_lem"},
}

# Names that the rule for lemmas gave `_lem`, though they are a constructor or fields: by crate, what they are called.
AGAIN = {
    **{c: {"on_page_lem": "on_page"} for c in "image whole reply search telling yard".split()},
    "course": {"on_page_lem": "on_page", "by_station_lem": "by_station", "no_route_lem": "no_route"},
    "imaging": {"by_station_lem": "by_station"},
    "work": {"in_hand_lem": "in_hand"},
    "reference": {"in_hand_lem": "in_hand"},
    "panel": {"no_route_lem": "no_route"},
}


def files(top, ends):
    for folder, dirs, names in os.walk(top):
        dirs[:] = sorted(d for d in dirs if d not in ("out", ".git"))
        for n in sorted(names):
            if n.endswith(ends):
                yield os.path.join(folder, n)


def read(p):
    with open(p, encoding="utf-8") as f:
        return f.read()


def bare(t):
    return re.sub(r"(--|//).*", "", t)


def snake(w):
    return re.sub(r"(?<=[a-z0-9])([A-Z])", lambda m: "_" + m[1].lower(), w)


def words(t):
    return set(re.findall(WORD, t))


def kit_words():
    found = set()
    for top in ("rattle", "logic_built", "toolchain"):
        for p in files(os.path.join(KIT, top), (".antt",)):
            found |= words(read(p))
    return found


def main():
    kit = kit_words()
    own, sources = set(), set()
    defined = set(STD)
    for p in files("crates", (".antt",)):
        t = bare(read(p))
        if p.endswith("/Proof.antt"):
            continue
        own |= words(t)
        if "/specs/" in p:
            defined |= {snake(m) for m in re.findall(r"(?m)^\s*(?:abbrev|unfoldable) pub (" + WORD + r") :", t)}
    for p in files("crates", (".rt",)):
        sources |= words(bare(read(p)))
    turn = {}
    taken = {w for w in own if "-" not in w and not re.match(r"[a-z].*[A-Z]", w)}
    camel = sorted(w for w in own | sources if re.fullmatch(r"[a-z][\w']*", w) and re.search(r"[a-z0-9][A-Z]", w) and w not in kit)
    for w in camel:
        turn[w] = snake(w)
    made = {}
    for w in sorted(x for x in own if re.fullmatch(r"[a-z][\w']*(?:-[\w']+)+", x) and x not in kit):
        parts = [snake(x) for x in w.split("-")]
        s = parts[0]
        for a, b in zip(parts, parts[1:]):
            s += ("-" if a in defined and b in defined else "_") + b
        made[w] = s
    functions = set(turn.values())
    for w, s in made.items():
        if s in functions or s in taken or s in kit and s in own:
            s += "_lem"
        turn[w] = s
    clash = {}
    for w, s in turn.items():
        clash.setdefault(s, []).append(w)
    for s, ws in sorted(clash.items()):
        if len(ws) > 1 or (s in taken and s not in ws):
            print("look:", s, ws, "is taken" if s in taken else "")
    turn.update(ALIASES)
    turn["a-move-without-time-is-a-move"] = "a_move_without_time_is_a_move"
    if "--list" in sys.argv:
        for w, s in sorted(turn.items()):
            print(w, s)
        return
    keys = re.compile(r"(?<![\w'·\-◌/])(" + "|".join(sorted(map(re.escape, turn), key=len, reverse=True)) + r")(?![\w'·\-◌])")
    n = 0

    def put(p, s, t):
        nonlocal n
        if s != t:
            n += 1
            with open(p, "w", encoding="utf-8") as f:
                f.write(s)

    for p in files("crates", (".antt", ".rt", ".edit")):
        t = read(p)
        s = t
        for a, b in LEMMAS.get(p.split("/")[1], {}).items():
            if p.endswith(".antt") and "/proofs/" in p:
                s = re.sub(r"(?<![\w'\-.])" + a + r"(?![\w'\-])", b, s)
        s = keys.sub(lambda m: turn[m[1]], s)
        for a, b in AGAIN.get(p.split("/")[1], {}).items():
            s = re.sub(r"(?<![\w'\-])" + a + r"(?![\w'\-])", b, s)
        put(p, s, t)
    for p in ["README.md", *files("docs", (".md",))]:
        t = read(p)
        put(p, re.sub(r"`[^`\n]+`", lambda m: keys.sub(lambda k: turn[k[1]], m[0]), t), t)
    print(f"respelled: {len(turn)} names, {n} files")


main()
