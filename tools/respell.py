#!/usr/bin/env python3
"""Spells the definitions and lemmas of specs/ and proofs/ in one style: words and lemmas in snake case, types and facts in camel case.

usage: python3 tools/respell.py [--dry] [FOLDER]     run once, right after port.py, at the top of the checkout or on FOLDER

It finds each name with a dash that a .antt file below crates/ declares (a definition, a lemma, a record, a field), and rewrites it in
every .antt and .rt file, outside of comments and text in quotes. Names that Rattle makes (goals, and the steps and branches that they are
named after) and names of std keep their dashes. Names that would fall together are listed and stop it.
"""

import collections
import os
import re
import sys

NAME = r"[A-Za-z][\w'-]*[\w']"
SIGNATURE = re.compile(r"^\s*((?:(?:abbrev|unfoldable|opaque|pub|record|data)\s+)*)([^\s(){}.,;:λ]+)\s*((?:[({][^:]*:[^)}]*[)}]\s*)*):\s")
RECORD = re.compile(r"^\s*(?:pub\s+)?(?:record|data)\s+([^\s(){}.,;:λ]+)")
TOKEN = re.compile(r"(?<![\w'·-])[A-Za-z][\w']*(?:-[\w']+)+(?![\w'·-])")
PLAIN = re.compile(r"(?<![\w'·-])[A-Za-z][\w']*(?![\w'·-])")
# a word that says what the Rust function of the same name answers, a type beside a module of its name in another crate folder, or a
# word beside a Rust variable of a file that does not cite it: these meet no other antt name
BESIDE = {
    "HoursLaw", "SlotLaws", "day_text", "hours_of", "is_maker", "is_owner", "is_price", "is_size", "known_hours_hold", "leap_day",
    "lowest_waking", "new_year", "ranks_before", "row_text", "session_phase", "starts_on", "starts_session", "sunday_from",
    # and in the files that lie in unfinished/
    "answers_part", "asked_refusal", "call_refusal", "cut_mate", "cuts_loss", "day_before_says", "is_loss_cut", "is_pre_open",
    "lapse_all", "lapses_after", "limit_leg", "needs_price", "needs_trigger", "next_pair", "order_refusal", "pair_on", "price_of",
    "put_level", "quote_refusal", "tapes_part", "trigger_leg", "turn_refusal", "wake_all", "wake_order", "withdraw_refusal",
}


def files(root):
    for folder, dirs, names in os.walk(os.path.join(root, "crates")):
        dirs[:] = sorted(d for d in dirs if d != "out")
        for name in sorted(names):
            if name.endswith((".rt", ".antt")):
                yield os.path.join(folder, name)


def declared(root):
    found = collections.defaultdict(set)
    for path in files(root):
        if not path.endswith(".antt"):
            continue
        with open(path, encoding="utf-8") as f:
            for line in f:
                line = line.split("--")[0].rstrip()
                m = SIGNATURE.match(line + " ")
                r = RECORD.match(line)
                name = r.group(1) if r else m.group(2) if m else ""
                if "-" in name and "↦" not in line and not re.search(r":\s*goal\.", line) and re.fullmatch(NAME, name):
                    found[name].add(path)
    return found


def spelled(name):
    if name[0].isupper():
        return "".join(part[0].upper() + part[1:] for part in name.split("-"))
    return name.replace("-", "_")


def pieces(text, comment):
    """The text as (is code, piece): comments and quoted text are no code."""
    pattern = re.compile(comment + r"[^\n]*|\"(?:\\.|[^\"\\\n])*\"")
    at = 0
    for m in pattern.finditer(text):
        yield True, text[at : m.start()]
        yield False, m.group(0)
        at = m.end()
    yield True, text[at:]


def respell(path, text, new):
    comment = "--" if path.endswith(".antt") else "//"
    turn = lambda m: new.get(m.group(0), m.group(0))
    return "".join(TOKEN.sub(turn, p) if code else p for code, p in pieces(text, comment))


def main(argv):
    dry = "--dry" in argv
    rest = [a for a in argv if a != "--dry"]
    root = rest[0] if rest else "."
    found = declared(root)
    new = {name: spelled(name) for name in found}
    used = collections.defaultdict(set)
    for path in files(root):
        with open(path, encoding="utf-8") as f:
            text = f.read()
        for code, piece in pieces(text, "--" if path.endswith(".antt") else "//"):
            if code:
                for m in PLAIN.finditer(piece):
                    used[m.group(0)].add(path)
    bad = 0
    back = collections.defaultdict(list)
    for name, to in new.items():
        back[to].append(name)
    for to, names in sorted(back.items()):
        if len(names) > 1 or to in used and to not in BESIDE:
            bad += 1
            print(f"falls together: {', '.join(sorted(names))} -> {to}; used in {', '.join(sorted(used.get(to, []))[:3])}")
    print(f"respell: {len(new)} names, {bad} fall together")
    if bad and not dry:
        return 1
    if dry:
        return 0
    for path in files(root):
        with open(path, encoding="utf-8") as f:
            text = f.read()
        out = respell(path, text, new)
        if out != text:
            with open(path, "w", encoding="utf-8") as f:
                f.write(out)
    return 0


if __name__ == "__main__":
    raise SystemExit(main(sys.argv[1:]))
