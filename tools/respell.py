#!/usr/bin/env python3
"""Brings the repository's own definitions, lemmas, fields and constructors to snake case.

usage: python3 tools/respell.py            once, at the top, after port.py
       python3 tools/respell.py --list     prints the old and the new name of each, and changes nothing

Functions of src/, types, modules, strings, and the goals that proofs answer keep their names. A name that would fall together with another is printed and the
script stops. Comments and pages are turned where a name stands in them in camel case or in backticks.
"""
import os
import re
import subprocess
import sys

HEAD = re.compile(r"^\s*(?:\| )?(?:(?:abbrev|unfoldable|pub|record|data|let) )*([^\s(){}.;,:\[\]|=]+)(?= (?::(?: |$)|\())", re.M)
TOKEN = re.compile(r"[^\s(){}\[\].,;:\"`|=⌜⌝/<>+*&!?#@$]+")
KEEP = {"λ", "use", "pub", "let"}
# A lemma that would have a definition's name.
LEMMAS = """all-correct batch-most entries-bytes entry-bytes in-rounds inbox-bytes log-most mark-size message-bytes message-most nodes-most same-batch sending-at
slot-size well-cut no-header rehearsals-agree forged-for found-at has-sent is-faulty may-keep node-after one-text
record-bytes record-most bar-most half-faulty kept-as no-nodes sent-in taken-up""".split()
BY_HAND = {name: name.replace("-", "_") + "_lem" for name in LEMMAS} | {"batchHeld": "held_now", "batchRead": "read_now"}
# A local name that would hide a definition, and the file.
LOCAL = {
    "crates/rehearsal/proofs/Tellings.antt": {"node_at": "same_node"},
    "crates/runs/proofs/Deciding.antt": {"all_but": "all_but_lem"},
}
# Names of values that a definition's equations bind.
BOUND = {"batchHeld", "batchRead", "wattHours", "sentHeld", "forgedHeld", "forgedShown"}
# The same name in two crates, or of a function and of what it returns: both keep it.
APART = {"not_read", "no_send", "is_unreadable"}


def files(*ends):
    for folder, dirs, names in os.walk("crates"):
        dirs[:] = sorted(d for d in dirs if d != "out")
        for name in sorted(names):
            if name.endswith(ends):
                yield os.path.join(folder, name)


def snake(name):
    if name in BY_HAND:
        return BY_HAND[name]
    if name[0].islower() and re.search(r"[a-z0-9][A-Z]", name):
        name = re.sub(r"([a-z0-9])([A-Z])", lambda m: m.group(1) + "_" + m.group(2).lower(), name)
        name = re.sub(r"_([A-Z])", lambda m: "_" + m.group(1).lower(), name)
    return name.replace("-", "_")


def declared():
    names = set()
    for path in files(".antt"):
        answers = os.path.basename(path) in ("Proof.antt", "Answers.antt", "Invariants.antt") and path.count("/") > 3
        for line in open(path):
            found = HEAD.match(line) if not line.startswith(("--", "use ", "pub mod ", "mod ", "open ", "unfolding")) else None
            if found and " : " in line.rstrip() + " " and not answers:
                names.add(found.group(1))
    return {n for n in names if n not in KEEP and n[0].islower() and (re.search(r"[a-z0-9][A-Z]", n) or "-" in n) and re.fullmatch(r"[\w'-]+", n)}


def turn(text, mapping):
    return TOKEN.sub(lambda m: mapping.get(m.group(0), m.group(0)), text)


def turn_quoted(text, mapping):
    return re.sub(r"`[^`\n]+`", lambda m: turn(m.group(0), mapping), text)


def split_comment(line, mark):
    at = line.find(mark)
    while at >= 0 and line[:at].count('"') % 2:
        at = line.find(mark, at + 1)
    return (line, "") if at < 0 else (line[:at], line[at:])


def main(argv):
    names = declared() | BOUND
    mapping = {n: snake(n) for n in names}
    seen = {}
    for path in files(".antt", ".rt"):
        # A path's parts are modules, and fall together with nothing.
        for word in set(TOKEN.findall(re.sub(r"\bRattle\.[\w.+'-]+\.(?=[\w{])|--.*", "", open(path).read()))):
            seen.setdefault(word, []).append(path)
    bad = []
    back = {}
    for old, new in sorted(mapping.items()):
        if new in back and new not in APART:
            bad.append(f"{old} and {back[new]} become {new}")
        back[new] = old
        both = sorted(p for p in set(seen.get(new, [])) & set(seen.get(old, [])) if p.endswith(".antt") and new not in LOCAL.get(p, {}))
        if both:
            bad.append(f"{old} becomes {new}, which stands in {len(seen[new])} files, with {old} in {both[:3]}")
    if "--list" in argv:
        for old, new in sorted(mapping.items()):
            print(old, new)
    for b in bad:
        print("together:", b, file=sys.stderr)
    if "--list" in argv:
        return 0
    if bad:
        return 1
    camel = {o: n for o, n in mapping.items() if "-" not in o}
    for path in files(".antt", ".rt"):
        mark = "--" if path.endswith(".antt") else "//"
        out = []
        for line in open(path):
            code, comment = split_comment(line, mark + " ") if not line.startswith(mark) else ("", line)
            code = turn(code, LOCAL.get(path, {}))
            out.append(turn(code, mapping) + turn_quoted(turn(comment, camel), mapping))
        with open(path, "w") as f:
            f.write("".join(out))
    for path in files(".edit"):
        text = open(path).read()
        with open(path, "w") as f:
            f.write("".join(turn(l, mapping) if l.startswith(("old:", "new:")) else turn_quoted(l, mapping) for l in text.splitlines(True)))
    now = set()
    for path in files(".antt"):
        now |= set(TOKEN.findall(open(path).read()))
    listed = subprocess.run(["git", "ls-files", "*.md"], capture_output=True, text=True).stdout.split()
    for path in listed:
        text = open(path).read()
        words = {w for span in re.findall(r"`[^`\n]+`", text) for w in TOKEN.findall(span)}
        # What port.py itself had respelled, in the pages.
        turned = {w: snake(w) for w in words if w not in mapping and snake(w) != w and w not in now and snake(w) in now}
        with open(path, "w") as f:
            f.write(turn_quoted(text, {**turned, **mapping}))
    print(f"respelled: {len(mapping)} names")
    return 0


if __name__ == "__main__":
    raise SystemExit(main(sys.argv[1:]))
