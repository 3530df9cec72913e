#!/usr/bin/env python3
"""Spells the repository's own definitions, lemmas and fields in snake case, in every crate, and so brings it to the spelling of today's
Rattle. It was run once, after /opt/rattle/port/port.py, at the top of the checkout (docs/PORT.md); a second run changes nothing.

Own names are what specs/ and proofs/ declare; one that begins with a small letter gets an underscore for each dash and before each capital.
A lemma that would then have the name of a definition, or of another name in some file, ends in `_lem`. Types, facts and modules keep their
capitals, and Rust's names, strings and what Rattle makes (behind `tie.`) stay as they are. Where names still fall together it writes
nothing."""
import collections
import glob
import re
import sys

NAME = r'[^\s(){}.;,@"«»]+'
DECLARED = re.compile(r"( *)(?:abbrev |unfoldable )?(?:pub )?(?:record |data )?((?:[^\s(){}.;,@\"«»:λ]+ )+):(?: |$)")
GOAL = re.compile(r"\S+ : tie\.|(?:abbrev )?(?:pub )?\S+ : goal\.")


def snake(name):
    return re.sub(r"(?<=[a-z0-9])[A-Z]", lambda m: "_" + m[0].lower(), name).replace("-", "_")


def code_of(line):
    """What stands before a comment, and the comment."""
    at = 0 if line.lstrip().startswith("--") else line.find(" -- ")
    return (line, "") if at < 0 else (line[:at], line[at:])


def files(*patterns):
    return sorted(f for p in patterns for f in glob.glob(p, recursive=True))


laws = files("crates/*/specs/*.antt", "crates/*/proofs/*.antt")
walks = [f for f in files("crates/*/proofs/**/*.antt") if f not in laws]
own, fields, declared = {}, set(), collections.defaultdict(set)
for f in laws + walks:
    in_record = False
    for line in open(f, encoding="utf-8"):
        code = code_of(line.rstrip("\n"))[0]
        m = DECLARED.match(code)
        if code[:1].strip():
            in_record = bool(re.match(r"(?:pub )?record ", code))
        if not m or "→" in m[2] or f in walks and (m[1] or GOAL.match(code)) or len(m[1]) > 14:
            continue
        for name in m[2].split():
            if not re.match(r"[a-z]", name) or name in ("pub", "abbrev"):
                continue
            declared[name].add(f)
            if snake(name) != name:
                own[name] = snake(name)
                if in_record and m[1]:
                    fields.add(name)


def turned(path, text):
    """The text with own names respelled, and which of its names became what."""
    became = {}
    aliases = set(re.findall(r"\bas (\w+)", text)) - {"tie"}
    antt = path.endswith(".antt")

    def name(m, comment):
        word, before = m[0], m.string[: m.start()]
        new = own.get(word, word)
        if "-" in word and comment or not antt and word == word.lower():  # in Rust code that is a dash or a name of Rust's
            new = word
        elif before.endswith("."):
            behind = re.search(rf"({NAME})\.$", before)
            behind = behind[1] if behind else ""
            if behind == "tie" or "-" in word and behind not in aliases and word not in fields:
                new = word
        elif not comment and not m.string[m.end() :].startswith("."):
            became.setdefault(new, set()).add(word)
        return new

    out = []
    for line in text.split("\n"):
        if antt:
            code, comment = code_of(line)
        else:
            at = line.find("//")
            code, comment = (line, "") if at < 0 else (line[:at], line[at:])
        code = re.sub(rf'"[^"]*"|{NAME}', lambda m: m[0] if m[0][0] == '"' else name(m, False), code)
        comment = re.sub(r"[\w′'₀-₉-]+", lambda m: name(m, True), comment)
        out.append(code + comment)
    return "\n".join(out), became


old_texts = {f: open(f, encoding="utf-8").read() for f in laws + walks + files("crates/*/src/**/*.rt")}
for round in range(9):
    texts, met = {}, {}
    for f, old in old_texts.items():
        texts[f], became = turned(f, old)
        if f.endswith(".antt"):  # in Rust a function may have the name of the definition that it computes
            met |= {tuple(sorted(olds)): f for olds in became.values() if len(olds) > 1}
    spelled = collections.defaultdict(set)
    for n in declared:
        for f in declared[n]:
            spelled[own.get(n, n), f].add(n)
    met |= {tuple(sorted(olds)): f for (_, f), olds in spelled.items() if len(olds) > 1}
    if not met:
        break
    for olds, f in met.items():
        losers = [n for n in olds if "-" in n] or [n for n in olds if n in declared and snake(n) == n] or olds
        for n in losers[: len(olds) - 1]:
            own[n] = snake(n) + "_lem"
            print(f"{f}: {n} becomes {own[n]}, beside {', '.join(o for o in olds if o != n)}")
if met:
    raise SystemExit(f"names fall together, and nothing was written: {met}")
if "--names" in sys.argv:
    print("\n".join(f"{n}\t{own[n]}" for n in sorted(own)))
    raise SystemExit
for f, t in texts.items():
    if t != old_texts[f]:
        with open(f, "w", encoding="utf-8") as it:
            it.write(t)
print(f"{len(own)} names, {sum(t != old_texts[f] for f, t in texts.items())} files")
