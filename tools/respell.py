#!/usr/bin/env python3
"""Brings the names of definitions and lemmas to one spelling: words in snake case, types and modules in camel case.

    python3 tools/respell.py [--list] [FOLDER]

It was run once, when the repository came to today's Rattle, after port.py; docs/PORT.md names the commit. The table is made from
what the crates declare, so that it needs nothing but the folder (the repository's own by default):

- a definition `stateAt` becomes `state_at`;
- a lemma `next-in` becomes `next_in`, but where a dash joins two names that are declared (`room-words`), it stays;
- names of functions, exported names, strings and file names stay, and so do the names that Rattle makes (proofs/F/).

It turns whole words in .antt files, in clauses and `ghost use` items of .rt files, in must-fail edits and in code spans of pages.
--list prints the table and the names that would fall together, and writes nothing.
"""

import glob
import os
import re
import sys

WORD = re.compile(r"[^\s(){}\[\].;,@\"«»`:]+")
DECLARED = re.compile(
    r"^(?:(?:unfoldable|abbrev) )?(?:pub )?(?:abbrev )?(?:(?:data|record|ruleset) )?(?:pub )?([^\s:]+)(?: *\{[^}]*\})? *:(?= |$)"
)
# Words of the library that lemmas' names join.
LIBRARY = "length take drop map replicate append min max get_or count_by sum not pos suc zero".split()


def read(path):
    with open(path, encoding="utf-8") as f:
        return f.read()


def below(top, pattern):
    return sorted(glob.glob(os.path.join(top, pattern), recursive=True))


def is_made(path):
    """Whether the file is a function's own proof, where Rattle makes the names."""
    return path.endswith(("/Proof.antt", "/Answers.antt", "/Invariants.antt"))


def declared(path):
    """Each declared name, and whether it is a definition's or a lemma's own: not a record's field, nor a name of a `let`."""
    fields = False
    for line in read(path).split("\n"):
        own = not line.startswith(" ") or line.startswith("  pub ")
        if line and not line.startswith(" "):
            fields = re.match(r"(pub )?record ", line)
        line = line.strip()
        if line.startswith(("-", "use ", "infix", "unfolding", "mod ", "pub mod ")):
            continue
        found = DECLARED.match(line)
        if found:
            yield found.group(1), own and not fields


def snake(name):
    """`stateAt` as `state_at`; what begins with a capital is a type and stays."""
    if name[:1].isupper():
        return name
    name = re.sub(r"(?<=[a-z0-9])([A-Z])", lambda m: "_" + m.group(1).lower(), name)
    return re.sub(r"(?<=_)([A-Z])", lambda m: m.group(1).lower(), name)


def undashed(name, known):
    """A dash stays where it joins two declared names."""
    parts = name.split("-")
    out = parts[0]
    for i in range(1, len(parts)):
        left, right = "_".join(parts[:i]), "_".join(parts[i:])
        out += ("-" if left in known and right in known else "_") + parts[i]
    return out


def table(top):
    lemmas, made, own = set(), set(), set()
    for path in below(top, "crates/*/specs/**/*.antt") + below(top, "crates/*/proofs/**/*.antt"):
        for name, is_own in declared(path):
            (made if is_made(path) else lemmas).add(name)
            if is_own and not is_made(path):
                own.add(name)
    names = {n for n in lemmas | made if re.fullmatch(r"[A-Za-z][\w'-]*", n)}
    known = {snake(n) for n in own if "-" not in n} | set(LIBRARY)
    turned = {}
    for n in sorted(names):
        # Names that end in _spec are those by which the check finds a proof; of the other made names only the words turn.
        if n in lemmas:
            new = undashed("-".join(snake(p) for p in n.split("-")), known)
        elif "-" not in n:
            new = snake(n)
        else:
            continue
        if new != n:
            turned[n] = new
    # Names that would fall together: the lemma, the one with a dash or the one that had the name already, gets `_lem`.
    taken = {}
    for n in sorted(turned, key=lambda n: "-" in n):
        if turned[n] in taken or turned[n] in lemmas:
            other = n if "-" in n else turned[n]
            turned[other] = turned.get(other, other) + "_lem"
        taken[turned[n]] = n
    return turned


def turn(text, turned):
    def one(m):
        word = m.group(0)
        # Behind a dot a name without dash or capital is a module or a name that Rattle makes, as is all of a step's path.
        behind = re.search(r"([^\s(){}\[\],;]*)\.$", text[max(0, m.start() - 200) : m.start()])
        if behind and (not re.search("[A-Z-]", word) or re.search(r"\b(before|loop|args)\b", behind.group(1))):
            return word
        return turned.get(word, word)

    return WORD.sub(one, text)


CLAUSE = re.compile(r"\b(?:requires|ensures)\*?\s*(?:\w+\s*)?\{|\bghost\s+use\b|\bghost\s+\w+\s*:\s*\{|\bghost\s*\{")


def clauses(text):
    """The places of clauses and `ghost use` items: to the closing brace, or to the semicolon."""
    for found in CLAUSE.finditer(text):
        start = end = found.end()
        if found.group(0).endswith("{"):
            depth = 1
            while depth:
                depth += {"{": 1, "}": -1}.get(text[end], 0)
                end += 1
        else:
            end = text.index(";", end)
        yield start, end


def turn_edit(text, turned):
    if ".antt" not in text.split("\n")[0]:
        turned = of_code(turned)
    return turn(text, turned)


def of_code(turned):
    """Where code stands beside clauses: no name that could be a function's."""
    return {old: new for old, new in turned.items() if re.search("[A-Z-]", old)}


def turn_rt(text, turned):
    turned = of_code(turned)
    out, done = "", 0
    for start, end in clauses(text):
        if start < done:
            continue
        out += text[done:start] + turn(text[start:end], turned)
        done = end
    out += text[done:]
    # Code spans of comments too.
    return re.sub(r"//[^\n]*", lambda m: spans(m.group(0), turned), out)


def spans(text, turned):
    return re.sub(r"`[^`\n]+`", lambda m: turn(m.group(0), turned), text)


def main():
    args = [a for a in sys.argv[1:] if a != "--list"]
    top = args[0] if args else os.path.join(os.path.dirname(os.path.abspath(__file__)), "..")
    turned = table(top)
    if "--list" in sys.argv:
        for old, new in turned.items():
            print(f"{old}\t{new}")
        return
    files = [(p, turn) for p in below(top, "crates/**/*.antt")]
    files += [(p, turn_edit) for p in below(top, "crates/*/must-fail/*.edit")]
    files += [(p, turn_rt) for p in below(top, "crates/*/src/**/*.rt")]
    files += [(p, spans) for p in below(top, "*.md") + below(top, "docs/**/*.md")]
    changed = 0
    for path, by in files:
        if "/out/" in path:
            continue
        text = read(path)
        new = by(text, turned)
        if new != text:
            changed += 1
            with open(path, "w", encoding="utf-8") as f:
                f.write(new)
    print(f"respell: {len(turned)} names, {changed} files")


if __name__ == "__main__":
    main()
