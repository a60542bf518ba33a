#!/usr/bin/env python3
"""Holds the definitions of crates/format against the Rust decoder, by running both.

    oracle/build.sh
    python3 oracle/compare.py [--seed S] [--count N] [--batch B]

Word lists (lists.py) go to the oracle. Its answer, put as document 01 puts it (told.py), becomes a theorem,
`computed .. ≡ outcome ..`, proved by `refl`: antt computes the definitions on the words and refuses the theorem
where anything else comes out. Compared are the answer and every word of the nine lent tables. Exit status 1 where
anything differs. Needs the oracle, `rt` and Python's standard library.

The expected side is the Rust's own, but for the record of a refusal, which a walk over the words gives, and for two
small families that the summary names: lack of room, which the Rust does not know, and a start at a later place, for
which the Rust is asked about the words from there on.
"""

import argparse
import collections
import copy
import glob
import os
import random
import re
import shutil
import subprocess
import sys
import tempfile
import time

sys.dont_write_bytecode = True  # so that a run leaves nothing behind

import lists  # noqa: E402
from told import MOST, NAMING, ORACLE, PAIRS, TABLES, ask, consult, spelled  # noqa: E402

FORMAT = os.path.join(os.path.dirname(os.path.abspath(__file__)), "..", "crates", "format")

# ---- antt

# The definitions' names that the theorems use, by module. What they rest on is found in the files.
USED = {
    "Reading": ["Table", *TABLES], "Decode": ["Answer", "decoded"], "Questions": ["matches", "nth_edge", "set_part", "part_of"],
    "Results": ["Decoded", "Matching", "NthEdge"],
}

PREAMBLE = """-- What the definitions compute, against what the oracle said: made by oracle/compare.py.
use Rattle.std.specs.Prelude.{◌≡◌, refl, true, false, List, [], ◌∷◌, ℕ, ◌-◌, ℤ, pos, negsuc, replicate, Ok, Err}
@uses

infixr 67 ◌▸◌
abbrev ◌▸◌ : ℕ → List ℤ → List ℤ
◌▸◌ n l = pos n ∷ l

-- A negative word: the number without its sign.
infixr 67 ◌◂◌
abbrev ◌◂◌ : ℕ → List ℤ → List ℤ
◌◂◌ n l = negsuc (n - 1) ∷ l

abbrev noughts : ℕ → List ℤ
noughts n = replicate n (pos 0)

abbrev sizes : ℕ → ℕ → ℕ → ℕ → ℕ → ℕ → ℕ → ℕ → ℕ → Table → ℕ
@sizes

record Computed : Type 0 where
  told : Decoded
  left : List (List ℤ)

abbrev outcome : Decoded → List (List ℤ) → Computed
outcome d l = record { told = d; left = l }

abbrev computed : (Table → ℕ) → List ℤ → ℕ → Computed
computed lent ws at = let a = decoded lent ws at in outcome a.told (@left [])

abbrev accepted : ℕ → ℤ → ℕ → ℕ → ℕ → ℕ → ℕ → ℕ → ℕ → ℕ → ℕ → Decoded
accepted w t a b c d e f g h i =
    Ok (record { words = w; token = t; states = a; edges = b; derived = c; ranges = d; sets = e; rules = f; modes = g; decisions = h; actions = i })

abbrev refused : ℕ → ℕ → ℕ → ℤ → ℕ → Decoded
refused n f p v i = Err (record { number = n; field = f; «record» = i; place = p; value = v })

-- Some symbols asked of the edge e; some numbers asked of the state s.
abbrev matched : List ℤ → ℕ → List ℤ → ℕ → List ℤ → ℕ → ℤ → ℤ → ℤ → List ℤ → List Matching
matched es c ls n rs m e lo hi [] = []
matched es c ls n rs m e lo hi (v ∷ vs) = matches es c ls n rs m e v lo hi ∷ matched es c ls n rs m e lo hi vs

abbrev nths : List ℤ → ℕ → List ℤ → ℕ → ℤ → List ℤ → List NthEdge
nths ss n es m s [] = []
nths ss n es m s (k ∷ ks) = nth_edge ss n es m s k ∷ nths ss n es m s ks

"""


def integer(value):
    return "(pos %d)" % value if value >= 0 else "(negsuc %d)" % (-value - 1)


def listed(words, zeros=0):
    """A list of words, and so many zeros behind it."""
    end = "noughts %d" % zeros if zeros else "[]"
    return "(%s)" % " ".join(["%d ▸" % word if word >= 0 else "%d ◂" % -word for word in words] + [end])


def flat(records):
    return [word for record in records for word in record]


class Antt:
    """A copy of crates/format in a folder, and beside it a crate whose one file holds the theorems."""

    def __init__(self, folder):
        self.folder, self.runs = folder, 0
        shutil.copytree(FORMAT, os.path.join(folder, "crates", "format"))
        self.write("crates.txt", "format:\ncompared: format\n")
        self.write("crates/compared/src/lib.rt", "// Theorems alone; see specs/.\n")
        self.write("crates/compared/specs/Lib.antt", "-- One file.\npub mod Compared\n")
        uses, names = {module: list(used) for module, used in USED.items()}, []
        for path in sorted(glob.glob(os.path.join(FORMAT, "specs", "*.antt"))):
            with open(path, encoding="utf-8") as file:
                found = re.findall(r"^unfoldable pub (\S+)", file.read(), re.MULTILINE)
            module = os.path.basename(path).removesuffix(".antt")
            names += found
            uses[module] = list(dict.fromkeys(uses.get(module, []) + found))
        self.unfolding = "unfolding " + " ".join(names)
        letters = "abcdefghi"
        self.preamble = PREAMBLE
        for mark, lines in (
                ("@uses", ["use Rattle.format.specs.%s.{%s}" % (module, ", ".join(used)) for module, used in uses.items() if used]),
                ("@sizes", ["sizes %s %s = %s" % (" ".join(letters), table, letter) for table, letter in zip(TABLES, letters)]),
                ("@left", [" ".join("a.left %s ∷" % table for table in TABLES)])):
            self.preamble = self.preamble.replace(mark, "\n".join(lines))
        holds, said = self.run([])
        if not holds:
            sys.exit("crates/format is not proved, or its names are not those that this script uses:\n" + said)

    def write(self, path, text):
        path = os.path.join(self.folder, path)
        os.makedirs(os.path.dirname(path), exist_ok=True)
        with open(path, "w", encoding="utf-8") as file:
            file.write(text)

    def run(self, theorems):
        """Whether all (name, left side, right side) hold, and what rt says."""
        self.runs += 1
        texts = ["%s : %s ≡ %s\n%s\n%s = refl\n" % (name, left, right, self.unfolding, name) for name, left, right in theorems]
        self.write("crates/compared/specs/Compared.antt", self.preamble + "\n".join(texts))
        done = subprocess.run(["rt", "check"], cwd=os.path.join(self.folder, "crates", "compared"), capture_output=True, text=True, check=False)
        return done.returncode == 0, done.stdout + done.stderr

    def differing(self, cases):
        """The cases that do not hold, with antt's words."""
        if not cases:
            return []
        names = {"case%d" % number: case for number, case in enumerate(cases)}
        holds, said = self.run([(name, *case.sides()) for name, case in names.items()])
        if holds:
            return []
        # antt's words on each refused theorem; of many, the line that says what it computed
        out = []
        for text in said.split("error: `")[1:]:
            name = text.split("`")[0]
            if name in names:
                why = re.search(r"computed as far as they go.*|.*", text)
                out.append((names.pop(name), why[0]))
        if out:
            # a refused file proves nothing of the others
            return out + self.differing(list(names.values()))
        if len(cases) == 1:
            return [(cases[0], said.strip())]
        half = len(cases) // 2
        return self.differing(cases[:half]) + self.differing(cases[half:])


# ---- a word list: the lent lengths, the words, the place to begin at, and what must come out


class Case:
    def __init__(self, told, lent, words=None, start=0, refused=None):
        self.told, self.lent, self.start = told, lent, start
        self.words = told.words if words is None else words
        self.refused = refused or told.refused
        # the numbers of the answer; for each table the words left in it, and the zeros behind them
        self.answer = list(self.refused or told.counts)
        self.left = []
        for table, length in lent.items():
            left = [] if self.refused else flat(told.tables[table])
            self.left.append((left, length - len(left)))

    def sides(self):
        answer = list(map(str, self.answer))
        signed = 3 if self.refused else 1
        answer[signed] = integer(self.answer[signed])
        return ("computed (sizes %s) %s %d" % (spelled(self.lent.values()), listed(self.words), self.start),
                "outcome (%s %s) (%s ∷ [])" % ("refused" if self.refused else "accepted", " ".join(answer), " ∷ ".join(listed(*left) for left in self.left)))

    def size(self):
        return len(self.words)

    def __str__(self):
        return "words %s, from place %d, lent %s; expected %s %s" % (
            spelled(self.words), self.start, spelled(self.lent.values()), "refused" if self.refused else "accepted", spelled(self.answer))

    def spoiled(self):
        """The same with one number wrong: each of the answer, the last word of each table, the first zero behind it."""
        def wrong(name, number, value):
            other = copy.copy(self)
            values = list(getattr(self, name))
            values[number] = value
            setattr(other, name, values)
            return other

        for number, value in enumerate(self.answer):
            yield wrong("answer", number, value + 1)
        for number, (words, zeros) in enumerate(self.left):
            if words:
                yield wrong("left", number, (words[:-1] + [words[-1] + 1], zeros))
            if zeros:
                yield wrong("left", number, (words + [1], zeros - 1))


def lent_for(room, rng, exact):
    """Slices that are exactly full; or larger ones, by whole records and odd words."""
    return {table: room[table] * width + (0 if exact else rng.choice((0, 1, width, rng.randint(0, 2 * width + 1))))
            for table, width in TABLES.items()}


def short_cases(told, thorough, rng):
    """Tables that are too short: each table of the thorough lists by one record; a table or two of the others, by one or more."""
    def short(one, tables, records=1):
        lent = lent_for(one.room, rng, rng.random() < 0.5)
        for table in tables:
            width = TABLES[table]
            lent[table] = max(0, one.room[table] - records) * width + rng.randrange(width)
        return Case(one, lent, refused=one.short_of_room(lent))

    for one in thorough:
        for table in TABLES:
            if one.room[table]:
                yield short(one, [table])
    for one in told:
        taken = [table for table in TABLES if one.room[table]]
        yield short(one, rng.sample(taken, min(len(taken), rng.choice((1, 1, 1, 2)))), rng.choice((1, 1, 1, 2, 5)))


def capped_cases():
    """"counted as 65,536 at most": slices for 65,537 records, and counts of so many, and of one less."""
    heads = {"States": [], "Rules": [0, 0, 0], "Modes": [0] * 4, "Sets": [0] * 5, "Ranges": [0] * 5 + [1], "Edges": [0] * 6,
             "Decisions": [0] * 7, "Actions": [0] * 8}
    for table, head in heads.items():
        for count in (65536, 65537):
            words = [4, 0, 0, *head, count] + [0] * (table == "Ranges")
            one, = consult([("counts above all room", words)], most=count)
            lent = {each: 2 * width for each, width in TABLES.items()}
            for each in ("States", "Scratch") if table == "States" else (table,):
                lent[each] = 65537 * TABLES[each]
            yield Case(one, lent, refused=one.short_of_room(lent))


def later_cases(told, rng):
    """The same words behind others, which are not read: places are those in the whole slice."""
    for one in told:
        before = lists.random_words(rng, rng.randint(1, 9))
        refused = one.refused and (*one.refused[:2], one.refused[2] + len(before), *one.refused[3:])
        yield Case(one, lent_for(one.room, rng, True), before + one.words, len(before), refused)


# ---- questions


class Question:
    """A theorem about the tables of an accepted list; `asked` is how many single questions it holds."""

    def __init__(self, told, kind, asked, text, left, right):
        self.told, self.kind, self.asked, self.text, self.left, self.right = told, kind, asked, text, left, right

    def sides(self):
        return (self.left, self.right)

    def size(self):
        return len(self.told.words) // 2

    def __str__(self):
        return "%s: %s, of the tables of %s" % (self.kind, self.text, spelled(self.told.words))


def questions(told, rng):
    """Of each list: whether each edge matches some symbols; the numbers of each state's edges; each set's part."""
    asked = []
    for one in told:
        ends = {end for ranges in one.kept for pair in ranges for end in pair} | {0, 65}
        near = sorted({end + step for end in ends for step in (-1, 0, 1) if lists.MIN <= end + step <= lists.MAX})
        symbols = rng.sample(near, min(5, len(near))) + [-1, rng.choice((lists.MIN, lists.MAX, 1, 7))]
        bounds = rng.choice(((0, 65535), (0, 1114111), (1, 40), (-1, 20), (lists.MIN, lists.MAX), (9, 3)))
        asked.append((one, bounds, symbols))
    replies = ask(["M " + spelled([*bounds, len(symbols), *symbols, *one.words]) for one, bounds, symbols in asked])
    for (one, (low, high), symbols), reply in zip(asked, replies):
        # a table as the definitions take it: its words and its count
        table = {name: "%s %d" % (listed(flat(records)), len(records)) for name, records in one.tables.items()}
        answers = iter(reply.split()[1:])
        for state, chain in enumerate(one.chains):
            for edge in chain:
                yield Question(
                    one, "matches", len(symbols), "edge %d, symbols %s, min %d, max %d" % (edge, spelled(symbols), low, high),
                    "matched %s %s %s (pos %d) %s %s %s" % (
                        table["Edges"], table["Sets"], table["Ranges"], edge, integer(low), integer(high), listed(symbols)),
                    "".join("Ok %s ∷ " % ("true" if bit == "1" else "false") for bit in next(answers)) + "[]")
            yield Question(
                one, "n-th edge", len(chain), "the edges of state %d" % state,
                "nths %s %s (pos %d) %s" % (table["States"], table["Edges"], state, listed(range(len(chain)))),
                "".join("Ok (pos %d) ∷ " % edge for edge in chain) + "[]")
        for number, ranges in enumerate(one.kept):
            yield Question(
                one, "set's part", 1, "set %d" % number,
                "part_of %s (set_part %s %s (pos %d))" % (listed(flat(one.tables["Ranges"])), table["Sets"], table["Ranges"], number),
                listed(flat(ranges)))


# ---- the whole


class Comparison:
    """Runs cases batch by batch, and remembers what differs."""

    def __init__(self, antt, batch):
        self.antt, self.batch, self.differ, self.started = antt, batch, [], time.time()

    def run(self, title, cases):
        """How many of the cases differ. A batch ends early where its lists are long."""
        done, before = 0, len(self.differ)
        while done < len(cases):
            end, words = done, 0
            while end < len(cases) and end - done < self.batch and words < 40 * self.batch:
                words += cases[end].size()
                end += 1
            self.differ += self.antt.differing(cases[done:end])
            done = end
            print("  %s: %d of %d, %d differ (%.0f s)" % (title, done, len(cases), len(self.differ) - before, time.time() - self.started), flush=True)
        return len(self.differ) - before


def gather(count, rng):
    """What the oracle says of every hand-picked list, and of random ones up to the count, each list once; and how many
    were left out."""
    seen, told, left_out = set(), [], 0

    def take(pairs):
        nonlocal left_out
        new = []
        for family, words in pairs:
            if tuple(words) not in seen:
                seen.add(tuple(words))
                new.append((family, words))
        more = consult(new)
        told.extend(more)
        left_out += len(new) - len(more)

    take(lists.hand_picked())
    take(lists.real(rng))
    source = lists.random_lists(rng)
    while len(told) < count:
        take([next(source) for _ in range(count - len(told))])
    return told, left_out


def tally(told):
    numbers = collections.Counter(one.refused[0] for one in told if one.refused)
    return "%d accepted, %d refused (by number: %s)" % (
        sum(one.refused is None for one in told), sum(numbers.values()), ", ".join("%d: %d" % pair for pair in sorted(numbers.items())))


def twelves(cases):
    """How often 12 was the answer, by field; behind the last edge apart from its count."""
    fields = collections.Counter()
    for case in cases:
        if case.refused and case.refused[0] == 12:
            behind = case.refused[1] == 23 and case.refused[2] != case.told.walk.places["Edges"]
            fields[case.refused[1], " for return edges" if behind else ""] += 1
    return "%d refused with 12 (by field: %s)" % (
        sum(fields.values()), ", ".join("%d%s: %d" % (*field, n) for field, n in sorted(fields.items())))


def met(pairs, refusals):
    missing = sorted(pairs - {refused[:2] for refused in refusals})
    return "%d pairs of number and field %s" % (len(pairs), "all were met" if not missing else "these were not met: %s" % missing)


def contents(told):
    """What the lists hold, so that it shows whether the rules were met at all."""
    refusals = [one.refused for one in told if one.refused]
    naming = {pair for pair in PAIRS if pair[1] in NAMING}
    edges = [edge for one in told if one.network for edge in one.edges]
    flags = collections.Counter(state[4] for one in told if one.network for state in one.network.states)
    calls = [edge for edge in edges if edge[0] == 3]
    return ("%d states (%d with flag 4), %d edges (%d rule edges, %d of them tail calls; %d return edges), %d sets with %d ranges kept; "
            "of %s; with a record above 0 of %s" % (
                sum(flags.values()), sum(n for flag, n in flags.items() if flag & 4), len(edges), len(calls),
                sum(edge[6] == 2 for edge in calls), sum(edge[6] == 1 for edge in edges),
                sum(len(one.kept) for one in told if one.network), sum(len(one.tables["Ranges"]) for one in told if one.network),
                met(PAIRS, refusals), met(naming, [refused for refused in refusals if refused[4]])))


def main():
    options = argparse.ArgumentParser(description="compare the definitions of crates/format with the Rust decoder, by running both")
    options.add_argument("--seed", type=int, default=1)
    options.add_argument("--count", type=int, default=1500, help="word lists; the hand-picked ones are always among them")
    options.add_argument("--batch", type=int, default=100, help="theorems in one run of antt")
    options = options.parse_args()
    rng, started = random.Random(options.seed), time.time()
    if not os.path.exists(ORACLE):
        sys.exit("run oracle/build.sh first")

    told, left_out = gather(options.count, rng)
    small = [one for one in told if len(one.words) < 200]
    tables = [one for one in small if one.network and one.network.states]
    some = 40 + options.count // 50

    def pick(those):
        return rng.sample(those, min(some, len(those)))

    cases = [Case(one, lent_for(one.room, rng, rng.random() < 0.6)) for one in told]
    thorough = [one for one in tables if one.family == "return edges" or one.words in (lists.FULL, lists.WHOLE)]
    short = list(short_cases(pick(tables) + pick(small), thorough, rng)) + list(capped_cases())
    later = list(later_cases(pick(small), rng))
    asked = list(questions(pick(tables), rng))
    with tempfile.TemporaryDirectory() as folder:
        comparison = Comparison(Antt(folder), options.batch)
        # a comparison that would let a wrong expectation pass says nothing
        by_words = {tuple(one.words): one for one in told}
        known = [by_words[tuple(words)] for words in (lists.FULL, lists.FULL[:-1], lists.WHOLE, [4, 1])]
        right = [Case(one, lent_for(one.room, rng, False)) for one in known]
        wrong = [spoiled for case in right for spoiled in case.spoiled()]
        if len(comparison.antt.differing(wrong)) != len(wrong):
            sys.exit("a wrong expectation was not refused")
        print("%d wrong expectations tried first, all refused" % len(wrong), flush=True)
        lines = [
            "compared %d lists: %s, %d differ" % (len(cases), tally(told), comparison.run("lists", cases)),
            "  families: " + ", ".join("%s %d" % pair for pair in collections.Counter(one.family for one in told).items()),
            "  " + contents(told),
            "compared %d lists lent too little (expected by document 01's rule, not from the oracle): %s, %d differ" % (
                len(short), twelves(short), comparison.run("lent too little", short)),
            "compared %d lists from a later place on (the oracle was asked from there on): %d differ" % (
                len(later), comparison.run("later place", later)),
            "compared %d questions (%s): %d differ" % (
                sum(one.asked for one in asked),
                ", ".join("%s %d" % (kind, sum(one.asked for one in asked if one.kind == kind)) for kind in dict.fromkeys(one.kind for one in asked)),
                comparison.run("questions", asked)),
        ]
    print("\n".join(lines))
    print("seed %d; %d lists that name more than %d records were left out; %d runs of antt, %.0f s" % (
        options.seed, left_out, MOST, comparison.antt.runs, time.time() - started))
    if comparison.differ:
        case, why = min(comparison.differ, key=lambda pair: pair[0].size())
        print("the smallest that differs, or was not computed (%s): %s\n  %s" % (case.told.family, case, why))
        sys.exit(1)


if __name__ == "__main__":
    main()
