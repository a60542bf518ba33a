#!/usr/bin/env python3
"""Writes crates/replay/data/answers.words: word lists, the lengths of the slices to lend, the oracle's answers, put as document 01
puts them (told.py), and the words of the accepted tables in document 02's one fixed form (written.py). The program `replay` decodes
each list by the library and holds the answer and every word of all nine tables to what is stored; it writes the decoded tables, and
holds these words to the stored ones. It needs no Rust.

    python3 oracle/replay.py            writes the file, and says what is in it
    python3 oracle/replay.py --print N  prints the N-th stored case as text

The lists are those of lists.py: every hand-picked one, random ones from a fixed seed, and the four sample dialects, whole. Each is
lent slices that are exactly full, odd, or larger, by turns; and some once more with one record too few in a table, where the answer
12 is document 01's, since the Rust knows no rooms. The file holds little-endian 32-bit words; a case is
    nine lengths · number of words, words · 0, eleven counts, and for each table the number of its records' words, and these
                                          or number, field, place, value, record
                 · number of written words, and these; 0 where the list is refused
and stands whole in a block of 65,536 words, which words of -1 fill up. Every kind of refusal is among them: each number at each field
where it can be, and there also with a record above 0, if it can have one.
"""

import itertools
import os
import random
import struct
import sys

import lists
import told
import written

FILE = os.path.join(lists.HERE, "..", "crates", "replay", "data", "answers.words")
SAMPLES = ("xpathlexer", "autolevlexer", "latexlexer", "unicode")
RANDOM = 900
SEED = 20260904
BLOCK = 65536

# The program lends no more words than this of each table.
MOST = dict(zip(told.TABLES, (16384, 16384, 16384, 2048, 2048, 1024, 1024, 1024, 8192)))

# And it writes into no more words than this, three of them behind those that are stored.
MOST_WRITTEN = 8192


def pairs():
    """(family, words): hand-picked, random, and real."""
    yield from lists.hand_picked()
    rng = random.Random(SEED)
    yield from itertools.islice(lists.random_lists(rng), RANDOM)
    yield from lists.real(rng)
    for name in SAMPLES:
        yield "real dialect", lists.sample(name)


def lengths(one, turn):
    """The slices' lengths: exactly full, odd, or larger, by turns."""
    spare = (0, 1, 11)[turn % 3]
    return {table: min(MOST[table], one.room[table] * width + spare * (turn % 2 + 1)) for table, width in told.TABLES.items()}


def short_lengths(one, turn):
    """The same with one record too few in one table; none where every table is empty."""
    full = [table for table in told.TABLES if one.room[table] > 0]
    if not full:
        return None
    lent = lengths(one, 0)
    table = full[turn % len(full)]
    lent[table] -= told.TABLES[table]
    return lent


def answer(one, lent):
    """The stored answer: the refusal, or the counts and the tables; and the words of the tables."""
    short = one.short_of_room(lent)
    if short or one.refused:
        return [*(short or one.refused), 0]
    words = [0, *one.counts]
    for table in told.TABLES:
        records = [word for record in one.tables[table] for word in record]
        words += [len(records), *records]
    form = written.words_of(one)
    assert len(form) + 3 <= MOST_WRITTEN
    return [*words, len(form), *form]


def case(one, lent):
    return [*lent.values(), len(one.words), *one.words, *answer(one, lent)]


def cases():
    all_told = told.consult(list(pairs()), most=20000)
    written.check([one for one in all_told if not one.refused])
    for turn, one in enumerate(all_told):
        yield case(one, lengths(one, turn))
        lent = short_lengths(one, turn)
        if lent and turn % 3 == 0 and len(one.words) < 600:
            yield case(one, lent)


def blocks(all_cases):
    """The cases, packed into blocks."""
    packed = []
    for one in all_cases:
        if len(packed) % BLOCK + len(one) > BLOCK:
            packed += [-1] * (-len(packed) % BLOCK)
        packed += one
    return packed


def split(words):
    """The stored words, case by case."""
    at = 0
    while at < len(words):
        if words[at] == -1:
            at += 1
            continue
        end = at + 10 + words[at + 9]
        if words[end]:
            behind = end + 5
        else:
            behind = end + 12
            for _ in told.TABLES:
                behind += 1 + words[behind]
        last = behind + 1 + words[behind]
        yield words[at:at + 9], words[at + 10:end], words[end:behind], words[behind + 1:last]
        at = last


def shown(stored):
    """The kinds of refusals that are stored: number and field; 12 for return edges, and a record above 0, apart."""
    for _, words, said, _ in split(stored):
        if said[0]:
            number, field, place, _, record = said
            derived = number == 12 and told.Walk(words).spots[place][0] != field
            yield number, field, "for return edges" if derived else ""
            if record:
                yield number, field, "a record above 0"


def wanted():
    """All kinds that there are."""
    pairs = told.PAIRS | {(12, field) for field in told.ROOM_FIELDS}
    return ({(*pair, "") for pair in pairs} | {(12, 23, "for return edges")}
            | {(*pair, "a record above 0") for pair in pairs if pair[1] in told.NAMING})


def print_case(number):
    with open(FILE, "rb") as file:
        data = file.read()
    stored = struct.unpack("<%di" % (len(data) // 4), data)
    lent, words, said, form = next(itertools.islice(split(stored), number, None))
    print("lengths", *lent)
    print("words", *words)
    print("answer", *said)
    print("written", *form)


def main():
    if len(sys.argv) == 3 and sys.argv[1] == "--print":
        return print_case(int(sys.argv[2]))
    if len(sys.argv) > 1:
        return print(__doc__)
    all_cases = list(cases())
    words = blocks(all_cases)
    found = set(shown(words))
    assert found == wanted(), "kinds of refusals that are missing, or cannot be: %s" % sorted(found ^ wanted())
    os.makedirs(os.path.dirname(FILE), exist_ok=True)
    with open(FILE, "wb") as file:
        file.write(struct.pack("<%di" % len(words), *words))
    print("cases", len(all_cases), "words", len(words), "bytes", 4 * len(words))


if __name__ == "__main__":
    main()
