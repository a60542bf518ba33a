"""Document 02, R-1: the words of accepted tables in the one fixed form, written from its sentences and document 01's records. It is a
writer of its own: nothing of the library's. Its words are checked by asking the oracle, which must find the same tables in them."""

import told

# The words that follow a state's type: which words of its record, by type (document 01, "State types 0 to 12"); of other types the rule.
RULE, BLOCK_END, LOOP_BACK, FLAGS = 1, 2, 3, 4
FOLLOW = {0: [], 3: [RULE, BLOCK_END], 4: [RULE, BLOCK_END], 5: [RULE, BLOCK_END], 12: [RULE, LOOP_BACK]}

DERIVED = 1


def counted(records):
    """The number of records, and their words."""
    return [len(records), *(word for record in records for word in record)]


def state(record):
    """The type, and the words that its type has. An absent rule is -1 in the record, too."""
    return [record[0], *(record[word] for word in FOLLOW.get(record[0], [RULE]))]


def flagged(states, flag):
    """The states with a flag, "ascending"."""
    return [[number] for number, record in enumerate(states) if record[FLAGS] & flag]


def kept_set(ranges, record):
    """So many intervals, EOF flag "always 0 with -1 kept as a range", and the intervals."""
    first, count = record
    return [count, 0, *(word for one in ranges[first:first + count] for word in one)]


def edge(record):
    """Source, word 25, type, and three arguments: of a rule edge word 25 is the follow state, and its target is the first argument."""
    kind, source, target, p, q, r = record[:6]
    if kind == 3:
        return [source, q, kind, target, p, r]
    return [source, target, kind, p, q, r]


def words_of(one):
    """The words of what was told of an accepted list."""
    tables = one.tables
    sections = [
        [state(record) for record in tables["States"]],
        flagged(tables["States"], 1), flagged(tables["States"], 2),
        [[start, token] for start, _, token in tables["Rules"]],
        tables["Modes"],
        [kept_set(tables["Ranges"], record) for record in tables["Sets"]],
        # "derived edges not written"
        [edge(record) for record in tables["Edges"] if record[6] != DERIVED],
        tables["Decisions"], tables["Actions"],
    ]
    return [4, 0, one.network.token, *(word for section in sections for word in counted(section))]


def check(accepted):
    """That "decoding what was written .. gives the same records", every word of them, and the same max token type: by the oracle."""
    words = [words_of(one) for one in accepted]
    again = told.consult([("written", form) for form in words], most=20000)
    assert [two.words for two in again] == words, "the oracle was not asked of all that was written"
    for one, two, form in zip(accepted, again, words):
        assert two.refused is None and two.tables == one.tables, "other records: " + told.spelled(one.words)
        assert two.counts == [len(form), *one.counts[1:]], "other counts: " + told.spelled(one.words)
        assert words_of(two) == form
