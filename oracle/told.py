"""What the oracle says of a word list, put as document 01 puts it: a refusal's number, field, place, value and record,
or the counts and the records of every table. All of it is the Rust's own, but for a refusal's record (document 02, R-2),
the numbers of the edges and the room that a list takes, which the words give; and `short_of_room`, since the Rust knows
no rooms."""

import os
import re
import subprocess

ORACLE = os.path.join(os.path.dirname(os.path.abspath(__file__)), "build", "oracle")

# Document 01's tables in the order of the lent slices, and the words per record.
TABLES = {"States": 8, "Edges": 8, "Ranges": 2, "Sets": 2, "Rules": 3, "Modes": 1, "Decisions": 1, "Actions": 3, "Scratch": 4}

# A list that names more records than this is left out: it takes long to compute, and above 65,536 there is no room.
MOST = 3000

# ---- the Rust's names of document 01's fields, and its error texts for the refusal numbers

FIELDS = {
    "version": 1, "grammar type": 2, "max token type": 3,
    "state count": 4, "state type": 5, "rule index": 6, "loop back state": 7, "block end state": 8,
    "non-greedy state count": 9, "non-greedy state": 10, "precedence state count": 11, "precedence state": 12,
    "rule count": 13, "rule start state": 14, "rule token type": 15, "mode count": 16, "mode start state": 17,
    "set count": 18, "interval count": 19, "set contains EOF": 20, "interval start": 21, "interval stop": 22,
    "transition count": 23, "transition source": 24, "transition target": 25, "transition type": 26,
    "transition arg 1": 27, "transition arg 2": 28, "transition arg 3": 29,
    "decision count": 30, "decision state": 31,
    "lexer action count": 32, "lexer action type": 33, "lexer action data 1": 34, "lexer action data 2": 35,
}

# An edge's arguments are named by what they mean, and are tested once its six words are read.
ARGUMENTS = {
    "rule transition target": 27, "rule transition rule index": 28, "predicate rule index": 27, "predicate index": 28,
    "action rule index": 27, "set transition set index": 27, "not-set transition set index": 27,
}

# Error text, number, field, and how far the refused word stands before the last word that was looked at: an edge is
# refused with its six words read and an action with its three, all else at the word itself.
ERRORS = [
    (r"serialized ATN version (-?\d+); expected 4", 3, 1, 0),
    (r"parser ATNs require AtnDeserializer::deserialize_parser\(\)", 4, 2, 0),
    (r"serialized ATN grammar type (-?\d+)", 5, 2, 0),
    (r"ATN state type (-?\d+)", 6, 5, 0),
    (r"non-greedy state (\d+) outside state list", 7, 10, 0),
    (r"precedence state (\d+) outside state list", 7, 12, 0),
    (r"ATN transition type (-?\d+)", 8, 26, 3),
    (r"set index (\d+) outside set list", 9, 27, 2),
    (r"transition source (\d+) outside state list", 10, 24, 5),
    (r"lexer action type (-?\d+)", 11, 33, 2),
]

# Every pair of number and field that document 01's table of refusals allows, 12 apart.
PAIRS = (
    {(1, field) for field in range(1, 36)}
    | {(2, field) for field in (4, *range(7, 15), *range(16, 20), 23, 24, 25, 27, 28, 30, 31, 32)}
    | {(3, 1), (4, 2), (5, 2), (6, 5), (7, 10), (7, 12), (8, 26), (9, 27), (10, 24), (11, 33)})

# The fields of 12; at 23 it comes at the count, and behind the last edge.
ROOM_FIELDS = (4, 13, 16, 18, 20, 23, 30, 32)

# The fields whose record may be above 0.
NAMING = {*range(5, 9), 10, 12, 14, 15, 17, *range(19, 23), *range(24, 30), 31, *range(33, 36)}


def refusal(text, walk):
    """Number, field, place, value and record of an error text that rests on the words of the walk."""
    words = walk.words
    ended = re.fullmatch(r"serialized ATN ended while reading (.+)", text)
    if ended:
        number, field, place, value = 1, FIELDS[ended[1]], len(words), 0
    else:
        number, field, before, value = said(text)
        place = len(words) - 1 - before
        assert words[place] == value, "the word at that place is another than the one that was refused"
    answer = walk.refusal(number, place, value)
    assert answer[1] == field, "the walk has another field at that place than the Rust: %s, of %s" % (text, spelled(words))
    return answer


def said(text):
    """Number, field, how far the word stands before the last one that was looked at, and the word."""
    negative = re.fullmatch(r"(.+) cannot be negative: (-\d+)", text)
    if negative and negative[1] in ARGUMENTS:
        field = ARGUMENTS[negative[1]]
        return 2, field, 29 - field, int(negative[2])
    if negative:
        return 2, FIELDS[negative[1]], 0, int(negative[2])
    for pattern, number, field, before in ERRORS:
        found = re.fullmatch(pattern, text)
        if found:
            # only the text for a parser's words, grammar type 1, does not say the word
            return number, field, before, int(found[1]) if found.groups() else 1
    raise ValueError("no refusal number is known for the error text: " + text)


# ---- the words, walked

# The fields behind a state's type, by type; of other types the rule index alone.
FOLLOW = {0: (), 3: (6, 8), 4: (6, 8), 5: (6, 8), 12: (6, 7)}


class Walk:
    """What the words hold as far as they go: what each belongs to, each count and its place, the sets and the edges that
    are there whole, and the place behind the last edge. It judges nothing: the oracle did."""

    def __init__(self, words):
        self.words = words
        self.spots = []  # of each word that was passed, and of the one that is missing, if the words end: its field and its record
        self.counts, self.places, self.edges = {}, {}, []
        self.flags = []  # of each set whose flag is there: the flag's place; its intervals, + 1 if flagged
        self.set_ends, self.sets_from, self.edges_end = [], None, None
        try:
            self.sections()
        except (IndexError, ValueError):
            pass

    def refusal(self, number, place, value):
        """The refusal of the word at a place, or of the one that is missing there."""
        field, record = self.spots[place]
        return (number, field, place, value, record)

    def at(self):
        """The place of the next word."""
        return len(self.spots)

    def next(self, field, record):
        self.spots.append((field, record))
        return self.words[self.at() - 1]

    def record(self, number, *fields):
        """A word of each of these fields."""
        return [self.next(field, number) for field in fields]

    def records(self, count, *fields):
        """So many records of these fields."""
        for number in range(count):
            self.record(number, *fields)

    def count(self, field, record=0):
        number = self.next(field, record)
        if number < 0:
            raise ValueError
        return number

    def count_of(self, table, field):
        self.counts[table] = self.count(field)
        self.places[table] = self.at() - 1
        return self.counts[table]

    def sections(self):
        self.record(0, 1, 2, 3)
        for number in range(self.count_of("States", 4)):
            self.record(number, *FOLLOW.get(self.next(5, number), (6,)))
        self.records(self.count(9), 10)
        self.records(self.count(11), 12)
        self.records(self.count_of("Rules", 13), 14, 15)
        self.records(self.count_of("Modes", 16), 17)
        self.sets(self.count_of("Sets", 18))
        for number in range(self.count_of("Edges", 23)):
            self.edges.append(self.record(number, 24, 25, 26, 27, 28, 29))
        self.edges_end = self.at()
        self.records(self.count_of("Decisions", 30), 31)
        self.records(self.count_of("Actions", 32), 33, 34, 35)

    def sets(self, count):
        self.sets_from = self.at()
        for number in range(count):
            intervals = self.count(19, number)
            self.flags.append((self.at(), intervals + (self.next(20, number) != 0)))
            for _ in range(intervals):
                self.record(number, 21, 22)
            self.set_ends.append(self.at())

    def to_edges(self):
        """The list up to its edges, with no decisions and no actions: for the return edges of a list that is refused later."""
        return self.words[:self.edges_end] + [0, 0]

    def sets_alone(self):
        """A list with the same sets and an edge over each: the Rust keeps a set in its edges only."""
        sets = len(self.set_ends)
        words = [4, 0, 0, 1, 1, 0, 0, 0, 0, 0, sets, *self.words[self.sets_from:self.set_ends[-1]], sets]
        for number in range(sets):
            words += [0, 0, 7, number, 0, 0]
        return words + [0, 0]


# ---- the oracle


def ask(lines, *options):
    """The oracle's line for each of the lines."""
    if not lines:
        return []
    done = subprocess.run([ORACLE, *options], input="".join(line + "\n" for line in lines),
                          capture_output=True, text=True, check=True)
    replies = done.stdout.splitlines()
    if len(replies) != len(lines):
        raise ValueError("the oracle did not answer every line")
    return replies


def spelled(words):
    return " ".join(map(str, words))


class Network:
    """The oracle's text of a network (`dump` in src/lib.rs), taken apart; edges are listed by state."""

    def __init__(self, text):
        self.states, self.edges, self.rules, self.modes, self.decisions, self.actions = [], [], [], [], [], []
        parts = iter(text.split())
        self.token = int(next(parts))
        for mark in parts:
            if mark == "S":
                self.states.append([int(next(parts)) for _ in range(5)])
                self.edges.append([])
                assert next(parts) == "["
                while next(parts) == "(":
                    kind, target, p, q, r, tail = [next(parts) for _ in range(6)]
                    p = self.ranges(p) if p.startswith("{") else int(p)
                    self.edges[-1].append((int(kind), int(target), p, int(q), int(r), int(tail)))
                    assert next(parts) == ")"
            else:
                into, length = {"R": (self.rules, 3), "M": (self.modes, 1), "D": (self.decisions, 1), "A": (self.actions, 3)}[mark]
                into.append([int(next(parts)) for _ in range(length)])

    @staticmethod
    def ranges(text):
        return [[int(end) for end in part.split("..")] for part in text.strip("{}").split(",") if part]


class Told:
    """What the oracle says of one list."""

    def __init__(self, family, words, reply):
        self.family, self.words = family, words
        at, verdict, rest = (reply.split(" ", 2) + [""])[:3]
        self.rests_on = int(at.removeprefix("@"))
        self.walk = Walk(words[:self.rests_on])
        self.network = Network(rest) if verdict == "OK" else None
        self.refused = refusal(rest, self.walk) if verdict == "ERR" else None
        self.kept = []  # what each set keeps, and how many edges there are with the return edges: asked for in `consult`
        self.all_edges = None

    def largest(self):
        """The most records that it names for one table."""
        return max(sum(size for _, size in self.walk.flags), *self.walk.counts.values(), 0)

    def settle(self):
        """The room that the list takes and, if it is accepted, the tables."""
        walk, network = self.walk, self.network
        self.room = {table: walk.counts.get(table, 0) for table in TABLES}
        self.room["Scratch"] = self.room["States"]
        starts = [sum(map(len, self.kept[:number])) for number in range(len(walk.flags))]
        # "needing kept ranges + intervals + 1 if flagged": the flag's place and the records
        self.needs = [(place, start + size) for start, (place, size) in zip(starts, walk.flags)]
        self.room["Ranges"] = max((need for _, need in self.needs), default=0)
        self.room["Edges"] = self.room["Edges"] if self.all_edges is None else self.all_edges
        if network is None:
            return
        self.number_edges()
        assert len(self.edges) == self.all_edges
        self.tables = {
            "States": [state + ([chain[0], chain[-1], len(chain)] if chain else [-1, -1, 0]) for state, chain in zip(network.states, self.chains)],
            "Edges": self.edges,
            "Ranges": [one for ranges in self.kept for one in ranges],
            "Sets": [[start, len(ranges)] for start, ranges in zip(starts, self.kept)],
            "Rules": network.rules, "Modes": network.modes, "Decisions": network.decisions, "Actions": network.actions, "Scratch": [],
        }
        # words read, max token type, states, edges, derived, ranges, sets, rules, modes, decisions, actions
        sizes = {table: len(records) for table, records in self.tables.items()}
        self.counts = [self.rests_on, network.token, sizes["States"], sizes["Edges"], sizes["Edges"] - len(walk.edges), sizes["Ranges"],
                       sizes["Sets"], sizes["Rules"], sizes["Modes"], sizes["Decisions"], sizes["Actions"]]

    def number_edges(self):
        """The edge records, and each state's edges by number. The words number the edges, in word order; all else is from
        the oracle's text, which has each state's edges in order. Return edges are numbered behind, by source state and
        then chain order; that each state has just these, in this order, is checked against the text."""
        network = self.network
        self.edges, self.chains = [], [[] for _ in network.states]

        def put(source, edge, p, mark):
            kind, target, _, q, r, _ = edge
            self.chains[source].append(len(self.edges))
            self.edges.append([kind, source, target, p, q, r, mark, -1])

        for source, _, kind, a, _, _ in self.walk.edges:
            edge = network.edges[source][len(self.chains[source])]
            over_set = kind in (7, 8)
            assert edge[0] == kind and (not over_set or edge[2] == self.kept[a]), "not the edge of the words"
            put(source, edge, a if over_set else edge[2], 2 * edge[5])
        returns = []
        for edges, chain in zip(network.edges, self.chains):
            for kind, target, _, follow, _, _ in edges[:len(chain)]:
                rule = network.states[target][1] if kind == 3 and target < len(network.states) else -1
                stop = network.rules[rule][1] if 0 <= rule < len(network.rules) else -1
                if stop >= 0:
                    returns.append((stop, follow))
        for stop, follow in returns:
            edge = network.edges[stop][len(self.chains[stop])]
            assert edge == (1, follow, 0, 0, 0, 0), "not the return edge of the oracle"
            put(stop, edge, 0, 1)
        assert [len(chain) for chain in self.chains] == [len(edges) for edges in network.edges], "the oracle has more edges"
        for chain in self.chains:
            for here, there in zip(chain, chain[1:]):
                self.edges[here][7] = there

    def short_of_room(self, lent):
        """The 12 that document 01 has for these slices; none where there is room, or where another refusal comes first.
        "Room is tested as soon as a count is known good ..; ranges after field 20 ..; derived edges after the last edge"."""
        room = {table: min(65536, lent[table] // width) for table, width in TABLES.items()}
        room["States"] = min(room["States"], room["Scratch"])
        walk = self.walk
        # words read before the test, the table, the refusal
        tests = [(place + 1, table, walk.refusal(12, place, walk.counts[table])) for table, place in walk.places.items()]
        tests += [(place + 1, "Ranges", walk.refusal(12, place, need)) for place, need in self.needs]
        if self.all_edges is not None:
            tests.append((walk.edges_end, "Edges", (12, 23, walk.edges_end, self.all_edges, 0)))
        for read, table, answer in sorted(tests):
            if answer[3] > room[table]:
                first = self.refused is None or self.refused[0] == 1 or read < self.rests_on
                return answer if first else None
        return None


def consult(pairs, most=MOST):
    """What the oracle says of each (family, words), without those that name more records than `most`."""
    told = []
    for (family, words), reply in zip(pairs, ask([spelled(words) for _, words in pairs], "--probe")):
        if not reply.startswith("SKIP"):
            told.append(Told(family, words, reply))
    told = [one for one in told if one.largest() <= most]
    with_sets = [one for one in told if one.walk.set_ends]
    for one, reply in zip(with_sets, ask([spelled(one.walk.sets_alone()) for one in with_sets])):
        one.kept = [edge[2] for edge in Network(reply.removeprefix("OK ")).edges[0]]
    with_edges = [one for one in told if one.walk.edges_end is not None]
    for one, reply in zip(with_edges, ask([spelled(one.walk.to_edges()) for one in with_edges])):
        # it is refused here where an edge was: then there are no return edges
        if reply.startswith("OK "):
            one.all_edges = sum(map(len, Network(reply.removeprefix("OK ")).edges))
    for one in told:
        one.settle()
    return told
