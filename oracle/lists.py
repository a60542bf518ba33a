"""Word lists for compare.py, by family: hand-picked ones for every rule of document 01, and random ones.

A list is written section by section through `network`, so that a case shows what it is about.
"""

import itertools
import os
import struct

MAX = 2147483647
MIN = -2147483648

HERE = os.path.dirname(os.path.abspath(__file__))


def network(states=(), edges=(), rules=(), sets=(), nongreedy=(), recursive=(), modes=(), decisions=(), actions=(), token=0):
    """The words of a network: states (type, rule, link) as far as the type has them, edges (source, word 25,
    type, a, b, c), rules (start, token type), sets (EOF flag, intervals), actions (type, d1, d2)."""
    out = [4, 0, token, len(states)]
    for state in states:
        out += state
    for named in (nongreedy, recursive):
        out += [len(named), *named]
    out.append(len(rules))
    for rule in rules:
        out += rule
    out += [len(modes), *modes, len(sets)]
    for flag, intervals in sets:
        out += [len(intervals), flag]
        for interval in intervals:
            out += interval
    out.append(len(edges))
    for edge in edges:
        out += tuple(edge) + (0,) * (6 - len(edge))
    out += [len(decisions), *decisions, len(actions)]
    for action in actions:
        out += action
    return out


def eps(source, target):
    return (source, target, 1)


def call(source, target, follow, p=0, precedence=0):
    return (source, follow, 3, target, p, precedence)


# A network that has a word of every field, and is small enough to be cut and damaged at every place.
FULL = network(
    states=[(6, -1), (2, 0), (7, 0), (3, 0, 5), (12, 0, 3), (0,)],
    nongreedy=[3], recursive=[1], rules=[(1, 1)], modes=[0], sets=[(1, [(48, 52), (53, 57)])],
    edges=[eps(0, 1), (1, 3, 7, 0), call(3, 1, 2), (4, 2, 2, 65, 90)],
    decisions=[0], actions=[(0, 1, 0), (6, 0, 0)], token=1)

# Three records of every kind and more: for the records that refusals name.
THREE = {
    "states": [(6, -1), (2, 0), (7, 0), (3, 0, 5), (12, 0, 3), (0,), (2, 1), (7, 1)],
    "nongreedy": [3, 1, 4], "recursive": [1, 6, 1], "rules": [(1, 1), (6, 2), (3, 5)], "modes": [0, 1, 0],
    "sets": [(1, [(48, 52), (53, 57)]), (0, [(65, 70), (80, 90), (97, 99)]), (0, [(1, 2), (5, 6), (9, 10)])],
    "edges": [eps(0, 1), (1, 3, 7, 0), call(3, 6, 2), (4, 2, 4), (6, 7, 8, 2), (1, 2, 6, 1)],
    "decisions": [0, 3, 4], "actions": [(0, 1, 0), (6, 0, 0), (1, 2, 3)], "token": 2}

WHOLE = network(
    states=[(6, -1), (2, 0), (7, 0), (1, 0)], rules=[(1, 1)], modes=[0], sets=[(0, [(48, 52), (53, 57)])],
    edges=[eps(0, 1), (1, 3, 7), eps(3, 2)], decisions=[0], actions=[(6, 0, 0)], token=1)

NOTHING = network(token=9)


def over_sets(*sets):
    """Sets, each used by an edge: the Rust keeps no other."""
    return network(states=[(1, 0)], sets=sets, edges=[(0, 0, 7 + i % 2, i) for i in range(len(sets))])


def document():
    """Document 01, "Cases on each side"."""
    yield []
    yield NOTHING
    yield NOTHING[:11]
    yield [3]
    yield [4, 1]
    for intervals in ([(9, 3)], [(1, 3), (4, 6)], [(1, 3), (5, 6)], [(MAX, MAX), (MAX - 1, MAX - 1)]):
        yield over_sets((0, intervals))
    yield over_sets((1, [(0, 5)]))
    for target in (1, 2):
        yield network(states=[(2, 0), (7, 0), (1, 0)], rules=[(0, 1)], edges=[call(0, 0, target), eps(2, target)])
    yield WHOLE


def demos():
    """demos.txt: lists on which the Rust and public ANTLR were held side by side."""
    with open(os.path.join(HERE, "demos.txt"), encoding="utf-8") as file:
        for line in file:
            # an indented line says what is answered: see public.py
            if not line.startswith(("#", " ")):
                yield [int(word) for word in line.split(":")[-1].split()]


def headers():
    for version in (3, 5, 0, -4, MAX, MIN):
        yield [version, 0, 9] + [0] * 9
    for grammar in (1, 2, -1, 4, MAX, MIN):
        yield [4, grammar, 9] + [0] * 9
    for token in (-1, 1, MAX, MIN):
        yield [4, 0, token] + [0] * 9
    # the first thing that is wrong counts
    yield [3, 1]
    yield [4, 1, 0, -1]
    yield [4, 0, 0, -1]


def states():
    for kind in range(13):
        more = (() if kind == 0 else (0, 1) if kind in (3, 4, 5, 12) else (0,))
        yield network(states=[(kind, *more), (1, 0)])
        # a rule word after type 0 would be read as a state type
        yield network(states=[(kind, *more), (kind, *more), (7, 0)], rules=[(0, 1)], edges=[eps(0, 2)])
    for rule in (-1, -7, 1, 5, MAX, MIN):
        yield network(states=[(1, rule), (7, rule), (3, rule, 0), (12, rule, 1)], rules=[(0, 1)], edges=[call(0, 0, 1)])
    for kind in (3, 4, 5, 12):
        for link in (99, MAX, -1, MIN):
            yield network(states=[(kind, 0, link)])
    for kind in (13, 14, 99, -1, MAX, MIN):
        yield network(states=[(1, 0), (kind, 0)])
    yield [4, 0, 0, 1, 13]
    yield [4, 0, 0, 2, 0, 0] + [0] * 8
    yield [4, 0, 0, 2, 0, 1]


def flags():
    three = [(2, 0), (8, -1), (0,)]
    for named in ([0], [1], [2], [0, 0], [2, 1, 0, 1], [3], [0, 3], [-1], [MAX], [MIN], [1, -5]):
        yield network(states=three, nongreedy=named)
        yield network(states=three, recursive=named)
        yield network(states=three, nongreedy=named[:1], recursive=named)
    yield network(nongreedy=[0])
    yield network(recursive=[0])
    yield [4, 0, 0, 0, -1]
    yield [4, 0, 0, 0, 0, -1]


def rules():
    stops = [(7, 0), (7, 1), (7, 0), (7, -1), (7, 2), (7, 9), (1, 0)]
    for listed in ([], [(0, 1)], [(6, -5), (99, MAX)], [(1, 1), (0, MIN), (MAX, 0), (2, 2)], [(0, 0)] * 3):
        yield network(states=stops, rules=listed)
    for start in (-1, MIN):
        yield network(states=stops, rules=[(0, 1), (start, 0)])
    for named in ([0], [3, 3], [99], [MAX], [-1], [0, MIN]):
        yield network(states=[(6, -1)], modes=named)
        yield network(states=[(6, -1)], decisions=named)


def sets():
    many = [
        [], [(5, 5)], [(9, 3)], [(1, 3), (4, 6)], [(1, 3), (5, 6)], [(5, 6), (1, 3)], [(4, 6), (1, 3)],
        [(1, 9), (3, 4)], [(3, 4), (1, 9)], [(1, 2), (1, 5)], [(1, 5), (1, 2)], [(1, 5), (1, 5)],
        [(1, 2), (5, 6), (9, 10), (3, 8)], [(1, 2), (5, 6), (9, 10), (2, 9)], [(1, 2), (5, 6), (9, 10), (0, 20)],
        [(1, 1), (3, 3), (5, 5), (7, 7), (4, 4), (2, 2), (6, 6)], [(9, 9), (7, 7), (5, 5), (3, 3), (1, 1)],
        [(1, 8), (20, 4)], [(10, 1), (30, 12), (11, 11)], [(-5, -3), (-2, 0)], [(-5, -3), (-1, 0)], [(0, 0), (-1, -1)],
        [(MAX, MAX), (MAX - 1, MAX - 1)], [(MAX - 1, MAX - 1), (MAX, MAX)], [(MAX, MAX), (MAX - 2, MAX - 2)],
        [(MIN, MIN), (MAX, MAX)], [(MAX, MAX), (MIN, MIN)], [(MIN, MAX)], [(MAX, MIN)], [(MIN, MAX), (3, 4)], [(3, 4), (MAX, MIN)],
        [(MIN, MIN), (MIN + 1, MIN + 1)], [(MIN + 1, MIN + 1), (MIN, MIN)], [(MIN, -1), (0, MAX)], [(MIN, -2), (0, MAX)],
        [(0, MAX), (5, MAX)], [(MAX, 0), (1, MAX - 1)], [(MAX, MAX), (MAX, MAX)],
    ]
    for intervals in many:
        for flag in (0, 1):
            yield over_sets((flag, intervals))
    for flag in (-1, 2, MAX, MIN):
        yield over_sets((flag, [(5, 6)]), (0, [(1, 2)]))
    # several sets: an empty one first, between and last; each begins behind what was kept
    yield over_sets((0, []), (0, [(1, 2), (3, 4)]), (0, []), (1, [(7, 8), (1, 1)]), (1, []), (0, []))
    yield over_sets(*((0, intervals) for intervals in many[:12]))
    yield over_sets(*((1, intervals) for intervals in many[12:24]))
    # no edge uses these
    yield network(states=[(1, 0)], sets=[(1, [(4, 2)]), (0, []), (0, [(8, 9), (1, 7)])])
    yield network(states=[(1, 0)], sets=[(1, [(4, 2)]), (0, [(8, 9), (1, 7)])], edges=[(0, 0, 8, 1)])
    for count in (-1, MIN):
        yield [4, 0, 0, 0, 0, 0, 0, 0, 1, count]
        yield [4, 0, 0, 0, 0, 0, 0, 0, count]
        yield [4, 0, 0, 0, 0, 0, 0, 0, 3, 0, 0, 0, 0, count]
    yield [4, 0, 0, 0, 0, 0, 0, 0, 1, 3, 1, 1, 1, 2]


def edges():
    two = {"states": [(1, 0), (7, 0)], "rules": [(0, 1)], "sets": [(0, [(1, 2)]), (1, [(8, 9), (4, 4)])]}
    words = [(0, 0, 0), (1, 1, 1), (1, 0, -1), (-1, 0, 0), (0, -1, 0), (0, 0, -1), (-3, -4, -5), (2, 1, 0), (1, 2, MAX),
             (MAX, MAX, MAX), (MIN, 0, 0), (0, MIN, 1), (MAX, MIN, MIN), (MIN, MAX, 7)]
    for kind in range(1, 11):
        for a, b, c in words:
            yield network(**two, edges=[(0, 1, kind, a, b, c)])
    for kind in (0, 11, 12, -1, -10, MAX, MIN):
        yield network(**two, edges=[(0, 1, kind, 0, 0, 0)])
    # the order of the tests: 24, 25 as read; then 8, then a or 9, then b, then 10
    for edge in ((-1, -1, 0, -1, -1), (5, -1, 0), (5, 1, 0, -1, -1), (5, 1, 3, -1, -1), (5, 1, 7, 9), (5, 1, 3, 0, -1),
                 (5, 1, 4, 0, -1), (5, 1, 1), (2, 1, 3), (MAX, 1, 1), (0, MAX, 1), (0, MAX, 3, MAX, MAX, MIN),
                 (5, 1, 7, -1), (5, 1, 8, 1), (5, 1, 6, -1), (5, 1, 6, 0, -1), (0, 1, 7, 2), (0, 1, 8, 2), (0, 1, 8, MAX)):
        yield network(**two, edges=[eps(0, 1), edge])
    # without sets, without states
    yield network(states=[(1, 0)], edges=[(0, 0, 7)])
    yield network(edges=[eps(0, 0)])
    yield network(edges=[(-1, 0, 1)])
    yield network(edges=[(0, 0, 99)])
    # chains of one and several states, mixed, and every type at once
    yield network(**two, edges=[eps(0, 1), eps(1, 0), eps(0, 0), eps(0, 1), (1, 1, 5, 65), eps(0, 9)])
    yield network(**two, edges=[(kind % 2, 1, kind, kind % 2, kind % 2, 0) for kind in range(1, 11)])
    yield network(**two, edges=[(1, 0, kind, 1, 0, kind % 3) for kind in range(10, 0, -1)])
    # cut inside an edge that would be refused for its type or its argument: the words ended first
    whole = network(**two, edges=[(5, 1, 11, -1, -1)])
    for n in range(len(whole) - 9, len(whole)):
        yield whole[:n]


def actions():
    for kind in range(8):
        for d1, d2 in ((0, 0), (3, 4), (-1, -2), (MAX, MIN)):
            yield network(actions=[(kind, d1, d2)])
    yield network(actions=[(kind, 10 + kind, 20 + kind) for kind in range(8)])
    for kind in (8, 9, -1, MAX, MIN):
        yield network(actions=[(6, 0, 0), (kind, 1, 2)])
        # cut inside an action that would be refused for its type: the words ended first
        yield network(actions=[(6, 0, 0), (kind, 1, 2)])[:-1]
    yield [4, 0, 0, 0, 0, 0, 0, 0, 0, 0, 0, -1]
    yield [4, 0, 0, 0, 0, 0, 0, 0, 0, 0, -1]
    yield [4, 0, 0, 0, 0, 0, 0, 0, 0, -1]
    yield [4, 0, 0, 0, 0, 0, 0, -1]
    yield [4, 0, 0, 0, 0, 0, -1]


def returns():
    # 0, 1: rule 0; 2, 3: rule 1; two rules
    four = [(2, 0), (7, 0), (2, 1), (7, 1)]
    two = [(0, 1), (2, 2)]
    yield network(states=four, rules=two, edges=[call(0, 2, 1, p=1)])
    yield network(states=four, rules=two, edges=[call(0, 2, 1, p=0)])       # p is not asked
    yield network(states=four, rules=two, edges=[call(0, 2, 1, p=7)])
    yield network(states=four, rules=two, edges=[call(0, 2, 99, p=1)])      # follow outside
    yield network(states=four, rules=two, edges=[call(0, 99, 1, p=1)])      # target outside
    yield network(states=four, rules=two, edges=[call(0, MAX, MAX, p=1)])
    yield network(states=four, rules=two, edges=[call(0, 4, 4, p=1)])       # one past the last
    yield network(states=four, rules=two[:1], edges=[call(0, 2, 1, p=1)])   # R not listed
    yield network(states=four, rules=[], edges=[call(0, 0, 1), call(2, 2, 3)])
    yield network(states=[(2, 0), (7, 0), (2, -1), (7, 1)], rules=two, edges=[call(0, 2, 1, p=1)])  # R none
    yield network(states=[(2, 0), (7, 0), (0,), (7, 1)], rules=two, edges=[call(0, 2, 1, p=1)])
    yield network(states=[(2, 0), (7, 0), (2, 1), (8, 1)], rules=two, edges=[call(0, 2, 1, p=1)])   # no stop
    yield network(states=[(2, 0), (7, 0), (2, 1), (7, -1)], rules=two, edges=[call(0, 2, 1, p=1)])
    yield network(states=[(2, 0), (7, 0), (2, 1), (7, 5)], rules=two, edges=[call(0, 2, 1, p=1)])
    # several stops: the last counts
    yield network(states=four + [(7, 1)], rules=two, edges=[call(0, 2, 1), call(4, 0, 3)])
    yield network(states=[(7, 1)] + four + [(1, 1)], rules=two, edges=[call(1, 3, 2), call(0, 1, 2)])
    yield network(states=[(7, 0), (7, 0), (7, 0)], rules=[(0, 0)], edges=[call(0, 0, 0), call(1, 1, 1), call(2, 2, 2)])
    # by source state, then chain order; repeats kept; behind the stop's own edges
    yield network(states=four + [(1, 0), (1, 1)], rules=two,
                  edges=[call(5, 0, 4), call(4, 2, 5), call(0, 2, 1), call(0, 0, 2), call(0, 2, 1), eps(3, 0), eps(1, 3), call(3, 2, 3), call(1, 0, 1)])
    yield network(states=four, rules=two, edges=[call(0, 2, 1)] * 3 + [call(2, 0, 3)] * 2)
    # a call from the stop, and into the stop
    yield network(states=four, rules=two, edges=[call(1, 1, 1), call(3, 1, 0), call(1, 3, 2)])
    # the target's rule, where it is not the source's
    yield network(states=four, rules=two, edges=[call(0, 1, 3), call(2, 3, 1), call(0, 0, 0), call(2, 2, 2)])


def loop(kind=10, rule=0, start=0, flagged=(0,), rules=1, entry=((1, 3), (1, 4)), end=((1, 1),), last=12, out=7):
    """A loop whose entry, state 2, may be a precedence decision: entry and end are the edges (type, target) of
    states 2 and 4, last and out the types of states 4 and 1."""
    def state(kind, rule):
        return (kind,) if kind == 0 else (kind, rule, 3) if kind in (3, 4, 5, 12) else (kind, rule)
    return network(
        states=[(2, 0), state(out, 0), state(kind, rule), (1, 0), state(last, 0), (1, 1)],
        recursive=flagged, rules=[(start, 1)] * rules,
        edges=[(source, target, a_type, target if a_type == 3 else 0)
               for source, those in ((2, entry), (4, end)) for a_type, target in those])


def precedence():
    yield loop()
    for kind in (0, 1, 3, 5, 9, 11, 12, 7):
        yield loop(kind=kind)
    for rule in (-1, 1, 2, MAX):
        yield loop(rule=rule)
        yield loop(rule=rule, rules=2)
    yield loop(rules=0)
    for start in (1, 3, 5, 6, MAX):
        yield loop(start=start)
        yield loop(start=start, flagged=(0, 1, 3))
    for flagged in ((), (1,), (2,), (0, 0), (5, 0)):
        yield loop(flagged=flagged)
    # the last edge counts, of any type
    for entry in ((), ((1, 4),), ((1, 4), (1, 3)), ((1, 3), (5, 4)), ((1, 4), (3, 4)), ((1, 3), (3, 3)), ((1, 6),), ((1, 99),), ((1, MAX),), ((9, 4),)):
        yield loop(entry=entry)
    # the first edge of the loop end counts, of any type
    for end in ((), ((1, 3), (1, 1)), ((1, 1), (1, 3)), ((5, 1),), ((3, 1),), ((1, 6),), ((1, 99),), ((1, MAX),), ((1, 4),)):
        yield loop(end=end)
    for last in (1, 8, 9, 10, 0, 7):
        yield loop(last=last)
    for out in (1, 2, 8, 12, 0):
        yield loop(out=out)
    # several entries, one of another rule; a stop of another rule will do
    yield network(states=[(2, 0), (7, 3), (10, 0), (12, 0, 2), (10, 1), (10, 0), (2, 1)], recursive=[0, 6, 4], rules=[(0, 1), (6, 2)],
                  edges=[eps(5, 3), eps(4, 3), eps(2, 3), eps(3, 1)])
    # calls are edges too, the entry's last and the loop end's first
    yield network(states=[(2, 0), (7, 0), (10, 0), (12, 0, 2)], recursive=[0], rules=[(0, 1)],
                  edges=[call(3, 1, 0), eps(3, 0), eps(2, 0), call(2, 3, 0)])


def one_rule(n, edges, calls, stop=1, kinds=None, rules=None):
    """States 0 to n - 1 of rule 0 with its stop; kinds and rules change single states."""
    kinds = {stop: 7, **(kinds or {})}
    rules = rules or {}
    return network(states=[(kinds.get(s, 1), rules.get(s, 0)) for s in range(n)], rules=[(0, 1), (0, 2)],
                   edges=[eps(*e) if len(e) == 2 else e for e in edges] + [call(*c) for c in calls])


def tails():
    yield one_rule(3, [], [(0, 0, 1)])                                        # follow = stop
    yield one_rule(3, [(2, 2)], [(0, 0, 2)])                                  # to itself
    yield one_rule(3, [(2, 1)], [(0, 0, 2)])
    yield one_rule(3, [], [(0, 0, 2)])                                        # dead end
    yield one_rule(3, [], [(0, 0, 3), (0, 0, 99), (0, 0, MAX)])               # follow outside
    yield one_rule(3, [(2, 99)], [(0, 0, 2)])                                 # a target outside
    yield one_rule(3, [(2, 1), (2, 99)], [(0, 0, 2)])
    yield one_rule(3, [(2, 1), (2, 1), (2, 1)], [(0, 0, 2)])                  # equal edges
    yield one_rule(6, [(2, 3), (2, 4), (3, 5), (4, 5), (5, 1)], [(0, 0, 2)])  # two branches meet
    yield one_rule(6, [(2, 3), (2, 4), (3, 5), (4, 5)], [(0, 0, 2)])          # they meet in a dead end
    yield one_rule(6, [(2, 3), (2, 5), (3, 5), (5, 1)], [(0, 0, 2), (0, 0, 3)])
    # diamonds behind diamonds
    edges = []
    for i in range(4):
        edges += [(2 + 3 * i, 3 + 3 * i), (2 + 3 * i, 4 + 3 * i), (3 + 3 * i, 5 + 3 * i), (4 + 3 * i, 5 + 3 * i)]
    yield one_rule(15, edges + [(14, 1)], [(0, 0, 2), (0, 0, 8)])
    yield one_rule(15, edges + [(14, 8)], [(0, 0, 2), (0, 0, 8), (0, 0, 12)])
    # cycles of two and three, a cycle beside a way out, a way into a cycle
    yield one_rule(5, [(2, 3), (3, 2)], [(0, 0, 2)])
    yield one_rule(5, [(2, 3), (3, 4), (4, 2)], [(0, 0, 2), (0, 0, 4)])
    yield one_rule(5, [(2, 3), (3, 2), (3, 1)], [(0, 0, 2), (0, 0, 3)])
    yield one_rule(5, [(2, 1), (2, 3), (3, 1), (3, 4), (4, 3)], [(0, 0, 2), (0, 0, 3), (0, 0, 4)])
    yield one_rule(5, [(2, 3), (3, 1), (4, 4)], [(0, 0, 2), (0, 0, 4)])       # a cycle that is not reached
    # the whole of a chain, from its far end on
    yield one_rule(12, [(s, s - 1) for s in range(11, 1, -1)], [(0, 0, 11), (0, 0, 5), (7, 0, 11)])
    yield one_rule(12, [(s, s + 1) for s in range(2, 11)] + [(11, 1)], [(0, 0, 2)])
    # an edge of another type on the way
    for kind in range(2, 11):
        yield network(states=[(2, 0), (7, 0), (1, 0), (1, 0)], rules=[(0, 1)], sets=[(0, [(1, 2)])],
                      edges=[call(0, 0, 2), eps(2, 3), (3, 1, kind), eps(2, 1)])
    # a state of another rule, of no rule, of type 0, of type 7
    for rule in (1, -1, 5):
        yield one_rule(5, [(2, 3), (3, 1)], [(0, 0, 2)], rules={3: rule})
        yield one_rule(5, [(2, 3), (3, 1)], [(0, 0, 2)], rules={2: rule})
        yield one_rule(5, [(2, 3), (3, 1)], [(0, 0, 2)], rules={0: rule})
    yield network(states=[(2, 0), (7, 0), (0,)], rules=[(0, 1)], edges=[call(0, 0, 2), eps(2, 1)])
    yield one_rule(5, [(2, 3), (3, 1)], [(0, 0, 2)], stop=1, kinds={3: 7})    # 3 is now the stop, and 1 is not
    yield one_rule(5, [(2, 1), (1, 3)], [(0, 0, 2), (0, 0, 1), (0, 0, 3)], kinds={3: 7})
    yield one_rule(5, [(2, 3), (3, 1)], [(0, 0, 2), (0, 0, 3), (0, 0, 1)], kinds={3: 7}, rules={3: 1})
    # other types on the way will do
    for kind in (2, 6, 8, 9, 10, 11):
        yield one_rule(5, [(2, 3), (3, 1)], [(0, 0, 2)], kinds={3: kind})
    # the stop's own edges do not count: it calls, loops, consumes
    yield one_rule(4, [(2, 1), (1, 1), (1, 3, 5, 65)], [(0, 0, 2), (1, 0, 2), (1, 0, 1)])
    # a call from a state of rule R counts R's stop, whatever the target's rule and p say
    four = [(2, 0), (7, 0), (2, 1), (7, 1), (1, 0), (1, 1)]
    for rules_listed in ([(0, 1), (2, 2)], [(0, 1)], []):
        yield network(states=four, rules=rules_listed,
                      edges=[call(0, 2, 4, p=1), call(2, 0, 5), call(0, 2, 5, p=0), call(2, 0, 4), eps(4, 1), eps(5, 3), call(0, 2, 3), call(2, 0, 1)])
    yield network(states=[(2, 0), (1, 0)], rules=[(0, 1)], edges=[call(0, 0, 1), eps(1, 0)])  # R has no stop
    yield network(states=[(2, -1), (7, -1)], rules=[(0, 1)], edges=[call(0, 0, 1)])


def records():
    """A record of each kind that is refused, behind others."""
    for section, bad in (
            ("states", (13, 0)), ("states", (12, 0, -1)), ("states", (3, 0, -1)), ("nongreedy", -1), ("nongreedy", 99), ("recursive", -1),
            ("recursive", 99), ("rules", (-1, 1)), ("modes", -1), ("edges", (-1, 0, 1)), ("edges", (0, -1, 1)), ("edges", (0, 1, 11)),
            ("edges", (0, 1, 3, -1)), ("edges", (0, 1, 3, 0, -1)), ("edges", (0, 1, 7, 3)), ("edges", (99, 1, 1)), ("decisions", -1),
            ("actions", (8, 0, 0))):
        yield network(**{**THREE, section: [*THREE[section], bad]})


def short_lists():
    """Every list of up to three of these words behind a header."""
    for n in range(4):
        for words in itertools.product((-1, 0, 1, 3, 7), repeat=n):
            yield [4, 0, 0, *words]


def damage(base, values=(-1, None, MIN)):
    """One word changed at every place, None for one more than it is."""
    for at in range(len(base)):
        for value in values:
            yield base[:at] + [base[at] + 1 if value is None else value] + base[at + 1:]


def cuts(base):
    for n in range(len(base)):
        yield base[:n]


def sample(name):
    """A real dialect of samples/: little-endian 32-bit words."""
    with open(os.path.join(HERE, "..", "samples", name + ".atn"), "rb") as file:
        data = file.read()
    return list(struct.unpack("<%di" % (len(data) // 4), data))


def random_set(rng):
    near = rng.choice((6, 12, 30, 300))
    def end():
        if rng.random() < 0.04:
            return rng.choice((MIN, MIN + 1, MAX - 1, MAX))
        return rng.randint(-3, near)
    return (rng.choice((0, 0, 0, 1, 5, -1)), [(end(), end()) for _ in range(rng.choice((0, 1, 2, 2, 3, 4, 6, 9)))])


KINDS = {"any": list(range(13)), "calls": [1, 1, 2, 7, 7], "tails": [1] * 14 + [8, 7], "loops": [2, 7, 10, 10, 12, 12]}
# how often each edge type, 1 to 10
WEIGHTS = {"any": [3, 1, 3, 1, 1, 1, 2, 2, 1, 1], "calls": [4, 0, 8, 0, 1, 0, 1, 0, 0, 0],
           "tails": [1, 0, 3, 0, 0, 0, 0, 0, 0, 0], "loops": [8, 0, 2, 0, 1, 0, 0, 0, 0, 0]}


def random_network(rng, shape):
    """A small network that is accepted. Shapes: any; calls, with many rule edges; tails, with one rule and plain ways to
    its stop; loops, with entries, loop ends and stops that often lead to each other."""
    count = rng.randint(3, 12) if shape == "tails" else rng.randint(1, 9)
    listed = rng.choice((0, 1, 2, 2, 3)) if shape == "any" else 1 if shape == "tails" else rng.randint(1, 3)

    def near(n):
        """Mostly one of n, now and then none of them."""
        return rng.choice((n, n + 1, 99, MAX)) if n == 0 or rng.random() < 0.05 else rng.randrange(n)

    def names(most):
        return [rng.randrange(count) for _ in range(rng.randint(0, most))]

    some_states = []
    for s in range(count):
        kind = 7 if shape == "tails" and s == count - 1 else rng.choice(KINDS[shape])
        rule = rng.choice((-1, -9, listed)) if listed == 0 or rng.random() < 0.06 else rng.randrange(listed)
        some_states.append((kind,) if kind == 0 else (kind, rule, near(count)) if kind in (3, 4, 5, 12) else (kind, rule))
    some_rules = [(near(count), rng.randint(-1, 9)) for _ in range(listed)]
    some_sets = [random_set(rng) for _ in range(rng.choice((0, 0, 1, 2, 3)))]
    recursive = names(2)
    if shape == "loops":
        recursive += [start for start, _ in some_rules if start < count and rng.random() < 0.9]

    some_edges = []
    for _ in range(rng.randint(0, 3 * count) if shape != "tails" else rng.randint(1, 6)):
        kind = rng.choices(range(1, 11), WEIGHTS[shape])[0]
        if kind in (7, 8) and not some_sets:
            kind = 1
        source, target = rng.randrange(count), near(count)
        if shape == "loops" and rng.random() < 0.7:
            wanted = {10: 12, 12: 7}.get(some_states[source][0], 10)
            target = rng.choice([s for s in range(count) if some_states[s][0] == wanted] or [target])
        a = rng.randrange(len(some_sets)) if kind in (7, 8) else near(count) if kind == 3 else rng.randint(0, 4)
        b = rng.randint(0, 3)
        if kind in (1, 2, 5, 9, 10) and rng.random() < 0.3:
            a = rng.choice((-1, 65, MIN, MAX))
        if kind not in (3, 4) and rng.random() < 0.3:
            b = rng.choice((-1, 90, MIN, MAX))
        some_edges.append((source, target, kind, a, b, rng.choice((0, 0, 1, -1, 7))))
    if shape == "tails":
        # ways to higher states, so that most reach the stop and few are cycles
        for source in range(count - 1):
            for _ in range(rng.choice((0, 1, 1, 1, 1, 2, 2, 3)) if rng.random() < 0.9 else 0):
                some_edges.append(eps(source, rng.randrange(source + 1, count)))
        rng.shuffle(some_edges)
    return network(
        states=some_states, edges=some_edges, rules=some_rules, sets=some_sets, nongreedy=names(2), recursive=recursive,
        modes=[near(count) for _ in range(rng.randint(0, 2))], decisions=[near(count) for _ in range(rng.randint(0, 3))],
        actions=[(rng.randint(0, 7), rng.randint(-2, 9), rng.randint(-2, 9)) for _ in range(rng.randint(0, 3))],
        token=rng.choice((0, 1, 40, -1, MAX)))


def word_near(rng, word):
    return rng.choice((-1, 0, 1, 2, 3, 7, 12, word + 1 if word < MAX else 0, word - 1 if word > MIN else 0, -word if word > MIN else 0, MIN, rng.randint(-20, 40)))


def random_words(rng, n):
    return [rng.choice((0, -1, 4, MIN, MAX, rng.randint(-99, 999))) for _ in range(n)]


SHAPES = ("any", "calls", "tails", "loops")


def hand_picked():
    """(family, list) pairs."""
    for family, lists in (
            ("document 01's cases", document()), ("demos", demos()), ("headers", headers()), ("states", states()), ("flags", flags()),
            ("rules and modes", rules()), ("sets", sets()), ("edges", edges()), ("actions", actions()), ("return edges", returns()),
            ("precedence", precedence()), ("tail calls", tails()), ("every short list", short_lists()), ("every length", cuts(FULL)), ("every length", cuts(WHOLE)),
            ("every length", cuts(network(**THREE))), ("every word changed", damage(FULL)), ("a bad record behind others", records())):
        for words in lists:
            yield family, words


def real(rng, few=6):
    """The real dialect XPath: whole, with words behind it, cut, and with one word changed."""
    words = sample("xpathlexer")
    yield "real dialect", words
    yield "real dialect", words + random_words(rng, 7)
    for _ in range(few):
        yield "real dialect cut", words[:rng.randrange(len(words))]
        at = rng.randrange(len(words))
        yield "real dialect changed", words[:at] + [word_near(rng, words[at])] + words[at + 1:]


def random_lists(rng):
    """Without end: a network, the same with words behind it, cut, and with one word changed; now and then at every length."""
    turn = 0
    while True:
        shape = SHAPES[turn % len(SHAPES)]
        words = random_network(rng, shape)
        yield "random " + shape, words
        if turn % 2 == 0:
            yield "random with words behind", words + random_words(rng, rng.randint(1, 12))
        if turn % 3 == 0:
            yield "random cut", words[:rng.randrange(len(words))]
        if turn % 24 == 7 and len(words) < 90:
            for n in range(len(words)):
                yield "random at every length", words[:n]
        for _ in range(2):
            at = rng.randrange(len(words))
            yield "random changed", words[:at] + [word_near(rng, words[at])] + words[at + 1:]
        turn += 1
