"""Random lexers as ANTLR's own tool builds them, for public.py: the tokens' start states, a start and a stop for each
rule, and for each part of a rule the states and edges that the tool makes of it. verifyATN accepts them all."""

import lists
from lists import call, eps

PLAIN, START, BLOCK, PLUS, STAR, TOKENS, STOP, END, STAR_BACK, ENTRY, PLUS_BACK, LOOP_END = range(1, 13)


class Lexer:
    """A lexer that grows part by part; every part is given back as its first and its last state."""

    def __init__(self, rng):
        self.rng = rng
        self.states, self.edges, self.decisions, self.nongreedy, self.sets, self.actions = [], [], [], [], [], []
        self.rule = -1
        modes = [self.state(TOKENS) for _ in range(rng.randint(1, 2))]
        self.decisions += modes
        self.rules = []
        for self.rule in range(rng.randint(1, 5)):
            self.rules.append((self.state(START), self.state(STOP)))
        for self.rule, (start, stop) in enumerate(self.rules):
            first, last = self.part(3)
            self.join(start, first)
            self.join(last, stop)
        # a rule that is no fragment is reached from its mode's start, one edge each; the first rule always is
        for number, (start, _) in enumerate(self.rules):
            if number == 0 or rng.random() < 0.7:
                self.join(rng.choice(modes), start)
        self.modes = modes

    def words(self):
        # the tool writes the edges by their source
        edges = sorted(self.edges, key=lambda edge: edge[0])
        return lists.network(
            states=self.states, edges=edges, rules=[(start, self.rng.randint(0, 9)) for start, _ in self.rules], sets=self.sets,
            nongreedy=self.nongreedy, modes=self.modes, decisions=self.decisions, actions=self.actions, token=len(self.rules))

    def state(self, kind, *link):
        self.states.append((kind, self.rule, *link))
        return len(self.states) - 1

    def join(self, source, target):
        self.edges.append(eps(source, target))

    def fork(self, source, inside, outside, lazy):
        """A choice between going in and going on; a non-greedy one is flagged and goes on first."""
        self.decisions.append(source)
        if lazy:
            self.nongreedy.append(source)
        for target in (outside, inside) if lazy else (inside, outside):
            self.join(source, target)

    def part(self, depth):
        makers = [self.symbol, self.symbol, self.symbol, self.call, self.action]
        if depth > 0:
            makers += [lambda make=make: make(depth - 1) for make in (self.row, self.row, self.choice, self.maybe, self.plus, self.star)]
        return self.rng.choice(makers)()

    def over(self, kind, a=0, b=0, c=0):
        """Two plain states with one edge between them."""
        first, last = self.state(PLAIN), self.state(PLAIN)
        self.edges.append((first, last, kind, a, b, c))
        return first, last

    def symbol(self):
        rng = self.rng
        kind = rng.choice((2, 4, 5, 5, 5, 7, 7, 8, 9))
        if kind in (7, 8):
            self.sets.append(any_set(rng))
            return self.over(kind, len(self.sets) - 1)
        if kind == 2:
            return self.over(kind, *sorted((rng.randint(0, 200), rng.randint(0, 200))))
        if kind == 4:
            return self.over(kind, self.rule, rng.randint(0, 3), rng.randint(0, 1))
        if kind == 5:
            # the end of input is written as 0 with a flag
            return self.over(kind, *rng.choice(((65,), (122,), (0x10FFFF,), (0, 0, 1))))
        return self.over(kind)

    def call(self):
        first, last = self.state(PLAIN), self.state(PLAIN)
        number = self.rng.randrange(len(self.rules))
        self.edges.append(call(first, self.rules[number][0], last, p=number))
        return first, last

    def action(self):
        rng = self.rng
        kind = rng.randint(0, 7)
        d1 = 0 if kind in (3, 4, 6) else rng.randint(0, 9)
        self.actions.append((kind, d1, rng.randint(0, 3) if kind == 1 else 0))
        return self.over(6, self.rule, len(self.actions) - 1)

    def row(self, depth):
        parts = [self.part(depth) for _ in range(self.rng.randint(1, 3))]
        for (_, last), (first, _) in zip(parts, parts[1:]):
            self.join(last, first)
        return parts[0][0], parts[-1][1]

    def block(self, kind, depth):
        """The alternatives between a block's start and its end; the start is a decision if there are several."""
        end = self.state(END)
        start = self.state(kind, end)
        parts = [self.part(depth) for _ in range(self.rng.randint(1, 3))]
        for first, last in parts:
            self.join(start, first)
            self.join(last, end)
        if len(parts) > 1:
            self.decisions.append(start)
        return start, end

    def choice(self, depth):
        return self.block(BLOCK, depth)

    def maybe(self, depth):
        end = self.state(END)
        start = self.state(BLOCK, end)
        first, last = self.part(depth)
        self.join(last, end)
        self.fork(start, first, end, self.rng.random() < 0.3)
        return start, end

    def plus(self, depth):
        start, end = self.block(PLUS, depth)
        back = self.state(PLUS_BACK)
        out = self.state(LOOP_END, back)
        self.join(end, back)
        self.fork(back, start, out, self.rng.random() < 0.3)
        return start, out

    def star(self, depth):
        start, end = self.block(STAR, depth)
        entry, back = self.state(ENTRY), self.state(STAR_BACK)
        out = self.state(LOOP_END, back)
        self.fork(entry, start, out, self.rng.random() < 0.3)
        self.join(end, back)
        self.join(back, entry)
        return entry, out


def any_set(rng):
    """Intervals in any order, that may overlap, touch or repeat, but none with its start above its stop."""
    near = rng.choice((6, 30, 300, 0x10FFFF))
    intervals = [sorted((rng.randint(0, near), rng.randint(0, near))) for _ in range(rng.choice((0, 1, 1, 2, 3, 6, 12)))]
    return rng.choice((0, 0, 0, 1)), intervals


def lexer(rng):
    return Lexer(rng).words()
