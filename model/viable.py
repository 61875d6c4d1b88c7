"""Which prefixes can be continued: derivatives of a grammar, one symbol at a time.

A grammar is an expression over symbols (bytes, or kinds of tokens).  The derivative of an expression by a symbol is what may
follow that symbol.  Every production has at least one sentence, so a prefix is viable exactly where its derivative is not NONE.
Expressions are interned: each is a small number, and each step is computed once.
"""

NONE, EMPTY = 0, 1  # no sentence at all; the empty sentence alone


class Grammar:
    """Expressions with names, their derivatives, and a cache of steps."""

    def __init__(self):
        self.nodes = [("none",), ("empty",)]
        self.numbers = {("none",): NONE, ("empty",): EMPTY}
        self.rules = {}
        self.steps = {}
        self.empties = {}

    def make(self, *node):
        """The number of an expression; equal expressions have one number."""
        number = self.numbers.get(node)
        if number is None:
            number = len(self.nodes)
            self.nodes.append(node)
            self.numbers[node] = number
        return number

    def one(self, symbols):
        """One symbol of a set."""
        symbols = frozenset(symbols)
        return self.make("one", symbols) if symbols else NONE

    def seq(self, *parts):
        """The parts, one behind the other."""
        result = EMPTY
        for part in reversed(parts):
            result = self.pair(part, result)
        return result

    def pair(self, first, second):
        """first and then second, nested to the right."""
        if NONE in (first, second):
            return NONE
        if first == EMPTY:
            return second
        if second == EMPTY:
            return first
        node = self.nodes[first]
        if node[0] == "seq":
            return self.make("seq", node[1], self.pair(node[2], second))
        return self.make("seq", first, second)

    def alt(self, *parts):
        """One of the parts."""
        flat = set()
        for part in parts:
            node = self.nodes[part]
            if node[0] == "alt":
                flat |= node[1]
            elif part != NONE:
                flat.add(part)
        if not flat:
            return NONE
        return flat.pop() if len(flat) == 1 else self.make("alt", frozenset(flat))

    def opt(self, part):
        """The part, or nothing."""
        return self.alt(part, EMPTY)

    def star(self, part):
        """The part any number of times."""
        return self.make("star", part)

    def plus(self, part):
        """The part at least once."""
        return self.seq(part, self.star(part))

    def every(self, once, many):
        """Each of `once` exactly once, and `many` any number of times, in any order."""
        return self.make("every", frozenset(once), many)

    def word(self, symbols):
        """These symbols, in this order."""
        return self.seq(*[self.one([symbol]) for symbol in symbols])

    def ref(self, name):
        """What the rule of this name says."""
        return self.make("ref", name)

    def empty(self, number):
        """Whether the empty sentence is one of the expression."""
        known = self.empties.get(number)
        if known is None:
            known = self.empties[number] = self.find_empty(self.nodes[number])
        return known

    def find_empty(self, node):
        kind = node[0]
        if kind in ("empty", "star"):
            return True
        if kind == "seq":
            return self.empty(node[1]) and self.empty(node[2])
        if kind == "alt":
            return any(self.empty(part) for part in node[1])
        if kind == "every":
            return all(self.empty(part) for part in node[1])
        if kind == "ref":
            return self.empty(self.rules[node[1]])
        return False

    def step(self, number, symbol):
        """The derivative: what may follow where the symbol came."""
        key = (number, symbol)
        result = self.steps.get(key)
        if result is None:
            result = self.steps[key] = self.derive(self.nodes[number], number, symbol)
        return result

    def derive(self, node, number, symbol):
        kind = node[0]
        if kind == "one":
            return EMPTY if symbol in node[1] else NONE
        if kind == "seq":
            result = self.pair(self.step(node[1], symbol), node[2])
            return self.alt(result, self.step(node[2], symbol)) if self.empty(node[1]) else result
        if kind == "alt":
            return self.alt(*[self.step(part, symbol) for part in node[1]])
        if kind == "star":
            return self.pair(self.step(node[1], symbol), number)
        if kind == "ref":
            return self.step(self.rules[node[1]], symbol)
        if kind == "every":
            return self.derive_every(node[1], node[2], number, symbol)
        return NONE

    def derive_every(self, once, many, number, symbol):
        """One of the awaited items begins, and the others are awaited behind it; or `many` begins."""
        parts = [self.pair(self.step(many, symbol), number)]
        for item in once:
            parts.append(self.pair(self.step(item, symbol), self.every(once - {item}, many)))
        return self.alt(*parts)
