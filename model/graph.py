"""The graph: a set of triples with an index of each place, and what fits a pattern."""


class Graph:
    """Triples of terms. A pattern has a term, or something else that leaves the place free."""

    def __init__(self):
        self.triples = set()
        self.indexes = ({}, {}, {})

    def add(self, triple):
        """Puts a triple in."""
        if triple not in self.triples:
            self.triples.add(triple)
            for index, term in zip(self.indexes, triple):
                index.setdefault(term, set()).add(triple)

    def remove(self, triple):
        """Takes a triple out."""
        self.triples.remove(triple)
        for index, term in zip(self.indexes, triple):
            index[term].remove(triple)
            if not index[term]:
                del index[term]

    def candidates(self, fixed):
        """A set that has all triples with these terms: the smallest of the indexes. None leaves a place free."""
        sets = [index.get(term, ()) for index, term in zip(self.indexes, fixed) if term is not None]
        return min(sets, key=len) if sets else self.triples

    def fitting(self, fixed):
        """The triples that have these terms. None leaves a place free."""
        return [triple for triple in self.candidates(fixed)
                if all(term is None or term == found for term, found in zip(fixed, triple))]

    def extend(self, solution, patterns):
        """The solutions that extend one and make each pattern a triple of the graph; the narrowest pattern first."""
        if not patterns:
            yield solution
            return
        bound = [tuple(solution[place] if isinstance(place, int) else place for place in pattern) for pattern in patterns]
        sizes = [len(self.candidates(fixed)) for fixed in bound]
        first = sizes.index(min(sizes))
        rest = patterns[:first] + patterns[first + 1:]
        for triple in self.fitting(bound[first]):
            longer = bind(solution, patterns[first], triple)
            if longer is not None:
                yield from self.extend(longer, rest)


def bind(solution, pattern, triple):
    """The solution with the variables of a pattern bound as in a triple; None where one variable would have two terms."""
    longer = list(solution)
    for place, term in zip(pattern, triple):
        if isinstance(place, int):
            if longer[place] not in (None, term):
                return None
            longer[place] = term
    return tuple(longer)
