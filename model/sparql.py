"""Queries in SPARQL: tokens, grammar, counts and refusals, the translation, solutions, truth, answers and width.

A solution is a tuple with a term or None for each variable of the query; a part of a query gives a set of solutions.
"""
import re
from collections import namedtuple
from itertools import islice
from math import prod

from messages import LITERAL, URI, Table
from viable import NONE, Grammar

TERM_LIMIT, WIDTH_LIMIT = 4_096, 65_536
VARIABLE_LIMIT, PATTERN_LIMIT, OPERATOR_LIMIT, CONDITION_LIMIT, NESTING_LIMIT = 16, 32, 16, 256, 16
REQUEST, NOT_IMPLEMENTED, RESOURCES = "m3:KP.Error.Request", "m3:SIB.Failure.NotImplemented", "m3:SIB.Failure.OutOfResources"
RDF_TYPE = b"http://www.w3.org/1999/02/22-rdf-syntax-ns#type"

Bgp = namedtuple("Bgp", "patterns")
Join = namedtuple("Join", "left right")
Union = namedtuple("Union", "left right")
LeftJoin = namedtuple("LeftJoin", "left right condition")
Filter = namedtuple("Filter", "condition part")
Query = namedtuple("Query", "variables columns part terms")
Token = namedtuple("Token", "kind value")
UNIT = Bgp(())


class Refused(Exception):
    """The status that refuses a request."""

    def __init__(self, status):
        super().__init__(status)
        self.status = status


# --- tokens ---

KEYWORDS = ["PREFIX", "SELECT", "DISTINCT", "WHERE", "UNION", "OPTIONAL", "FILTER", "BOUND", "ISIRI", "ISURI", "ISLITERAL",
            "SAMETERM", "STRSTARTS", "STR", "CONTAINS"]
GAP = re.compile(rb"(?:[ \t\r\n]+|#[^\r\n]*)*")
TOKENS = [
    ("VAR", re.compile(rb"[?$][A-Za-z0-9_]+")),
    ("IRI", re.compile(rb"<[^<>\"{}|^`\\\x00-\x20]+>")),
    ("STRING", re.compile(rb"\"(?:[^\"\\\r\n]|\\[tnr\\\"'])*\"|'(?:[^'\\\r\n]|\\[tnr\\\"'])*'")),
    ("PNAME", re.compile(rb"(?:[A-Za-z](?:[A-Za-z0-9_.-]*[A-Za-z0-9_-])?)?:(?:[A-Za-z0-9_:](?:[A-Za-z0-9_:.-]*[A-Za-z0-9_:-])?)?")),
    ("WORD", re.compile(rb"(?i:%s)|a" % "|".join(KEYWORDS).encode())),
    ("SIGN", re.compile(rb"&&|\|\||!=|<=|>=|[=<>!(){}.,;*]")),
]
ESCAPED = {b"t": b"\t", b"n": b"\n", b"r": b"\r", b"\\": b"\\", b'"': b'"', b"'": b"'"}
ESCAPE = re.compile(rb"\\(.)", re.S)


def longest(text, at):
    """The longest token at a place, as its class and its bytes; None where the bytes are no token."""
    best = None
    for kind, pattern in TOKENS:
        found = pattern.match(text, at)
        if found and (best is None or found.end() - at > len(best[1])):
            best = (kind, found.group())
    return best


def classify(kind, data):
    """The token: keywords in any case of letters but `a`; strings without their escapes."""
    if kind == "VAR":
        return Token("VAR", data[1:])
    if kind == "IRI":
        return Token("IRI", data[1:-1])
    if kind == "STRING":
        return Token("STRING", ESCAPE.sub(lambda found: ESCAPED[found.group(1)], data[1:-1]))
    if kind == "PNAME":
        prefix, local = data.split(b":", 1)
        return Token("PNAME" if local else "PREFIXNAME", (prefix, local))
    if kind == "SIGN":
        return Token(data.decode(), data)
    return Token("a" if data == b"a" else data.decode().upper(), data)


def tokens(text):
    """The tokens one by one; where the bytes are no token, a last one of kind BROKEN."""
    at = GAP.match(text).end()
    while at < len(text):
        found = longest(text, at)
        if found is None:
            yield Token("BROKEN", b"")
            return
        yield classify(*found)
        at = GAP.match(text, at + len(found[1])).end()


# --- the grammar ---

class QueryGrammar(Grammar):
    """The page's grammar over kinds of tokens. A term in an object's place has a symbol of its own: ("object", kind)."""

    def __init__(self):
        super().__init__()
        one = lambda *kinds: self.one(kinds)
        iri = one("IRI", "PNAME", "PREFIXNAME")
        operand_terms = ("VAR", "IRI", "PNAME", "PREFIXNAME", "STRING")
        self.query = self.seq(
            self.star(self.seq(one("PREFIX"), one("PREFIXNAME"), one("IRI"))), one("SELECT"), self.opt(one("DISTINCT")),
            self.alt(one("*"), self.plus(one("VAR"))), self.opt(one("WHERE")), self.ref("Group"))
        triples = self.opt(self.ref("Triples"))
        element = self.alt(self.ref("Alts"), self.seq(one("OPTIONAL"), self.ref("Group")), self.ref("Filter"))
        verb = self.alt(one("VAR", "a"), iri)
        item = self.one([("object", kind) for kind in operand_terms])
        objects = self.seq(item, self.star(self.seq(one(","), item)))
        operand = self.alt(one(*operand_terms), self.seq(one("STR"), one("("), one(*operand_terms), one(")")))
        group = self.seq(one("("), self.ref("Or"), one(")"))
        call = self.alt(
            self.seq(one("BOUND"), one("("), one("VAR"), one(")")),
            self.seq(one("ISIRI", "ISURI", "ISLITERAL"), one("("), operand, one(")")),
            self.seq(one("SAMETERM", "CONTAINS", "STRSTARTS"), one("("), operand, one(","), operand, one(")")))
        sign = one("=", "!=", "<", ">", "<=", ">=")
        self.rules = {
            "Group": self.seq(one("{"), triples, self.star(self.seq(element, self.opt(one(".")), triples)), one("}")),
            "Triples": self.seq(self.ref("Same"), self.opt(self.seq(one("."), triples))),
            "Same": self.seq(self.alt(one("VAR"), iri), verb, objects,
                             self.star(self.seq(one(";"), self.opt(self.seq(verb, objects))))),
            "Alts": self.seq(self.ref("Group"), self.star(self.seq(one("UNION"), self.ref("Group")))),
            "Filter": self.seq(one("FILTER"), self.alt(group, call)),
            "Or": self.seq(self.ref("And"), self.star(self.seq(one("||"), self.ref("And")))),
            "And": self.seq(self.ref("Cond"), self.star(self.seq(one("&&"), self.ref("Cond")))),
            "Cond": self.alt(self.seq(operand, self.opt(self.seq(sign, operand))),
                             self.seq(one("!"), self.alt(operand, group, call)), group, call),
        }


GRAMMAR = QueryGrammar()


class Counts:
    """The counts with limits, as the tokens of a text come."""

    def __init__(self):
        self.variables, self.patterns, self.operators, self.conditions, self.nesting = [], 0, 0, 0, 0
        self.prefixes, self.prefix, self.terms = {}, None, set()

    def take(self, token, is_object):
        """Counts a token that continues a query, and hands back its term's text; raises the status where it faults."""
        kind, text = token.kind, self.text(token)
        if kind == "VAR" and token.value not in self.variables:
            self.variables.append(token.value)
        self.patterns += is_object
        self.operators += kind in ("UNION", "OPTIONAL")
        self.conditions += kind in ("FILTER", "&&", "||")
        self.nesting += (kind in ("{", "(")) - (kind in ("}", ")"))
        if (len(self.variables) > VARIABLE_LIMIT or self.patterns > PATTERN_LIMIT or self.operators > OPERATOR_LIMIT
                or self.conditions > CONDITION_LIMIT or self.nesting > NESTING_LIMIT or len(text) > TERM_LIMIT):
            raise Refused(RESOURCES)
        self.declare(token)
        return text

    def declare(self, token):
        """Keeps a declaration `PREFIX name: IRI`; self.prefix is what the IRI is awaited for."""
        if token.kind == "PREFIX":
            self.prefix = True
        elif self.prefix is True:
            self.prefix = token.value[0]
        elif self.prefix is not None:
            self.prefixes[self.prefix], self.prefix = token.value, None

    def text(self, token):
        """The text of a term; empty for other tokens and in a declaration. A prefix that is not declared is a fault."""
        if token.kind not in ("IRI", "STRING", "PNAME", "PREFIXNAME") or self.prefix is not None:
            return b""
        if token.kind in ("IRI", "STRING"):
            return token.value
        prefix, local = token.value
        if prefix not in self.prefixes:
            raise Refused(REQUEST)
        return self.prefixes[prefix] + local


def check(text):
    """The tokens of a query with their names resolved; raises the status that refuses a text.

    The first token from the left that faults decides, and if none does, that DISTINCT lacks.
    """
    state, counts, result = GRAMMAR.query, Counts(), []
    for token in tokens(text):
        after = GRAMMAR.step(state, ("object", token.kind))
        is_object = after != NONE
        if not is_object:
            after = GRAMMAR.step(state, token.kind)
        if after == NONE:
            raise Refused(REQUEST)
        term = counts.take(token, is_object)
        if token.kind in ("PNAME", "PREFIXNAME") and counts.prefix is None:
            token = Token("IRI", term)
        result.append(token)
        state = after
    if not GRAMMAR.empty(state):
        raise Refused(REQUEST)
    if not any(token.kind == "DISTINCT" for token in result):
        raise Refused(NOT_IMPLEMENTED)
    return result


# --- the tree and its translation (SPARQL 1.1, section 18.2.2) ---

class Parser:
    """Reads the tokens of a text that is known to be a query."""

    def __init__(self, found):
        self.tokens, self.at = found + [Token("END", b"")], 0
        self.variables, self.in_patterns, self.terms = [], [], set()

    def peek(self):
        """The kind of the next token."""
        return self.tokens[self.at].kind

    def next(self):
        """Takes the next token."""
        self.at += 1
        return self.tokens[self.at - 1]

    def take(self, *kinds):
        """Takes the next token where it is one of these kinds."""
        return self.next() if self.peek() in kinds else None

    def variable(self, name):
        """The place of a variable in a solution."""
        if name not in self.variables:
            self.variables.append(name)
        return self.variables.index(name)

    def query(self):
        """A whole query: its columns are in the order of SELECT, each once."""
        while self.take("PREFIX"):
            self.next(), self.next()
        self.next(), self.take("DISTINCT")
        names = []
        while self.peek() in ("VAR", "*"):
            names.append(self.next())
        self.take("WHERE")
        part = simplify(self.group())
        if names[0].kind == "*":
            columns = self.in_patterns
        else:
            columns = list(dict.fromkeys(name.value for name in names))
        for name in columns:
            self.variable(name)
        return Query(self.variables, columns, part, self.terms)

    def group(self):
        """Translate a group: the FILTERs hold for the whole group, and patterns that only FILTERs part are one BGP."""
        self.next()
        part, filters, patterns = UNIT, [], []
        while not self.take("}"):
            kind = self.peek()
            if kind == "FILTER":
                self.next()
                filters.append(self.bracketed() if self.peek() == "(" else self.call())
            elif kind in ("OPTIONAL", "{"):
                part, patterns = self.close(part, patterns), []
                part = self.optional(part) if self.take("OPTIONAL") else Join(part, self.alternatives())
            elif not self.take("."):
                patterns += self.same()
        part = self.close(part, patterns)
        return Filter(("and", filters), part) if filters else part

    @staticmethod
    def close(part, patterns):
        """Joins the patterns so far as one basic graph pattern."""
        return Join(part, Bgp(tuple(patterns))) if patterns else part

    def optional(self, part):
        """The condition of a LeftJoin is the FILTER of the optional group itself."""
        right = self.group()
        if isinstance(right, Filter):
            return LeftJoin(part, right.part, right.condition)
        return LeftJoin(part, right, None)

    def alternatives(self):
        """Unions, from the left."""
        part = self.group()
        while self.take("UNION"):
            part = Union(part, self.group())
        return part

    def term(self):
        """A place of a pattern, or an argument: the number of a variable, or a term."""
        token = self.next()
        if token.kind == "VAR":
            return self.variable(token.value)
        term = {"IRI": (URI, token.value), "a": (URI, RDF_TYPE), "STRING": (LITERAL, token.value)}[token.kind]
        self.terms.add(term)
        return term

    def place(self):
        """A place of a pattern; its variable counts for `*`."""
        if self.peek() == "VAR" and self.tokens[self.at].value not in self.in_patterns:
            self.in_patterns.append(self.tokens[self.at].value)
        return self.term()

    def same(self):
        """The patterns of one subject."""
        subject, patterns = self.place(), []
        while True:
            if self.peek() in ("VAR", "IRI", "a"):
                verb = self.place()
                patterns.append((subject, verb, self.place()))
                while self.take(","):
                    patterns.append((subject, verb, self.place()))
            if not self.take(";"):
                return patterns

    def bracketed(self):
        """"(" Or ")" """
        self.next()
        condition = self.either()
        self.next()
        return condition

    def either(self):
        """Or"""
        parts = [self.both()]
        while self.take("||"):
            parts.append(self.both())
        return ("or", parts)

    def both(self):
        """And"""
        parts = [self.condition()]
        while self.take("&&"):
            parts.append(self.condition())
        return ("and", parts)

    def condition(self):
        """Cond"""
        if self.take("!"):
            return ("not", self.primary())
        first = self.primary()
        sign = self.take("=", "!=", "<", ">", "<=", ">=") if first[0] == "operand" else None
        return ("compare", sign.kind, first[1], self.operand()) if sign else first

    def primary(self):
        """Prim"""
        if self.peek() == "(":
            return self.bracketed()
        if self.peek() in ("VAR", "IRI", "STRING", "STR"):
            return ("operand", self.operand())
        return self.call()

    def operand(self):
        """Operand: ("term", place), or ("str", place)."""
        if not self.take("STR"):
            return ("term", self.term())
        self.next()
        place = self.term()
        self.next()
        return ("str", place)

    def call(self):
        """Call"""
        name = self.next().kind
        self.next()
        arguments = [self.operand()]
        while self.take(","):
            arguments.append(self.operand())
        self.next()
        return ("call", name, arguments)


def simplify(part):
    """The last step of the translation: a Join with the empty basic graph pattern is its other side.

    Joins stand in long rows to the left (thousands of `{}` are a query), so these are walked and not descended.
    """
    rights = []
    while isinstance(part, Join):
        rights.append(simplify(part.right))
        part = part.left
    if isinstance(part, Union):
        part = Union(simplify(part.left), simplify(part.right))
    elif isinstance(part, LeftJoin):
        part = LeftJoin(simplify(part.left), simplify(part.right), part.condition)
    elif isinstance(part, Filter):
        part = Filter(part.condition, simplify(part.part))
    for right in reversed(rights):
        part = right if part == UNIT else part if right == UNIT else Join(part, right)
    return part


def read(text):
    """The query that a text says; raises the status that refuses it."""
    return Parser(check(text)).query()


# --- truth: True, False, or None for an error ---

def value(operand, solution):
    """The term of an operand; None where it is unbound."""
    kind, place = operand
    term = solution[place] if isinstance(place, int) else place
    return (LITERAL, term[1]) if kind == "str" and term is not None else term


def truth(condition, solution):
    """The value of a condition on a solution."""
    kind = condition[0]
    if kind == "or":
        values = [truth(part, solution) for part in condition[1]]
        return True if True in values else None if None in values else False
    if kind == "and":
        values = [truth(part, solution) for part in condition[1]]
        return False if False in values else None if None in values else True
    if kind == "not":
        inner = truth(condition[1], solution)
        return None if inner is None else not inner
    if kind == "operand":
        term = value(condition[1], solution)
        return None if term is None or term[0] != LITERAL else term[1] != b""
    if kind == "compare":
        return compare(condition[1], value(condition[2], solution), value(condition[3], solution))
    return called(condition[1], [value(operand, solution) for operand in condition[2]])


def compare(sign, left, right):
    """The signs: equality of two terms, order of two literals."""
    if left is None or right is None:
        return None
    if sign in ("=", "!="):
        return (left == right) == (sign == "=")
    if left[0] != LITERAL or right[0] != LITERAL:
        return None
    one, two = left[1], right[1]
    return {"<": one < two, ">": one > two, "<=": one <= two, ">=": one >= two}[sign]


def called(name, terms):
    """The functions."""
    if name == "BOUND":
        return terms[0] is not None
    if None in terms:
        return None
    if name in ("ISIRI", "ISURI"):
        return terms[0][0] == URI
    if name == "ISLITERAL":
        return terms[0][0] == LITERAL
    if name == "SAMETERM":
        return terms[0] == terms[1]
    if terms[0][0] != LITERAL or terms[1][0] != LITERAL:
        return None
    return terms[1][1] in terms[0][1] if name == "CONTAINS" else terms[0][1].startswith(terms[1][1])


# --- solutions ---

class Evaluation:
    """The solutions of the parts of a query over a graph; raises OutOfResources where the width passes its limit."""

    def __init__(self, query, graph):
        self.size, self.graph, self.width = len(query.variables), graph, 0

    def room(self, count):
        """Whether `count` solutions of one part fit; the width is the sum over the parts."""
        if self.width + count > WIDTH_LIMIT:
            raise Refused(RESOURCES)

    def solve(self, part):
        """The set of solutions of a part, counted."""
        found = getattr(self, type(part).__name__.lower())(part)
        self.room(len(found))
        self.width += len(found)
        return found

    def union(self, part):
        """The solutions of either side."""
        return self.solve(part.left) | self.solve(part.right)

    def filter(self, part):
        """The solutions on which the condition is true."""
        return {s for s in self.solve(part.part) if truth(part.condition, s) is True}

    def join(self, part):
        """The merged pairs that are compatible."""
        found = set()
        for _, merged in self.pairs(self.solve(part.left), self.solve(part.right)):
            found.update(merged)
            self.room(len(found))
        return found

    def leftjoin(self, part):
        """The merged pairs on which the condition is true, and the left solutions that have none."""
        found = set()
        for left, merged in self.pairs(self.solve(part.left), self.solve(part.right)):
            kept = [s for s in merged if part.condition is None or truth(part.condition, s) is True]
            found.update(kept or [left])
            self.room(len(found))
        return found

    def pairs(self, lefts, rights):
        """For each left solution, itself and its merged pairs with the right ones."""
        keys = [i for i in range(self.size)
                if all(s[i] is not None for s in lefts) and all(s[i] is not None for s in rights)]
        buckets = {}
        for right in rights:
            buckets.setdefault(tuple(right[i] for i in keys), []).append(right)
        for left in lefts:
            merged = (merge(left, right) for right in buckets.get(tuple(left[i] for i in keys), []))
            yield left, [solution for solution in merged if solution is not None]

    def bgp(self, part):
        """The solutions of all patterns at once: a product over the parts that share no variables."""
        empty, found = (None,) * self.size, []
        for patterns in components(part.patterns):
            found.append(list(islice(self.graph.extend(empty, patterns), WIDTH_LIMIT + 1)))
        self.room(prod(map(len, found)))  # one list that is empty makes the product empty
        products = [empty]
        for solutions in found if all(found) else [[]]:
            products = [merge(one, two) for one in products for two in solutions]
        return set(products)


def merge(left, right):
    """Both solutions as one; None where they are not compatible."""
    result = []
    for one, two in zip(left, right):
        if one is not None and two is not None and one != two:
            return None
        result.append(two if one is None else one)
    return tuple(result)


def components(patterns):
    """The patterns by groups that share variables."""
    groups = []
    for pattern in patterns:
        names = {place for place in pattern if isinstance(place, int)}
        apart = [group for group in groups if not group[0] & names]
        joined = [group for group in groups if group[0] & names]
        groups = apart + [(names.union(*[g[0] for g in joined]), sum([g[1] for g in joined], []) + [pattern])]
    return [group[1] for group in groups]


def order(row):
    """Cell by cell: unbound first, then uris, then literals, each by the bytes of its text."""
    return [(-1, b"") if cell is None else cell for cell in row]


def answer(query, graph):
    """The columns and the distinct rows in order."""
    places = [query.variables.index(name) for name in query.columns]
    solutions = Evaluation(query, graph).solve(query.part)
    return sorted({tuple(s[place] for place in places) for s in solutions}, key=order)


def table(query, rows):
    """Rows as a table: an unbound cell has no binding."""
    return Table(query.columns, [[(name, cell) for name, cell in zip(query.columns, row) if cell is not None] for row in rows])
