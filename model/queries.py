"""Random queries in SPARQL over the vocabulary of the scripts: mostly with answers, some at a limit, some with a fault."""

SUBJECTS = ["s%d" % i for i in range(5)]
PREDICATES = ["p%d" % i for i in range(3)]
LITERALS = ["", "on", "off", "1", "10", "9", "one", "ö", "a\"b'c", "<x>&", "\t\r\n", "s1", "sib:any", "onö", "𝄞", "]]]x]]>", "]"]
PIECES = ["", "o", "on", "s", "s1", "1", "n", "ö", "e", "p", "]", "\""]
RDF_TYPE = "http://www.w3.org/1999/02/22-rdf-syntax-ns#type"
NAMES = ["a", "b", "c", "d", "e_1", "A"]
SIGNS = ["=", "!=", "<", ">", "<=", ">="]
STRAY = ["{", "}", "(", ")", ".", ";", ",", "*", "=", "!", "&&", "||", "<", "SELECT", "DISTINCT", "WHERE", "UNION", "OPTIONAL",
         "FILTER", "STR", "BOUND", "ISIRI", "a", "?a", "<s1>", "'x'", "p:x", "p:", "q:y", "_:b", "^", "PREFIX", "12", "\"x", "<>", "<a b>",
         "#", "REGEX", "\"\\u0041\"", "LIMIT", "@en", "|", "&", "-", "<=>", "BASE", "ASK"]


def quote(random, text):
    """A string token."""
    mark = random.choice("\"'")
    escapes = {"\\": "\\\\", "\n": "\\n", "\r": "\\r", mark: "\\" + mark}
    if random.random() < 0.5:
        escapes["\t"] = "\\t"
    return mark + "".join(escapes.get(c, c) for c in text) + mark


class Maker:
    """Makes the tokens of one query."""

    def __init__(self, random):
        self.random = random
        self.names = random.sample(NAMES, random.choice([1, 2, 3, 3, 4, 4, 5]))
        self.prefixed = random.random() < 0.3
        self.budget = random.randint(1, 4)

    def chance(self, share):
        return self.random.random() < share

    def variable(self):
        """A variable with either mark."""
        return self.random.choice("???$") + self.random.choice(self.names)

    def iri(self, text):
        """An IRI, or a prefixed name for it."""
        if self.prefixed and text[0] in "sp" and self.chance(0.6):
            return {"s": "s:", "p": ":"}[text[0]] + text[1:]
        return "<%s>" % text

    def subject(self):
        """Mostly the first variable, so that patterns join."""
        if self.chance(0.6):
            return [self.random.choice("?$") + self.names[0]]
        return [self.variable() if self.chance(0.8) else self.iri(self.random.choice(SUBJECTS))]

    def verb(self):
        if self.chance(0.12):
            return [self.random.choice(["a", "<%s>" % RDF_TYPE])]
        return [self.variable() if self.chance(0.25) else self.iri(self.random.choice(PREDICATES))]

    def object(self):
        """Mostly another variable than the first."""
        if self.chance(0.88):
            return [self.random.choice("?$") + self.random.choice(self.names[1:] or self.names)] if self.chance(0.9) else [self.variable()]
        if self.chance(0.5):
            return [self.iri(self.random.choice(SUBJECTS))]
        return [quote(self.random, self.random.choice(LITERALS))]

    def objects(self):
        tokens = self.object()
        while self.chance(0.12):
            tokens += [","] + self.object()
        return tokens

    def same(self):
        """Triple patterns of one subject."""
        tokens = self.subject() + self.verb() + self.objects()
        while self.chance(0.15):
            tokens += [";"] + (self.verb() + self.objects() if self.chance(0.8) else [])
        return tokens

    def triples(self):
        """One or two subjects."""
        tokens = self.same()
        while self.chance(0.2):
            tokens += ["."] + self.same()
        return tokens + (["."] if self.chance(0.3) else [])

    def group(self, depth=0):
        """A group."""
        tokens = ["{"] + (self.triples() if self.chance(0.9) else [])
        while self.budget > 0 and self.chance(0.7):
            self.budget -= 1
            tokens += self.element(depth)
            if self.chance(0.2):
                tokens.append(".")
            if self.chance(0.25):
                tokens += self.triples()
        return tokens + ["}"]

    def element(self, depth):
        """A union, an optional group or a filter."""
        kind = self.random.choice(["filter", "filter", "optional", "optional", "optional", "union", "union", "group"])
        if kind == "filter" or depth > 4:
            return self.filter()
        if kind == "optional":
            return ["OPTIONAL"] + self.filtered(depth + 1) if self.chance(0.4) else ["OPTIONAL"] + self.group(depth + 1)
        tokens = self.group(depth + 1)
        for _ in range(self.random.choice([1, 1, 1, 2, 3]) if kind == "union" else 0):
            tokens += ["UNION"] + self.group(depth + 1)
        return tokens

    def filtered(self, depth):
        """A group with a FILTER of its own, or with an inner group that has it."""
        inner = ["{"] + self.triples() + self.filter() + ["}"]
        return ["{"] + inner + ["}"] if self.chance(0.3) and depth < 4 else inner

    def filter(self):
        return ["FILTER"] + (self.call() if self.chance(0.3) else ["("] + self.either(2) + [")"])

    def either(self, depth):
        """A condition with || and &&."""
        tokens = self.condition(depth)
        while depth and self.chance(0.45):
            tokens += [self.random.choice(["||", "&&"])] + self.condition(depth - 1)
        return tokens

    def condition(self, depth):
        kind = self.random.randrange(6)
        if kind < 3:
            return self.operand() + ([self.random.choice(SIGNS)] + self.operand() if self.chance(0.8) else [])
        if kind == 3:
            return ["!"] + (["("] + self.either(depth - 1) + [")"] if depth > 0 and self.chance(0.5) else
                            self.call() if self.chance(0.6) else self.operand())
        if kind == 4 and depth > 0:
            return ["("] + self.either(depth - 1) + [")"]
        return self.call()

    def operand(self):
        tokens = [self.variable()] if self.chance(0.6) else self.object()
        return ["STR", "("] + tokens + [")"] if self.chance(0.2) else tokens

    def call(self):
        kind = self.random.randrange(3)
        if kind == 0:
            return ["BOUND", "(", self.variable(), ")"]
        if kind == 1:
            return [self.random.choice(["ISIRI", "ISURI", "ISLITERAL"]), "("] + self.operand() + [")"]
        if self.chance(0.3):
            return [self.random.choice(["SAMETERM", "CONTAINS", "STRSTARTS"]), "("] + self.operand() + [","] + self.operand() + [")"]
        text = ["STR", "(", self.variable(), ")"] if self.chance(0.5) else [self.variable()]
        piece = [quote(self.random, self.random.choice(PIECES))] if self.chance(0.8) else ["STR", "(", self.variable(), ")"]
        return [self.random.choice(["CONTAINS", "STRSTARTS"]), "("] + text + [","] + piece + [")"]

    def query(self):
        """All tokens of a query."""
        tokens = []
        if self.prefixed:
            tokens += ["PREFIX", "s:", "<x>"] if self.chance(0.1) else []
            tokens += ["PREFIX", "s:", "<s>", "PREFIX", ":", "<p>"]
        body = self.group()
        columns = [self.variable() for _ in range(self.random.randint(1, 3))] if self.chance(0.6) else ["*"]
        distinct = ["DISTINCT"] if self.chance(0.98) else []
        return tokens + ["SELECT"] + distinct + columns + (["WHERE"] if self.chance(0.5) else []) + body


SHAPES = [  # queries over ?a (a uri), ?b (of either kind) and ?c (perhaps unbound), with places for conditions
    "{ ?a <p0> ?b OPTIONAL { ?a <p1> ?c } FILTER(%s) }", "{ ?a <p0> ?b OPTIONAL { ?a <p1> ?c FILTER(%s) } }",
    "{ ?a <p0> ?b OPTIONAL { { ?a <p1> ?c FILTER(%s) } } }", "{ ?a <p0> ?b OPTIONAL { ?a <p1> ?c FILTER(%s) FILTER(%s) } }",
    "{ { ?a <p0> ?b FILTER(%s) } UNION { ?a <p1> ?c FILTER(%s) } }", "{ { ?a <p0> ?b } OPTIONAL { ?a <p1> ?c } FILTER(%s) FILTER(%s) }",
    "{ OPTIONAL { ?a <p1> ?c } OPTIONAL { ?d <p0> ?b FILTER(%s) } }", "{ ?a <p1> ?c { ?a <p0> ?b FILTER(%s) } FILTER(%s) }",
    "{ ?a <p0> ?b OPTIONAL { { ?a <p1> ?c } FILTER(%s) } }", "{ FILTER(%s) ?a <p0> ?b { {} UNION { ?a <p1> ?c } } }"]


def conditions(random):
    """A query whose rows show the truth of random conditions."""
    maker = Maker(random)
    maker.names, maker.prefixed = ["a", "b", "b", "c", "c"], False
    shape = random.choice(SHAPES)
    parts = [" ".join(maker.either(random.randint(0, 2))) for _ in range(shape.count("%s"))]
    return "SELECT DISTINCT ?a ?b ?c " + shape % tuple(parts)


KEYWORDS = {"PREFIX", "SELECT", "DISTINCT", "WHERE", "UNION", "OPTIONAL", "FILTER", "STR", "BOUND", "ISIRI", "ISURI", "ISLITERAL",
            "SAMETERM", "CONTAINS", "STRSTARTS"}


def render(random, tokens):
    """Tokens as a text, with white space, comments and cases of letters."""
    style = random.choice(["plain", "plain", "plain", "wild", "tight"])
    if style == "plain":
        return " ".join(tokens)
    pieces = []
    for token in tokens:
        if token in KEYWORDS and random.random() < 0.5:
            token = "".join(random.choice([c.lower(), c]) for c in token)
        pieces.append(token)
        if style == "tight":
            pieces.append("" if random.random() < 0.5 else " ")
        else:
            pieces.append(random.choice([" ", "\n", "\t", " \r\n", " # c } ?x <\n", " #\r", "  "]))
    return "".join(pieces)


def limit(random):
    """A query at a limit, or one past it."""
    more = random.randint(0, 1)
    kind = random.randrange(10)
    if kind == 0:
        names = ["?v%d" % i for i in range(16 + more)]
        return "SELECT DISTINCT %s { ?v0 <p0> ?v1 }" % " ".join(names)
    if kind == 1:
        return "SELECT DISTINCT * { ?a <p0> %s }" % " , ".join(["?b"] * (32 + more))
    if kind == 2:
        return "SELECT DISTINCT * { ?a <p0> ?b %s }" % " ".join(["OPTIONAL { ?a <p1> ?c }"] * (16 + more))
    if kind == 3:
        return "SELECT DISTINCT * { { ?a <p0> ?b } %s }" % " ".join(["UNION { ?a <p1> ?b }"] * (16 + more))
    if kind == 4:
        sign = random.choice(["||", "&&"])
        return "SELECT DISTINCT * { ?a <p0> ?b FILTER(%s) }" % (" " + sign + " ").join(["?b"] * (256 + more))
    if kind == 5:
        inner = random.choice(["?a <p0> ?b", "", "FILTER(?a)" if more else "?a ?b ?c"])
        return "SELECT DISTINCT * " + "{" * (16 + more) + inner + "}" * (16 + more)
    if kind == 6:
        depth = 15 + more
        return "SELECT DISTINCT * { ?a <p0> ?b FILTER " + "(" * depth + "?b" + ")" * depth + "}"
    if kind == 9:
        joined = " ".join(random.choice(["{}", "{}", "{}", "{ FILTER(?a) }", "{ ?a ?b ?c }"]) for _ in range(random.randint(1, 60)))
        return "SELECT DISTINCT * { %s %s }" % (joined, "{} " * random.choice([1, 3_000]))
    size = 4096 + more - random.choice([0, 0, 1])
    if kind == 7:
        return "PREFIX l:<%s> SELECT DISTINCT * { ?a <p0> %s }" % ("u" * (size - 2), random.choice(["l:xy", "'%s'" % ("é" * (size // 2))]))
    return "SELECT DISTINCT * { ?a <p0> ?b FILTER(?b = %s) }" % random.choice(["<%s>" % ("u" * size), "'%s'" % ("\\n" * size)])


def query(random):
    """A query: mostly right, some at a limit, some with a fault."""
    share = random.random()
    if share < 0.04:
        return limit(random)
    tokens = Maker(random).query()
    if share < 0.12:
        at = random.randrange(len(tokens))
        tokens[at:at + random.randint(0, 1)] = random.choice([[], [random.choice(STRAY)], [tokens[random.randrange(len(tokens))]]])
    iris = [i for i, token in enumerate(tokens) if token[0] == "<" and token[-1] == ">"]
    if iris and 0.15 <= share < 0.16:
        tokens[random.choice(iris)] = "<>"
    text = render(random, tokens)
    if 0.12 <= share < 0.15:
        at = random.randrange(len(text) + 1)
        text = text[:at] + random.choice(["", "x", " ", "?", "<", "<>", "\"", "#", ":", ".", "{", "}", "\n", "\\u", "^", "a"]) + text[at + random.randint(0, 1):]
    return text
