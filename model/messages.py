"""Messages: the grammar, an incremental reader with exact places of stops, and the canonical spelling.

Texts are bytes everywhere.  A term is a pair (kind, text) with the kinds URI, LITERAL, BNODE, so that pairs sort as answers do.
"""
import re
from collections import namedtuple
from functools import lru_cache

from viable import EMPTY, NONE, Grammar

MESSAGE_LIMIT = 4_194_304
URI, LITERAL, BNODE = 0, 1, 2
KINDS = {b"uri": URI, b"literal": LITERAL, b"bnode": BNODE}
KIND_NAMES = [b"uri", b"literal", b"bnode"]
HEADS = ["message_type", "transaction_type", "transaction_id", "node_id", "space_id"]
MESSAGE_TYPES = ["REQUEST", "CONFIRM", "INDICATION"]
TRANSACTIONS = ["JOIN", "LEAVE", "INSERT", "REMOVE", "UPDATE", "QUERY", "SUBSCRIBE", "UNSUBSCRIBE"]
XMLNS = "http://www.w3.org/2005/sparql-results#"
SPACES = b" \t\r\n"

Message = namedtuple("Message", "message_type transaction_type transaction_id node_id space_id parameters")
Parameter = namedtuple("Parameter", "name encoding content")
Triples = namedtuple("Triples", "rows")           # rows: (subject, predicate, object)
Table = namedtuple("Table", "columns rows")       # rows: lists of (name, term)


class MessageGrammar(Grammar):
    """The page's "The grammar of messages", production by production, over bytes."""

    def __init__(self):
        super().__init__()
        self.space = self.one(SPACES)
        self.ws = self.star(self.space)
        self.some_ws = self.plus(self.space)
        self.text = self.text_rule()
        self.message = self.message_rule()

    def ascii(self, text):
        """These characters, as they are."""
        return self.word(text.encode())

    def words(self, words):
        """One of some words."""
        return self.alt(*[self.ascii(word) for word in words])

    def char(self, without=b""):
        """A character that XML 1.0 allows (section 2.2), in UTF-8, other than some ASCII ones."""
        plain = set(range(0x20, 0x80)) | {9, 10, 13}
        tail = self.one(range(0x80, 0xC0))
        return self.alt(
            self.one(plain - set(without)),
            self.seq(self.one(range(0xC2, 0xE0)), tail),
            self.seq(self.one([0xE0]), self.one(range(0xA0, 0xC0)), tail),
            self.seq(self.one(set(range(0xE1, 0xEF)) - {0xED}), tail, tail),
            self.seq(self.one([0xED]), self.one(range(0x80, 0xA0)), tail),      # no surrogates
            self.seq(self.one([0xEF]), self.one(range(0x80, 0xBF)), tail),
            self.seq(self.one([0xEF]), self.one([0xBF]), self.one(range(0x80, 0xBE))),  # no U+FFFE, U+FFFF
            self.seq(self.one([0xF0]), self.one(range(0x90, 0xC0)), tail, tail),
            self.seq(self.one(range(0xF1, 0xF4)), tail, tail, tail),
            self.seq(self.one([0xF4]), self.one(range(0x80, 0x90)), tail, tail),
        )

    def reference(self):
        """The eight references."""
        return self.words(["&lt;", "&gt;", "&amp;", "&quot;", "&apos;", "&#9;", "&#10;", "&#13;"])

    def cdata(self):
        """A CDATA section: any characters up to the first `]]>`."""
        bracket = self.ascii("]")
        inner = self.alt(
            self.char(b"]"),
            self.seq(bracket, self.char(b"]")),
            self.seq(bracket, self.plus(bracket), self.char(b"]>")),
        )
        return self.seq(self.ascii("<![CDATA["), self.star(inner), bracket, self.plus(bracket), self.ascii(">"))

    def text_rule(self):
        """Characters other than `<` and `&`, references, and CDATA sections."""
        return self.star(self.alt(self.char(b"<&"), self.reference(), self.cdata()))

    def quoted(self, value):
        """A value in either quote; value(quote) is its expression."""
        return self.alt(*[self.seq(self.ascii(q), value(q), self.ascii(q)) for q in "\"'"])

    def attribute(self, name, value):
        """White space, the name, `=` with white space around, and the value in either quote."""
        return self.seq(self.some_ws, self.ascii(name), self.ws, self.ascii("="), self.ws, self.quoted(value))

    def free(self, name):
        """An attribute with any text that has neither its quote nor CDATA."""
        return self.attribute(
            name, lambda quote: self.star(self.alt(self.char(b"<&" + quote.encode()), self.reference())))

    def fixed(self, name, words):
        """An attribute with one of some words."""
        return self.attribute(name, lambda quote: self.words(words))

    def element(self, name, attributes, content):
        """An element; where the content may be empty, it may be self-closing."""
        start = self.seq(self.ascii("<" + name), attributes, self.ws)
        both = self.seq(self.ascii(">"), content, self.ascii("</" + name), self.ws, self.ascii(">"))
        return self.seq(start, self.alt(both, self.ascii("/>")) if self.empty(content) else both)

    def spaced(self, *items):
        """The items with white space before, between and behind them."""
        parts = [self.ws]
        for item in items:
            parts += [item, self.ws]
        return self.seq(*parts)

    def many(self, item):
        """Any number of an item with white space before, between and behind."""
        return self.seq(self.ws, self.star(self.seq(item, self.ws)))

    def types(self, words):
        """The attribute `type`: a word all in small letters or all in capitals."""
        return self.fixed("type", words + [word.upper() for word in words])

    def triple_list(self):
        """A list of triples."""
        triple = self.element("triple", EMPTY, self.spaced(
            self.element("subject", self.opt(self.types(["uri", "bnode"])), self.text),
            self.element("predicate", self.opt(self.types(["uri"])), self.text),
            self.element("object", self.types(["uri", "literal", "bnode"]), self.text)))
        return self.element("triple_list", EMPTY, self.many(triple))

    def table(self):
        """A table of the SPARQL Query Results XML Format."""
        variable = self.element("variable", self.free("name"), self.ws)
        term = self.alt(*[self.element(kind, EMPTY, self.text) for kind in ("uri", "literal", "bnode")])
        binding = self.element("binding", self.free("name"), self.spaced(term))
        result = self.element("result", EMPTY, self.many(binding))
        return self.element("sparql", self.opt(self.fixed("xmlns", [XMLNS])), self.spaced(
            self.element("head", EMPTY, self.many(variable)), self.element("results", EMPTY, self.many(result))))

    def parameter(self):
        """`name` and perhaps `encoding`, in either order; a text, a list of triples, or a table."""
        name, encoding = self.free("name"), self.free("encoding")
        attributes = self.alt(self.seq(name, self.opt(encoding)), self.seq(encoding, name))
        content = self.alt(self.text, self.spaced(self.triple_list()), self.spaced(self.table()))
        return self.element("parameter", attributes, content)

    def declaration(self):
        """`<?xml version="1.0"?>`, perhaps with an encoding."""
        return self.seq(self.ascii("<?xml"), self.fixed("version", ["1.0"]),
                        self.opt(self.fixed("encoding", ["UTF-8", "utf-8"])), self.ws, self.ascii("?>"), self.ws)

    def message_rule(self):
        """An optional declaration, and the element with its heads and parameters in any order."""
        contents = [self.spaced(self.words(MESSAGE_TYPES)), self.spaced(self.words(TRANSACTIONS)), self.text, self.text, self.text]
        heads = [self.seq(self.element(name, EMPTY, content), self.ws) for name, content in zip(HEADS, contents)]
        items = self.every(heads, self.seq(self.parameter(), self.ws))
        return self.seq(self.opt(self.declaration()), self.element("SSAP_message", EMPTY, self.seq(self.ws, items)))


GRAMMAR = MessageGrammar()


class Automaton:
    """The derivatives of a grammar as a table, filled where it is needed."""

    def __init__(self, grammar):
        self.grammar = grammar
        self.tables = {}
        self.runs = {}

    def table(self, state):
        """The known steps of a state, by byte; None where not yet computed."""
        row = self.tables.get(state)
        if row is None:
            row = self.tables[state] = [None] * 256
        return row

    def loop(self, state):
        """A pattern of the bytes that leave a state as it is."""
        pattern = self.runs.get(state)
        if pattern is None:
            same = [b for b in range(256) if self.grammar.step(state, b) == state]
            pattern = self.runs[state] = re.compile(b"[" + b"".join(b"\\x%02x" % b for b in same) + b"]*")
        return pattern

    def run(self, state, data, at, end):
        """Steps until the state is EMPTY (a message is whole), NONE (the byte at the place faults), or `end`."""
        tables, step = self.tables, self.grammar.step
        while at < end:
            row = tables.get(state) or self.table(state)
            after = row[data[at]]
            if after is None:
                after = row[data[at]] = step(state, data[at])
            if after == NONE:
                return NONE, at
            at += 1
            if after == state:
                at = self.loop(state).match(data, at, end).end()
            elif after == EMPTY:
                return EMPTY, at
            state = after
        return state, at


AUTOMATON = Automaton(GRAMMAR)


class Reader:
    """Reads a stream of messages in pieces of any size.

    `feed` yields ("message", P, bytes) for each whole message, and at most one ("syntax", P) or ("long", P), the stop.
    """

    def __init__(self):
        self.offset = 0        # of the next byte of the stream
        self.state = None      # None between two messages
        self.start = 0         # of the message that has begun
        self.buffer = bytearray()

    def feed(self, data):
        """Takes a piece. Each message is handed on before the next one is parsed."""
        at = 0
        while at < len(data):
            if self.state is None:
                at = self.skip(data, at)
                if at == len(data):
                    return
            at, event = self.go_on(data, at)
            if event:
                yield event
                if event[0] != "message":
                    return

    def skip(self, data, at):
        """Passes over white space; then a message begins."""
        begin = at
        while at < len(data) and data[at] in SPACES:
            at += 1
        self.offset += at - begin
        if at < len(data):
            self.state, self.start, self.buffer = GRAMMAR.message, self.offset, bytearray()
        return at

    def go_on(self, data, at):
        """Goes on inside a message, to its end, a stop, or the end of the piece."""
        end = min(len(data), at + MESSAGE_LIMIT - len(self.buffer))
        if end == at:  # MESSAGE_LIMIT bytes are taken, and the message is unfinished
            fits = GRAMMAR.step(self.state, data[at]) != NONE
            return at, ("long", self.start) if fits else ("syntax", self.offset)
        self.state, after = AUTOMATON.run(self.state, data, at, end)
        self.buffer += data[at:after]
        self.offset += after - at
        if self.state == NONE:
            return after, ("syntax", self.offset)
        if self.state == EMPTY:
            self.state = None
            return after, ("message", self.start, bytes(self.buffer))
        return after, None

    def cut(self):
        """Where the input ends now: None between two messages, else the start of the message that is cut."""
        return None if self.state is None else self.start


TOKEN = re.compile(
    rb"<\?.*?\?>|<!\[CDATA\[(?P<cdata>.*?)\]\]>|</(?P<close>\w+)\s*>"
    rb"|<(?P<open>\w+)(?P<attrs>(?:\s+\w+\s*=\s*(?:\"[^\"]*\"|'[^']*'))*)\s*(?P<self>/?)>|(?P<text>[^<]+)", re.S)
ATTRIBUTE = re.compile(rb"(\w+)\s*=\s*(?:\"([^\"]*)\"|'([^']*)')", re.S)
REFERENCE = re.compile(rb"&[^;]*;")
REFERENCES = {b"&lt;": b"<", b"&gt;": b">", b"&amp;": b"&", b"&quot;": b'"', b"&apos;": b"'",
              b"&#9;": b"\t", b"&#10;": b"\n", b"&#13;": b"\r"}


class Element:
    """An element of a message that is known to be whole and right."""

    def __init__(self, name, attributes):
        self.name, self.attributes, self.children, self.pieces = name, attributes, [], []

    def text(self):
        """The text with its references and CDATA sections resolved."""
        return b"".join(self.pieces)


def resolve(text):
    """A text with its references resolved."""
    return REFERENCE.sub(lambda found: REFERENCES[found.group()], text) if b"&" in text else text


def tree(data):
    """The element SSAP_message of a message."""
    top = Element(b"", {})
    path = [top]
    for token in TOKEN.finditer(data):
        if token.group("open"):
            pairs = ATTRIBUTE.findall(token.group("attrs"))
            element = Element(token.group("open"), {name: resolve(one or two) for name, one, two in pairs})
            path[-1].children.append(element)
            if not token.group("self"):
                path.append(element)
        elif token.group("close"):
            path.pop()
        elif token.group("text"):
            path[-1].pieces.append(resolve(token.group("text")))
        elif token.group("cdata"):
            path[-1].pieces.append(token.group("cdata"))
    return top.children[0]


def term_of(element):
    """The term of a subject, a predicate or an object: a uri where no type says another kind."""
    return (KINDS[element.attributes.get(b"type", b"uri").lower()], element.text())


def content_of(element):
    """The content of a parameter: a list or a table where one stands in it, else a text."""
    if not element.children:
        return element.text()
    child = element.children[0]
    if child.name == b"triple_list":
        return Triples([tuple(term_of(term) for term in triple.children) for triple in child.children])
    head, results = child.children
    columns = [variable.attributes[b"name"] for variable in head.children]
    return Table(columns, [[(b.attributes[b"name"], (KINDS[b.children[0].name], b.children[0].text()))
                            for b in row.children] for row in results.children])


def parse(data):
    """The message that the bytes of a whole message say."""
    heads, parameters = {}, []
    for item in tree(data).children:
        if item.name == b"parameter":
            parameters.append(Parameter(item.attributes[b"name"], item.attributes.get(b"encoding"), content_of(item)))
        else:
            heads[item.name.decode()] = item.text()
    for name in ("message_type", "transaction_type"):
        heads[name] = heads[name].strip(SPACES)
    return Message(*[heads[name] for name in HEADS], parameters)


ESCAPE = re.compile(b"[&<>\"\t\n\r]")
ESCAPES = {b"&": b"&amp;", b"<": b"&lt;", b">": b"&gt;", b'"': b"&quot;", b"\t": b"&#9;", b"\n": b"&#10;", b"\r": b"&#13;"}


@lru_cache(4_096)
def escape(text):
    """A text in the canonical spelling: seven characters as references, and no others."""
    return ESCAPE.sub(lambda found: ESCAPES[found.group()], text)


def spell_triple(triple):
    """A triple in the canonical spelling."""
    (skind, stext), (_, ptext), (okind, otext) = triple
    return b'<triple><subject type="%s">%s</subject><predicate>%s</predicate><object type="%s">%s</object></triple>' % (
        KIND_NAMES[skind], escape(stext), escape(ptext), KIND_NAMES[okind], escape(otext))


def spell_row(row):
    """A row of a table in the canonical spelling."""
    return b"<result>" + b"".join(
        b'<binding name="%s"><%s>%s</%s></binding>' % (escape(name), KIND_NAMES[kind], escape(text), KIND_NAMES[kind])
        for name, (kind, text) in row) + b"</result>"


def spell_content(content):
    """The content of a parameter in the canonical spelling."""
    if isinstance(content, Triples):
        return b"<triple_list>" + b"".join(map(spell_triple, content.rows)) + b"</triple_list>"
    if isinstance(content, Table):
        head = b"".join(b'<variable name="%s"/>' % escape(name) for name in content.columns)
        return b'<sparql xmlns="%s"><head>%s</head><results>%s</results></sparql>' % (
            XMLNS.encode(), head, b"".join(map(spell_row, content.rows)))
    return escape(content)


def spell_parameter(parameter):
    """A parameter in the canonical spelling."""
    encoding = b"" if parameter.encoding is None else b' encoding="%s"' % escape(parameter.encoding)
    return b'<parameter name="%s"%s>%s</parameter>' % (escape(parameter.name), encoding, spell_content(parameter.content))


def spell(message):
    """A message in the canonical spelling: the heads in their order, and then the parameters in theirs."""
    heads = b"".join(b"<%s>%s</%s>" % (name.encode(), escape(value), name.encode())
                     for name, value in zip(HEADS, message))
    return b"<SSAP_message>%s%s</SSAP_message>" % (heads, b"".join(map(spell_parameter, message.parameters)))
