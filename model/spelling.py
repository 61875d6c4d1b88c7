"""Free spellings of messages, and faults: what the grammar allows beside the canonical spelling, and what it does not."""
import messages
from messages import HEADS, KIND_NAMES, Table, Triples, XMLNS

WHITE = [" ", "\n", "\t", "\r\n", "  ", "\r"]
REFERENCES = {"&": "&amp;", "<": "&lt;", ">": "&gt;", '"': "&quot;", "'": "&apos;", "\t": "&#9;", "\n": "&#10;", "\r": "&#13;"}
ODD_BYTES = [b"<", b">", b"&", b'"', b"'", b"/", b"]", b"!", b"?", b"=", b" ", b"a", b"T", b"p", b"s", b"</", b"/>", b"]]>", b"<!--", b"<?",
             b"<![CDATA[", b"<triple>", b"<parameter name='x'>", b"<transaction_id>", b"type='uri'", b" name='x'", b" encoding=''"]
ODD_TEXTS = [b"\x00", b"\x0b", b"\x1f", b"\x7f", b"\x80", b"\xbf", b"\xc0", b"\xc1", b"\xc3", b"\xc3<", b"\xe0\x80", b"\xe0\xa0", b"\xed\xa0", b"\xed\x9f\xbf",
             b"\xef\xbf\xbe", b"\xef\xbf\xbf", b"\xef\xbf\xbd", b"\xef\xbb\xbf", b"\xf0\x8f", b"\xf0\x9f\x98\x80", b"\xf4\x90", b"\xf4\x8f\xbf\xbf",
             b"\xf5", b"\xff", b"&#1", b"&#11;", b"&#9;", b"&#x9;", b"&#013;", b"&lt", b"&apos;", b"&apo;", b"&nbsp;", b"&amp", b"<![CDATA[]]]x]]]]>",
             b"<![CDATA[<&\x0c]]>", b"<![CDATA[\xc3]]>\xb6", b"]]>", b"<![cdata[]]>", b"\xe2\x82<![CDATA[\xac]]>"]
ODD_DECLARATIONS = [b"<?xml version='1.0' encoding='Utf-8'?>", b"<?xml version='1.1'?>", b"<?xml version='1.0' standalone='yes'?>", b"<?XML", b"<?xml ?>",
                    b"<?xml encoding='UTF-8' version='1.0'?>", b"<?xml version='1.0'encoding='UTF-8'?>", b"<?xml\tversion\n=\r'1.0' ?>\n", b"<?xml version='1.0'>",
                    b"<?xml version='1.0'?><?xml", b"<?xml version='1.0'?> x", b"<?xml version='1.0' encoding='utf-8' encoding", b"<?xml version='1.&#48;'?>",
                    b"<?xml version='1.0\"?>", b"<?xmlversion='1.0'?>", b"<? xml", b" \r\n<?xml version=\"1.0\" encoding=\"UTF-8\"?>"]


class Speller:
    """Spells one message; `freedom` is how often it leaves the canonical spelling."""

    def __init__(self, random, freedom):
        self.random, self.freedom = random, freedom

    def free(self):
        """Whether to leave the canonical spelling here."""
        return self.random.random() < self.freedom

    def white(self, least=0):
        """White space, at least so many."""
        count = least + (self.random.randint(0, 2) if self.free() else 0)
        return "".join(self.random.choice(WHITE) for _ in range(count)) if self.freedom else " " * least

    def text(self, data):
        """A text with references and CDATA sections."""
        text = data.decode()
        if not self.freedom:
            return messages.escape(data).decode()
        pieces, at = [], 0
        while at < len(text):
            size = self.random.randint(1, 12)
            piece, at = text[at:at + size], at + size
            pieces.append("<![CDATA[%s]]>" % piece if self.free() and "]]>" not in piece else self.plain(piece, "<&"))
            if self.free() and self.free():
                pieces.append("<![CDATA[]]>")
        return "".join(pieces) or ("<![CDATA[]]>" if self.free() else "")

    def plain(self, text, must):
        """Characters, those that must as references, and some others too."""
        return "".join(REFERENCES[c] if c in must or (c in REFERENCES and self.free()) else c for c in text)

    def attribute(self, name, value):
        """An attribute in either quote."""
        quote = "'" if self.free() else '"'
        equals = self.white() + "=" + self.white()
        return self.white(1) + name + equals + quote + self.plain(value.decode(), "<&" + quote) + quote

    def element(self, name, attributes, content, closing=True):
        """An element; where the content is empty perhaps self-closing."""
        pairs = [self.attribute(*pair) for pair in attributes]
        if self.free():
            self.random.shuffle(pairs)
        start = "<" + name + "".join(pairs) + self.white()
        if closing and not content.strip(" \t\r\n") and content == "" and self.free():
            return start + "/>"
        return start + ">" + content + "</" + name + self.white() + ">"

    def spaced(self, items):
        """Items with white space around."""
        return self.white() + "".join(item + self.white() for item in items)

    def term(self, name, term, needed):
        """A term of a triple."""
        kind = KIND_NAMES[term[0]]
        attributes = [("type", kind.upper() if self.free() else kind)]
        if not needed and term[0] == messages.URI and self.free():
            attributes = []
        return self.element(name, attributes, self.text(term[1]))

    def content(self, content):
        """The content of a parameter."""
        if isinstance(content, bytes):
            return self.text(content)
        if isinstance(content, Triples):
            rows = [self.element("triple", [], self.spaced([
                self.term("subject", s, False), self.term("predicate", p, False), self.term("object", o, True)]), False)
                for s, p, o in content.rows]
            return self.spaced([self.element("triple_list", [], self.spaced(rows) if rows else self.white())])
        return self.spaced([self.table(content)])

    def table(self, table):
        """A table."""
        head = [self.element("variable", [("name", name)], self.white() if self.free() else "") for name in table.columns]
        rows = [self.element("result", [], self.spaced([
            self.element("binding", [("name", name)], self.spaced(
                [self.element(KIND_NAMES[kind].decode(), [], self.text(text))]), False)
            for name, (kind, text) in row]) if row else "") for row in table.rows]
        attributes = [] if self.free() else [("xmlns", XMLNS.encode())]
        parts = [self.element("head", [], self.spaced(head) if head else ""),
                 self.element("results", [], self.spaced(rows) if rows else "")]
        return self.element("sparql", attributes, self.spaced(parts), False)

    def message(self, message):
        """The whole message."""
        words = HEADS[:2]
        items = [self.element(name, [], (self.white() + value.decode() + self.white()) if name in words else self.text(value),
                              name not in words) for name, value in zip(HEADS, message)]
        for parameter in message.parameters:
            attributes = [("name", parameter.name)]
            if parameter.encoding is not None:
                attributes.append(("encoding", parameter.encoding))
            items.append(self.element("parameter", attributes, self.content(parameter.content)))
        if self.free():
            self.random.shuffle(items)
        whole = "<SSAP_message" + self.white() + ">" + self.spaced(items) + "</SSAP_message" + self.white() + ">"
        return ((self.declaration() if self.free() and self.free() else "") + whole).encode()

    def declaration(self):
        """A declaration."""
        encoding = self.attribute("encoding", self.random.choice([b"UTF-8", b"utf-8"])) if self.free() else ""
        return "<?xml" + self.attribute("version", b"1.0") + encoding + self.white() + "?>" + self.white()


def spell(random, message):
    """A message, canonical or free."""
    return Speller(random, random.choice([0, 0, 0.1, 0.3, 0.6])).message(message)


def damage(random, data):
    """Bytes with one odd thing at a random place, mostly a fault."""
    kind = random.randrange(8)
    places = [i for i in range(1, len(data)) if data[i:i + 1] in b"<>&\"'=/]"] or [0]
    at = random.choice(places) if kind > 3 else random.randrange(len(data) + 1)
    odd = random.choice(ODD_TEXTS if kind in (0, 4, 5) else ODD_BYTES)
    if kind == 1:
        return data[:at] + data[at + 1:]
    if kind == 2:
        return data[:at] + data[random.randrange(len(data)):]
    if kind == 5:  # in a text or the value of an attribute
        at = random.choice([i for i in places if data[i - 1:i] not in b"<>" or data[i - 2:i] == b"><"] or places)
    return data[:at] + odd + data[at + (kind in (3, 6)):]
