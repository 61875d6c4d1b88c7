"""Random scripts and streams from a seed: mostly meaningful, with faults mixed in.

`script(seed)` hands back the name of the space and the bytes of a script; `stream(seed)` the bytes of a stream of messages.
`python3 model/generate.py SEED [stream]` writes one of them to standard output.
"""
import random
import sys

import extremes
import queries
import spelling
from messages import BNODE, LITERAL, URI, Message, Parameter, Table, Triples

NODES = [b"k", b"n", "k\u00f6 <&>".encode(), b" k ", b"\"'\t]]>"]
WILD = [b"sib:any", b"http://www.nokia.com/NRC/M3/sib#any"]
OTHER_NAMES = [b"confirm", b"status", b"results", b"credentials", b"insert_graph", b"remove_graph", b"type", b"query",
               b"subscription_id", b"Type", b"", b"x<'\"&>"]
ODD_CONFIRMS = [b"True", b"True", b"False", b"", b" TRUE", b"TRUE ", b"yes", b"fALSE", b"FALSE", b"true", Triples([])]
KINDS = ["INSERT"] * 8 + ["UPDATE"] * 5 + ["REMOVE"] * 3 + ["QUERY"] * 8 + ["SUBSCRIBE"] * 6 + ["UNSUBSCRIBE"] * 2 + ["JOIN"] * 2 + ["LEAVE"]


class Requests:
    """Makes requests and their faults."""

    def __init__(self, chooser, space):
        self.random, self.space, self.count = chooser, space, 0
        self.nodes = [NODES[0]]  # those that have joined, as far as the maker knows
        self.known, self.owners = [], []  # triples that were inserted, and the nodes of subscriptions

    def chance(self, share):
        return self.random.random() < share

    def uri(self, names):
        return (URI, self.random.choice(names).encode())

    def subject(self):
        return self.uri(queries.SUBJECTS)

    def predicate(self):
        return (URI, queries.RDF_TYPE.encode()) if self.chance(0.15) else self.uri(queries.PREDICATES)

    def object(self):
        return self.subject() if self.chance(0.4) else (LITERAL, self.random.choice(queries.LITERALS).encode())

    def triple(self):
        return (self.subject(), self.predicate(), self.object())

    def pattern(self, share):
        """A triple, mostly one that was inserted, with wildcards."""
        triple = self.random.choice(self.known) if self.known and self.chance(0.7) else self.triple()
        return tuple((URI, self.random.choice(WILD)) if self.chance(share) else term for term in triple)

    def triples(self, most=5):
        rows = [self.triple() for _ in range(self.random.randint(0 if self.chance(0.1) else 1, most))]
        self.known = (self.known + rows)[-40:]
        return Triples(rows)

    def patterns(self, share=0.5):
        return Triples([self.pattern(share) for _ in range(self.random.randint(0 if self.chance(0.1) else 1, 3))])

    def graph(self, name, content):
        """A graph with or without its encoding."""
        return Parameter(name, self.random.choice([None, b"RDF-M3", b"rdf-m3", b"Rdf-M3"]), content)

    def body(self, kind):
        """The parameters of a request of a kind."""
        if kind == "JOIN":
            return [Parameter(b"credentials", None, b"secret")] if self.chance(0.2) else []
        if kind in ("QUERY", "SUBSCRIBE"):
            return self.question()
        if kind == "UNSUBSCRIBE":
            return [Parameter(b"subscription_id", None, self.subscription())]
        found = []
        if kind in ("INSERT", "UPDATE"):
            found.append(self.graph(b"insert_graph", self.triples(5 if len(self.known) > 12 else 20)))
        if kind in ("REMOVE", "UPDATE"):
            found.append(self.graph(b"remove_graph", self.patterns()))
        if found and self.chance(0.15):
            found.append(Parameter(b"confirm", None, self.random.choice([b"TRUE", b"true", b"FALSE", b"false"])))
        return found

    def question(self):
        """The parameters of a query of either type."""
        if self.chance(0.3):
            return [Parameter(b"type", None, self.random.choice([b"RDF-M3", b"rdf-M3"])),
                    Parameter(b"query", None, self.patterns(self.random.choice([0.3, 0.7, 0.7, 1])))]
        return [Parameter(b"type", None, self.random.choice([b"sparql", b"SPARQL", b"Sparql"])),
                Parameter(b"query", None, queries.query(self.random).encode())]

    def subscription(self):
        """The number of a subscription, mostly one that was made."""
        number = self.random.randint(1, max(1, len(self.owners)))
        forms = [b"%d", b"%d", b"%d", b"%d", b"%d", b"%d", b"0%d", b"+%d", b"%d ", b"%d0"]
        return self.random.choice(forms) % number if self.chance(0.95) else b""

    def request(self, kind=None, node=None):
        """A right request."""
        kind = kind or self.random.choice(KINDS)
        self.count += 1
        node = node or self.random.choice(NODES if kind == "JOIN" or self.chance(0.04) else self.nodes)
        if kind == "SUBSCRIBE":
            self.owners.append(node)
        if kind == "UNSUBSCRIBE" and self.owners and self.chance(0.8):
            node = self.random.choice(self.owners)
        if kind == "JOIN" and node not in self.nodes:
            self.nodes.append(node)
        if kind == "LEAVE" and node in self.nodes and len(self.nodes) > 1:
            self.nodes.remove(node)
        parameters = self.body(kind)
        if self.chance(0.2):
            self.random.shuffle(parameters)
        identifier = b"%d" % self.count if self.chance(0.9) else self.random.choice([b"a&b", b" ", "\u00fc\r\n".encode()])
        return Message(b"REQUEST", kind.encode(), identifier, node, self.space, parameters)

    def faulty(self):
        """A request with one or two faults."""
        message = self.request()
        for _ in range(1 if self.chance(0.8) else 2):
            message = self.random.choice([self.head_fault, self.name_fault, self.name_fault, self.content_fault, self.content_fault,
                                          self.term_fault, self.term_fault, self.term_fault])(message)
        return message

    def head_fault(self, message):
        """A wrong space, a node that has not joined, an id of an odd length, or no request."""
        name, value = self.random.choice([
            ("space_id", b"Y"), ("space_id", b"y" * 1024), ("node_id", b"stranger"), ("node_id", b"q" * 1024),
            ("transaction_id", "\u00e9".encode() * 512), ("space_id", b""), ("node_id", b""), ("transaction_id", b""),
            ("node_id", b"q" * 1025), ("transaction_id", b"&" * 1025), ("space_id", b"z" * 1025),
            ("message_type", b"CONFIRM"), ("message_type", b"INDICATION")])
        return message._replace(**{name: value})

    def name_fault(self, message):
        """A parameter is missing, doubled, unknown or renamed."""
        parameters, kind = list(message.parameters), self.random.randrange(4)
        at = self.random.randrange(len(parameters)) if parameters else None
        if kind == 0 and parameters:
            del parameters[at]
        elif kind == 1 and parameters:
            parameters.insert(self.random.randint(0, len(parameters)), parameters[at])
        elif kind == 2 and parameters:
            parameters[at] = parameters[at]._replace(name=self.random.choice(OTHER_NAMES))
        else:
            parameters.append(Parameter(self.random.choice(OTHER_NAMES), None, b"TRUE"))
        return message._replace(parameters=parameters)

    def content_fault(self, message):
        """A parameter is wrongly filled, or its encoding is another."""
        parameters = list(message.parameters)
        if not parameters:
            return message._replace(parameters=[Parameter(b"credentials", b"x", self.triples())])
        at = self.random.randrange(len(parameters))
        if self.chance(0.3):
            parameters[at] = parameters[at]._replace(encoding=self.random.choice([b"", b"RDF-XML", b"RDF-M3 ", b"rdf-m3"]))
        names = [parameter.name for parameter in parameters]
        if message.transaction_type in (b"INSERT", b"UPDATE", b"REMOVE") and b"confirm" not in names and self.chance(0.4):
            parameters.append(Parameter(b"confirm", self.random.choice([None, b"x"]), self.random.choice(ODD_CONFIRMS)))
        elif self.chance(0.8):
            content = self.random.choice([b"", b" ", b"True", b"sparql", b"RDF-M3", b"wql", b"SELECT DISTINCT * {}", self.triples(),
                                          Table([b"a"], [[(b"a", (URI, b"x"))]]), Triples([])])
            parameters[at] = parameters[at]._replace(content=content)
        return message._replace(parameters=parameters)

    def term_fault(self, message):
        """A list has a bnode, an empty uri, a wildcard, a term of an odd length, or many triples."""
        parameters = list(message.parameters)
        places = [i for i, parameter in enumerate(parameters) if isinstance(parameter.content, Triples)]
        if not places:
            return self.content_fault(message)
        at = self.random.choice(places)
        rows = list(parameters[at].content.rows) or [self.triple()]
        if self.chance(0.15):
            rows += [self.triple() for _ in range(self.random.choice([32, 33]) - len(rows))]
        else:
            row = self.random.randrange(len(rows))
            rows[row] = self.odd_triple(rows[row])
        parameters[at] = parameters[at]._replace(content=Triples(rows))
        return message._replace(parameters=parameters)

    def odd_triple(self, row):
        """A triple with an odd term."""
        place = self.random.randrange(3)
        kinds = [[URI, BNODE], [URI], [URI, LITERAL, BNODE]][place]
        text = self.random.choice([b"", b"x", b"sib:any", b"x" * 4096, b"x" * 4097, "\u00e9".encode() * 2048, WILD[1]])
        return row[:place] + ((self.random.choice(kinds), text),) + row[place + 1:]


class Story:
    """A script in the making: links, what is not yet delivered on each, and the entries so far."""

    def __init__(self, seed):
        self.random = random.Random(seed)
        self.space = self.random.choice([b"X"] * 8 + ["sp \u00f6<&>'\"".encode(), b"s" * 1024])
        self.requests = Requests(self.random, self.space)
        self.entries, self.links, self.rest = [], 0, {}
        self.faults = self.random.choice([0.03, 0.1, 0.1, 0.1, 0.5])

    def chance(self, share):
        return self.random.random() < share

    def open(self):
        """The next link opens."""
        self.entries.append(b"+\n")
        self.links += 1
        self.rest[self.links] = b""
        return self.links

    def deliver(self, link, data):
        """Bytes on a link: in pieces, and perhaps not the last ones yet."""
        data = self.rest.get(link, b"") + data
        while data:
            size = min(len(data), 65_536)
            if self.chance(0.2):
                size = min(size, self.random.randint(0 if self.chance(0.1) else 1, max(1, len(data))))
            if size < len(data) and self.chance(0.2) and len(data) < 65_536:
                break
            self.entries.append(b">%d %d\n%s\n" % (link, size, data[:size]))
            data = data[size:]
        if link in self.rest:
            self.rest[link] = data

    def say(self, link, message):
        """A message on a link, rarely with a fault of the grammar."""
        data = spelling.spell(self.random, message)
        if self.chance(0.2):
            data = self.random.choice([b" ", b"\n", b"\r\n\t", b""]) + data + b"\n"
        if self.chance(0.04):
            data = spelling.damage(self.random, data)
            self.deliver(link, data)
            self.rest.pop(link, None)
            return
        self.deliver(link, data)

    def live(self):
        """A link on which something may be said."""
        if not self.rest:
            self.open()
        return self.random.choice(list(self.rest))

    def step(self):
        """One thing that happens."""
        share = self.random.random()
        if share < 0.02:
            self.open()
        elif share < 0.04:
            link = self.live()
            if self.chance(0.5):
                data = spelling.spell(self.random, self.requests.request())
                self.deliver(link, data[:self.random.randint(1, len(data))])
            self.entries.append(b"-%d\n" % link)
            del self.rest[link]
        elif share < 0.055:
            link = self.random.choice([self.links + 1, 4_294_967_295, max(1, self.links), 1])
            self.entries.append(self.random.choice([b"-%d\n" % link, b">%d 0\n\n" % link, b">%d 3\n+\n>\n" % link]))
            self.rest.pop(link, None)
        elif share < 0.055 + self.faults:
            link, message = self.live(), self.requests.faulty()
            self.say(link, message)
            ids = message[2:5]
            if message.message_type != b"REQUEST" or any(not 1 <= len(text) <= 1024 for text in ids):
                self.rest.pop(link, None)
        else:
            message = self.requests.request()
            self.say(self.live(), message)
            if message.transaction_type == b"LEAVE" and self.chance(0.9):
                self.say(self.live(), self.requests.request("JOIN", message.node_id))

    def faults_alone(self):
        """Many links with one damaged message each, and perhaps another one behind it."""
        for _ in range(self.random.randint(20, 80)):
            link = self.open()
            data = spelling.damage(self.random, spelling.spell(self.random, answer_like(self.requests, self.random)))
            if self.chance(0.1):
                data = self.random.choice(spelling.ODD_DECLARATIONS) + data
            self.deliver(link, data + (spelling.spell(self.random, self.requests.request("JOIN")) if self.chance(0.3) else b""))
            self.entries.append(b"-%d\n" % link if self.chance(0.8) else b"")
        return b"".join(self.entries)

    def tell(self):
        """The whole story."""
        if self.chance(0.05):
            return self.faults_alone()
        for _ in range(self.random.choice([1, 1, 2, 3, 5])):
            self.open()
        for node in NODES[:self.random.choice([1, 1, 2, 5])]:
            self.say(self.live(), self.requests.request("JOIN", node))
        for _ in range(self.random.choice([2, 3])):
            self.say(self.live(), self.requests.request("INSERT", NODES[0]))
        for _ in range(self.random.choice([10, 20, 30, 60])):
            self.step()
        for link, data in self.rest.items():
            if data and self.chance(0.8):
                self.entries.append(b">%d %d\n%s\n" % (link, len(data), data) if len(data) <= 65_536 else b"")
        return b"".join(self.entries)


def corrupt(chooser, data):
    """A script that is none, or another one."""
    lines = [i + 1 for i, byte in enumerate(data) if byte == 10]
    at = chooser.choice(lines) if lines and chooser.random() < 0.6 else chooser.randrange(len(data) + 1)
    odd = chooser.choice([b"+", b"+\n", b"-", b"-1", b"-0\n", b"-01\n", b">", b">1", b">1 ", b">1 0", b">1 00\n", b">1 65537\n",
                          b">1 65536\n", b">4294967296 1\n", b">4294967295 1\nx\n", b"\n", b" ", b"x", b"\x00", b"-1 \n", b">1  1\n", b"+ \n", b"\r\n"])
    kind = chooser.randrange(4)
    if kind == 0:
        return data[:at]
    if kind == 1:
        return data[:at] + odd + data[at:]
    if kind == 2:
        return data[:at] + data[at + 1:]
    return data[:at] + odd


def script(seed):
    """The name of a space, and a script."""
    chooser = random.Random("%d script" % seed)
    special = extremes.choose(chooser)
    if special:
        space, data = b"X", special
    else:
        story = Story("%d story" % seed)
        space, data = story.space, story.tell()
    return space, corrupt(chooser, data) if chooser.random() < 0.08 else data


def answer_like(requests, chooser):
    """A message of any type, with a table of its own."""
    columns = [chooser.choice([b"s", b"o", b"", b"s", "\u00f6<\"'>".encode()]) for _ in range(chooser.randint(0, 3))]
    terms = lambda: (chooser.randrange(3), chooser.choice(queries.LITERALS).encode())
    rows = [[(name, terms()) for name in columns if chooser.random() < 0.8] for _ in range(chooser.randint(0, 3))]
    content = chooser.choice([Table(columns, rows), requests.triples(), b"m3:Success", b"", b" \n"])
    message = requests.request()
    parameters = list(message.parameters) + [Parameter(chooser.choice(OTHER_NAMES), chooser.choice([None, b"", b"e'\""]), content)]
    return message._replace(message_type=chooser.choice([b"REQUEST", b"CONFIRM", b"INDICATION"]), parameters=parameters,
                            node_id=chooser.choice(NODES + [b""]))


def stream(seed):
    """A stream of messages of any type, perhaps with a fault."""
    chooser = random.Random("%d stream" % seed)
    requests = Requests(chooser, b"X")
    pieces = [chooser.choice([b"", b"", b" \n"])]
    for _ in range(chooser.choice([0, 1, 1, 2, 5, 10])):
        pieces += [spelling.Speller(chooser, chooser.choice([0, 0.3, 0.7])).message(answer_like(requests, chooser)),
                   chooser.choice([b"", b"\n", b"\t\r\n "])]
    data = b"".join(pieces)
    if chooser.random() < 0.5:
        data = spelling.damage(chooser, data) if data else chooser.choice(spelling.ODD_BYTES + spelling.ODD_TEXTS)
    return data[:chooser.randrange(len(data) + 1)] if chooser.random() < 0.1 else data


if __name__ == "__main__":
    number = int(sys.argv[1])
    sys.stdout.buffer.write(stream(number) if sys.argv[2:] else script(number)[1])
