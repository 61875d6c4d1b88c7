"""The broker's step: what each message of a link does, and what is sent for it."""
from collections import namedtuple

import messages
import sparql
from graph import Graph
from messages import BNODE, URI, Message, Parameter, Table, Triples
from sparql import NOT_IMPLEMENTED, REQUEST, RESOURCES, TERM_LIMIT, WIDTH_LIMIT, Refused

ID_LIMIT, TEMPLATE_LIMIT, LINK_LIMIT, PENDING_LIMIT, NODE_LIMIT = 1_024, 32, 256, 8_388_608, 4_096
TRIPLE_LIMIT, TERMS_LIMIT, CONFIRM_LIMIT, SUBSCRIPTION_LIMIT = 262_144, 268_435_456, 4_194_304, 256
SUCCESS, DENIED = "m3:Success", "m3:SIB.Error.AccessDenied"
INCOMPLETE, SYNTAX = "m3:KP.Error.Message.Incomplete", "m3:KP.Error.Message.Syntax"
WILDCARDS = {(URI, b"sib:any"), (URI, b"http://www.nokia.com/NRC/M3/sib#any")}
GRAPHS = (b"insert_graph", b"remove_graph")
REQUIRED = {b"JOIN": [], b"LEAVE": [], b"INSERT": [b"insert_graph"], b"REMOVE": [b"remove_graph"],
            b"UPDATE": [b"insert_graph", b"remove_graph"], b"QUERY": [b"type", b"query"],
            b"SUBSCRIBE": [b"type", b"query"], b"UNSUBSCRIBE": [b"subscription_id"]}
OPTIONAL = {b"JOIN": [b"credentials"], b"INSERT": [b"confirm"], b"REMOVE": [b"confirm"], b"UPDATE": [b"confirm"]}
UPDATES = (b"INSERT", b"REMOVE", b"UPDATE")


class Templates:
    """A query by templates: the triples that fit at least one."""

    def __init__(self, rows):
        self.patterns = [fixed_places(row) for row in rows]
        self.terms = {term for row in rows for term in row} - WILDCARDS

    def answer(self, graph):
        """The rows in order; raises OutOfResources where they are more than the width allows."""
        found = {triple for fixed in self.patterns for triple in graph.fitting(fixed)}
        if len(found) > WIDTH_LIMIT:
            raise Refused(RESOURCES)
        return sorted(found)

    def form(self, rows):
        """Rows as the content of a parameter."""
        return Triples(rows)


class Sparql:
    """A query in SPARQL."""

    def __init__(self, text):
        self.query = sparql.read(text)
        self.terms = self.query.terms
        self.patterns = [tuple(None if isinstance(place, int) else place for place in pattern)
                         for pattern in patterns_of(self.query.part)]

    def answer(self, graph):
        """The rows in order; raises OutOfResources where the width passes its limit."""
        return sparql.answer(self.query, graph)

    def form(self, rows):
        """Rows as the content of a parameter."""
        return sparql.table(self.query, rows)


def fixed_places(row):
    """The terms of a template; None for a wildcard."""
    return tuple(None if term in WILDCARDS else term for term in row)


def patterns_of(part):
    """All triple patterns of a part."""
    if isinstance(part, sparql.Bgp):
        return list(part.patterns)
    if isinstance(part, sparql.Filter):
        return patterns_of(part.part)
    return patterns_of(part.left) + patterns_of(part.right)


def fits(fixed, triple):
    """Whether a triple has the terms of a template."""
    return all(term is None or term == found for term, found in zip(fixed, triple))


class Subscription:
    """A query that stands, with the answer that its client has."""

    def __init__(self, number, link, request, query, rows):
        self.number, self.link, self.request, self.query, self.rows = number, link, request, query, rows
        self.sent = 0

    def touched(self, changed):
        """Whether one of the changed triples fits a pattern of the query; else each part has the solutions it had."""
        return any(fits(fixed, triple) for fixed in self.query.patterns for triple in changed)


class Link:
    """A link: the reader of its bytes, what waits on it in this event, and the line of its stop."""

    def __init__(self):
        self.reader, self.open, self.waiting, self.bytes, self.stop = messages.Reader(), True, [], 0, None


# --- parameters ---

def values(message, name):
    """The parameters of one name."""
    return [parameter for parameter in message.parameters if parameter.name == name]


def other_encoding(parameter):
    """Whether a graph has an encoding that is not RDF-M3, in any case of letters."""
    return parameter.encoding is not None and parameter.encoding.lower() != b"rdf-m3"


def is_list(content):
    """Whether a content is a list of triples without an empty uri."""
    return isinstance(content, Triples) and all(term != (URI, b"") for row in content.rows for term in row)


def filled(name, parameter, query_type):
    """Whether a parameter is rightly filled."""
    content = parameter.content
    if name in GRAPHS:
        return other_encoding(parameter) or is_list(content)
    if name == b"confirm":
        return content in (b"TRUE", b"true", b"FALSE", b"false")
    if name in (b"type", b"subscription_id"):
        return isinstance(content, bytes)
    if name == b"query":
        return {b"rdf-m3": is_list(content), b"sparql": isinstance(content, bytes)}.get(query_type, True)
    return True  # credentials


def examine(message):
    """The conditions on parameters, each over the whole message; hands back the contents by name."""
    required, optional = REQUIRED[message.transaction_type], OPTIONAL.get(message.transaction_type, [])
    names = [parameter.name for parameter in message.parameters]
    if any(name not in names for name in required):
        raise Refused(INCOMPLETE)
    types = [parameter.content for parameter in values(message, b"type")]
    query_type = types[0].lower() if types and isinstance(types[0], bytes) else None
    if (len(set(names)) < len(names) or any(name not in required + optional for name in names)
            or not all(filled(parameter.name, parameter, query_type) for parameter in message.parameters)):
        raise Refused(SYNTAX)
    contents = {parameter.name: parameter.content for parameter in message.parameters}
    examine_terms(message, contents, query_type)
    return contents


def examine_terms(message, contents, query_type):
    """What is not implemented, and then what is too long."""
    if any(parameter.name in GRAPHS and other_encoding(parameter) for parameter in message.parameters):
        raise Refused(NOT_IMPLEMENTED)
    if b"type" in contents and query_type not in (b"rdf-m3", b"sparql"):
        raise Refused(NOT_IMPLEMENTED)
    lists = [contents[name] for name in GRAPHS + (b"query",) if isinstance(contents.get(name), Triples)]
    terms = [term for found in lists for row in found.rows for term in row]
    if any(kind == BNODE for kind, _ in terms):
        raise Refused(NOT_IMPLEMENTED)
    templates = contents.get(b"query")
    if (any(len(text) > TERM_LIMIT for _, text in terms)
            or isinstance(templates, Triples) and len(templates.rows) > TEMPLATE_LIMIT):
        raise Refused(RESOURCES)


class Space:
    """A space of a name: nodes, links, the graph and the subscriptions."""

    def __init__(self, name):
        self.name, self.nodes, self.graph, self.updates = name, set(), Graph(), 0
        self.links, self.subscriptions, self.made = {}, {}, 0
        self.terms, self.cost = set(), 0

    # --- links ---

    def opened(self):
        """The next link opens: a line where it may not."""
        count = sum(link.open for link in self.links.values())
        if count >= LINK_LIMIT:
            return b"!0 %d full\n" % count
        self.links[len(self.links) + 1] = Link()
        return b""

    def find(self, number):
        """The link of a number where it is open."""
        link = self.links.get(number)
        return link if link and link.open else None

    def delivered(self, number, data):
        """Bytes on a link: the output, event by event."""
        link, output = self.find(number), []
        if link is None:
            return b"!%d 0 closed\n" % number
        for event in link.reader.feed(data):
            if event[0] == "message":
                self.handle(number, event[1], messages.parse(event[2]))
            else:
                self.stop(number, b"%d %s" % (event[1], event[0].encode()))
            output.append(self.flush())
            if not link.open:
                break
        return b"".join(output)

    def ended(self, number):
        """The input of a link ends."""
        link = self.find(number)
        if link is None:
            return b"!%d 0 closed\n" % number
        cut = link.reader.cut()
        self.stop(number, None)
        return b"" if cut is None else b"!%d %d cut\n" % (number, cut)

    def stop(self, number, line):
        """A link stops or ends; its subscriptions end without an indication."""
        link = self.links[number]
        link.open, link.stop = False, line
        self.subscriptions = {n: s for n, s in self.subscriptions.items() if s.link != number}

    def send(self, number, message):
        """A message waits on a link, where there is room for it; else the link stops."""
        link = self.find(number)
        if link is None:
            return
        data = messages.spell(message)
        if link.bytes + len(data) > PENDING_LIMIT:
            self.stop(number, b"0 overrun")
        else:
            link.waiting.append(data)
            link.bytes += len(data)

    def flush(self):
        """The output of one event: link by link, what waits, and then the line of a stop."""
        output = []
        for number, link in self.links.items():
            if link.waiting or link.stop:
                output += [b"<%d %d\n%s\n" % (number, len(data), data) for data in link.waiting]
                if link.stop:
                    output.append(b"!%d %s\n" % (number, link.stop))
                link.waiting, link.bytes, link.stop = [], 0, None
        return b"".join(output)

    # --- requests ---

    def handle(self, number, start, message):
        """A message that is complete on a link."""
        if message.message_type != b"REQUEST" or any(not 1 <= len(text) <= ID_LIMIT for text in message[2:5]):
            self.stop(number, b"%d request" % start)
            return
        try:
            contents = self.judge(message)
            effect = getattr(self, message.transaction_type.decode().lower())
            effect(number, message, contents)
        except Refused as refusal:
            self.confirm(number, message, refusal.status)

    def judge(self, message):
        """The conditions of the page up to membership, in their order; hands back the contents by name."""
        if message.space_id != self.name:
            raise Refused(REQUEST)
        contents = examine(message)
        if message.transaction_type != b"JOIN" and message.node_id not in self.nodes:
            raise Refused(DENIED)
        return contents

    def confirmed(self, request, status, *more):
        """The confirm of a request."""
        parameters = [Parameter(b"status", None, status.encode())] + [Parameter(name, None, content) for name, content in more]
        return Message(b"CONFIRM", *request[1:5], parameters)

    def confirm(self, number, request, status, *more):
        """Sends the confirm of a request."""
        self.send(number, self.confirmed(request, status, *more))

    def join(self, number, message, contents):
        """The node is joined. A node that has joined stays so, also where no further one may join."""
        if message.node_id not in self.nodes and len(self.nodes) >= NODE_LIMIT:
            raise Refused(RESOURCES)
        self.nodes.add(message.node_id)
        self.confirm(number, message, SUCCESS)

    def leave(self, number, message, contents):
        """The node is not joined any more, and its subscriptions end."""
        self.nodes.remove(message.node_id)
        ended = [s for s in self.subscriptions.values() if s.request.node_id == message.node_id]
        self.finish(number, message, ended)

    def unsubscribe(self, number, message, contents):
        """The subscription of this node with this number ends."""
        text = contents[b"subscription_id"]
        ended = [s for s in self.subscriptions.values()
                 if str(s.number).encode() == text and s.request.node_id == message.node_id]
        if not ended:
            raise Refused(REQUEST)
        self.finish(number, message, ended)

    def finish(self, number, message, ended):
        """Subscriptions end: the confirm first, and then the indication of each end, by number."""
        for subscription in ended:
            del self.subscriptions[subscription.number]
        self.confirm(number, message, SUCCESS)
        for subscription in ended:
            self.send(subscription.link, self.end_of(subscription, SUCCESS))

    def query(self, number, message, contents):
        """The confirm has the answer; nothing changes."""
        query = self.read_query(contents)
        confirm = self.confirmed(message, SUCCESS, (b"results", query.form(query.answer(self.graph))))
        self.bounded(confirm)
        self.send(number, confirm)

    def subscribe(self, number, message, contents):
        """A new subscription, its number and its first answer."""
        query = self.read_query(contents)
        if len(self.subscriptions) >= SUBSCRIPTION_LIMIT:
            raise Refused(RESOURCES)
        cost = self.priced(query.terms)
        rows = query.answer(self.graph)
        new = self.made + 1
        confirm = self.confirmed(message, SUCCESS, (b"subscription_id", b"%d" % new), (b"results", query.form(rows)))
        self.bounded(confirm)
        self.named(query.terms, cost)
        self.made = new
        self.subscriptions[new] = Subscription(new, number, message, query, rows)
        self.send(number, confirm)

    @staticmethod
    def read_query(contents):
        """The query by templates or in SPARQL."""
        is_sparql = contents[b"type"].lower() == b"sparql"
        return Sparql(contents[b"query"]) if is_sparql else Templates(contents[b"query"].rows)

    @staticmethod
    def bounded(message):
        """Refuses a confirm that would be too long."""
        if len(messages.spell(message)) > CONFIRM_LIMIT:
            raise Refused(RESOURCES)

    def priced(self, terms):
        """What the named terms cost with these; refuses more than TERMS_LIMIT."""
        cost = self.cost + sum(len(text) + 32 for _, text in set(terms) - self.terms)
        if cost > TERMS_LIMIT:
            raise Refused(RESOURCES)
        return cost

    def named(self, terms, cost):
        """Keeps the named terms."""
        self.terms |= set(terms)
        self.cost = cost

    # --- updates ---

    def insert(self, number, message, contents):
        """INSERT, REMOVE and UPDATE: as one change, first the patterns, then the triples to insert."""
        inserted = contents[b"insert_graph"].rows if b"insert_graph" in contents else []
        removed = contents[b"remove_graph"].rows if b"remove_graph" in contents else []
        if any(term in WILDCARDS for row in inserted for term in row):
            raise Refused(REQUEST)
        gone = {triple for row in removed for triple in self.graph.fitting(fixed_places(row))} - set(inserted)
        come = set(inserted) - self.graph.triples
        if len(self.graph.triples) - len(gone) + len(come) > TRIPLE_LIMIT:
            raise Refused(RESOURCES)
        terms = {term for row in inserted for term in row}
        self.named(terms, self.priced(terms))
        for triple in gone:
            self.graph.remove(triple)
        for triple in come:
            self.graph.add(triple)
        self.updates += 1
        if contents.get(b"confirm", b"TRUE") in (b"TRUE", b"true"):
            self.confirm(number, message, SUCCESS)
        self.indicate(gone | come)

    remove = update = insert

    def indicate(self, changed):
        """After an update: each live subscription, by rising number, is told what differs."""
        for subscription in list(self.subscriptions.values()):
            if subscription.number in self.subscriptions and subscription.touched(changed):
                self.tell(subscription)

    def tell(self, subscription):
        """Sends what differs, or the end where a limit is passed."""
        try:
            rows = subscription.query.answer(self.graph)
            if rows == subscription.rows:
                return
            message = self.change_of(subscription, rows)
            self.bounded(message)
        except Refused:
            del self.subscriptions[subscription.number]
            message = self.end_of(subscription, RESOURCES)
        else:
            subscription.rows = rows
            subscription.sent += 1
        self.send(subscription.link, message)

    def indication(self, subscription, kind, *parameters):
        """An indication with the heads of its subscription."""
        heads = subscription.request
        number = (b"subscription_id", b"%d" % subscription.number)
        return Message(b"INDICATION", kind, heads.transaction_id, heads.node_id, self.name,
                       [Parameter(name, None, content) for name, content in (number,) + parameters])

    def end_of(self, subscription, status):
        """The indication of the end."""
        return self.indication(subscription, b"UNSUBSCRIBE", (b"status", status.encode()))

    def change_of(self, subscription, rows):
        """The indication of a change: the rows that the answer gained, and those that it lost."""
        before, after, form = set(subscription.rows), set(rows), subscription.query.form
        return self.indication(
            subscription, b"SUBSCRIBE", (b"ind_sequence", b"%d" % (subscription.sent + 1)),
            (b"new_results", form([row for row in rows if row not in before])),
            (b"obsolete_results", form([row for row in subscription.rows if row not in after])))

    def summary(self):
        """The last line's numbers: accepted updates, triples, live subscriptions."""
        return self.updates, len(self.graph.triples), len(self.subscriptions)
