"""Scripts that reach limits of links, nodes, subscriptions, widths, confirms, waiting bytes and messages."""
import messages
import queries
from messages import LITERAL, URI, Message, Parameter, Triples
from space import CONFIRM_LIMIT, PENDING_LIMIT, Space

SPACE, NODE = b"X", b"k"


def request(kind, identifier, *parameters, node=NODE):
    """The bytes of a request in the canonical spelling."""
    parameters = [Parameter(name, None, content) for name, content in parameters]
    return messages.spell(Message(b"REQUEST", kind, identifier, node, SPACE, parameters))


def deliver(link, data):
    """Bytes on a link in pieces of the greatest size."""
    pieces = [data[at:at + 65_536] for at in range(0, len(data), 65_536)]
    return b"".join(b">%d %d\n%s\n" % (link, len(piece), piece) for piece in pieces)


def ask(kind, identifier, text):
    """A query in SPARQL."""
    return request(kind, identifier, (b"type", b"sparql"), (b"query", text))


def all_of(kind, identifier, predicate=b"sib:any"):
    """A query by one template."""
    any_term = (URI, b"sib:any")
    return request(kind, identifier, (b"type", b"RDF-M3"), (b"query", Triples([(any_term, (URI, predicate), any_term)])))


def rows(count, size=1, predicate=b"p", more=0):
    """So many triples with literals that are spelled six times as long as they are; the last one a little longer."""
    return Triples([((URI, b"s%d" % i), (URI, predicate), (LITERAL, b"%03d" % i + b'"' * size + b"x" * (more if i == count - 1 else 0)))
                    for i in range(count)])


def insert(identifier, triples):
    """An INSERT."""
    return request(b"INSERT", identifier, (b"insert_graph", triples))


def headers(chooser):
    """Entries with numbers and separators at their limits, some of which are none."""
    entries = [b"+\n"] * chooser.randint(1, 3)
    for _ in range(chooser.randint(1, 12)):
        link = chooser.choice([b"1"] * 8 + [b"2", b"4294967295", b"4294967296", b"42949672950", b"0", b"01", b"", b"-1", b"1x"])
        size = chooser.choice([b"0", b"1", b"3", b"10"] * 4 + [b"65536", b"65537", b"65537", b"655360", b"99999", b"00", b"01", b"", b"x"])
        data = b"\n" * int(size) if size.isdigit() and int(size) < 70_000 else b""
        gap, end = chooser.choice([b" "] * 12 + [b"  ", b"\t", b""]), chooser.choice([b"\n"] * 20 + [b"\r\n", b"", b" \n"])
        deliver_it = b">" + link + gap + size + end + data + chooser.choice([b"\n"] * 12 + [b"", b"x\n"])
        entries.append(chooser.choice([deliver_it, deliver_it, b"-" + link + end if chooser.random() < 0.2 else b"+" + end]))
    return b"".join(entries)


def links(chooser):
    """More links than may be open; some end, and others open."""
    entries = [b"+\n"] * chooser.randint(250, 260)
    for _ in range(chooser.randint(0, 10)):
        entries.append(b"-%d\n" % chooser.randint(1, 260))
        entries += [b"+\n"] * chooser.randint(0, 2)
    entries.append(deliver(256, request(b"JOIN", b"1")))
    entries.append(deliver(257, request(b"JOIN", b"1")))
    return b"".join(entries)


def nodes(chooser):
    """More nodes than may have joined; one leaves, and another joins."""
    joins = b"".join(request(b"JOIN", b"1", node=b"n%d" % i) for i in range(4097))
    more = [request(b"JOIN", b"2", node=b"n7"), request(b"LEAVE", b"3", node=b"n%d" % chooser.randint(0, 4096)),
            request(b"JOIN", b"4", node=b"new"), request(b"JOIN", b"5", node=b"newer")]
    return b"+\n" + deliver(1, joins + b"".join(more))


def subscriptions(chooser):
    """More subscriptions than may live, on two links; some end in each way; updates tell them."""
    script = [b"+\n+\n", deliver(1, request(b"JOIN", b"1"))]
    for i in range(258):
        script.append(deliver(1 + i % 2, all_of(b"SUBSCRIBE", b"s%d" % i, b"p%d" % (i % 9))))
    script.append(deliver(1, insert(b"2", rows(3, 1, b"p3"))))
    for i in chooser.sample(range(256), 3):
        script.append(deliver(2, request(b"UNSUBSCRIBE", b"u", (b"subscription_id", b"%d" % i))))
    script.append(deliver(1, all_of(b"SUBSCRIBE", b"t") + ask(b"SUBSCRIBE", b"t2", b"SELECT DISTINCT * { ?a ?b ?c }") * 3))
    script.append(deliver(1, insert(b"3", rows(2, 2, b"p4"))))
    script.append(chooser.choice([b"-1\n", b"-2\n", deliver(2, request(b"LEAVE", b"9")), deliver(1, b"x"), b""]))
    script.append(deliver(2, request(b"JOIN", b"1") + insert(b"4", rows(2, 3, b"p5"))))
    return b"".join(script)


PRODUCT = b"?a <p> ?b . ?c <q> ?d"       # over 128 and 256 triples 32,768 solutions
WIDTHS = [                             # widths of 65,536, of 65,537 and near by, over those triples
    b"{ %s FILTER(BOUND(?a)) }", b"{ OPTIONAL { %s } }", b"{ {} { %s FILTER(BOUND(?a)) } {} }", b"{ { %s } UNION {} }",
    b"{ ?a <p> ?b FILTER(BOUND(?b)) ?c <q> ?d }", b"{ { ?a <p> ?b } { ?c <q> ?d } }", b"{ ?a <p> ?b OPTIONAL { ?c <q> ?d } }",
    b"{ %s FILTER(?a = ?c) }", b"{ OPTIONAL { { %s FILTER(?a = ?c) } } }", b"{ %s OPTIONAL { ?a <none> ?d } }", b"{ %s { ?a <p> ?b } }"]


def width(chooser):
    """Widths of exactly the limit, one more and near by, in queries and in subscriptions whose graph grows."""
    script = [b"+\n", deliver(1, request(b"JOIN", b"1"))]
    updates = [deliver(1, insert(b"2", rows(128, 0))), deliver(1, insert(b"3", rows(256 - chooser.choice([0, 0, 1]), 0, b"q")))]
    asks = []
    for text in chooser.sample(WIDTHS, 3):
        text = b"SELECT DISTINCT ?a " + text.replace(b"%s", PRODUCT)
        asks.append(deliver(1, ask(chooser.choice([b"QUERY", b"SUBSCRIBE"]), b"4", text)))
    order = chooser.choice([updates + asks, updates[:1] + asks + updates[1:], asks + updates])
    squares = [deliver(1, insert(b"5", rows(chooser.choice([181, 255, 256, 257]), 0))),
               deliver(1, ask(b"QUERY", b"6", b"SELECT DISTINCT ?a { ?a <p> ?b . ?c <p> ?d }")), asks[0]]
    return b"".join(script + order + chooser.choice([squares, [], []]))


PAIRS = b"SELECT DISTINCT ?a ?b { ?x <p> ?a . ?y <p> ?b }"
COUNT = 14                            # rows; their pairs are 196, in which each literal stands 28 times
PER_QUOTE, PER_BYTE = 6 * COUNT * 2 * COUNT, 2 * COUNT


def frames(output):
    """The lengths of the messages of an output."""
    lengths, at = [], 0
    while at < len(output):
        end = output.index(b"\n", at)
        lengths.append(int(output[at:end].split()[1]))
        at = end + lengths[-1] + 2
    return lengths


def base(kind):
    """How long a confirm or an indication over rows(COUNT, 1) is, without its transaction_id."""
    space = Space(SPACE)
    space.opened()
    update, asked = insert(b"2", rows(COUNT)), ask(b"QUERY" if kind == "QUERY" else b"SUBSCRIBE", b"3", PAIRS)
    pair = [asked, update] if kind == "CHANGE" else [update, asked]
    output = space.delivered(1, request(b"JOIN", b"1")), space.delivered(1, pair[0]), space.delivered(1, pair[1])
    return frames(output[-1])[-1] - 1


def fill(limit, kind, copies=1, extra=0):
    """Rows, and how many bytes the ids of so many messages must have, so that these and `extra` bytes are exactly the limit."""
    room = limit - extra - copies * base(kind) - copies
    quotes, left = divmod(room, copies * PER_QUOTE)
    more, left = divmod(left, copies * PER_BYTE)
    return rows(COUNT, 1 + quotes, more=more), left + copies


def confirm(chooser):
    """A confirm or an indication of exactly the limit, or one byte longer."""
    kind = chooser.choice(["QUERY", "SUBSCRIBE", "CHANGE"])
    triples, size = fill(CONFIRM_LIMIT, kind)
    asked = ask(b"QUERY" if kind == "QUERY" else b"SUBSCRIBE", b"i" * (size + chooser.randint(0, 1)), PAIRS)
    pair = [asked, insert(b"2", triples)] if kind == "CHANGE" else [insert(b"2", triples), asked]
    last = request(b"REMOVE", b"3", (b"remove_graph", Triples(triples.rows[:1])))
    return b"+\n" + deliver(1, request(b"JOIN", b"1") + b"".join(pair) + chooser.choice([last, b""]))


def waiting(chooser):
    """Several indications of one update that are too many bytes for a link, and others that are not."""
    triples, _ = fill(CONFIRM_LIMIT - 3_000, "CHANGE")
    asks = [deliver(1, request(b"JOIN", b"1"))]
    for i in range(chooser.randint(2, 3)):
        asks.append(deliver(chooser.choice([2, 2, 3]), ask(b"SUBSCRIBE", b"s%d" % i, PAIRS)))
        asks.append(deliver(chooser.randint(1, 3), all_of(b"SUBSCRIBE", b"t%d" % i)))
    asks.append(deliver(chooser.choice([1, 2]), insert(b"9", triples) + all_of(b"QUERY", b"10")))
    asks.append(deliver(1, request(b"REMOVE", b"11", (b"remove_graph", Triples(triples.rows[:2])))))
    return b"+\n+\n+\n" + b"".join(asks)


def waiting_border(chooser):
    """A confirm and two indications that are exactly the limit of waiting bytes, or one more."""
    own = len(messages.spell(Message(b"CONFIRM", b"INSERT", b"9", NODE, SPACE, [Parameter(b"status", None, b"m3:Success")])))
    triples, size = fill(PENDING_LIMIT, "CHANGE", 2, own)
    asks = [request(b"JOIN", b"1"), ask(b"SUBSCRIBE", b"a" * (size - 1), PAIRS),
            ask(b"SUBSCRIBE", b"b" * chooser.randint(1, 2), PAIRS), insert(b"9", triples), all_of(b"QUERY", b"10", b"none")]
    return b"+\n" + deliver(1, b"".join(asks))


def conditions(chooser):
    """A graph of few triples with terms of all kinds, and queries with conditions over them."""
    pairs = [(b"s%d" % i, b"p%d" % p) for i in range(5) for p in (0, 0, 1) if chooser.random() < 0.7]
    triples = Triples([((URI, s), (URI, p), chooser.choice([(URI, b"s%d" % chooser.randrange(5)), (URI, b"on")] + [
        (LITERAL, text.encode()) for text in ["", "on", "one", "o", "s1", "s3", "10", "9", "1"]])) for s, p in pairs])
    asks = [ask(chooser.choice([b"QUERY"] * 5 + [b"SUBSCRIBE"]), b"3", queries.conditions(chooser).encode()) for _ in range(16)]
    last = request(b"REMOVE", b"4", (b"remove_graph", Triples(triples.rows[:2])))
    return b"+\n" + deliver(1, request(b"JOIN", b"1") + insert(b"2", triples) + b"".join(asks) + last)


def counts(chooser):
    """Queries at the limits of their counts."""
    asks = [ask(chooser.choice([b"QUERY", b"QUERY", b"SUBSCRIBE"]), b"3", queries.limit(chooser).encode()) for _ in range(8)]
    return b"+\n" + deliver(1, request(b"JOIN", b"1") + insert(b"2", rows(3, 1, b"p0")) + b"".join(asks))


def long_message(chooser):
    """Messages of exactly MESSAGE_LIMIT bytes, or one more with a byte that goes on or does not."""
    data = request(b"JOIN", b"1")
    size = messages.MESSAGE_LIMIT - len(data)
    at = data.index(b"<node_id>")
    long = chooser.choice([data[:at] + b" " * (size + chooser.randint(0, 1)) + data[at:],
                           data[:-1] + b"\n" * (size + chooser.randint(0, 2)) + b">",
                           data[:-1] + b" " * (size + chooser.randint(0, 1)) + b"x>"])
    return b"+\n" + deliver(1, long + request(b"LEAVE", b"2"))


CHOICES = [(conditions, 0.08), (headers, 0.05), (counts, 0.03), (links, 0.015), (subscriptions, 0.012), (width, 0.02), (confirm, 0.01), (waiting, 0.004), (waiting_border, 0.004),
           (nodes, 0.003), (long_message, 0.012)]


def choose(chooser):
    """Mostly nothing; rarely a script at a limit."""
    share = chooser.random()
    for make, part in CHOICES:
        if share < part:
            return make(chooser)
        share -= part
    return None
