"""Scripts and streams: the whole output and the exit status of replay, show, check, make and trial."""
import messages
from messages import Message, Parameter, Reader, Triples, URI, LITERAL
from space import Space

LINK_NUMBERS, PIECE_LIMIT, NAME_LIMIT = 4_294_967_295, 65_536, 1_024


class Fault(Exception):
    """No script goes on with the byte at this offset, or the input ends there inside an entry."""

    def __init__(self, place):
        super().__init__(place)
        self.place = place


def expect(data, at, byte):
    """One byte; the place behind it."""
    if data[at:at + 1] != byte:
        raise Fault(at)
    return at + 1


def number(data, at, low, limit):
    """A number from low (0 or 1) to limit without a leading zero, and the place behind it."""
    value, begin = 0, at
    while data[at:at + 1].isdigit():
        digit = data[at] - 48
        zero_first = at == begin and digit == 0 and low > 0
        behind_zero = at > begin and value == 0
        if zero_first or behind_zero or value * 10 + digit > limit:
            raise Fault(at)
        value, at = value * 10 + digit, at + 1
    if at == begin:
        raise Fault(at)
    return value, at


def entry(data, at):
    """The entry at a place, and the place behind it."""
    kind = data[at:at + 1]
    if kind == b"+":
        return ("open",), expect(data, at + 1, b"\n")
    if kind == b"-":
        link, at = number(data, at + 1, 1, LINK_NUMBERS)
        return ("end", link), expect(data, at, b"\n")
    if kind != b">":
        raise Fault(at)
    link, at = number(data, at + 1, 1, LINK_NUMBERS)
    size, at = number(data, expect(data, at, b" "), 0, PIECE_LIMIT)
    at = expect(data, at, b"\n")
    if at + size > len(data):
        raise Fault(len(data))
    return ("deliver", link, data[at:at + size]), expect(data, at + size, b"\n")


def replay(name, data):
    """The output and the exit status of a script in a space of this name."""
    space, at, output = Space(name), 0, []
    try:
        while at < len(data):
            found, at = entry(data, at)
            step = {"open": space.opened, "deliver": space.delivered, "end": space.ended}[found[0]]
            output.append(step(*found[1:]))
    except Fault as fault:
        output.append(b"? %d\n" % fault.place)
        return b"".join(output), 3
    output.append(b"= %d %d %d\n" % space.summary())
    return b"".join(output), 0


def stream(data):
    """The messages of a stream, and the line of its stop or None."""
    reader, found = Reader(), []
    for event in reader.feed(data):
        if event[0] != "message":
            return found, b"! %d %s\n" % (event[1], event[0].encode())
        found.append(event[2])
    cut = reader.cut()
    return found, None if cut is None else b"! %d cut\n" % cut


def show(data):
    """The canonical spelling of each message of a stream, and the line of a stop."""
    found, stop = stream(data)
    lines = [messages.spell(messages.parse(message)) + b"\n" for message in found]
    return b"".join(lines) + (stop or b""), 1 if stop else 0


def check(data):
    """The number of the messages of a stream, or the line of a stop."""
    found, stop = stream(data)
    return (stop, 1) if stop else (b"ok %d\n" % len(found), 0)


def triples(*rows):
    """A list of triples from texts: subject, predicate, kind of the object, object."""
    return Triples([((URI, s.encode()), (URI, p.encode()), (kind, o.encode())) for s, p, kind, o in rows])


def request(kind, identifier, *parameters):
    """A request of the generated script."""
    return Message(b"REQUEST", kind, b"%d" % identifier, b"w", b"trial", [Parameter(*parameter) for parameter in parameters])


def generated(count):
    """The requests of the generated script with so many updates."""
    yield request(b"JOIN", 1)
    for k in range(50):
        a, b = k % 5, (k + 1) % 5
        if k % 2 == 0:
            kind, query = b"RDF-M3", triples(("sib:any", f"p{a}", URI, "sib:any"))
        else:
            kind, query = b"sparql", f"SELECT DISTINCT ?s ?o ?z {{ ?s <p{a}> ?o OPTIONAL {{ ?s <p{b}> ?z }} }}".encode()
        yield request(b"SUBSCRIBE", 2 + k, (b"type", None, kind), (b"query", None, query))
    for j in range(count):
        yield request(
            b"UPDATE", 52 + j,
            (b"insert_graph", b"RDF-M3", triples((f"s{j % 40}", f"p{j % 5}", LITERAL, f"o{j % 11}"))),
            (b"remove_graph", b"RDF-M3", triples((f"s{(j + 20) % 40}", "sib:any", URI, "sib:any"))))


def make(count):
    """The generated script."""
    pieces = [b"+\n"]
    for message in generated(count):
        data = messages.spell(message)
        pieces.append(b">1 %d\n%s\n" % (len(data), data))
    return b"".join(pieces)


def trial(count):
    """The counts of the messages that the generated script causes, and the last line of its replay."""
    output, _ = replay(b"trial", make(count))
    confirms, indications = (output.count(b"<SSAP_message><message_type>" + kind) for kind in (b"CONFIRM", b"INDICATION"))
    return b"confirms %d indications %d\n%s\n" % (confirms, indications, output.splitlines()[-1])
