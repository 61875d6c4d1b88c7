"""A peer of a broker over TCP: it sends requests, and reads the messages that come."""
import os
import socket
import sys
import time

sys.path.insert(0, os.path.join(os.path.dirname(os.path.abspath(__file__)), "..", "..", "model"))
import messages
from messages import LITERAL, URI, Message, Parameter, Triples

PATIENCE = 20  # seconds that a peer waits for anything
SPACE = b"X"
END = b"</SSAP_message>"  # behind each message of the broker, and nowhere else, since texts spell `<` as a reference
SUCCESS = Parameter(b"status", None, b"m3:Success")
ANY = (URI, b"sib:any")


class NotSo(Exception):
    """What a scene says is not so."""


def expect(holds, otherwise):
    """Fails the scene where something does not hold."""
    if not holds:
        raise NotSo(otherwise)


def triple(subject, predicate, text):
    """A triple with a literal."""
    return ((URI, subject), (URI, predicate), (LITERAL, text))


def graph(name, *triples):
    """A parameter that is a list of triples."""
    return Parameter(name, None, Triples(list(triples)))


def templates(*triples):
    """The parameters of a query by templates."""
    return Parameter(b"type", None, b"RDF-M3"), graph(b"query", *triples)


class Peer:
    """A connection, and the node that asks over it."""

    def __init__(self, address, node=b"k", buffer=None):
        self.socket = socket.socket()
        self.socket.settimeout(PATIENCE)
        self.socket.setsockopt(socket.IPPROTO_TCP, socket.TCP_NODELAY, 1)
        if buffer:
            self.socket.setsockopt(socket.SOL_SOCKET, socket.SO_RCVBUF, buffer)
        self.socket.connect(address)
        self.node, self.asked, self.read = node, 0, bytearray()

    def request(self, kind, *parameters):
        """The next request, which is not sent yet."""
        self.asked += 1
        return Message(b"REQUEST", kind, b"%d" % self.asked, self.node, SPACE, list(parameters))

    def send(self, *requests):
        """Sends requests at once."""
        self.socket.sendall(b"".join(map(messages.spell, requests)))

    def message(self):
        """The next message."""
        while (end := self.read.find(END)) < 0:
            more = self.socket.recv(1 << 18)
            expect(more, "the stream of %r ended behind %r" % (self.node, bytes(self.read[:200])))
            self.read += more
        spelling = bytes(self.read[:end + len(END)])
        del self.read[:end + len(END)]
        found = messages.parse(spelling)
        expect(messages.spell(found) == spelling, "a message is not in the canonical spelling: %r" % spelling[:300])
        return found

    def confirmed(self, request):
        """Takes the confirm of a request, with success; what it has behind the status."""
        found = self.message()
        expect(found[:5] == (b"CONFIRM",) + request[1:5], "this is no confirm of %r: %r" % (request[:5], found[:5]))
        expect(found.parameters[:1] == [SUCCESS], "%r was refused: %r" % (request[:5], found.parameters[:1]))
        return found.parameters[1:]

    def ask(self, kind, *parameters):
        """Sends a request and takes its confirm."""
        request = self.request(kind, *parameters)
        self.send(request)
        return self.confirmed(request)

    def insert(self, *triples):
        """Inserts triples."""
        self.ask(b"INSERT", graph(b"insert_graph", *triples))

    def query(self, *triples):
        """The answer to a query by templates."""
        return self.ask(b"QUERY", *templates(*triples))[0].content.rows

    def subscribe(self, *triples):
        """Subscribes by templates; the number, and the first answer."""
        number, results = self.ask(b"SUBSCRIBE", *templates(*triples))
        return number.content, results.content.rows

    def ends(self):
        """The stream ends here."""
        rest = bytes(self.read) or self.socket.recv(300)
        expect(rest == b"", "more came where the stream of %r ends: %r" % (self.node, rest[:300]))

    def reset(self):
        """Resets the connection."""
        self.socket.setsockopt(socket.SOL_SOCKET, socket.SO_LINGER, b"\1\0\0\0\0\0\0\0")
        self.socket.close()


def joined(address, node, buffer=None):
    """A peer whose node has joined."""
    peer = Peer(address, node, buffer)
    peer.ask(b"JOIN")
    return peer


def served(address):
    """A new peer, whose node has joined: at the latest when the links of those that went are free."""
    end = time.monotonic() + PATIENCE
    while True:
        try:
            return joined(address, b"late")
        except (NotSo, OSError):
            if time.monotonic() > end:
                raise
        time.sleep(0.02)
