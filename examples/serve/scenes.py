"""The scenes of `sib serve` whose peers speak by sockets: `python3 scenes.py SCENE ADDRESS PROCESS`."""
import re
import select
import socket
import sys
import threading
import time
from concurrent.futures import ThreadPoolExecutor
from contextlib import suppress

import peers
from peers import ANY, END, URI, Parameter, Peer, expect, graph, joined, messages, served, triple

LINKS = 256  # that are served at once
MORE = 300  # than these
BY_P = (ANY, (URI, b"p"), ANY)  # the template of all triples by p
HALF = messages.spell(messages.Message(b"REQUEST", b"JOIN", b"1", b"k", b"X", []))[:100]


def a_thousand_indications_from_two_writers(address, _):
    """A watcher is told of each of 1,000 inserts once, in one order."""
    watcher = joined(address, b"watcher")
    number, first = watcher.subscribe(BY_P)
    expect(first == [], "the first answer is empty")
    subscribed = b"%d" % watcher.asked
    subjects = {name: [b"%s%d" % (name, i) for i in range(500)] for name in (b"left", b"right")}

    def write(name):
        writer = joined(address, name)
        for subject in subjects[name]:
            writer.insert(triple(subject, b"p", b"1"))
        writer.ask(b"LEAVE")

    with ThreadPoolExecutor() as threads:
        writers = [threads.submit(write, name) for name in subjects]
        told = [watcher.message() for _ in range(1000)]
        for writer in writers:
            writer.result()
    rows = []
    for i, message in enumerate(told, 1):
        new = message.parameters[2].content.rows if len(message.parameters) == 4 else []
        due = [Parameter(b"subscription_id", None, number), Parameter(b"ind_sequence", None, b"%d" % i),
               graph(b"new_results", *new), graph(b"obsolete_results")]
        expect(message == (b"INDICATION", b"SUBSCRIBE", subscribed, b"watcher", b"X", due), "indication %d is another: %r" % (i, message))
        expect(len(new) == 1, "indication %d has one new row: %r" % (i, new))
        rows += new
    told = [subject for (_, subject), _, _ in rows]
    for name, sent in subjects.items():
        expect([subject for subject in told if subject.startswith(name)] == sent, "the inserts of a writer come once, in its order")
    expect(sorted(rows) == watcher.query(BY_P), "what was told is the answer, and nothing more came")
    watcher.ask(b"UNSUBSCRIBE", Parameter(b"subscription_id", None, number))
    expect(watcher.message()[:2] == (b"INDICATION", b"UNSUBSCRIBE"), "the subscription ends")
    watcher.ask(b"LEAVE")


def peers_that_go_in_the_middle_of_a_message(address, _):
    """They are told nothing, and more of them than there are links leave none taken."""
    peer = Peer(address)
    peer.socket.sendall(HALF)
    peer.socket.shutdown(socket.SHUT_WR)
    peer.ends()
    for _ in range(MORE):
        peer = Peer(address)
        with suppress(OSError):
            peer.socket.sendall(HALF)
        peer.socket.close()
    served(address)


def peers_that_end_their_input(address, _):
    """What was asked before the end is still confirmed, and then the stream ends."""
    for i in range(MORE):
        peer = Peer(address, b"n%d" % i)
        requests = [peer.request(b"JOIN"), peer.request(b"INSERT", graph(b"insert_graph", triple(b"s%d" % i, b"p", b"1")))]
        peer.send(*requests)
        peer.socket.shutdown(socket.SHUT_WR)
        for request in requests:
            peer.confirmed(request)
        peer.ends()
        peer.socket.close()
        if i % 100 == 99:
            expect(len(served(address).query(BY_P)) == i + 1, "each insert is in the graph")


def bytes_that_are_no_request(address, _):
    """The stream of their peer is closed, behind the confirms of what came before. Others are served."""
    other = joined(address, b"other")
    join = messages.spell(other.request(b"JOIN"))
    bad = [b"x", b"GET / HTTP/1.1\r\n\r\n", b"<SSAP_message><x", b"\0", b"<SSAP_message>\xff",
           join.replace(b"REQUEST", b"CONFIRM"), join.replace(b"other", b""), join.replace(b"other", b"n" * 1025),
           join[:-1] + b" " * (4_194_306 - len(join))]  # the last is unfinished, and of a byte more than a message may have
    for data in bad:
        peer = Peer(address)
        peer.socket.sendall(data)
        peer.ends()
        peer = joined(address, b"n")
        peer.socket.sendall(data)
        peer.ends()
        other.ask(b"JOIN")
    for _ in range(MORE):
        peer = Peer(address)
        with suppress(OSError):
            peer.socket.sendall(b"x")
        peer.socket.close()
    served(address)


def a_peer_that_says_nothing(address, _):
    """Others are served meanwhile, and so is it, once it speaks."""
    silent = Peer(address, b"silent")
    with ThreadPoolExecutor() as threads:
        for work in [threads.submit(work_of, address, b"n%d" % i) for i in range(4)]:
            work.result()
    silent.ask(b"JOIN")
    expect(len(silent.query(BY_P)) == 4 * 50, "the work of the others is there")


def work_of(address, node):
    """Inserts 50 triples, and asks for them."""
    peer = joined(address, node)
    for i in range(50):
        peer.insert(triple(node, b"p", b"%d" % i))
    expect(len(peer.query(((URI, node), ANY, ANY))) == 50, "the triples are there")
    peer.ask(b"LEAVE")
    peer.socket.close()


def peers_that_reset(address, _):
    """Be it in the middle of a message or of an indication: others are served, and no link stays taken."""
    writer = joined(address, b"writer")
    for i in range(20):
        watcher = joined(address, b"watcher")
        watcher.subscribe(BY_P)
        writer.insert(triple(b"s%d" % i, b"p", b"x" * 4000))
        watcher.reset()
        writer.insert(triple(b"t%d" % i, b"p", b"1"))
    for i in range(MORE):
        peer = Peer(address)
        with suppress(OSError):
            peer.socket.sendall(HALF[:i % 3 * 50])
        peer.reset()
    writer.insert(triple(b"last", b"p", b"1"))
    expect(len(served(address).query(BY_P)) == 41, "each insert is in the graph")


class Memory(threading.Thread):
    """Looks at the memory of a process again and again, until it is told to stop."""

    def __init__(self, process):
        super().__init__(daemon=True)
        self.path, self.most, self.enough = "/proc/%s/status" % process, 0, threading.Event()

    def run(self):
        while not self.enough.wait(0.005):
            self.look()

    def look(self):
        """Looks once."""
        with open(self.path, "rb") as status:
            self.most = max(self.most, 1024 * int(re.search(rb"VmRSS:\s*(\d+) kB", status.read()).group(1)))


class Reader(threading.Thread):
    """Reads the indications of a peer as they come, and counts them."""

    def __init__(self, peer):
        super().__init__(daemon=True)
        self.peer, self.bytes, self.messages, self.tail = peer, 0, 0, b""

    def run(self):
        with suppress(OSError):
            while data := self.peer.socket.recv(1 << 20):
                seen = self.tail + data
                self.messages += seen.count(END)
                self.bytes += len(data)
                self.tail = b"" if seen.endswith(END) else seen[1 - len(END):]


def a_peer_that_never_reads(address, process):
    """It has four subscriptions, and 200 MB are due for it. The server's memory stays under 100 MB, those that read are told of each
    update, and the link of the one that never reads ends: what waited for it is less by far than what was due."""
    standing = 4
    silent = joined(address, b"silent", 65_536)
    for _ in range(standing):
        silent.subscribe(BY_P)
    reader = joined(address, b"reader")
    reader.subscribe(BY_P)
    reading, memory = Reader(reader), Memory(process)
    reading.start()
    memory.start()
    writer, updates = joined(address, b"writer"), 0
    names = [b"a", b"b"]
    graphs = [[triple(name, b"p", b"%04d%s" % (i, b"x" * 3996)) for i in range(64)] for name in names]
    while standing * reading.bytes < 200_000_000:
        expect(updates < 2000, "the bytes that are due come")
        writer.ask(b"UPDATE", graph(b"insert_graph", *graphs[updates % 2]),
                   graph(b"remove_graph", ((URI, names[1 - updates % 2]), ANY, ANY)))
        updates += 1
        until(lambda: reading.messages >= updates - 4, "the one that reads is told of each update")
    until(lambda: reading.messages == updates, "the one that reads is told of each update")
    memory.enough.set()
    memory.join()
    memory.look()
    expect(memory.most < 100_000_000, "the server's memory stays under 100 MB, and was %d" % memory.most)
    expect(len(served(address).query(BY_P)) == 64, "others are served")
    told = told_to_the_end(silent)
    expect(len(told) < 50_000_000, "the link of the one that never reads ends: it got %d bytes" % len(told))
    check_sequences(told, standing)


def until(holds, otherwise):
    """Waits until something holds."""
    end = time.monotonic() + peers.PATIENCE
    while not holds():
        expect(time.monotonic() < end, otherwise)
        time.sleep(0.001)


def told_to_the_end(peer):
    """All that still comes, up to the end of the stream."""
    told = bytearray(peer.read)
    while data := peer.socket.recv(1 << 20):
        told += data
    return bytes(told)


def check_sequences(told, standing):
    """The whole messages that came are the first indications of each subscription, in order; a message at the end may be cut."""
    counts = dict.fromkeys(range(1, standing + 1), 0)
    for message in told.split(END)[:-1]:
        found = re.search(rb'name="subscription_id">(\d+)</parameter><parameter name="ind_sequence">(\d+)<', message)
        expect(found, "an indication came: %r" % message[:300])
        number, sequence = map(int, found.groups())
        counts[number] += 1
        expect(sequence == counts[number], "the indications of a subscription come in order")
    expect(len(set(counts.values())) <= 2, "each subscription was told as much, or once more: %r" % counts)


def three_hundred_connections(address, _):
    """256 of them are served, and the others are closed. Where one goes, a new one is served."""
    connected = {}
    poll = select.poll()
    for i in range(MORE):
        peer = Peer(address, b"n%d" % i)
        connected[peer.socket.fileno()] = peer
        poll.register(peer.socket, select.POLLIN)
    end = time.monotonic() + 10
    while len(connected) > LINKS and time.monotonic() < end:
        for number, _ in poll.poll(100):
            poll.unregister(number)
            connected.pop(number).ends()
    expect(not poll.poll(300), "no more than %d connections are closed" % (MORE - LINKS))
    expect(len(connected) == LINKS, "%d connections are served: %d" % (LINKS, len(connected)))
    joins = [(peer, peer.request(b"JOIN")) for peer in connected.values()]
    for peer, request in joins:
        peer.send(request)
    for peer, request in joins:
        peer.confirmed(request)
    Peer(address).ends()
    joins[0][0].socket.close()
    served(address)


def a_server_that_is_ended(address, _):
    """One that joined and one that said nothing see the ends of their streams."""
    streams = [Peer(address), joined(address, b"n")]
    print("ready", flush=True)
    for peer in streams:
        peer.ends()


def main():
    """Plays a scene."""
    scene, address, process = sys.argv[1:]
    host, port = address.rsplit(":", 1)
    try:
        globals()[scene]((host, int(port)), process)
    except (peers.NotSo, OSError) as fault:
        print("serve: not so: %s" % (fault if isinstance(fault, peers.NotSo) else repr(fault)))
        return 1
    return 0


if __name__ == "__main__":
    sys.exit(main())
