"""The clients of fanout.sh: `python3 fanout.py sib=PORT [mosquitto=PORT] [redis=PORT]`.

Each broker has one writer and ten watchers. A watcher counts the ends of notices in the bytes that it reads and parses nothing, so that
the clients take little of the time. In "lockstep" one process holds all eleven connections; in "streamed" each watcher is a process.
"""
import multiprocessing
import os
import socket
import sys
import time

sys.path.insert(0, os.path.join(os.path.dirname(os.path.abspath(__file__)), "..", "examples", "serve"))
from peers import ANY, END, URI, graph, joined, messages, triple

WATCHERS, RUNS, BATCH = 10, 5, 32  # two batches at most are unanswered
LOCKSTEP, STREAMED = 2_000, 20_000
SUBJECTS = 40


class Stream:
    """A connection that counts how often a mark stands in what came, however it is cut."""

    def __init__(self, connection, mark):
        self.socket, self.mark, self.count, self.bytes, self.tail = connection, mark, 0, 0, b""
        self.buffer = bytearray(1 << 20)
        connection.settimeout(20)
        connection.setsockopt(socket.IPPROTO_TCP, socket.TCP_NODELAY, 1)

    def wait(self, count):
        """Reads until the mark has come so often."""
        keep, buffer = len(self.mark) - 1, self.buffer
        while self.count < count:
            size = self.socket.recv_into(buffer)
            if not size:
                sys.exit("fanout: a stream ended after %d of %d" % (self.count, count))
            self.count += buffer.count(self.mark, 0, size) + (self.tail + buffer[:min(keep, size)]).count(self.mark)
            self.tail = (self.tail + buffer[max(0, size - keep):size])[-keep:]
            self.bytes += size


class Sib:
    """Each update gives a subject another value. Its confirm is the answer."""
    mark = END

    def __init__(self, port):
        self.address = ("127.0.0.1", port)

    def writer(self):
        return Stream(joined(self.address, b"writer").socket, END)

    def watcher(self):
        peer = joined(self.address, b"watcher")
        peer.subscribe((ANY, (URI, b"value"), ANY))
        return Stream(peer.socket, END)

    @staticmethod
    def update(i):
        subject = b"sensor-%d" % (i % SUBJECTS)
        return messages.spell(messages.Message(b"REQUEST", b"UPDATE", b"%d" % i, b"writer", b"X", [
            graph(b"insert_graph", triple(subject, b"value", b"%08d" % i)),
            graph(b"remove_graph", ((URI, subject), (URI, b"value"), ANY))]))

    @staticmethod
    def batch(updates):
        """The bytes of some updates, and how many answers come."""
        return b"".join(updates), len(updates)


class Published:
    """Each update is published, with a payload of a size, on one topic."""

    def __init__(self, port, size):
        self.address, self.size = ("127.0.0.1", port), size

    def connect(self, greeting, answer, mark):
        """A connection that was greeted."""
        end = time.monotonic() + 5
        while True:
            try:
                connection = socket.create_connection(self.address)
                break
            except OSError:
                if time.monotonic() > end:
                    raise
                time.sleep(0.05)
        connection.settimeout(20)
        connection.sendall(greeting)
        came = b""
        while len(came) < answer:
            came += connection.recv(answer - len(came)) or sys.exit("fanout: a broker closed at the greeting")
        return Stream(connection, mark)

    def payload(self, i):
        return (b"%08d" % i).ljust(self.size - len(END), b".") + END


class Mosquitto(Published):
    """MQTT 3.1.1 with QoS 0. Nothing answers a PUBLISH, so a PINGREQ is behind each batch."""
    hello = b"\x10\x0c\x00\x04MQTT\x04\x02\x00\x00\x00\x00"

    def writer(self):
        return self.connect(self.hello, 4, b"\xd0\x00")

    def watcher(self):
        return self.connect(self.hello + b"\x82\x06\x00\x01\x00\x01v\x00", 4 + 5, END)

    def update(self, i):
        body, length = b"\x00\x01v" + self.payload(i), b""
        size = len(body)
        while size > 127:
            length += bytes([size % 128 + 128])
            size //= 128
        return b"\x30" + length + bytes([size]) + body

    @staticmethod
    def batch(updates):
        return b"".join(updates) + b"\xc0\x00", 1


class Redis(Published):
    """RESP. The answer to a PUBLISH is the number of watchers."""

    def writer(self):
        return self.connect(b"", 0, b"\r\n")

    def watcher(self):
        return self.connect(b"*2\r\n$9\r\nSUBSCRIBE\r\n$1\r\nv\r\n", len(b"*3\r\n$9\r\nsubscribe\r\n$1\r\nv\r\n:1\r\n"), END)

    def update(self, i):
        payload = self.payload(i)
        return b"*3\r\n$7\r\nPUBLISH\r\n$1\r\nv\r\n$%d\r\n%s\r\n" % (len(payload), payload)

    @staticmethod
    def batch(updates):
        return b"".join(updates), len(updates)


def lockstep(broker):
    """The notices in a second of each run, and the bytes of a notice."""
    writer, watchers = broker.writer(), [broker.watcher() for _ in range(WATCHERS)]
    single = [broker.batch([broker.update(i)]) for i in range(SUBJECTS + RUNS * LOCKSTEP)]
    rates, done, answers = [], 0, 0
    for count in [SUBJECTS] + RUNS * [LOCKSTEP]:
        before, begin = watchers[0].bytes, time.monotonic()
        for data, more in single[done:done + count]:
            writer.socket.sendall(data)
            done += 1
            answers += more
            for watcher in watchers:
                watcher.wait(done)
            writer.wait(answers)
        rates.append(WATCHERS * count / (time.monotonic() - begin))
    size = round((watchers[0].bytes - before) / LOCKSTEP)
    for stream in watchers + [writer]:
        stream.socket.close()
    return rates[1:], size


def watch(watcher, times):
    """Tells when each run's notices have come."""
    due = 0
    for count in [SUBJECTS] + RUNS * [STREAMED]:
        due += count
        watcher.wait(due)
        times.send(time.monotonic())


def streamed(broker):
    """The notices in a second of each run."""
    writer, ends = broker.writer(), []
    fork = multiprocessing.get_context("fork")
    for _ in range(WATCHERS):
        ours, theirs = fork.Pipe(False)
        fork.Process(target=watch, args=(broker.watcher(), theirs), daemon=True).start()
        theirs.close()
        ends.append(ours)
    rates, done, answers = [], 0, 0
    for count in [SUBJECTS] + RUNS * [STREAMED]:
        updates = [broker.update(1_000_000 + i) for i in range(done, done + count)]
        batches = [broker.batch(updates[i:i + BATCH]) for i in range(0, count, BATCH)]
        begin = time.monotonic()
        for data, more in batches:
            writer.socket.sendall(data)
            writer.wait(answers)
            answers += more
        writer.wait(answers)
        rates.append(WATCHERS * count / (max(end.recv() for end in ends) - begin))
        done += count
    return rates[1:]


def tell(name, way, rates):
    """A line on some runs."""
    rates.sort()
    print("fanout: %s, %s: best of five %.0f notices a second, median %.0f" % (name, way, rates[-1], rates[len(rates) // 2]), flush=True)


def main():
    """Measures each broker."""
    ports = dict(word.split("=") for word in sys.argv[1:])
    size = None
    for name, kind in ("sib", Sib), ("mosquitto", Mosquitto), ("redis", Redis):
        if name in ports:
            broker = kind(int(ports[name])) if kind is Sib else kind(int(ports[name]), size)
            rates, bytes_of_one = lockstep(broker)
            if kind is Sib:
                size = bytes_of_one
                print("fanout: one writer, %d watchers, notices of %d bytes" % (WATCHERS, size), flush=True)
            tell(name, "lockstep", rates)
            tell(name, "streamed", streamed(broker))


if __name__ == "__main__":
    main()
