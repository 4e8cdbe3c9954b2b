#!/usr/bin/env python3
"""Clients and peers that a broker must bear, and a witness that is served meanwhile.

    hostile_clients.py slow PORT            a client sends its CONNECT one byte a second
    hostile_clients.py deaf PORT            a subscriber never reads, until its socket is closed
    hostile_clients.py bursts PORT COUNT    so many clients come and go, two hundred at once
    hostile_clients.py many PORT COUNT      so many connect, more than the broker may have open; the first half goes, and the others are answered
    hostile_clients.py streams PORT COUNT SEED   so many streams of packets with changed bytes
    hostile_clients.py queue PORT COUNT     so many messages of a kilobyte at QoS 1 wait for a client that is away
    hostile_clients.py retained PORT COUNT  so many topics get a retained message of a hundred kilobytes at QoS 1
    hostile_clients.py wildcards PORT COUNT a SUBSCRIBE has so many times `#`, over a retained message
    hostile_clients.py properties PORT COUNT     a PUBLISH has so many user properties
    hostile_clients.py unfinished PORT COUNT     so many clients send a quarter of a megabyte of a packet that they don't finish
    hostile_clients.py noise BRIDGE BYTES SEED PORT PEER   so many random bytes at the port for other nodes, while node 1 of the
                                            cluster, which listens at PEER, has its link

Each has a witness beside it, a client that publishes and gets its own message back. With limits (examples/hostile.sh) a witness publishes at QoS 1,
and is served too where it is told that there is no room (0x97). It prints what was done, and ends with status 1 where
something isn't as it should be.
"""
import random
import socket
import sys
import time

HOST = "127.0.0.1"
PATIENCE = 20
CONNACK, PUBLISH, PUBACK, SUBACK = 2, 3, 4, 9
NO_ROOM = 0x97
KNOW = 3
# A Hello of a node that has nothing: its format, and then no number and no dot.
HELLO = b"\0\1" + bytes(20)


def text(word):
    return len(word).to_bytes(2, "big") + word.encode()


def sized(length):
    """A length as a Variable Byte Integer (MQTT 5.0, 1.5.5)."""
    digits = b""
    while True:
        length, digit = divmod(length, 128)
        digits += bytes([digit | (0x80 if length else 0)])
        if not length:
            return digits


def packet(first, body):
    return bytes([first]) + sized(len(body)) + body


def connect(name, keep_alive=0):
    return packet(0x10, text("MQTT") + b"\x05\x02" + keep_alive.to_bytes(2, "big") + b"\x00" + text(name))


def subscribe(topic):
    return packet(0x82, b"\x00\x01\x00" + text(topic) + b"\x00")


def publish(topic, payload):
    return packet(0x30, text(topic) + b"\x00" + payload)


def publish_1(topic, payload, number, properties=b"", retain=0):
    return packet(0x32 | retain, text(topic) + number.to_bytes(2, "big") + sized(len(properties)) + properties + payload)


def opened(port):
    return socket.create_connection((HOST, port), timeout=PATIENCE)


class Client:
    def __init__(self, port, name):
        self.socket = opened(port)
        self.held = b""
        self.socket.sendall(connect(name))
        kind, body = self.next()
        assert kind == CONNACK and body[1] == 0, (kind, body)

    def some(self, count):
        while len(self.held) < count:
            came = self.socket.recv(65536)
            assert came, "closed"
            self.held += came

    def next(self):
        """The next packet's type, with its body."""
        self.some(2)
        end, length, place = 1, 0, 0
        while True:
            self.some(end + 1)
            byte = self.held[end]
            length, place, end = length | (byte & 127) << place, place + 7, end + 1
            if byte < 128:
                break
        self.some(end + length)
        kind, body = self.held[0] >> 4, self.held[end:end + length]
        self.held = self.held[end + length:]
        return kind, body


class Witness(Client):
    def __init__(self, port):
        super().__init__(port, "a witness")
        self.socket.sendall(subscribe("witness"))
        self.next()
        self.served = 0
        self.longest = 0.0

    def look(self):
        payload = str(self.served).encode()
        began = time.monotonic()
        self.socket.sendall(publish("witness", payload))
        kind, body = self.next()
        assert (kind, body) == (PUBLISH, text("witness") + b"\x00" + payload), (kind, body)
        self.served += 1
        self.longest = max(self.longest, time.monotonic() - began)

    def told(self):
        return f"the witness was served {self.served} times, within {self.longest * 1000:.0f} ms"


class Bounded(Witness):
    """A witness at a broker with limits: an answer is a service, whether the message was taken or there was no room for it."""

    def __init__(self, port):
        super().__init__(port)
        self.refused = 0

    def look(self):
        payload = str(self.served).encode()
        began = time.monotonic()
        self.socket.sendall(publish_1("witness", payload, 1))
        seen = {}
        while PUBACK not in seen:
            seen.update([self.next()])
        if seen[PUBACK][2:3] == bytes([NO_ROOM]):
            self.refused += 1
        else:
            body = seen[PUBLISH] if PUBLISH in seen else self.next()[1]
            assert body == text("witness") + b"\x00" + payload, body
        self.served += 1
        self.longest = max(self.longest, time.monotonic() - began)

    def told(self):
        return f"{super().told()}, and {self.refused} times of these told that there was no room"


def acknowledged(client, count):
    """How many of so many PUBLISHes were taken, and how many refused for want of room."""
    taken = refused = 0
    for _ in range(count):
        kind, body = client.next()
        assert kind == PUBACK, (kind, body)
        if len(body) > 2 and body[2] >= 0x80:
            assert body[2] == NO_ROOM, body
            refused += 1
        else:
            taken += 1
    return taken, refused


def flood(port, count, told, message):
    """Publishes so many messages at QoS 1, fifty ahead."""
    witness, sender, taken, refused = Bounded(port), Client(port, "sender"), 0, 0
    for begin in range(0, count, 50):
        some = range(begin, min(begin + 50, count))
        sender.socket.sendall(b"".join(message(place, place % 50 + 1) for place in some))
        more = acknowledged(sender, len(some))
        taken, refused = taken + more[0], refused + more[1]
        witness.look()
    print(f"of {count} {told} {taken} were taken and {refused} refused; {witness.told()}")


def queue(port, count):
    away = opened(port)
    away.sendall(packet(0x10, text("MQTT") + b"\x05\x02\x00\x00\x05\x11\x00\x00\x0e\x10" + text("away")) + packet(0x82, b"\x00\x01\x00" + text("queue") + b"\x01"))
    assert away.recv(4)[0] >> 4 == CONNACK
    time.sleep(1)
    away.close()
    flood(port, count, "messages for a client that is away", lambda place, number: publish_1("queue", bytes(1024), number))


def retained(port, count):
    flood(port, count, "retained messages", lambda place, number: publish_1(f"kept/{place}", bytes(100_000), number, retain=1))


def wildcards(port, count):
    witness, client = Bounded(port), Client(port, "wildcards")
    client.socket.sendall(publish_1("large", bytes(200_000), 1, retain=1))
    acknowledged(client, 1)
    client.socket.sendall(packet(0x82, b"\x00\x02\x00" + (text("#") + b"\x00") * count))
    while True:
        kind, body = client.next()
        if kind == SUBACK:
            break
    granted = sum(code < 0x80 for code in body[3:])
    assert len(body) - 3 == count and body.count(NO_ROOM) >= count - granted, (len(body), granted)
    witness.look()
    print(f"of a SUBSCRIBE with {count} filters {granted} were granted; {witness.told()}")


def properties(port, count):
    witness, client = Bounded(port), Client(port, "properties")
    client.socket.sendall(publish_1("many", b"", 1, (b"\x26" + text("") * 2) * count))
    kind, body = client.next()
    witness.look()
    print(f"a PUBLISH with {count} user properties was answered by a packet of type {kind} with {body.hex()}; {witness.told()}")


def unfinished(port, count):
    witness, all_of_them = Bounded(port), []
    for place in range(count):
        each = opened(port)
        try:
            each.sendall(connect(f"unfinished-{place}") + b"\x30" + sized(260_000) + bytes(250_000))
            all_of_them.append(each)
        except (ConnectionResetError, BrokenPipeError):
            each.close()
        if place % 50 == 0:
            witness.look()
    for each in all_of_them:
        each.close()
    witness.look()
    print(f"{len(all_of_them)} of {count} clients sent a packet that they didn't finish; {witness.told()}")


def slow(port):
    witness, came = Witness(port), opened(port)
    bytes_sent = connect("slow")
    for byte in bytes_sent:
        came.sendall(bytes([byte]))
        witness.look()
        time.sleep(1)
    answer = came.recv(100)
    assert answer[0] >> 4 == CONNACK and answer[3] == 0, answer
    print(f"a CONNECT of {len(bytes_sent)} bytes, one a second, was answered; {witness.told()}")


def deaf(port):
    witness, sender = Witness(port), Client(port, "sender")
    listener = opened(port)
    listener.sendall(connect("deaf") + subscribe("deaf"))
    listener.recv(1)
    sent = 0
    while sent < 64:
        sender.socket.sendall(publish("deaf", bytes(1_000_000)))
        witness.look()
        sent += 1
    got = 0
    try:
        while came := listener.recv(1 << 20):
            got += len(came)
    except ConnectionResetError:
        pass
    assert got < 40_000_000, got
    witness.look()
    print(f"of {sent} messages of a megabyte {got:,} bytes came before the socket was closed; {witness.told()}")


def bursts(port, count):
    witness, done = Witness(port), 0
    while done < count:
        some = [opened(port) for _ in range(min(200, count - done))]
        for place, each in enumerate(some):
            each.sendall(connect(f"burst-{place}")[: 5 if place % 3 == 0 else None])
        witness.look()
        for place, each in enumerate(some):
            if place % 3 == 1:
                assert each.recv(4)[0] >> 4 == CONNACK
            each.close()
        done += len(some)
        witness.look()
    print(f"{done} clients came and went, 200 at once, a third of them within their CONNECT; {witness.told()}")


def many(port, count):
    witness = Witness(port)
    all_of_them = [opened(port) for _ in range(count)]
    for place, each in enumerate(all_of_them):
        each.sendall(connect(f"many-{place}"))
    time.sleep(1)
    witness.look()
    answered = [is_answered(each) for each in all_of_them]
    first = sum(answered)
    assert 0 < first < count, f"{first} of {count} were answered at once"
    for place, each in enumerate(all_of_them):
        if answered[place]:
            each.close()
    time.sleep(1)
    later = sum(is_answered(each) for place, each in enumerate(all_of_them) if not answered[place])
    witness.look()
    assert later > 0, "nobody was answered once there was room"
    print(f"of {count} clients {first} were answered, and {later} more once these had gone; {witness.told()}")


def is_answered(client):
    client.setblocking(False)
    try:
        return client.recv(4)[:1] == b"\x20"
    except (BlockingIOError, ConnectionResetError):
        return False


# Packets from the standard's tables (MQTT 5.0, 3): what is changed is one of these.
SEEDS = [
    connect("a", 60),
    packet(0x10, text("MQTT") + b"\x05\x06\x00\x3c\x05\x11\x00\x00\x00\x01" + text("b") + b"\x00" + text("will") + b"\x00\x01w"),
    packet(0x82, b"\x00\x01\x00" + text("t/#") + b"\x01" + text("$share/g/t") + b"\x00"),
    packet(0x82, b"\x00\x02\x02\x0b\x07" + text("+/u") + b"\x2d"),
    packet(0xA2, b"\x00\x03\x00" + text("t/#")),
    publish("t", b"payload"),
    packet(0x31, text("t") + b"\x05\x02\x00\x00\x00\x01" + b"retained"),
    packet(0x32, text("t/u") + b"\x00\x04\x03\x23\x00\x01" + b"one"),
    packet(0x34, text("t/u") + b"\x00\x05\x00" + b"two"),
    packet(0x62, b"\x00\x05"),
    packet(0x40, b"\x00\x01"),
    packet(0x50, b"\x00\x01"),
    packet(0x70, b"\x00\x01"),
    b"\xc0\x00",
    b"\xe0\x00",
]


def changed(seed, chance):
    """The packet with a few of its bytes changed, left out, put in or said again."""
    data = bytearray(seed)
    for _ in range(chance.choice((0, 1, 1, 2, 4))):
        place = chance.randrange(len(data) + 1)
        kind = chance.randrange(5)
        if kind == 0 and place < len(data):
            data[place] = chance.randrange(256)
        elif kind == 1 and place < len(data):
            data[place] ^= 1 << chance.randrange(8)
        elif kind == 2:
            del data[place:place + chance.randrange(4)]
        elif kind == 3:
            data[place:place] = chance.randbytes(chance.randrange(5))
        elif kind == 4:
            data[place:place] = data[place // 2:place]
    return bytes(data)


def streams(port, count, seed):
    chance, witness = random.Random(seed), Witness(port)
    for number in range(count):
        first = SEEDS[0] if chance.randrange(4) else changed(chance.choice(SEEDS), chance)
        stream = first + b"".join(changed(chance.choice(SEEDS), chance) for _ in range(chance.randrange(6)))
        with opened(port) as each:
            try:
                each.sendall(stream)
                each.shutdown(socket.SHUT_WR)
                while each.recv(65536):
                    pass
            except (ConnectionResetError, BrokenPipeError, OSError):
                pass
        if number % 100 == 0:
            witness.look()
    witness.look()
    print(f"{count} streams with changed bytes were sent and ended (seed {seed}); {witness.told()}")


class Peer:
    """Node 1 of the cluster: its link to node 0, and the one that node 0 has dialled."""

    def __init__(self, bridge, port):
        listener = socket.create_server((HOST, port))
        listener.settimeout(PATIENCE)
        self.to, (self.back, _) = opened(bridge), listener.accept()
        self.back.settimeout(PATIENCE)
        self.served = 0

    def some(self, count):
        data = b""
        while len(data) < count:
            came = self.back.recv(count - len(data))
            assert came, "the link was closed"
            data += came
        return data

    def look(self):
        """Hello is answered by Know (docs/cluster.md)."""
        self.to.sendall(frame(7, 1, 0, HELLO))
        while self.some(int.from_bytes(self.some(4), "big"))[0] != KNOW:
            pass
        self.served += 1


def frame(kind, sender, receiver, body):
    data = bytes([kind]) + sender.to_bytes(2, "big") + receiver.to_bytes(2, "big") + body
    return len(data).to_bytes(4, "big") + data


def noise(bridge, count, seed, port, listens):
    chance, witness, peer, sent = random.Random(seed), Witness(port), Peer(bridge, listens), 0
    peer.look()
    while sent < count:
        data = chance.randbytes(chance.randrange(1, 65536))
        kind = chance.randrange(3)
        if kind == 1:
            # a length that is kept, with noise behind it
            data = len(data).to_bytes(4, "big") + data
        elif kind == 2:
            # the head of a frame of node 1 for node 0, with noise behind it
            data = frame(chance.randrange(1, 8), 1, 0, data)
        try:
            with opened(bridge) as each:
                each.sendall(data)
                each.shutdown(socket.SHUT_WR)
                each.recv(1)
        except OSError:
            pass
        sent += len(data)
        witness.look()
        peer.look()
    print(f"{sent:,} bytes of noise came at the bridge (seed {seed}); another node was answered {peer.served} times; {witness.told()}")


def main(words):
    tasks = {"slow": slow, "deaf": deaf, "bursts": bursts, "many": many, "streams": streams, "noise": noise, "queue": queue, "retained": retained,
             "wildcards": wildcards, "properties": properties, "unfinished": unfinished}
    if not words or words[0] not in tasks:
        sys.exit(__doc__)
    try:
        tasks[words[0]](*map(int, words[1:]))
    except (AssertionError, TimeoutError, ConnectionError) as fault:
        sys.exit(f"{' '.join(words)}: {type(fault).__name__}: {fault}")


if __name__ == "__main__":
    main(sys.argv[1:])
