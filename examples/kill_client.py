#!/usr/bin/env python3
"""A publisher and a subscriber of MQTT 5.0 that go on when their broker is killed, and write down what they were told.

    kill_client.py subscribe PORT QOS             subscribes to `numbers` in a session that lasts, and ends
    kill_client.py publish PORT QOS [PAUSE] FILE  publishes 1, 2, 3 .. until it is told to stop (TERM) and all is acknowledged, so many
                                                  seconds apart
    kill_client.py receive PORT QOS COUNT FILE    receives in that session until COUNT numbers and then nothing for a second have come,
                                                  or nothing for a minute

Each number that was acknowledged, or came, is a line of FILE. A connection that ends is dialled again, and what was on its way is sent
again under its identifier; a session that isn't there any more ends the run with status 1.
"""
import signal
import socket
import sys
import time

HOST, TOPIC, AHEAD, MOST = "127.0.0.1", "numbers", 16, 50_000
CONNACK, PUBLISH, PUBACK, PUBREC, PUBREL, PUBCOMP, SUBACK = 2, 3, 4, 5, 6, 7, 9


def packet(first, body):
    length, spelled = len(body), b""
    while True:
        length, low = divmod(length, 128)
        spelled += bytes([low | 128 if length else low])
        if not length:
            return bytes([first]) + spelled + body


def text(word):
    return len(word).to_bytes(2, "big") + word.encode()


class Refused(Exception):
    """A CONNECT that wasn't accepted, with the body of the CONNACK."""


class Connection:
    """A connection of a client whose session lasts an hour."""

    def __init__(self, port, client):
        self.socket = socket.create_connection((HOST, port), timeout=10)
        self.socket.setsockopt(socket.IPPROTO_TCP, socket.TCP_NODELAY, 1)
        self.held = b""
        properties = b"\x11" + (3600).to_bytes(4, "big") + b"\x21\x00\x0a"
        self.send(packet(0x10, text("MQTT") + b"\x05\x00\x00\x00" + bytes([len(properties)]) + properties + text(client)))
        kind, body = self.await_next()
        if kind != CONNACK:
            sys.exit(f"no CONNACK: {kind} {body.hex()}")
        if body[1] != 0:
            raise Refused(body)
        self.continues = body[0] == 1

    def send(self, sent):
        self.socket.sendall(sent)

    def next(self, seconds):
        """The next packet's type with its body; None where none comes in time."""
        self.socket.settimeout(seconds)
        while True:
            found = self.cut()
            if found:
                return found
            try:
                came = self.socket.recv(65536)
            except TimeoutError:
                return None
            if not came:
                raise ConnectionError
            self.held += came

    def await_next(self):
        heard = self.next(10)
        if not heard:
            raise ConnectionError
        return heard

    def cut(self):
        length = 0
        for place in range(1, min(len(self.held), 5)):
            length += (self.held[place] & 127) << (7 * (place - 1))
            if self.held[place] < 128:
                end = place + 1 + length
                if len(self.held) < end:
                    return None
                kind, body = self.held[0] >> 4, self.held[place + 1:end]
                self.held = self.held[end:]
                return kind, body
        return None


class Client:
    """What goes on over connections."""

    def __init__(self, port, qos, name):
        self.port, self.qos, self.name, self.known = port, qos, name, name == "k-receives"

    def run(self):
        """Works on one connection after another, until the work is done."""
        while True:
            try:
                connection = Connection(self.port, self.name)
                if self.known and not connection.continues:
                    sys.exit(f"{self.name}: its session is lost")
                self.known = True
                return self.work(connection)
            except Refused as refused:
                self.turn_to(refused)
            except OSError:
                time.sleep(0.05)

    def turn_to(self, refused):
        sys.exit(f"{self.name} is refused: {refused.args[0].hex()}")


class Publisher(Client):
    def __init__(self, port, qos, pause, file):
        super().__init__(port, qos, "k-publishes")
        self.pause, self.file, self.last, self.waiting, self.stops, self.again = pause, file, 0, {}, False, 0

    def work(self, connection):
        self.again += len(self.waiting)
        for identifier, (number, released) in self.waiting.items():
            connection.send(self.release(identifier) if released else self.publish(identifier, number, 8))
        while self.waiting or not self.is_done():
            while len(self.waiting) < AHEAD and not self.is_done():
                self.last += 1
                identifier = next(i for i in range(1, AHEAD + 1) if i not in self.waiting)
                self.waiting[identifier] = (self.last, False)
                connection.send(self.publish(identifier, self.last, 0))
                time.sleep(self.pause)
            self.hear(connection, *connection.await_next())

    def is_done(self):
        return self.stops or self.last >= MOST

    def publish(self, identifier, number, dup):
        body = text(TOPIC) + identifier.to_bytes(2, "big") + b"\x00" + str(number).encode()
        return packet(0x30 | dup | self.qos << 1, body)

    def release(self, identifier):
        return packet(0x62, identifier.to_bytes(2, "big"))

    def hear(self, connection, kind, body):
        identifier, code = int.from_bytes(body[:2], "big"), body[2] if len(body) > 2 else 0
        number, released = self.waiting[identifier]
        if kind in (PUBACK, PUBREC) and code != 0:
            sys.exit(f"{number} is refused: {code:#04x}")
        if kind in (PUBACK, PUBREC) and not released:
            print(number, file=self.file, flush=True)
        if kind == PUBREC:
            self.waiting[identifier] = (number, True)
            connection.send(self.release(identifier))
        else:
            del self.waiting[identifier]

    def stop(self, *_):
        self.stops = True


class Receiver(Client):
    def __init__(self, port, qos, count, file):
        super().__init__(port, qos, "k-receives")
        self.count, self.file, self.found, self.open = count, file, set(), set()

    def work(self, connection):
        while True:
            heard = connection.next(1 if len(self.found) >= self.count else 60)
            if not heard:
                return
            kind, body = heard
            if kind == PUBLISH:
                self.take(connection, body)
            elif kind == PUBREL:
                self.open.discard(body[:2])
                connection.send(packet(0x70, body[:2]))

    def take(self, connection, body):
        place = 2 + int.from_bytes(body[:2], "big")
        identifier, number = body[place:place + 2], int(body[place + 3 + body[place + 2]:])
        if self.qos == 1 or identifier not in self.open:
            self.found.add(number)
            print(number, file=self.file, flush=True)
        if self.qos == 2:
            self.open.add(identifier)
        connection.send(packet(0x40 if self.qos == 1 else 0x50, identifier))


def subscribe(port, qos):
    connection = Connection(port, "k-receives")
    connection.send(packet(0x82, b"\x00\x01\x00" + text(TOPIC) + bytes([qos])))
    kind, body = connection.await_next()
    if kind != SUBACK or body[3] != qos:
        sys.exit("no subscription")
    connection.send(packet(0xE0, b""))


def main():
    command, port, qos = sys.argv[1], int(sys.argv[2]), int(sys.argv[3])
    if command == "subscribe":
        subscribe(port, qos)
        return
    with open(sys.argv[-1], "w", encoding="ascii") as file:
        if command == "publish":
            publisher = Publisher(port, qos, float(sys.argv[4]) if len(sys.argv) > 5 else 0, file)
            signal.signal(signal.SIGTERM, publisher.stop)
            publisher.run()
            print(f"published {publisher.last}, {publisher.again} of them sent again")
        else:
            Receiver(port, qos, int(sys.argv[4]), file).run()


if __name__ == "__main__":
    main()
