"""Clients of MQTT 5.0 for `faults.py`, over asyncio and nothing else: they go on over one connection after another, and keep what they sent and got.

A Publisher keeps each message until it is acknowledged, and sends it again under its identifier on the next connection. A Receiver answers what comes, and keeps the
identifiers of QoS 2 that aren't released yet. Sessions last an hour. Nothing here is shared with the broker: bytes are written as the standard says.
"""
import asyncio

HOST = "127.0.0.1"
CONNACK, PUBLISH, PUBACK, PUBREC, PUBREL, PUBCOMP, SUBACK, DISCONNECT = 2, 3, 4, 5, 6, 7, 9, 14
USE_ANOTHER, SERVER_REFERENCE = 0x9C, 0x1C


def variable(length):
    spelled = b""
    while True:
        length, low = divmod(length, 128)
        spelled += bytes([low | 128 if length else low])
        if not length:
            return spelled


def packet(first, body):
    return bytes([first]) + variable(len(body)) + body


def text(word):
    return len(word).to_bytes(2, "big") + word.encode()


def connect(name, clean, expiry, will):
    properties = b"\x11" + expiry.to_bytes(4, "big") + b"\x21\x00\x14"
    flags = (2 if clean else 0) | (0x14 if will else 0)
    body = text("MQTT") + bytes([5, flags, 0, 30]) + variable(len(properties)) + properties + text(name)
    if will:
        topic, payload = will
        body += b"\x00" + text(topic) + len(payload).to_bytes(2, "big") + payload
    return packet(0x10, body)


def publish(topic, payload, qos, identifier, retain=False, again=False):
    first = 0x30 | qos << 1 | (1 if retain else 0) | (8 if again else 0)
    return packet(first, text(topic) + (identifier.to_bytes(2, "big") if qos else b"") + b"\x00" + payload)


def reference_in(properties):
    """The port of a Server Reference, where it is the first property."""
    if properties[:1] == bytes([SERVER_REFERENCE]):
        length = int.from_bytes(properties[1:3], "big")
        return int(properties[3:3 + length].decode().rsplit(":", 1)[1])
    return None


class Gone(Exception):
    """The connection is gone, or was refused."""


class Client:
    """What goes on over connections: a subclass says what it does on one (`work`) and with each packet (`hear`)."""

    def __init__(self, name, port, will=None):
        self.name, self.port, self.will = name, port, will
        self.reader = self.writer = None
        self.known = self.stops = self.lost = False
        self.dials = 0

    async def run(self):
        while not self.stops:
            try:
                await self.open()
                await self.work()
            except (Gone, OSError, asyncio.IncompleteReadError, asyncio.TimeoutError):
                pass
            finally:
                self.close()
            if not self.stops:
                await asyncio.sleep(0.1)

    async def open(self):
        self.dials += 1
        self.reader, self.writer = await asyncio.wait_for(asyncio.open_connection(HOST, self.port), 5)
        self.send(connect(self.name, False, 3600, self.will))
        first, body = await asyncio.wait_for(self.next(), 10)
        if first >> 4 != CONNACK or body[1] != 0:
            if first >> 4 == CONNACK and body[1] == USE_ANOTHER:
                self.port = reference_in(body[3:]) or self.port
            raise Gone
        continues = body[0] == 1
        self.lost = self.lost or (self.known and not continues)
        self.begin(continues)
        self.known = True

    def begin(self, continues):
        pass

    def close(self):
        if self.writer:
            self.writer.transport.abort()
            self.writer = None

    def leave(self):
        """Ends the connection in good order."""
        self.stops = True
        if self.writer:
            self.send(packet(0xE0, b""))

    def send(self, sent):
        if self.writer is None or self.writer.is_closing():
            raise Gone
        self.writer.write(sent)

    async def next(self):
        first = (await self.reader.readexactly(1))[0]
        length = shift = 0
        while True:
            byte = (await self.reader.readexactly(1))[0]
            length |= (byte & 127) << shift
            shift += 7
            if byte < 128:
                break
        return first, (await self.reader.readexactly(length)) if length else b""

    async def hears(self):
        """Hears packets until the connection is gone. A PINGREQ goes out every ten seconds, and something has to come within twenty."""
        pings = asyncio.create_task(self.ping())
        try:
            while not self.stops:
                first, body = await asyncio.wait_for(self.next(), 20)
                if first >> 4 == DISCONNECT:
                    if body[:1] == bytes([USE_ANOTHER]):
                        self.port = reference_in(body[2:]) or self.port
                    raise Gone
                self.hear(first, body)
        finally:
            pings.cancel()

    async def ping(self):
        while True:
            await asyncio.sleep(10)
            try:
                self.send(packet(0xC0, b""))
            except Gone:
                return

    async def work(self):
        await self.hears()

    def hear(self, first, body):
        pass


class Publisher(Client):
    """Publishes what it is given, at most twenty messages ahead, and keeps what was acknowledged."""

    def __init__(self, name, port, will=None):
        super().__init__(name, port, will)
        self.due, self.waiting, self.acknowledged, self.refused = [], {}, [], []
        self.wakes = asyncio.Event()

    def give(self, topic, payload, qos, retain=False):
        self.due.append((topic, payload, qos, retain))
        self.wakes.set()

    def is_idle(self):
        return not self.due and not self.waiting

    def begin(self, continues):
        for identifier, (message, released) in self.waiting.items():
            topic, payload, qos, retain = message
            self.send(packet(0x62, identifier.to_bytes(2, "big")) if released else publish(topic, payload, qos, identifier, retain, again=True))

    async def work(self):
        hears = asyncio.create_task(self.hears())
        try:
            while not self.stops and not hears.done():
                self.wakes.clear()
                self.send_due()
                wakes = asyncio.create_task(self.wakes.wait())
                await asyncio.wait({hears, wakes}, return_when=asyncio.FIRST_COMPLETED)
                wakes.cancel()
            if hears.done():
                await hears
        finally:
            hears.cancel()
            await asyncio.gather(hears, return_exceptions=True)

    def send_due(self):
        while self.due and len(self.waiting) < 20:
            message = self.due.pop(0)
            topic, payload, qos, retain = message
            identifier = next(i for i in range(1, 30) if i not in self.waiting) if qos else 0
            if qos:
                self.waiting[identifier] = (message, False)
            self.send(publish(topic, payload, qos, identifier, retain))

    def hear(self, first, body):
        kind = first >> 4
        if kind not in (PUBACK, PUBREC, PUBCOMP):
            return
        identifier, code = int.from_bytes(body[:2], "big"), body[2] if len(body) > 2 else 0
        if identifier not in self.waiting:
            return
        message, released = self.waiting[identifier]
        if kind in (PUBACK, PUBREC) and code >= 0x80:
            self.refused.append((message, code))
            del self.waiting[identifier]
        else:
            if not released and kind != PUBCOMP:
                self.acknowledged.append(message)
            if kind == PUBREC:
                self.waiting[identifier] = (message, True)
                self.send(packet(0x62, identifier.to_bytes(2, "big")))
            else:
                del self.waiting[identifier]
        self.wakes.set()


class Receiver(Client):
    """Subscribes once, and keeps what comes: topic, payload, QoS and whether it was retained."""

    def __init__(self, name, port, filters):
        super().__init__(name, port)
        self.filters, self.came, self.unreleased, self.subscribed = filters, [], set(), False

    def begin(self, continues):
        if not continues:
            self.unreleased.clear()
            self.subscribed = False
        if not self.subscribed:
            body = b"\x00\x01\x00" + b"".join(text(it) + b"\x02" for it in self.filters)
            self.send(packet(0x82, body))

    def hear(self, first, body):
        if first >> 4 == SUBACK:
            self.subscribed = True
        elif first >> 4 == PUBLISH:
            self.take(first, body)
        elif first >> 4 == PUBREL:
            self.unreleased.discard(body[:2])
            self.send(packet(0x70, body[:2]))

    def take(self, first, body):
        qos, place = first >> 1 & 3, 2 + int.from_bytes(body[:2], "big")
        topic, identifier = body[2:place].decode(), body[place:place + 2]
        if qos:
            place += 2
        payload = body[place + 1 + body[place]:]
        if qos < 2 or identifier not in self.unreleased:
            self.came.append((topic, payload, qos, first & 1 == 1))
        if qos == 2:
            self.unreleased.add(identifier)
        if qos:
            self.send(packet(0x40 if qos == 1 else 0x50, identifier))
