#!/usr/bin/env python3
"""A client of MQTT 5.0 that publishes under topic aliases, and looks at what comes back (3.3.2.3.4).

    alias_client.py PORT [HOST]

It sets each alias that CONNACK allows, publishes under each with an empty topic, replaces one, and sees that a new connection has none and
that an alias above those is refused. Where all is as it should be it says so and ends with status 0.
"""
import socket
import sys

CONNACK, PUBLISH, SUBACK, DISCONNECT = 2, 3, 9, 14
ALIAS_MAXIMUM, ALIAS = 34, 35


def text(word):
    return len(word).to_bytes(2, "big") + word.encode()


def packet(first, body):
    assert len(body) < 128
    return bytes([first, len(body)]) + body


def publish(topic, alias, payload):
    return packet(0x30, text(topic) + bytes([3, ALIAS]) + alias.to_bytes(2, "big") + payload.encode())


class Client:
    def __init__(self, host, port):
        self.socket = socket.create_connection((host, port), timeout=10)
        self.held = b""
        self.socket.sendall(packet(0x10, text("MQTT") + b"\x05\x02\x00\x3c\x00" + text("alias-client")))
        kind, body = self.next()
        assert kind == CONNACK and body[1] == 0, (kind, body.hex())
        self.aliases = alias_maximum(body[3:])

    def next(self):
        """The next packet's type with its body; the body is shorter than 128 bytes."""
        while len(self.held) < 2 or len(self.held) < 2 + self.held[1]:
            came = self.socket.recv(4096)
            if not came:
                return None, b""
            self.held += came
        end = 2 + self.held[1]
        kind, body = self.held[0] >> 4, self.held[2:end]
        self.held = self.held[end:]
        return kind, body

    def gets(self, topic, payload):
        kind, body = self.next()
        wanted = text(topic) + b"\x00" + payload.encode()
        assert (kind, body) == (PUBLISH, wanted), (kind, body, wanted)

    def is_ended(self, code):
        assert self.next() == (DISCONNECT, bytes([code])), "DISCONNECT"
        assert self.next() == (None, b""), "a close"


def alias_maximum(properties):
    """Topic Alias Maximum among CONNACK's properties, of those that this broker sends."""
    sizes = {33: 2, ALIAS_MAXIMUM: 2, 39: 4}
    while properties:
        size = sizes[properties[0]]
        if properties[0] == ALIAS_MAXIMUM:
            return int.from_bytes(properties[1:3], "big")
        properties = properties[1 + size:]
    return 0


def main(port, host="127.0.0.1"):
    client = Client(host, int(port))
    most = client.aliases
    client.socket.sendall(packet(0x82, b"\x00\x01\x00" + text("alias/#") + b"\x00"))
    assert client.next()[0] == SUBACK
    for alias in range(1, most + 1):
        client.socket.sendall(publish(f"alias/{alias}", alias, "set"))
        client.gets(f"alias/{alias}", "set")
    for alias in range(most, 0, -1):
        client.socket.sendall(publish("", alias, "used"))
        client.gets(f"alias/{alias}", "used")
    client.socket.sendall(publish("alias/other", 1, "replaced") + publish("", 1, "used"))
    client.gets("alias/other", "replaced")
    client.gets("alias/other", "used")
    client.socket.sendall(b"\xe0\x00")
    again = Client(host, int(port))
    again.socket.sendall(publish("", 1, "unset"))
    again.is_ended(0x82)
    above = Client(host, int(port))
    above.socket.sendall(publish("alias/above", most + 1, "above"))
    above.is_ended(0x94)
    print(f"{most} aliases were set, used and replaced; a new connection has none, and {most + 1} is refused")


if __name__ == "__main__":
    if len(sys.argv) not in (2, 3):
        sys.exit(__doc__)
    main(*sys.argv[1:])
