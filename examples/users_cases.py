#!/usr/bin/env python3
"""The same users and permissions at two brokers: what each client may do at either, and where they differ.

    users_cases.py PORT OTHER   asks the broker at PORT and Mosquitto at OTHER; prints the cases in which they differ, by why

Ends with status 1 where a case differs in another way than docs/operate.md tells.
"""
import socket
import sys

HOST = "127.0.0.1"
PATIENCE = 10
CONNACK, PUBLISH, PUBACK, SUBACK, PINGRESP, DISCONNECT = 2, 3, 4, 9, 13, 14

# user name, password, client identifier
CLIENTS = [
    (None, None, "stranger"),
    ("ann", "one", "ann-1"),
    ("ann", "one", "other"),
    ("bob", "two", "bob"),
    ("carl", "three", "carl"),
    ("dora", "four", "d/1"),
]
TURNED_AWAY = [
    ("ann", "two", "ann-1"),
    ("ann", "", "ann-1"),
    ("ann", None, "ann-1"),
    ("eve", "one", "eve"),
    ("", "one", "ann-1"),
]
TOPICS = [
    "news", "sensors", "sensors/roof", "sensors/roof/temperature", "sensors/secret", "sensors/secret/a", "room 1/door", "users/ann/a", "users/ann/locked",
    "users/bob/a", "clients/ann-1/state", "clients/carl/state", "shared/all", "other",
]
FILTERS = [
    "#", "+", "news", "sensors/#", "sensors/+", "sensors/roof/#", "sensors/roof/+", "sensors/+/temperature", "users/+/a", "users/ann/#", "users/bob/#", "shared/#",
    "$share/g/sensors/roof/#", "$share/g/#", "$SYS/#",
]


def text(word):
    return len(word.encode()).to_bytes(2, "big") + word.encode()


def sized(length):
    digits = b""
    while True:
        length, digit = divmod(length, 128)
        digits += bytes([digit | (0x80 if length else 0)])
        if not length:
            return digits


def packet(first, body):
    return bytes([first]) + sized(len(body)) + body


def connect(user, password, name):
    flags = 2 | (0x80 if user is not None else 0) | (0x40 if password is not None else 0)
    body = text("MQTT") + bytes([5, flags, 0, 0, 0]) + text(name)
    return packet(0x10, body + (text(user) if user is not None else b"") + (text(password) if password is not None else b""))


class Client:
    def __init__(self, port, user, password, name):
        self.socket = socket.create_connection((HOST, port), timeout=PATIENCE)
        self.held = b""
        self.number = 0
        self.socket.sendall(connect(user, password, name))
        answer = self.next()
        self.code = answer[1][1] if answer and answer[0] == CONNACK else None

    def next(self):
        """The next packet, as its kind and body; none where the connection ends."""
        while True:
            length = at = 0
            for at, byte in enumerate(self.held[1:5], 1):
                length += (byte & 127) << (7 * (at - 1))
                if byte < 128:
                    if len(self.held) > at + length:
                        body, first = self.held[at + 1:at + 1 + length], self.held[0]
                        self.held = self.held[at + 1 + length:]
                        return first >> 4, body
                    break
            try:
                more = self.socket.recv(65536)
            except OSError:
                return None
            if not more:
                return None
            self.held += more

    def await_kind(self, kind):
        """The body of the next packet of this kind, and the topics of the PUBLISHes before it; none where the connection ends."""
        topics = []
        while True:
            answer = self.next()
            if answer is None:
                return None, topics
            if answer[0] == PUBLISH:
                length = int.from_bytes(answer[1][:2], "big")
                topics.append(answer[1][2:2 + length].decode())
            if answer[0] == kind:
                return answer[1], topics

    def write(self, topic):
        self.number += 1
        self.socket.sendall(packet(0x32, text(topic) + self.number.to_bytes(2, "big") + b"\x00x"))
        body, _ = self.await_kind(PUBACK)
        if body is None:
            return "ended"
        return "refused" if len(body) > 2 and body[2] >= 0x80 else "sent"

    def subscribe(self, topic_filter):
        self.number += 1
        self.socket.sendall(packet(0x82, self.number.to_bytes(2, "big") + b"\x00" + text(topic_filter) + b"\x00"))
        body, _ = self.await_kind(SUBACK)
        if body is None:
            return "ended"
        return "refused" if body[-1] >= 0x80 else "granted"

    def seen(self):
        self.socket.sendall(b"\xc0\x00")
        return self.await_kind(PINGRESP)[1]

    def close(self):
        self.socket.sendall(b"\xe0\x00")
        self.socket.close()


def asked(port):
    """What comes of each case at a broker."""
    told = {}
    for who in CLIENTS + TURNED_AWAY:
        client = Client(port, *who)
        told[("connect", who, "")] = "let in" if client.code == 0 else "turned away"
        client.socket.close()
    root = Client(port, "root", "all", "root")
    for who in CLIENTS:
        for topic in TOPICS:
            client = Client(port, *who)
            if client.code != 0:
                continue
            told[("write", who, topic)] = client.write(topic)
            granted = client.subscribe(topic)
            assert root.write(topic) == "sent", topic
            told[("read", who, topic)] = "got" if granted != "ended" and topic in client.seen() else "nothing"
            client.close()
        for topic_filter in FILTERS:
            client = Client(port, *who)
            if client.code != 0:
                continue
            told[("subscribe", who, topic_filter)] = client.subscribe(topic_filter)
            client.close()
    root.close()
    return told


def why(case, here, there):
    """Why the two may differ, as docs/operate.md has it; none where they may not."""
    what, who, name = case
    if what == "connect" and here == "turned away":
        return "client lines"
    if what == "subscribe" and (here, there) == ("refused", "granted"):
        return "a subscription that the rules cover in part"
    if what in ("write", "read") and "locked" in name:
        return "a pattern that denies, and a rule that gives"
    return None


def main():
    here, there = asked(int(sys.argv[1])), asked(int(sys.argv[2]))
    cases = [case for case in here if case in there]
    unlike = [case for case in cases if here[case] != there[case]]
    strange = 0
    print(f"{len(cases)} cases, of which {len(unlike)} differ")
    for case in unlike:
        reason = why(case, here[case], there[case])
        strange += reason is None
        what, who, name = case
        print(f"{what} {name or '-'} by {who[0] or 'nobody'} ({who[2]}): {here[case]}, and {there[case]} at Mosquitto: {reason or 'NOT EXPECTED'}")
    return 1 if strange else 0


sys.exit(main())
