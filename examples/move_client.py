#!/usr/bin/env python3
"""A subscriber of MQTT 5.0 that goes to the server that its broker names.

    move_client.py PORT FILE    subscribes to `numbers` at QoS 1 in a session that lasts, and receives there until it is ended

Each number that comes is a line of FILE. Where a broker answers "Use another server" (0x9C) or says "Server moved" (0x9D), the client dials the server
that it names. Where its session isn't there it subscribes anew. What is said to it is told on standard output.
"""
import sys

from kill_client import PUBACK, PUBLISH, SUBACK, TOPIC, Client, packet, text

DISCONNECT, SERVER_REFERENCE = 14, 28


def reference(properties):
    """The server that a CONNACK or a DISCONNECT names, whose first property that is: its port."""
    if len(properties) < 4 or properties[1] != SERVER_REFERENCE:
        sys.exit(f"no server is named: {properties.hex()}")
    return int(properties[4:4 + int.from_bytes(properties[2:4], "big")].decode().rpartition(":")[2])


class Follower(Client):
    def __init__(self, port, file):
        super().__init__(port, 1, "m-follows")
        self.file = file

    def turn_to(self, refused):
        body = refused.args[0]
        self.go(body[1], body[2:])

    def go(self, code, properties):
        port = reference(properties)
        print(f"{self.port} says {code:#04x}: go to {port}", flush=True)
        self.port = port

    def work(self, connection):
        self.known = False
        if not connection.continues:
            connection.send(packet(0x82, b"\x00\x01\x00" + text(TOPIC) + b"\x01"))
            print(f"{self.port}: a new session", flush=True)
        while True:
            heard = connection.next(60)
            if not heard:
                return
            kind, body = heard
            if kind == PUBLISH:
                self.take(connection, body)
            elif kind == SUBACK:
                print(f"{self.port}: subscribed", flush=True)
            elif kind == DISCONNECT:
                self.go(body[0], body[1:])
                raise ConnectionError

    def take(self, connection, body):
        place = 2 + int.from_bytes(body[:2], "big")
        print(int(body[place + 3 + body[place + 2]:]), file=self.file, flush=True)
        connection.send(packet(PUBACK << 4, body[place:place + 2]))


def main():
    with open(sys.argv[2], "w", encoding="ascii") as file:
        Follower(int(sys.argv[1]), file).run()


if __name__ == "__main__":
    main()
