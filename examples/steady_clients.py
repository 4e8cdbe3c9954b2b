"""Clients with wills that say nothing but PINGREQ, and a watcher of their wills: what becomes of them while their node stands still, or its clock is set.

    steady_clients.py PORT CLIENTS KEEP_ALIVE GO END

connects so many clients of MQTT 5.0, writes `up` into the file GO, and goes on until the file END is there. Each client sends a PINGREQ each half of its
Keep Alive. Then it tells how many wills came, how many clients lost their connection, and how many didn't get a PINGRESP in the last ten seconds; its
status is 0 where each of the three is 0.
"""
import asyncio
import os
import sys
import time


def text(word):
    return len(word).to_bytes(2, "big") + word.encode()


def packet(head, body):
    length, spelled = len(body), b""
    while True:
        length, low = divmod(length, 128)
        spelled += bytes([low | (128 if length else 0)])
        if not length:
            return bytes([head]) + spelled + body


def connect(name, keep_alive, will):
    flags = 0x06 if will else 0x02
    body = text("MQTT") + bytes([5, flags]) + keep_alive.to_bytes(2, "big") + b"\0" + text(name)
    if will:
        body += b"\0" + text(f"wills/{name}") + text("gone")
    return packet(0x10, body)


async def read_packet(reader):
    head = (await reader.readexactly(1))[0]
    length, shift = 0, 0
    while True:
        low = (await reader.readexactly(1))[0]
        length |= (low & 127) << shift
        shift += 7
        if low < 128:
            return head, await reader.readexactly(length)


class Client:
    def __init__(self, port, name, keep_alive):
        self.port, self.name, self.keep_alive = port, name, keep_alive
        self.lost, self.answered = False, time.monotonic()

    async def start(self):
        self.reader, self.writer = await asyncio.open_connection("127.0.0.1", self.port)
        self.writer.write(connect(self.name, self.keep_alive, True))
        head, body = await read_packet(self.reader)
        assert head == 0x20 and body[1] == 0, (self.name, head, body)

    async def ping(self):
        try:
            while True:
                await asyncio.sleep(self.keep_alive / 2)
                self.writer.write(b"\xc0\0")
        except ConnectionError:
            self.lost = True

    async def read(self):
        try:
            while True:
                head, _ = await read_packet(self.reader)
                if head == 0xD0:
                    self.answered = time.monotonic()
                elif head == 0xE0:
                    self.lost = True
        except (asyncio.IncompleteReadError, ConnectionError):
            self.lost = True


class Watcher:
    def __init__(self, port):
        self.port, self.wills = port, 0

    async def start(self):
        self.reader, self.writer = await asyncio.open_connection("127.0.0.1", self.port)
        self.writer.write(connect("watcher", 0, False))
        await read_packet(self.reader)
        self.writer.write(packet(0x82, b"\0\1\0" + text("wills/#") + b"\0"))
        await read_packet(self.reader)

    async def read(self):
        while True:
            head, _ = await read_packet(self.reader)
            self.wills += head & 0xF0 == 0x30


async def main(port, count, keep_alive, go, end):
    watcher = Watcher(port)
    await watcher.start()
    clients = [Client(port, f"steady{number}", keep_alive) for number in range(count)]
    for first in range(0, count, 100):
        await asyncio.gather(*[client.start() for client in clients[first : first + 100]])
    tasks = [asyncio.create_task(watcher.read())]
    for client in clients:
        tasks += [asyncio.create_task(client.ping()), asyncio.create_task(client.read())]
    with open(go, "w", encoding="utf-8") as file:
        file.write("up")
    while not os.path.exists(end):
        await asyncio.sleep(0.2)
    now = time.monotonic()
    lost = sum(client.lost for client in clients)
    silent = sum(now - client.answered > 10 for client in clients)
    for task in tasks:
        task.cancel()
    print(f"wills {watcher.wills}, connections lost {lost}, without an answer {silent}, of {count} clients")
    return 1 if watcher.wills or lost or silent else 0


if __name__ == "__main__":
    sys.exit(asyncio.run(main(*map(int, sys.argv[1:4]), *sys.argv[4:6])))
