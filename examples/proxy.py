#!/usr/bin/env python3
"""Passes on what comes at ports of 127.0.0.1 to others, and drops it while the network is parted.

    proxy.py FROM TO [FROM TO ..]

Prints `ready` once it waits. The signal USR1 parts the network: from then on bytes of either side are read and thrown away, and no
connection is closed, as where a cable is pulled. USR2 heals it: each connection that lost something is closed, and new ones pass
on again; then `dropped N` is printed, the bytes that were lost until now.
"""
import selectors
import signal
import socket
import sys

HOST = "127.0.0.1"


class Proxy:
    def __init__(self):
        self.ready = selectors.DefaultSelector()
        self.pairs = {}
        self.lossy = set()
        self.parted = False
        self.dropped = 0

    def wait_at(self, port, to):
        listener = socket.create_server((HOST, port), reuse_port=False)
        self.ready.register(listener, selectors.EVENT_READ, to)

    def accept(self, listener, to):
        near, _ = listener.accept()
        try:
            far = socket.create_connection((HOST, to))
        except OSError:
            near.close()
            return
        for one, other in ((near, far), (far, near)):
            one.setsockopt(socket.IPPROTO_TCP, socket.TCP_NODELAY, 1)
            self.pairs[one] = other
            self.ready.register(one, selectors.EVENT_READ)

    def close(self, one):
        for it in (one, self.pairs.get(one)):
            if it in self.pairs:
                del self.pairs[it]
                self.lossy.discard(it)
                self.forget(it)
                it.close()

    def forget(self, one):
        if one in self.ready.get_map():
            self.ready.unregister(one)

    def carry(self, one):
        try:
            came = one.recv(65536)
        except OSError:
            came = b""
        if self.parted:
            self.lose(one, came)
        elif not came:
            self.close(one)
        else:
            self.give(self.pairs[one], came)

    def lose(self, one, came):
        self.dropped += len(came)
        self.lossy.add(one)
        if not came:
            self.forget(one)

    def give(self, one, came):
        try:
            one.sendall(came)
        except OSError:
            self.close(one)

    def part(self, *_):
        self.parted = True

    def heal(self, *_):
        self.parted = False
        for one in list(self.lossy):
            self.close(one)
        print(f"dropped {self.dropped}", flush=True)

    def turn(self):
        for key, _ in self.ready.select(1):
            if key.data is not None:
                self.accept(key.fileobj, key.data)
            elif key.fileobj in self.pairs:
                self.carry(key.fileobj)


def main():
    proxy = Proxy()
    ports = [int(word) for word in sys.argv[1:]]
    for port, to in zip(ports[::2], ports[1::2], strict=True):
        proxy.wait_at(port, to)
    signal.signal(signal.SIGUSR1, proxy.part)
    signal.signal(signal.SIGUSR2, proxy.heal)
    print("ready", flush=True)
    while True:
        proxy.turn()


if __name__ == "__main__":
    main()
