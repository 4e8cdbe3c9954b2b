#!/usr/bin/env python3
"""Passes on what comes at ports of 127.0.0.1 to others, each byte so many milliseconds after it came, as a long line does.

    delay.py MILLISECONDS FROM TO [FROM TO ..]

Prints `ready` once it waits. It takes at most 4,194,304 bytes of one side that it hasn't passed on yet, and then reads no more of that side.
"""
import asyncio
import collections
import sys

HOST = "127.0.0.1"
MOST = 4194304


async def carry(reader, writer, delay):
    """Passes on what one side sends, and then its end."""
    loop, waiting, there = asyncio.get_running_loop(), collections.deque(), asyncio.Event()
    room, held = asyncio.Event(), 0
    room.set()

    async def pass_on():
        nonlocal held
        while True:
            while not waiting:
                there.clear()
                await there.wait()
            due, came = waiting.popleft()
            await asyncio.sleep(max(0, due - loop.time()))
            if not came:
                return
            writer.write(came)
            await writer.drain()
            held -= len(came)
            room.set()

    passing = asyncio.create_task(pass_on())
    try:
        while came := await reader.read(65536):
            held += len(came)
            waiting.append((loop.time() + delay, came))
            there.set()
            if held > MOST:
                room.clear()
                await room.wait()
        waiting.append((loop.time() + delay, b""))
        there.set()
        await passing
        writer.write_eof()
    except OSError:
        passing.cancel()


async def join(reader, writer, to, delay):
    try:
        far_reader, far_writer = await asyncio.open_connection(HOST, to)
    except OSError:
        writer.close()
        return
    await asyncio.gather(carry(reader, far_writer, delay), carry(far_reader, writer, delay), return_exceptions=True)
    for it in (writer, far_writer):
        it.close()


async def main(words):
    delay, ports = int(words[0]) / 1000, [int(it) for it in words[1:]]
    servers = []
    for port, to in zip(ports[::2], ports[1::2]):
        servers.append(await asyncio.start_server(lambda r, w, to=to: join(r, w, to, delay), HOST, port))
    print("ready", flush=True)
    await asyncio.Event().wait()


if __name__ == "__main__":
    asyncio.run(main(sys.argv[1:]))
