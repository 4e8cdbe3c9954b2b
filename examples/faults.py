#!/usr/bin/env python3
"""Runs a cluster of nodes under load while faults happen to it at random, and checks in the end what every client got.

    faults.py SECONDS [--seed N] [--nodes N] [--folder DIR] PROGRAM ..

runs the nodes by these words, with `run CONFIG NODE DATABASE` behind them. Every link between two nodes goes through a proxy of this program. Faults are: a node is
killed (SIGKILL) or stands still (SIGSTOP), its files can't grow, as on a full disk, until it is started again, or it can open no more files than it has; the link from
one node to another, or both ways, is closed and refused, loses all that is sent, stands still, is slow and passes on small pieces, or is reset; clients vanish; the
home of some clients moves by a new table, node by node. After SECONDS all is healed, and what is on its way may take two minutes. Then it is wrong, and the status
is 1, where

- a message that was acknowledged at QoS 1 or 2 didn't come to a session that is subscribed to it, or one at QoS 0 or 2 came twice;
- the messages of one publisher at one QoS came first in another order than it sent them;
- a message to a shared group came to no member, or at QoS 2 to two;
- a will of a client that vanished didn't come, came twice, or one of a client that left came;
- a session was lost that has moved nowhere;
- two nodes give a new subscriber other retained messages, or a topic has a message that nobody sent last;
- a node ended by itself, but for one whose files can't grow, with the message about its rows.

With the same seed the same faults are drawn; what the machine does between them differs. Nothing in it is shared with the broker but the bytes of MQTT 5.0.
"""
import argparse
import asyncio
import collections
import contextlib
import os
import random
import resource
import shutil
import signal
import sys
import tempfile

from faults_clients import HOST, Client, Publisher, Receiver, Gone

BASE, BRIDGE, PROXY = 21000, 21100, 21200
PATIENCE, STARTS = 120, 300


class Link:
    """What one node sends another goes through here: it passes on all, or what its mode says."""

    def __init__(self, port, to):
        self.port, self.to, self.mode, self.open = port, to, "passes", set()
        self.healed = asyncio.Event()

    async def listen(self):
        self.server = await asyncio.start_server(self.accept, HOST, self.port)

    async def accept(self, reader, writer):
        if self.mode == "refuses":
            writer.transport.abort()
            return
        try:
            far_reader, far_writer = await asyncio.open_connection(HOST, self.to)
        except OSError:
            writer.transport.abort()
            return
        pair = (writer, far_writer)
        self.open.add(pair)
        await asyncio.gather(self.carry(reader, far_writer), self.carry(far_reader, writer), return_exceptions=True)
        self.open.discard(pair)
        for it in pair:
            it.transport.abort()

    async def carry(self, reader, writer):
        lost = False
        while came := await reader.read(65536):
            if self.mode == "stands":
                await self.healed.wait()
            elif self.mode == "slow":
                while came and not writer.is_closing():
                    size = random.choice((1, 7, 100, 4000))
                    await asyncio.sleep(random.random() * 0.05)
                    writer.write(came[:size])
                    came = came[size:]
                continue
            lost = lost or self.mode == "loses"
            if lost and self.mode != "loses":
                break
            if not lost:
                writer.write(came)
                await writer.drain()
        writer.transport.abort()

    def turn(self, mode):
        self.healed.set()
        self.healed = asyncio.Event()
        if self.mode == "loses" or mode in ("refuses", "reset"):
            for pair in list(self.open):
                for it in pair:
                    it.transport.abort()
        self.mode = "passes" if mode == "reset" else mode


def ignore_long_files():
    """A write past the longest that a file may be is refused, and ends no program."""
    signal.signal(signal.SIGXFSZ, signal.SIG_IGN)


class Node:
    def __init__(self, number, program, folder):
        self.number, self.program, self.folder = number, program, folder
        self.name, self.process, self.version, self.starts, self.faults = f"n{number}", None, 0, 0, []

    async def start(self):
        words = [*self.program, "run", f"{self.folder}/{self.name}-{self.version}.toml", self.name, f"{self.folder}/{self.name}.db"]
        with open(self.said(), "ab") as err:
            self.process = await asyncio.create_subprocess_exec(
                *words, stdout=asyncio.subprocess.PIPE, stderr=err, start_new_session=True, preexec_fn=ignore_long_files
            )
        self.starts += 1
        try:
            line = await asyncio.wait_for(self.process.stdout.readline(), STARTS)
        except asyncio.TimeoutError:
            line = f"nothing in {STARTS} seconds".encode()
        if not line.startswith(b"ready"):
            self.faults.append(f"{self.name} isn't ready: {line!r}")

    def said(self):
        return f"{self.folder}/{self.name}.err"

    def processes(self):
        """Those that were started as the node: one, or where the program is a script some."""
        for it in filter(str.isdigit, os.listdir("/proc")):
            with contextlib.suppress(OSError):
                if os.getpgid(int(it)) == self.process.pid:
                    yield int(it)

    def limit(self, kind, most):
        """Lets none of them have more of this, and answers what they might have before."""
        before = []
        for process in self.processes():
            with contextlib.suppress(OSError):
                low, high = resource.prlimit(process, kind)
                resource.prlimit(process, kind, (most(process), high))
                before.append((process, (low, high)))
        return before

    async def fill(self, room, seconds):
        """Its files don't grow past some length. It ends with its message, which is told, or is killed after so many seconds."""
        said = os.path.getsize(self.said())
        self.limit(resource.RLIMIT_FSIZE, lambda _: said + room)
        try:
            await asyncio.wait_for(self.process.wait(), seconds)
        except asyncio.TimeoutError:
            self.signal(signal.SIGKILL)
            await self.process.wait()
        if self.process.returncode == -signal.SIGKILL:
            return False
        with open(self.said(), "rb") as file:
            text = file.read()[said:]
        if self.process.returncode != 1 or b"broker: the rows in " not in text:
            self.faults.append(f"{self.name} ended with status {self.process.returncode} where its files can't grow, and said {text!r}")
        return True

    async def hold_files(self, seconds):
        """It can open no more files than it has."""
        before = self.limit(resource.RLIMIT_NOFILE, lambda it: len(os.listdir(f"/proc/{it}/fd")))
        await asyncio.sleep(seconds)
        for process, limits in before:
            with contextlib.suppress(OSError):
                resource.prlimit(process, resource.RLIMIT_NOFILE, limits)

    def signal(self, number):
        if self.process and self.process.returncode is None:
            os.killpg(self.process.pid, number)

    async def kill(self):
        if self.process.returncode is not None:
            self.faults.append(f"{self.name} ended by itself, with status {self.process.returncode}")
        self.signal(signal.SIGKILL)
        await self.process.wait()


class Mover(Receiver):
    """Its home moves, and with it goes its session: it subscribes anew wherever that is lost."""


class Willing(Client):
    """Connects with a will, and vanishes or leaves."""

    def __init__(self, name, port, number):
        super().__init__(name, port, (f"w/{name}", str(number).encode()))


class Cluster:
    def __init__(self, nodes, seed, program, folder):
        self.count, self.random, self.folder = nodes, random.Random(seed), folder
        self.nodes = [Node(it, program, folder) for it in range(nodes)]
        self.links = {(i, j): Link(PROXY + i * nodes + j, BRIDGE + j) for i in range(nodes) for j in range(nodes) if i != j}
        self.version = 0
        self.busy = set()
        self.tally = collections.Counter()
        self.write_tables()

    def write_tables(self):
        """Each node dials the others' proxies; the home of `m` goes round with the version."""
        for node in range(self.count):
            text = [f"version = {self.version}\n"]
            for other in range(self.count):
                bridge = BRIDGE + other if other == node else PROXY + node * self.count + other
                text.append(f'[[node]]\nname = "n{other}"\naddress = "{HOST}:{BASE + other}"\nbridge = "{HOST}:{bridge}"\n')
            homes = [(chr(ord("a") + it), it) for it in range(self.count)] + [("m", self.version % self.count)]
            text += [f'[[home]]\nprefix = "{prefix}"\nnode = "n{home}"\n' for prefix, home in homes]
            with open(f"{self.folder}/n{node}-{self.version}.toml", "w", encoding="ascii") as file:
                file.write("\n".join(text))

    async def start(self):
        for link in self.links.values():
            await link.listen()
        await asyncio.gather(*(it.start() for it in self.nodes))

    # ---- faults
    async def down(self):
        node = self.random.choice(self.nodes)
        seconds = self.random.choice((0, 0.2, 1, 5))
        if node.number in self.busy:
            return
        self.busy.add(node.number)
        self.tally["killed"] += 1
        await node.kill()
        await asyncio.sleep(seconds)
        await node.start()
        self.busy.discard(node.number)

    async def still(self):
        node = self.random.choice(self.nodes)
        seconds = self.random.choice((0.3, 2, 8))
        if node.number in self.busy:
            return
        self.busy.add(node.number)
        self.tally["stood still"] += 1
        node.signal(signal.SIGSTOP)
        await asyncio.sleep(seconds)
        node.signal(signal.SIGCONT)
        self.busy.discard(node.number)

    async def full(self):
        node = self.random.choice(self.nodes)
        room, seconds = self.random.choice((10_000, 100_000)), self.random.choice((1, 20))
        if node.number in self.busy:
            return
        self.busy.add(node.number)
        self.tally["full disks"] += 1
        if await node.fill(room, seconds):
            self.tally["ended at a full disk"] += 1
        await node.start()
        self.busy.discard(node.number)

    async def no_files(self):
        node = self.random.choice(self.nodes)
        seconds = self.random.choice((1, 4, 10))
        if node.number in self.busy:
            return
        self.busy.add(node.number)
        self.tally["no more files"] += 1
        await node.hold_files(seconds)
        self.busy.discard(node.number)

    async def link(self):
        if self.count < 2:
            return
        mode = self.random.choice(("refuses", "loses", "stands", "slow", "reset"))
        one, other = self.random.sample(range(self.count), 2)
        ways = [(one, other)] + ([(other, one)] if self.random.random() < 0.5 else [])
        seconds = self.random.choice((0.2, 1, 4, 10))
        self.tally[f"links: {mode}"] += len(ways)
        for way in ways:
            self.links[way].turn(mode)
        await asyncio.sleep(seconds)
        for way in ways:
            self.links[way].turn("passes")

    async def move(self):
        if "move" in self.busy:
            return
        self.busy.add("move")
        self.version += 1
        self.tally["moved"] += 1
        self.write_tables()
        for node in self.random.sample(self.nodes, self.count):
            while node.number in self.busy:
                await asyncio.sleep(0.1)
            self.busy.add(node.number)
            await node.kill()
            node.version = self.version
            await node.start()
            self.busy.discard(node.number)
        self.busy.discard("move")

    async def heal(self):
        for link in self.links.values():
            link.turn("passes")
        while self.busy:
            await asyncio.sleep(0.1)


class Load:
    """The clients, and what is to come of what they did."""

    def __init__(self, cluster, seed):
        self.cluster, self.random = cluster, random.Random(seed + 1)
        homes = [(chr(ord("a") + it), BASE + it) for it in range(cluster.count)]
        self.publishers = [Publisher(f"{home}-publishes", port) for home, port in homes]
        self.receivers = [Receiver(f"{home}-receives", port, ["t/#", "w/#"]) for home, port in homes]
        self.members = [Receiver(f"{home}-member", port, ["$share/g/s/#"]) for home, port in homes]
        self.mover = Mover("m-receives", BASE, ["t/#"])
        self.homes, self.numbers, self.tasks = homes, collections.Counter(), []
        self.vanished, self.left, self.unsure, self.wills = [], [], [], 0
        self.last, self.retained = {}, collections.defaultdict(set)

    def all(self):
        return [*self.publishers, *self.receivers, *self.members, self.mover]

    def start(self):
        self.tasks = [asyncio.create_task(it.run()) for it in self.all()]

    async def subscribe(self):
        """Waits until a message of each node comes to each session, and to a member of the group."""
        for _ in range(600):
            for publisher in self.publishers:
                if publisher.is_idle():
                    publisher.give("t/begin", publisher.name.encode(), 1)
                    publisher.give("s/begin", publisher.name.encode(), 1)
            await asyncio.sleep(0.2)
            if all({it.name.encode() for it in self.publishers} <= {it[1] for it in one.came if it[0] == "t/begin"} for one in self.receivers) and all(
                it.subscribed for it in self.members
            ):
                await asyncio.sleep(3)
                return
        sys.exit("nobody is served")

    def publish(self):
        publisher = self.random.choice(self.publishers)
        if len(publisher.due) > 200:
            return
        kind, qos = self.random.choice("tttsr"), self.random.choice((0, 1, 1, 2, 2))
        self.numbers[publisher.name, qos] += 1
        payload = f"{publisher.name} {qos} {self.numbers[publisher.name, qos]}".encode()
        if kind == "r":
            # (each topic has one writer, so that the last message to it is known)
            topic = f"r/{publisher.name}/{self.random.randrange(20)}"
            payload = b"" if self.random.random() < 0.3 else payload
            publisher.give(topic, payload, max(qos, 1), retain=True)
            self.last[topic] = payload
        elif kind == "s":
            publisher.give("s/all", payload, max(qos, 1))
        else:
            publisher.give(f"t/{publisher.name}", payload, qos)

    async def vanish(self):
        """A client with a will connects, stays a while, and vanishes or leaves."""
        home, port = self.random.choice(self.homes)
        self.wills += 1
        client = Willing(f"{home}-will-{self.wills}", port, self.wills)
        node = self.cluster.nodes[port - BASE]
        starts = node.starts
        try:
            await client.open()
        except (Gone, OSError, asyncio.IncompleteReadError, asyncio.TimeoutError):
            client.close()
            self.unsure.append(client.name)
            return
        await asyncio.sleep(self.random.random())
        if self.random.random() < 0.7:
            client.close()
            self.vanished.append(client.name)
            return
        try:
            client.leave()
            # the node closes the connection once it has taken the DISCONNECT; where it was killed meanwhile, the system closed it
            await asyncio.wait_for(client.reader.read(), 3)
            was_up = node.starts == starts and not self.cluster.busy
            (self.left if was_up else self.unsure).append(client.name)
        except (Gone, OSError, asyncio.TimeoutError):
            self.unsure.append(client.name)
        finally:
            client.close()

    def drop_somebody(self):
        client = self.random.choice(self.all())
        if client.writer:
            client.writer.transport.abort()

    # ---- what is wrong
    def wanted(self):
        """What was acknowledged, by topic and payload, with its QoS."""
        return {(topic, payload): qos for it in self.publishers for topic, payload, qos, retain in it.acknowledged if not retain and topic[2:] != "begin"}

    def lacking(self):
        wanted, lacks = self.wanted(), []
        for receiver in self.receivers:
            came = {it[:2] for it in receiver.came}
            lacks += [f"{receiver.name} lacks {it}" for it in wanted if it[0][0] == "t" and it not in came]
            lacks += [f"{receiver.name} lacks the will of {it}" for it in self.vanished if not any(topic == f"w/{it}" for topic, _, _, _ in receiver.came)]
        grouped = {it[:2] for member in self.members for it in member.came}
        return lacks + [f"no member has {it}" for it in wanted if it[0][0] == "s" and it not in grouped]

    def wrong(self):
        found, wanted = self.lacking(), self.wanted()
        for receiver in self.receivers:
            counts = collections.Counter(it[:2] for it in receiver.came)
            for (topic, payload), count in counts.items():
                words = payload.split()
                if count > 1 and topic[0] == "t" and len(words) == 3 and words[1] in (b"0", b"2"):
                    found.append(f"{receiver.name} has {topic} {payload} {count} times")
                if topic[0] == "w" and (count > 1 or topic[2:] in self.left):
                    found.append(f"{receiver.name} has the will of {topic[2:]} {count} times")
            found += self.disorder(receiver)
        counts = collections.Counter(it[:2] for member in self.members for it in member.came)
        found += [f"members have {it} {count} times" for it, count in counts.items() if count > 1 and wanted.get(it) == 2]
        found += [f"the session of {it.name} was lost" for it in self.all() if it.lost and it is not self.mover]
        found += [f"{it.name}: {message} was refused with {code:#04x}" for it in self.publishers for message, code in it.refused]
        return found

    def disorder(self, receiver):
        last, seen, found = collections.Counter(), set(), []
        for topic, payload, _, _ in receiver.came:
            words = payload.split()
            if topic[0] != "t" or len(words) != 3 or payload in seen:
                continue
            seen.add(payload)
            name, qos, number = words[0], words[1], int(words[2])
            if number < last[name, qos]:
                found.append(f"{receiver.name} has {payload} after {last[name, qos]}")
            last[name, qos] = number
        return found


async def retained_at(port, name):
    """What a new subscriber is given of `r/#`."""
    receiver = Receiver(name, port, ["r/#"])
    task = asyncio.create_task(receiver.run())
    before, still = -1, 0
    for _ in range(120):
        await asyncio.sleep(0.5)
        still = still + 1 if receiver.subscribed and len(receiver.came) == before else 0
        if still == 6:
            break
        before = len(receiver.came)
    receiver.stops = True
    receiver.close()
    task.cancel()
    return {topic: payload for topic, payload, _, _ in receiver.came}


async def compare_retained(cluster, load):
    for _ in range(30):
        answers = [await retained_at(port, f"{home}-asks-{load.random.randrange(10**9)}") for home, port in load.homes]
        wanted = {topic: payload for topic, payload in load.last.items() if payload}
        if all(it == wanted for it in answers):
            return []
        await asyncio.sleep(1)
    return [f"n{number} has other retained messages: {sorted(set(it.items()) ^ set(wanted.items()))[:5]}" for number, it in enumerate(answers) if it != wanted]


async def disturb(cluster, load, seconds):
    loop = asyncio.get_running_loop()
    end, tasks = loop.time() + seconds, set()
    faults = (cluster.down, cluster.still, cluster.full, cluster.no_files, cluster.link, cluster.move, load.vanish, None)
    while loop.time() < end:
        await asyncio.sleep(cluster.random.random() * 1.5)
        fault = cluster.random.choices(faults, (3, 2, 1, 1, 6, 0.5, 4, 3))[0]
        if fault is None:
            load.drop_somebody()
            cluster.tally["clients dropped"] += 1
        else:
            task = asyncio.create_task(fault())
            tasks.add(task)
            task.add_done_callback(tasks.discard)
    await asyncio.gather(*tasks)


async def publish_on(load, stops):
    while not stops.is_set():
        load.publish()
        await asyncio.sleep(0.01)


async def run(words):
    cluster = Cluster(words.nodes, words.seed, words.program, words.folder)
    await cluster.start()
    load = Load(cluster, words.seed)
    load.start()
    await load.subscribe()
    stops = asyncio.Event()
    publishing = asyncio.create_task(publish_on(load, stops))
    await disturb(cluster, load, words.seconds)
    stops.set()
    await publishing
    await cluster.heal()
    for _ in range(PATIENCE * 2):
        await asyncio.sleep(0.5)
        if all(it.is_idle() for it in load.publishers) and not load.lacking():
            break
    await asyncio.sleep(2)
    found = load.wrong() + await compare_retained(cluster, load)
    found += [f"{it.name} isn't idle: {len(it.due)} {len(it.waiting)}" for it in load.publishers if not it.is_idle()]
    before = len(load.mover.came)
    load.publishers[0].give("t/end", b"end", 1)
    await asyncio.sleep(3)
    if len(load.mover.came) == before:
        found.append("nothing comes to the client that moved")
    for it in load.all():
        it.stops = True
        it.close()
    for node in cluster.nodes:
        await node.kill()
        found += node.faults
    tell(cluster, load, words, found)
    return 1 if found else 0


def tell(cluster, load, words, found):
    acknowledged = sum(len(it.acknowledged) for it in load.publishers)
    came = sum(len(it.came) for it in [*load.receivers, *load.members, load.mover])
    faults = ", ".join(f"{name} {count}" for name, count in sorted(cluster.tally.items()))
    print(f"seed {words.seed}, {words.seconds} seconds, {cluster.count} nodes, {sum(it.starts for it in cluster.nodes)} starts: {faults}")
    print(f"{acknowledged} messages acknowledged, {came} delivered, {len(load.vanished)} clients with a will vanished, {len(load.left)} left")
    for line in found[:20]:
        print(f"WRONG: {line}")
    print("nothing is wrong" if not found else f"{len(found)} wrong; the files are in {words.folder}")


def main():
    reads = argparse.ArgumentParser(usage="faults.py SECONDS [--seed N] [--nodes N] [--folder DIR] PROGRAM ..")
    reads.add_argument("seconds", type=float)
    reads.add_argument("--seed", type=int, default=random.SystemRandom().randrange(10**6))
    reads.add_argument("--nodes", type=int, default=3)
    reads.add_argument("--folder", default=None)
    reads.add_argument("program", nargs="+")
    words = reads.parse_args()
    folder = words.folder
    if folder:
        os.makedirs(folder, exist_ok=True)
    words.folder = folder or tempfile.mkdtemp(prefix="faults-")
    status = asyncio.run(run(words))
    if status == 0 and folder is None:
        shutil.rmtree(words.folder)
    sys.exit(status)


if __name__ == "__main__":
    main()
