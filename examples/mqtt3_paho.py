"""Paho for Python by MQTT 3.1.1 and 3.1, beside MQTT 5.0: mqtt3_paho.py PORT. One line a check."""
import sys
import threading
import time

import paho.mqtt.client as paho

PORT, bad = int(sys.argv[1]), 0
threading.excepthook = lambda *_: None  # a client whose socket is closed under it


class Client(paho.Client):
    def __init__(self, name, protocol, clean=True, start=True, will=None):
        five = protocol == paho.MQTTv5
        super().__init__(name, protocol=protocol, **({} if five else {"clean_session": clean}))
        self.got, self.flags, self.granted, self.gone, self.changed = [], None, [], [], threading.Condition()
        self.on_connect = lambda c, u, flags, rc, *more: self.note("flags", (flags["session present"], int(rc.value if five else rc)))
        self.on_subscribe = lambda c, u, mid, granted, *more: self.note_on(self.granted, [g.value if five else g for g in granted])
        self.on_message = lambda c, u, m: self.note_on(self.got, (m.topic, m.payload, m.qos, m.retain))
        self.on_disconnect = lambda c, u, rc, *more: self.note_on(self.gone, rc)
        self.max_queued_messages_set(0)
        self.max_inflight_messages_set(2000)
        if will:
            self.will_set(*will)
        if start:
            self.connect("127.0.0.1", PORT, **({"clean_start": clean} if five else {}))
            self.loop_start()
            self.wait(lambda: self.flags is not None)

    def note(self, name, what):
        with self.changed:
            setattr(self, name, what)
            self.changed.notify_all()

    def note_on(self, where, what):
        with self.changed:
            where.append(what)
            self.changed.notify_all()

    def wait(self, holds, seconds=60):
        with self.changed:
            return self.changed.wait_for(holds, seconds)

    def take(self, filters):
        n = len(self.granted)
        self.subscribe(filters)
        self.wait(lambda: len(self.granted) > n)
        return self.granted[-1]

    def leave(self):
        self.disconnect()
        self.loop_stop()


def check(name, good, why=""):
    global bad
    bad += not good
    print(f"{'PASS' if good else 'FAIL'} {name:58s} {'' if good else repr(why)[:200]}".rstrip(), flush=True)


names = {paho.MQTTv31: "3.1", paho.MQTTv311: "3.1.1", paho.MQTTv5: "5.0"}
for here in (paho.MQTTv311, paho.MQTTv31):
    v = names[here]
    for there in (paho.MQTTv311, paho.MQTTv31, paho.MQTTv5):
        a, b = Client(f"r{here}{there}", here), Client(f"w{here}{there}", there)
        for qos in (0, 1, 2):
            granted = a.take([(f"p{here}{there}/{qos}", qos)])
            n = 100 if there == paho.MQTTv5 and qos == 2 else 300  # a client of 5.0 is told that 100 may be open
            for i in range(n):
                b.publish(f"p{here}{there}/{qos}", str(i), qos)
            a.wait(lambda: len(a.got) >= n)
            time.sleep(0.05)
            check(f"paho {names[there]} to {v} at QoS {qos}, {n} at once", granted == [qos] and [g[1] for g in a.got] == [str(i).encode() for i in range(n)] and {g[2] for g in a.got} == {qos}, (granted, len(a.got), b.gone, a.gone))
            a.got.clear()
        a.leave(), b.leave()
    a = Client(f"keep{here}", here, clean=False)
    check(f"paho {v} new session", a.flags == (0, 0), a.flags)
    a.take([("keep/#", 2)]), a.leave()
    b = Client(f"other{here}", paho.MQTTv311)
    [b.publish("keep/x", str(i), i % 3).wait_for_publish() for i in range(30)]
    a = Client(f"keep{here}", here, clean=False)
    a.wait(lambda: len(a.got) >= 20)
    time.sleep(0.3)
    texts = [g[1] for q in (1, 2) for g in a.got if g[2] == q]  # Paho hands QoS 2 over once PUBREL has come
    check(f"paho {v} session with queued messages", a.flags[0] == (0 if here == paho.MQTTv31 else 1) and texts == [str(i).encode() for q in (1, 2) for i in range(30) if i % 3 == q], (a.flags, texts))
    c = Client(f"keep{here}", paho.MQTTv5)
    check(f"paho {v} is taken over by 5.0", a.wait(lambda: a.gone), a.gone)
    a.loop_stop(), c.leave()
    big = bytes(range(256)) * 1954
    a = Client(f"big{here}", here)
    a.take([("big", 2)])
    b.publish("big", big[:500000], 2)
    a.wait(lambda: a.got)
    check(f"paho {v} 500,000 bytes", a.got and a.got[0][1] == big[:500000], len(a.got))
    a.leave()
    d = Client(f"will{here}", here, will=("wills", "gone", 2, True))
    a = Client(f"watch{here}", here)
    a.take([("wills", 2)])
    d.socket().close()
    a.wait(lambda: a.got)
    check(f"paho {v} will", a.got and a.got[0] == ("wills", b"gone", 2, 0) or a.got == [("wills", b"gone", 2, False)], a.got)
    e = Client(f"late{here}", here)
    e.take([("wills", 2)])
    e.wait(lambda: e.got)
    check(f"paho {v} retained will", e.got and e.got[0][3] == 1, e.got)
    b.publish("wills", "", 1, True).wait_for_publish()
    s = [Client(f"s{here}{i}", (here, here, paho.MQTTv5)[i]) for i in range(3)]
    [x.take([("$share/g/shared", 1)]) for x in s]
    [b.publish("shared", str(i), 1) for i in range(300)]
    end = time.monotonic() + 60
    while sum(len(x.got) for x in s) < 300 and time.monotonic() < end:
        time.sleep(0.05)
    time.sleep(0.2)
    check(f"paho {v} shared with 5.0", sorted(int(g[1]) for x in s for g in x.got) == list(range(300)) and all(x.got for x in s), [len(x.got) for x in s])
    [x.leave() for x in (a, b, e, *s)]
    d.loop_stop()
print(f"{'FAIL' if bad else 'PASS'} {bad} bad")
sys.exit(bad > 0)
