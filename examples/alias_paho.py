#!/usr/bin/env python3
"""Publishes under topic aliases by Paho's client library (paho-mqtt), and looks at what a subscriber gets.

    alias_paho.py PORT [HOST]

Each alias that the broker allows is set and then used with an empty topic, at QoS 0, 1 and 2. Where each message comes to the subscriber with
its whole topic it says so and ends with status 0.
"""
import queue
import sys

import paho.mqtt.client as mqtt
from paho.mqtt.packettypes import PacketTypes
from paho.mqtt.properties import Properties

SECONDS = 10


def connected(name, host, port):
    """A client that is connected, with the greatest alias that the broker allows."""
    answers = queue.Queue()
    client = mqtt.Client(name, protocol=mqtt.MQTTv5)
    client.on_connect = lambda client, data, flags, reason, properties: answers.put((reason, properties))
    client.connect(host, port)
    client.loop_start()
    reason, properties = answers.get(timeout=SECONDS)
    assert reason.value == 0, reason
    return client, properties.TopicAliasMaximum


def publish(client, topic, alias, payload, qos):
    properties = Properties(PacketTypes.PUBLISH)
    properties.TopicAlias = alias
    client.publish(topic, payload, qos, properties=properties).wait_for_publish(SECONDS)


def main(port, host="127.0.0.1"):
    subscriber, most = connected("alias-paho-in", host, int(port))
    came, granted = queue.Queue(), queue.Queue()
    subscriber.on_message = lambda client, data, message: came.put((message.topic, message.payload.decode()))
    subscriber.on_subscribe = lambda client, data, identifier, reasons, properties: granted.put(reasons)
    subscriber.subscribe("paho/#", 2)
    assert granted.get(timeout=SECONDS)[0].value == 2
    publisher, _ = connected("alias-paho-out", host, int(port))
    for qos in (0, 1, 2):
        for topic in ("set", "used"):
            for alias in range(1, most + 1):
                name = f"paho/{qos}/{alias}"
                publish(publisher, name if topic == "set" else "", alias, topic, qos)
                assert came.get(timeout=SECONDS) == (name, topic)
    for client in (publisher, subscriber):
        client.disconnect()
        client.loop_stop()
    print(f"{most} aliases were set and used at each QoS, and each message came with its topic")


if __name__ == "__main__":
    if len(sys.argv) not in (2, 3):
        sys.exit(__doc__)
    main(*sys.argv[1:])
