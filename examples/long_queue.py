"""Reads a queue by Paho with its defaults: long_queue.py PORT CLIENT MESSAGES. Prints the first seven bytes of each message."""
import sys

import paho.mqtt.client as paho

port, name, messages = int(sys.argv[1]), sys.argv[2], int(sys.argv[3])
came = 0


def got(client, _data, message):
    global came
    came += 1
    sys.stdout.write(message.payload[:7].decode() + "\n")
    if came == messages:
        client.disconnect()


made = getattr(paho, "CallbackAPIVersion", None)
client = paho.Client(*([made.VERSION2] if made else []), client_id=name, protocol=paho.MQTTv5)
client.on_message = got
properties = paho.Properties(paho.PacketTypes.CONNECT)
properties.SessionExpiryInterval = 4294967295
client.connect("127.0.0.1", port, clean_start=False, properties=properties)
client.loop_forever(retry_first_connection=False)
