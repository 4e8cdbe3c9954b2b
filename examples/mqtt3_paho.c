/* A client of Paho for C at MQTT 3.1.1 and 3.1: messages at each QoS go out and come back, and a retained one comes with a new subscription.
 *
 *   mqtt3_paho HOST PORT
 *
 * A line tells what each check came to; the exit status is 1 where one failed. */
#include <MQTTClient.h>
#include <stdio.h>
#include <stdlib.h>
#include <string.h>

static int failed = 0;

static void check(const char *what, int holds) {
    printf("Paho for C, %s: %s\n", what, holds ? "as it should be" : "not as it should be");
    if (!holds)
        failed = 1;
}

/* Whether the next message has this payload and this RETAIN. */
static int comes(MQTTClient client, const char *payload, int retained) {
    char *topic = NULL;
    int length = 0;
    MQTTClient_message *message = NULL;
    int holds = MQTTClient_receive(client, &topic, &length, &message, 30000) == MQTTCLIENT_SUCCESS && message != NULL &&
                message->payloadlen == (int)strlen(payload) && memcmp(message->payload, payload, strlen(payload)) == 0 &&
                message->retained == retained;
    if (message != NULL) {
        MQTTClient_freeMessage(&message);
        MQTTClient_free(topic);
    }
    return holds;
}

/* Publishes, and waits until it is acknowledged. */
static int publish(MQTTClient client, const char *topic, const char *payload, int qos, int retained) {
    MQTTClient_deliveryToken token;
    return MQTTClient_publish(client, topic, (int)strlen(payload), payload, qos, retained, &token) == MQTTCLIENT_SUCCESS &&
           MQTTClient_waitForCompletion(client, token, 30000) == MQTTCLIENT_SUCCESS;
}

static void at(const char *address, int version, const char *name) {
    MQTTClient client;
    MQTTClient_connectOptions options = MQTTClient_connectOptions_initializer;
    char what[80];
    options.MQTTVersion = version;
    options.cleansession = 1;
    options.keepAliveInterval = 20;
    MQTTClient_create(&client, address, name, MQTTCLIENT_PERSISTENCE_NONE, NULL);
    snprintf(what, sizeof what, "%s, a connection", name);
    check(what, MQTTClient_connect(client, &options) == MQTTCLIENT_SUCCESS);
    for (int qos = 0; qos < 3; qos++) {
        snprintf(what, sizeof what, "%s, QoS %d", name, qos);
        check(what, MQTTClient_subscribe(client, "paho/c", qos) == MQTTCLIENT_SUCCESS && publish(client, "paho/c", "one", qos, 0) &&
                        publish(client, "paho/c", "two", qos, 0) && comes(client, "one", 0) && comes(client, "two", 0));
    }
    snprintf(what, sizeof what, "%s, a retained message", name);
    check(what, publish(client, "paho/kept", "kept", 1, 1) && MQTTClient_subscribe(client, "paho/+", 1) == MQTTCLIENT_SUCCESS &&
                    comes(client, "kept", 1) && publish(client, "paho/kept", "", 1, 1));
    MQTTClient_disconnect(client, 1000);
    MQTTClient_destroy(&client);
}

int main(int count, char **words) {
    char address[200];
    if (count != 3) {
        fprintf(stderr, "mqtt3_paho HOST PORT\n");
        return 2;
    }
    snprintf(address, sizeof address, "tcp://%s:%s", words[1], words[2]);
    at(address, MQTTVERSION_3_1_1, "c311");
    at(address, MQTTVERSION_3_1, "c31");
    return failed;
}
