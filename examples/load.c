// Loads a broker of MQTT 5.0 or 3.1.1 at 127.0.0.1, and tells how many messages a second come and how long they take.
//
//   gcc -O2 -pthread -o load examples/load.c
//   ./load [-p PORT] [-i IDLE] [-f FILTERS] [-n PAIRS] [-a AHEAD] [-q QOS] [-b BYTES] [-s SECONDS] [-t THREADS] [-u USER -w PASSWORD] [-m PID] [-v LEVEL] [-r READERS] [-P PORT]
//
// IDLE clients connect, subscribe to FILTERS filters each, which no message matches, and say nothing more. Then there are PAIRS of
// a publisher and a subscriber, each pair with a topic of its own. A publisher has AHEAD messages of BYTES bytes on their way at
// QOS: it publishes the next one once one has come (QoS 0) or its exchange has ended (QoS 1 and 2), until SECONDS are over. What
// came is counted to the last message and divided by the time until then. The pairs are shared out to THREADS threads, since one alone takes
// a processor where each message wants a read and a write of it. With -m the memory that the process PID takes for each idle client and for each of their
// subscriptions is told, and how many messages came for each second of its processor. LEVEL is 5, or 4 for clients of
// MQTT 3.1.1. The broker may be any one of that version. With -r each publisher has READERS subscribers in place of one, and a message at QoS 0 has come once
// it has come to all of them. With -P the publishers connect at that port, as where they have their home at another node
// of a cluster, and nothing is published for a second, in which the nodes tell each other of the subscriptions.
#include <arpa/inet.h>
#include <errno.h>
#include <netinet/tcp.h>
#include <pthread.h>
#include <stdint.h>
#include <stdio.h>
#include <stdlib.h>
#include <string.h>
#include <sys/epoll.h>
#include <time.h>
#include <unistd.h>

enum { ROOM = 65536, MOST_BYTES = 16000, MOST_TIMES = 1 << 22, EVENTS = 256, MOST_THREADS = 64 };

struct client {
    int socket;
    int pair;
    size_t come; // of a publisher, how often a message of it has come to one of its subscribers
    uint16_t identifier;
    size_t held;
    uint8_t bytes[ROOM];
};

// What a thread has counted, and when its last message came.
struct counts {
    size_t sent, come, acknowledged, taken_times;
    double last;
    double *times;
};

static int port = 1883, publishers_port, idle, filters, pairs, ahead = 1, qos, length = 64, threads = 1, process, level = 5, readers = 1;
static double seconds = 2;
static const char *user, *password;
static struct client *clients; // of each pair its subscribers, and then its publisher
static double stop;
static _Thread_local struct counts counts;

static double now(void) {
    struct timespec at;
    clock_gettime(CLOCK_MONOTONIC, &at);
    return (double)at.tv_sec + (double)at.tv_nsec * 1e-9;
}

static void end(const char *why) {
    fprintf(stderr, "load: %s\n", why);
    exit(1);
}

static void send_all(int socket, const uint8_t *bytes, size_t count) {
    while (count > 0) {
        ssize_t written = write(socket, bytes, count);
        if (written < 0)
            end("a connection was closed");
        bytes += written;
        count -= (size_t)written;
    }
}

// Reads one packet of fewer than 128 bytes after its length.
static void receive(int socket, uint8_t *packet) {
    size_t held = 0, wanted = 2;
    while (held < wanted) {
        ssize_t count = read(socket, packet + held, wanted - held);
        if (count <= 0)
            end("a connection was closed");
        held += (size_t)count;
        if (held == 2)
            wanted += packet[1] & 127;
    }
}

static size_t put_text(uint8_t *at, const char *text) {
    size_t count = strlen(text);
    at[0] = (uint8_t)(count >> 8);
    at[1] = (uint8_t)count;
    memcpy(at + 2, text, count);
    return 2 + count;
}

static int dial(int port) {
    struct sockaddr_in to = {.sin_family = AF_INET, .sin_port = htons((uint16_t)port), .sin_addr.s_addr = htonl(INADDR_LOOPBACK)};
    int made = socket(AF_INET, SOCK_STREAM, 0), on = 1;
    if (made < 0 || connect(made, (struct sockaddr *)&to, sizeof to) != 0)
        end(strerror(errno));
    setsockopt(made, IPPROTO_TCP, TCP_NODELAY, &on, sizeof on);
    return made;
}

// Connects with Clean Start and no Keep Alive.
static int connect_client(int port, const char *identifier) {
    uint8_t packet[160] = {0x10, 0, 0, 4, 'M', 'Q', 'T', 'T', (uint8_t)level, 2, 0, 0, 0};
    size_t count = level == 5 ? 13 : 12;
    count += put_text(packet + count, identifier);
    if (user) {
        packet[9] |= 0xC0;
        count += put_text(packet + count, user);
        count += put_text(packet + count, password);
    }
    packet[1] = (uint8_t)(count - 2);
    int made = dial(port);
    send_all(made, packet, 2 + packet[1]);
    receive(made, packet);
    if (packet[0] != 0x20 || packet[3] != 0)
        end("a CONNECT was refused");
    return made;
}

static void subscribe(int socket, const char *filter, int identifier) {
    uint8_t packet[160] = {0x82, 0, (uint8_t)(identifier >> 8), (uint8_t)identifier, 0};
    size_t count = level == 5 ? 5 : 4;
    count += put_text(packet + count, filter);
    packet[count++] = (uint8_t)qos;
    packet[1] = (uint8_t)(count - 2);
    send_all(socket, packet, count);
    receive(socket, packet);
    if (packet[0] != 0x90)
        end("a SUBSCRIBE was refused");
}

// A payload begins with the moment at which it was published.
static void publish(struct client *publisher) {
    uint8_t body[MOST_BYTES + 64], packet[MOST_BYTES + 68] = {(uint8_t)(0x30 | qos << 1)};
    char topic[32];
    snprintf(topic, sizeof topic, "pair/%d", publisher->pair);
    size_t count = put_text(body, topic);
    if (qos > 0) {
        publisher->identifier = publisher->identifier == 65535 ? 1 : publisher->identifier + 1;
        body[count++] = (uint8_t)(publisher->identifier >> 8);
        body[count++] = (uint8_t)publisher->identifier;
    }
    if (level == 5)
        body[count++] = 0;
    memset(body + count, 'x', (size_t)length);
    double at = now();
    memcpy(body + count, &at, sizeof at);
    count += (size_t)length;
    size_t head = 1, left = count;
    for (; left > 127; left >>= 7)
        packet[head++] = (uint8_t)(left & 127) | 128;
    packet[head++] = (uint8_t)left;
    memcpy(packet + head, body, count);
    send_all(publisher->socket, packet, head + count);
    counts.sent++;
}

static void publish_again(struct client *publisher) {
    if (now() < stop)
        publish(publisher);
}

// Answers a packet by one with its identifier.
static void answer(struct client *client, uint8_t first, const uint8_t *identifier) {
    uint8_t packet[4] = {first, 2, identifier[0], identifier[1]};
    send_all(client->socket, packet, sizeof packet);
}

static struct client *publisher_of(int pair) {
    return &clients[pair * (readers + 1) + readers];
}

static void take_message(struct client *subscriber, const uint8_t *packet, const uint8_t *body) {
    size_t at = 2 + ((size_t)body[0] << 8 | body[1]);
    if (packet[0] & 6) {
        answer(subscriber, packet[0] & 2 ? 0x40 : 0x50, body + at);
        at += 2;
    }
    double published;
    if (level == 5)
        at += 1 + (size_t)body[at];
    memcpy(&published, body + at, sizeof published);
    counts.last = now();
    if (counts.taken_times < MOST_TIMES)
        counts.times[counts.taken_times++] = counts.last - published;
    counts.come++;
    struct client *publisher = publisher_of(subscriber->pair);
    if (qos == 0 && ++publisher->come % (size_t)readers == 0)
        publish_again(publisher);
}

static void take_packet(struct client *client, const uint8_t *packet, const uint8_t *body) {
    switch (packet[0] >> 4) {
    case 3:
        take_message(client, packet, body);
        break;
    case 5:
        answer(client, 0x62, body);
        break;
    case 6:
        answer(client, 0x70, body);
        break;
    case 4:
    case 7:
        counts.acknowledged++;
        publish_again(client);
        break;
    default:
        end("a packet that was not expected");
    }
}

// Reads what has come, and takes the packets that are whole.
static void take_bytes(struct client *client) {
    ssize_t count = read(client->socket, client->bytes + client->held, ROOM - client->held);
    if (count <= 0)
        end("a connection was closed");
    client->held += (size_t)count;
    size_t at = 0;
    while (1) {
        size_t head = 1, body = 0;
        int shift = 0, whole = 0;
        while (at + head < client->held && !whole) {
            uint8_t byte = client->bytes[at + head++];
            body |= (size_t)(byte & 127) << shift;
            shift += 7;
            whole = byte < 128;
        }
        if (!whole || at + head + body > client->held)
            break;
        take_packet(client, client->bytes + at, client->bytes + at + head);
        at += head + body;
    }
    client->held -= at;
    memmove(client->bytes, client->bytes + at, client->held);
}

// The kilobytes of memory that the process holds.
static long memory(void) {
    char path[64], line[128];
    long found = 0;
    snprintf(path, sizeof path, "/proc/%d/status", process);
    FILE *file = fopen(path, "r");
    while (file && fgets(line, sizeof line, file))
        sscanf(line, "VmRSS: %ld", &found);
    if (file)
        fclose(file);
    return found;
}

static void tell_memory(const char *what, long before, long count) {
    if (process > 0 && count > 0)
        printf("%s: %.0f bytes each\n", what, 1024.0 * (double)(memory() - before) / (double)count);
}

static void connect_idle(void) {
    int *made = calloc((size_t)idle + 1, sizeof *made);
    double start = now();
    long before = memory();
    for (int i = 0; i < idle; i++) {
        char name[32];
        snprintf(name, sizeof name, "idle%d", i);
        made[i] = connect_client(port, name);
    }
    if (idle > 0)
        printf("%d idle clients connected in %.2f s\n", idle, now() - start);
    tell_memory("an idle client", before, idle);
    before = memory();
    for (int i = 0; i < idle; i++)
        for (int k = 0; k < filters; k++) {
            char name[64];
            snprintf(name, sizeof name, "site/%d/line/%d/+", i, k);
            subscribe(made[i], name, k + 1);
        }
    tell_memory("a subscription", before, (long)idle * filters);
    fflush(stdout);
    free(made);
}

static void connect_pairs(void) {
    for (int i = 0; i < pairs * (readers + 1); i++) {
        char name[32];
        int pair = i / (readers + 1), reader = i % (readers + 1), publishes = reader == readers;
        snprintf(name, sizeof name, "%s%d", publishes ? "publisher" : "subscriber", publishes ? pair : pair * readers + reader);
        clients[i].pair = pair;
        clients[i].socket = connect_client(publishes ? publishers_port : port, name);
        snprintf(name, sizeof name, "pair/%d", pair);
        if (!publishes)
            subscribe(clients[i].socket, name, 1);
    }
}

// The pairs whose number leaves this one when it is divided by that of the threads, until the end, and then until nothing comes for a second.
static void *run(void *number) {
    struct epoll_event ready[EVENTS];
    int poll = epoll_create1(0), first = (int)(intptr_t)number;
    counts.last = now();
    counts.times = calloc(MOST_TIMES, sizeof *counts.times);
    if (!counts.times)
        end("no memory");
    for (int i = first; i < pairs; i += threads)
        for (int k = i * (readers + 1); k < (i + 1) * (readers + 1); k++) {
            struct epoll_event asked = {.events = EPOLLIN, .data.ptr = &clients[k]};
            epoll_ctl(poll, EPOLL_CTL_ADD, clients[k].socket, &asked);
        }
    for (int a = 0; a < ahead; a++)
        for (int i = first; i < pairs; i += threads)
            publish(publisher_of(i));
    while (1) {
        int count = epoll_wait(poll, ready, EVENTS, 1000);
        if (count <= 0 && now() > stop)
            break;
        for (int i = 0; i < count; i++)
            take_bytes(ready[i].data.ptr);
    }
    struct counts *own = malloc(sizeof *own);
    if (!own)
        end("no memory");
    *own = counts;
    return own;
}

// The seconds of a processor that the process has taken.
static double processor(void) {
    char path[64];
    unsigned long user_ticks = 0, system_ticks = 0;
    snprintf(path, sizeof path, "/proc/%d/stat", process);
    FILE *file = process > 0 ? fopen(path, "r") : NULL;
    if (file) {
        if (fscanf(file, "%*d (%*[^)]) %*c %*d %*d %*d %*d %*d %*u %*u %*u %*u %*u %lu %lu", &user_ticks, &system_ticks) != 2)
            user_ticks = system_ticks = 0;
        fclose(file);
    }
    return (double)(user_ticks + system_ticks) / (double)sysconf(_SC_CLK_TCK);
}

static void run_all(struct counts *all) {
    pthread_t made[MOST_THREADS];
    for (int i = 0; i < threads; i++)
        if (pthread_create(&made[i], NULL, run, (void *)(intptr_t)i) != 0)
            end("no thread");
    for (int i = 0; i < threads; i++) {
        void *found;
        pthread_join(made[i], &found);
        struct counts *own = found;
        all->sent += own->sent;
        all->come += own->come;
        all->acknowledged += own->acknowledged;
        all->last = own->last > all->last ? own->last : all->last;
        for (size_t k = 0; k < own->taken_times && all->taken_times < MOST_TIMES; k++)
            all->times[all->taken_times++] = own->times[k];
        free(own->times);
        free(own);
    }
}

static int compare(const void *one, const void *other) {
    double a = *(const double *)one, b = *(const double *)other;
    return (a > b) - (a < b);
}

static double percentile(const struct counts *all, double share) {
    return all->taken_times == 0 ? 0 : all->times[(size_t)(share * (double)(all->taken_times - 1))] * 1e3;
}

static void read_words(int count, char **words) {
    int letter;
    while ((letter = getopt(count, words, "p:i:f:n:a:q:b:s:t:u:w:m:v:r:P:")) != -1) {
        switch (letter) {
        case 'p': port = atoi(optarg); break;
        case 'i': idle = atoi(optarg); break;
        case 'f': filters = atoi(optarg); break;
        case 'n': pairs = atoi(optarg); break;
        case 'a': ahead = atoi(optarg); break;
        case 'q': qos = atoi(optarg); break;
        case 'b': length = atoi(optarg); break;
        case 's': seconds = atof(optarg); break;
        case 't': threads = atoi(optarg); break;
        case 'u': user = optarg; break;
        case 'w': password = optarg; break;
        case 'm': process = atoi(optarg); break;
        case 'v': level = atoi(optarg); break;
        case 'r': readers = atoi(optarg); break;
        case 'P': publishers_port = atoi(optarg); break;
        default: end("the words are at the head of its source");
        }
    }
    if (publishers_port == 0)
        publishers_port = port;
    if (idle < 0 || filters < 0 || pairs < 0 || ahead < 1 || qos < 0 || qos > 2 || length < (int)sizeof(double) || length > MOST_BYTES
        || level < 4 || level > 5 || readers < 1 || readers > 100000 || threads < 1 || threads > MOST_THREADS || !user != !password || (user && strlen(user) + strlen(password) > 80))
        end("a word is out of its range");
}

int main(int count, char **words) {
    read_words(count, words);
    struct counts all = {.times = calloc(MOST_TIMES, sizeof *all.times)};
    clients = calloc((size_t)pairs * ((size_t)readers + 1) + 1, sizeof *clients);
    if (!clients || !all.times)
        end("no memory");
    connect_idle();
    if (pairs == 0)
        return 0;
    connect_pairs();
    if (publishers_port != port)
        sleep(1);
    double start = now(), before = processor();
    stop = start + seconds;
    all.last = start;
    run_all(&all);
    double taken = processor() - before;
    qsort(all.times, all.taken_times, sizeof *all.times, compare);
    printf("%zu published, %zu acknowledged, %zu came: %.0f a second; half within %.3f ms, 99 of 100 within %.3f ms, all within %.3f ms",
           all.sent, all.acknowledged, all.come, all.come ? (double)all.come / (all.last - start) : 0,
           percentile(&all, 0.5), percentile(&all, 0.99), percentile(&all, 1));
    if (taken > 0)
        printf("; %.0f for each second of its processor", (double)all.come / taken);
    printf("\n");
    return 0;
}
