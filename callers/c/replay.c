/* A capture, played to a stack of sockets: each packet is looked up, its handshake carried on, and its bytes counted in
 * the caller's own object of that connection, which is found by the socket's number.
 *
 * usage: replay CAPTURE PORT..
 *
 * The capture has libpcap's format, of Ethernet, in this processor's byte order. Somebody listens at each port. */
#include <errno.h>
#include <stdio.h>
#include <stdlib.h>
#include <string.h>

#include <inet_tables.h>

enum { OBJECTS = 65536, FIN = 1, SYN = 2, RST = 4, ACK = 16 };

/* A segment of TCP over IPv4, as far as it is wanted here. */
struct segment {
    uint32_t from, to;
    uint16_t from_port, to_port;
    unsigned flags;
    unsigned long bytes;
};

/* What the program keeps of a socket. */
struct object {
    uint32_t peer;
    uint16_t peer_port, port;
    unsigned long segments, bytes;
    const char *ended;
};

static struct object objects[OBJECTS];
static struct inet_worker worker;
static struct inet_looker looker;

static void must(int error, const char *what) {
    if (error != 0) {
        fprintf(stderr, "%s: errno %d\n", what, error);
        exit(1);
    }
}

static unsigned long big_endian(const unsigned char *at, int bytes) {
    unsigned long all = 0;
    for (int i = 0; i < bytes; i++)
        all = all << 8 | at[i];
    return all;
}

/* The segment in an Ethernet frame, with one VLAN tag or none; a fragment or a frame that was cut off has none. */
static bool read_segment(const unsigned char *frame, size_t length, struct segment *it) {
    size_t at = 14;
    if (length >= 18 && big_endian(frame + 12, 2) == 0x8100)
        at = 18;
    if (length < at + 20 || big_endian(frame + at - 2, 2) != 0x0800 || frame[at] >> 4 != 4)
        return false;
    const unsigned char *ip = frame + at;
    size_t head = (ip[0] & 15u) * 4u, whole = big_endian(ip + 2, 2);
    if (head < 20 || ip[9] != 6 || (big_endian(ip + 6, 2) & 0x3fff) != 0 || length < at + head + 20)
        return false;
    const unsigned char *tcp = ip + head;
    size_t heads = head + (tcp[12] >> 4) * 4u;
    it->from = (uint32_t)big_endian(ip + 12, 4);
    it->to = (uint32_t)big_endian(ip + 16, 4);
    it->from_port = (uint16_t)big_endian(tcp, 2);
    it->to_port = (uint16_t)big_endian(tcp + 2, 2);
    it->flags = tcp[13];
    it->bytes = whole > heads ? whole - heads : 0;
    return true;
}

/* The object of a socket that was just made. */
static struct object *object_of(uint64_t socket) {
    if (socket >= OBJECTS) {
        fprintf(stderr, "more than %d sockets\n", OBJECTS);
        exit(1);
    }
    return &objects[socket];
}

static void listen_at(uint16_t port) {
    uint64_t listener;
    uint16_t bound;
    must(inet_worker_socket(&worker, 0, 0, 0, INET_REUSEADDR, 0, &listener), "socket");
    must(inet_worker_bind(&worker, listener, 0, port, &bound), "bind");
    must(inet_worker_listen(&worker, listener, &bound), "listen");
}

/* A handshake begins: its request has an object, which the connection takes over. */
static const char *begin(const struct segment *it, uint64_t listener) {
    uint64_t request;
    if ((it->flags & (SYN | ACK | RST | FIN)) != SYN)
        return "a listener, but is no SYN";
    must(inet_worker_syn(&worker, listener, it->from, it->from_port, it->to, it->to_port, 0, &request), "syn");
    *object_of(request) = (struct object){it->from, it->from_port, it->to_port, 0, 0, NULL};
    return "a listener, and begins a handshake";
}

static const char *go_on(const struct segment *it, uint64_t request) {
    uint64_t socket;
    if (it->flags & RST) {
        must(inet_worker_drop(&worker, request), "drop");
        objects[request].ended = "refused";
        return "a request, and ends it";
    }
    if (!(it->flags & ACK))
        return "a request";
    must(inet_worker_ack(&worker, request, 0, &socket), "ack");
    *object_of(socket) = objects[request];
    memset(&objects[request], 0, sizeof objects[request]);
    return "a request, and ends the handshake";
}

static const char *receive(const struct segment *it, uint64_t socket) {
    struct object *mine = &objects[socket];
    bool waits;
    mine->segments++;
    mine->bytes += it->bytes;
    if (it->flags & RST)
        must(inet_worker_drop(&worker, socket), "drop");
    else if (it->flags & FIN)
        must(inet_worker_close(&worker, socket, &waits), "close");
    if (it->flags & (RST | FIN))
        mine->ended = it->flags & RST ? "reset" : "closed";
    return "a connection";
}

static const char *take(const struct segment *it) {
    struct inet_sight sight;
    must(inet_looker_look(&looker, it->from, it->from_port, it->to, it->to_port, 0, 0, 0, &sight), "look");
    switch (sight.kind) {
    case INET_LISTENER: return begin(it, sight.socket);
    case INET_REQUEST: return go_on(it, sight.socket);
    case INET_CONNECTED: return receive(it, sight.socket);
    case INET_TIME_WAIT: return "a TIME_WAIT";
    default: return "nobody";
    }
}

static void play(FILE *capture) {
    uint32_t head[6], record[4];
    static unsigned char frame[262144];
    struct segment it;
    if (fread(head, sizeof head, 1, capture) != 1 || head[0] != 0xa1b2c3d4 || head[5] != 1)
        must(EINVAL, "the capture");
    for (int n = 1; fread(record, sizeof record, 1, capture) == 1; n++) {
        if (record[2] > sizeof frame || fread(frame, 1, record[2], capture) != record[2])
            must(EINVAL, "a packet");
        printf("packet %d: %s\n", n, read_segment(frame, record[2], &it) ? take(&it) : "none of TCP over IPv4");
    }
}

static void report(const struct object *it) {
    if (it->peer != 0)
        printf("%u.%u.%u.%u:%u at port %u: segments %lu, bytes %lu, %s\n", it->peer >> 24, it->peer >> 16 & 255,
               it->peer >> 8 & 255, it->peer & 255, it->peer_port, it->port, it->segments, it->bytes,
               it->ended != NULL ? it->ended : "open");
}

int main(int words, char **word) {
    struct inet_tables tables = {0};
    struct inet_sizes sizes = {.size = sizeof sizes, .slots = 4096, .bind = 16, .hash = 4096, .listen = 32, .seed = 0,
                               .low = 32768, .high = 60999};
    struct inet_limits limits = {sizeof limits, 0, 0, 0};
    uint32_t number;
    FILE *capture = words > 2 ? fopen(word[1], "rb") : NULL;
    if (capture == NULL) {
        fprintf(stderr, "usage: replay CAPTURE PORT..\n");
        return 2;
    }
    must(inet_tables_new(&tables, &sizes, 1), "new");
    must(inet_tables_worker(&tables, &limits, &worker, &number), "worker");
    must(inet_tables_looker(&tables, &looker), "looker");
    for (int i = 2; i < words; i++)
        listen_at((uint16_t)atoi(word[i]));
    play(capture);
    for (int i = 0; i < OBJECTS; i++)
        report(&objects[i]);
    fclose(capture);
    inet_worker_free(&worker);
    inet_looker_free(&looker);
    inet_tables_free(&tables);
    return 0;
}
