/* Each flag, size and field of inet_tables.h, used so that another one in its place would be told from it. */
#include <errno.h>
#include <stdio.h>
#include <stdlib.h>

#include <inet_tables.h>

enum { HOST = 0x0A000001, PEER = 0x0A000002 };

static const char *name(int error) {
    switch (error) {
    case 0: return "done";
    case EBADF: return "EBADF";
    case EINVAL: return "EINVAL";
    case ENFILE: return "ENFILE";
    case EADDRINUSE: return "EADDRINUSE";
    case EADDRNOTAVAIL: return "EADDRNOTAVAIL";
    case ENOBUFS: return "ENOBUFS";
    default: return "another errno";
    }
}

static void must(int error, const char *what) {
    if (error != 0) {
        fprintf(stderr, "%s: errno %d\n", what, error);
        exit(1);
    }
}

/* The sizes of a script that names none. */
static struct inet_sizes sizes(void) {
    return (struct inet_sizes){.size = sizeof(struct inet_sizes), .slots = 1024, .bind = 16, .hash = 256, .listen = 32,
                               .seed = 0, .low = 32768, .high = 60999, .twreuse = false};
}

static struct inet_list list_of(struct inet_sizes given) {
    struct inet_list list = {NULL};
    must(inet_list_new(&list, &given), "new");
    return list;
}

/* Whether there can be a list of these sizes. */
static void try_sizes(const char *what, struct inet_sizes given) {
    struct inet_list list = {NULL};
    printf("%s: %s\n", what, name(inet_list_new(&list, &given)));
    inet_list_free(&list);
}

static void ranges(void) {
    struct inet_sizes given = sizes();
    given.slots = 1u << 24;
    try_sizes("2^24 slots", given);
    given = sizes();
    given.bind = 256;
    try_sizes("256 bind buckets", given);
    given.bind = 512;
    try_sizes("512 bind buckets", given);
    given = sizes();
    given.hash = 1u << 24;
    try_sizes("2^24 established buckets", given);
    given = sizes();
    given.listen = 1u << 20;
    try_sizes("2^20 listening buckets", given);
    given.listen = 1u << 21;
    try_sizes("2^21 listening buckets", given);
    given = sizes();
    given.low = 60998;
    try_sizes("ports from 60998 to 60999", given);
    given.high = 60997;
    try_sizes("ports from 60998 to 60997", given);
    given = sizes();
    given.reserved_count = 64;
    try_sizes("64 reserved ports", given);
    given.reserved_count = 65;
    try_sizes("65 reserved ports", given);
    given = sizes();
    given.size++;
    try_sizes("a struct of another version", given);
}

static uint64_t socket_of(struct inet_list *list, uint8_t net, uint32_t uid, uint16_t dev, uint32_t flags) {
    uint64_t socket;
    must(inet_list_socket(list, 1, net, uid, dev, flags, &socket), "socket");
    return socket;
}

static uint16_t port_of(struct inet_list *list, uint64_t socket, uint32_t addr, uint16_t port) {
    uint16_t bound;
    must(inet_list_bind(list, 1, socket, addr, port, &bound), "bind");
    return bound;
}

static uint64_t listener(struct inet_list *list, uint8_t net, uint16_t dev, uint16_t port) {
    uint64_t socket = socket_of(list, net, 0, dev, 0);
    uint16_t bound = port_of(list, socket, HOST, port);
    must(inet_list_listen(list, 1, socket, &bound), "listen");
    return socket;
}

/* Two ports of a search, and a seed that decides which is taken first. */
static void searches(void) {
    struct inet_sizes given = sizes();
    uint16_t first[8], bound;
    uint32_t differ = 0;
    for (uint32_t seed = 0; seed < 8; seed++) {
        given.seed = seed;
        struct inet_list list = list_of(given), same = list_of(given);
        first[seed] = port_of(&list, socket_of(&list, 0, 0, 0, 0), HOST, 0);
        differ += first[seed] != first[0];
        if (port_of(&same, socket_of(&same, 0, 0, 0, 0), HOST, 0) != first[seed])
            printf("seed %u: another port the second time\n", seed);
        inet_list_free(&list);
        inet_list_free(&same);
    }
    printf("another seed: %s\n", differ != 0 ? "other ports" : "the same port");
    given.low = 40000;
    given.high = 40001;
    struct inet_list list = list_of(given);
    uint16_t one = port_of(&list, socket_of(&list, 0, 0, 0, 0), HOST, 0);
    uint16_t two = port_of(&list, socket_of(&list, 0, 0, 0, 0), HOST, 0);
    printf("two ports of a search: %u and %u\n", one < two ? one : two, one < two ? two : one);
    printf("a third: %s\n", name(inet_list_bind(&list, 1, socket_of(&list, 0, 0, 0, 0), HOST, 0, &bound)));
    inet_list_free(&list);
}

/* Searches begin at an offset, and pass a reserved port by. */
static void begin_at(uint16_t offset, uint16_t reserved) {
    struct inet_sizes given = sizes();
    given.low = 40000;
    given.high = 40005;
    given.has_offset = true;
    given.offset = offset;
    given.reserved[0] = reserved;
    given.reserved_count = 1;
    struct inet_list list = list_of(given);
    uint16_t one = port_of(&list, socket_of(&list, 0, 0, 0, 0), HOST, 0);
    uint16_t two = port_of(&list, socket_of(&list, 0, 0, 0, 0), HOST, 0);
    printf("of 40000 to 40005 without %u, from %u on: %u and %u\n", reserved, offset, one, two);
    inet_list_free(&list);
}

/* One slot is for the listener, and one for a connection. */
static void slots(void) {
    struct inet_sizes given = sizes();
    given.slots = 2;
    struct inet_list list = list_of(given);
    uint64_t web = listener(&list, 0, 0, 80), socket;
    must(inet_list_accept(&list, 1, web, PEER, 1000, HOST, 80, &socket), "accept");
    printf("a third hashed socket of two slots: %s\n",
           name(inet_list_accept(&list, 1, web, PEER, 1001, HOST, 80, &socket)));
    inet_list_free(&list);
}

/* A four-tuple in TIME_WAIT is had again by tcp_tw_reuse alone. */
static void reuse(bool twreuse) {
    struct inet_sizes given = sizes();
    given.twreuse = twreuse;
    struct inet_list list = list_of(given);
    uint64_t socket = socket_of(&list, 0, 0, 0, INET_REUSEADDR), again = socket_of(&list, 0, 0, 0, INET_REUSEADDR);
    uint32_t addr;
    uint16_t port = port_of(&list, socket, HOST, 1000);
    bool waits;
    must(inet_list_connect(&list, 1, socket, 0, PEER, 443, &addr, &port), "connect");
    must(inet_list_close(&list, 1, socket, &waits), "close");
    must(inet_list_at(&list, 1, 2), "at");
    port = port_of(&list, again, HOST, 1000);
    printf("twreuse %d: a TIME_WAIT %s, and its four-tuple again: %s\n", twreuse, waits ? "stays" : "doesn't stay",
           name(inet_list_connect(&list, 1, again, 0, PEER, 443, &addr, &port)));
    inet_list_free(&list);
}

/* What a second socket at port 80 comes to, where both have these flags and these users, and then both listen. */
static void share_port(const char *what, uint32_t flags, uint32_t uid, uint32_t other_uid) {
    struct inet_list list = list_of(sizes());
    uint64_t one = socket_of(&list, 0, uid, 0, flags), two = socket_of(&list, 0, other_uid, 0, flags);
    uint16_t bound = port_of(&list, one, 0, 80);
    const char *binds = name(inet_list_bind(&list, 1, two, 0, 80, &bound));
    const char *first = name(inet_list_listen(&list, 1, one, &bound));
    printf("%s: bind %s, listen %s and %s\n", what, binds, first, name(inet_list_listen(&list, 1, two, &bound)));
    inet_list_free(&list);
}

/* A bind of an address alone takes its port when it connects. */
static void late_port(void) {
    struct inet_list list = list_of(sizes());
    uint64_t socket = socket_of(&list, 0, 0, 0, INET_BIND_ADDRESS_NO_PORT);
    uint32_t addr;
    uint16_t port;
    printf("INET_BIND_ADDRESS_NO_PORT: port %u", port_of(&list, socket, HOST, 0));
    must(inet_list_connect(&list, 1, socket, 0, PEER, 443, &addr, &port), "connect");
    printf(", and of a connection from %x one of the range: %d\n", addr, port >= 32768 && port <= 60999);
    inet_list_free(&list);
}

static void see(struct inet_list *list, const char *what, uint64_t socket, uint16_t dev, uint8_t net) {
    struct inet_sight sight;
    must(inet_list_look(list, PEER, 1000, HOST, 80, dev, net, &sight), "look");
    printf("a packet of %s: kind %u of worker %u, the socket: %d\n", what, sight.kind, sight.worker,
           sight.kind != INET_NONE && sight.socket == socket);
}

static void devices_and_namespaces(void) {
    struct inet_list list = list_of(sizes());
    uint64_t on_three = listener(&list, 0, 3, 80), elsewhere = listener(&list, 15, 0, 80), socket;
    struct inet_sight sight;
    see(&list, "device 3", on_three, 3, 0);
    see(&list, "device 4", on_three, 4, 0);
    see(&list, "namespace 15", elsewhere, 3, 15);
    see(&list, "namespace 3", elsewhere, 15, 3);
    printf("a socket of namespace 16: %s\n", name(inet_list_socket(&list, 1, 16, 0, 0, 0, &socket)));
    printf("a packet of namespace 16: %s\n", name(inet_list_look(&list, 1, 1, 1, 1, 0, 16, &sight)));
    printf("a flag that isn't there: %s\n", name(inet_list_socket(&list, 1, 0, 0, 0, 8, &socket)));
    printf("the number of the next socket: %llu\n", (unsigned long long)socket_of(&list, 0, 0, 0, 0));
    inet_list_free(&list);
}

/* Of each call that takes ends, which is which; and all that a list says of its items. */
static void ends(void) {
    struct inet_list list = list_of(sizes());
    uint64_t web = listener(&list, 5, 7, 80), in, request, out = socket_of(&list, 5, 0, 0, 0), count, over;
    uint32_t addr;
    uint16_t port;
    bool waits;
    must(inet_list_accept(&list, 1, web, 0x0A000003, 1001, HOST, 80, &in), "accept");
    must(inet_list_syn(&list, 1, web, 0x0A000004, 1002, HOST, 80, &request), "syn");
    must(inet_list_connect(&list, 1, out, 0x0A000005, 0x0A000006, 443, &addr, &port), "connect");
    printf("connected from %x, a port of the range: %d\n", addr, port >= 32768 && port <= 60999);
    must(inet_list_close(&list, 1, in, &waits), "close");
    struct inet_item items[4];
    must(inet_list_items(&list, items, 2, &count), "items");
    printf("%llu items, with room for two of them\n", (unsigned long long)count);
    must(inet_list_items(&list, items, 4, &count), "items");
    for (uint64_t i = 0; i < count && i < 4; i++)
        printf("kind %u, worker %u, %x:%u to %x:%u, dev %u, net %u, one of the four: %d\n", items[i].kind,
               items[i].worker, items[i].addr, items[i].port == port ? 0u : items[i].port, items[i].peer_addr,
               items[i].peer_port, items[i].dev, items[i].net,
               (items[i].socket == web) + (items[i].socket == in) + (items[i].socket == request) +
                   (items[i].socket == out));
    must(inet_list_at(&list, 1, 60), "at");
    must(inet_list_reap(&list, 1, &over), "reap");
    printf("over after a minute: %llu, %s\n", (unsigned long long)over, waits ? "one waited" : "none waited");
    inet_list_free(&list);
}

/* Shared tables know by their tag what they handed out, and number their workers. */
static void tags(void) {
    struct inet_sizes given = sizes();
    struct inet_tables one = {NULL}, two = {NULL};
    struct inet_worker workers[2] = {{NULL}, {NULL}};
    struct inet_looker looker = {NULL};
    struct inet_limits limits = {.size = sizeof limits, .tries = 10};
    uint32_t numbers[2];
    must(inet_tables_new(&one, &given, 1), "new");
    must(inet_tables_new(&two, &given, 2), "new");
    must(inet_tables_worker(&one, &limits, &workers[0], &numbers[0]), "worker");
    must(inet_tables_worker(&one, &limits, &workers[1], &numbers[1]), "worker");
    must(inet_tables_looker(&one, &looker), "looker");
    printf("workers %u and %u\n", numbers[0], numbers[1]);
    limits.size = 0;
    printf("limits of another version: %s\n", name(inet_tables_worker(&two, &limits, &workers[0], &numbers[0])));
    printf("a looker to the other tables: %s\n", name(inet_looker_give_back(&looker, &two)));
    printf("a looker to its own: %s\n", name(inet_looker_give_back(&looker, &one)));
    inet_worker_free(&workers[0]);
    inet_worker_free(&workers[1]);
    inet_tables_free(&one);
    inet_tables_free(&two);
}

static uint64_t worker_listener(struct inet_worker *worker, uint8_t net, uint16_t dev) {
    uint64_t socket;
    uint16_t bound;
    must(inet_worker_socket(worker, net, 0, dev, 0, 0, &socket), "socket");
    must(inet_worker_bind(worker, socket, HOST, 80, &bound), "bind");
    must(inet_worker_listen(worker, socket, &bound), "listen");
    return socket;
}

/* A worker's limits: of two closed connections one waits, and behind a refusal two calls don't look for a slot. */
static void limits(void) {
    struct inet_sizes given = sizes();
    given.slots = 4;
    struct inet_tables tables = {NULL};
    struct inet_worker worker = {NULL};
    struct inet_limits limits = {.size = sizeof limits, .tries = 5, .most_waits = 1, .full_for = 2};
    uint64_t closed[2], socket;
    uint32_t number;
    bool waits[2];
    must(inet_tables_new(&tables, &given, 1), "new");
    must(inet_tables_worker(&tables, &limits, &worker, &number), "worker");
    uint64_t web = worker_listener(&worker, 0, 0);
    for (uint16_t i = 0; i < 2; i++)
        must(inet_worker_accept(&worker, web, PEER, (uint16_t)(1000 + i), HOST, 80, 0, &closed[i]), "accept");
    for (int i = 0; i < 2; i++)
        must(inet_worker_close(&worker, closed[i], &waits[i]), "close");
    printf("one TIME_WAIT at most, two closed: %d and %d\n", waits[0], waits[1]);
    printf("four slots, and two calls for which they stay full:");
    for (uint16_t port = 1002; port < 1008; port++)
        printf(" %s", name(inet_worker_accept(&worker, web, PEER, port, HOST, 80, 0, &socket)));
    printf("\n");
    inet_worker_free(&worker);
    inet_tables_free(&tables);
}

/* By a lookup, and by one of a batch. */
static void see_shared(struct inet_looker *looker, uint16_t dev, uint8_t net) {
    struct inet_packet packet = {.src = PEER, .dst = HOST, .sport = 1000, .dport = 80, .dev = dev, .net = net};
    struct inet_sight one, many;
    must(inet_looker_look(looker, PEER, 1000, HOST, 80, dev, net, 0, &one), "look");
    must(inet_looker_look_all(looker, &packet, 1, 0, &many, 1), "look_all");
    printf("a packet of device %u in namespace %u: kind %u, and of a batch %u\n", dev, net, one.kind, many.kind);
}

/* A worker's socket has a device and a namespace, and a looker's packets have. */
static void shared_devices(void) {
    struct inet_sizes given = sizes();
    struct inet_tables tables = {NULL};
    struct inet_worker worker = {NULL};
    struct inet_looker looker = {NULL};
    struct inet_limits limits = {.size = sizeof limits};
    struct inet_item item;
    uint32_t number;
    must(inet_tables_new(&tables, &given, 1), "new");
    must(inet_tables_worker(&tables, &limits, &worker, &number), "worker");
    must(inet_tables_looker(&tables, &looker), "looker");
    must(inet_worker_ask(&worker, worker_listener(&worker, 15, 3), &item), "ask");
    printf("a worker's socket of device %u in namespace %u\n", item.dev, item.net);
    see_shared(&looker, 3, 15);
    see_shared(&looker, 4, 15);
    see_shared(&looker, 3, 14);
    inet_looker_free(&looker);
    inet_worker_free(&worker);
    inet_tables_free(&tables);
}

int main(void) {
    ranges();
    searches();
    begin_at(3, 40005);
    begin_at(1, 40001);
    slots();
    reuse(false);
    reuse(true);
    share_port("no flag", 0, 0, 0);
    share_port("INET_REUSEADDR", INET_REUSEADDR, 0, 0);
    share_port("INET_REUSEPORT", INET_REUSEPORT, 7, 7);
    share_port("INET_REUSEPORT of two users", INET_REUSEPORT, 7, 8);
    late_port();
    devices_and_namespaces();
    ends();
    tags();
    limits();
    shared_devices();
    return 0;
}
