/* Many standing connections: what one takes of memory, and how long a lookup takes beside tables of 65,536.
 *
 * usage: standing [CONNECTIONS]
 *
 * Standard output is the same each time, but for the number; the figures go to standard error. */
#include "measure.h"

enum { LISTENERS = 64, LOOKUPS = 1000000, FEW = 65536, MANY = 1000000 };

struct tables {
    struct inet_tables shared;
    struct inet_worker worker;
    struct inet_looker looker;
    uint32_t number;
};

struct ends { uint32_t from; uint16_t from_port, port; };

/* The four-tuple of a connection: each has another one. */
static struct ends ends_of(uint32_t connection) {
    return (struct ends){CLIENTS + connection / CLIENT_PORTS, (uint16_t)(1024 + connection % CLIENT_PORTS),
                         (uint16_t)(8000 + connection % LISTENERS)};
}

/* At least as many buckets as connections, and a tenth more slots. */
static void open_tables(struct tables *t, uint32_t connections) {
    uint32_t slots = connections + connections / 10 + LISTENERS;
    struct inet_sizes sizes = {.size = sizeof sizes, .slots = slots, .bind = 256, .hash = 2, .listen = 64, .seed = 1,
                               .low = 32768, .high = 60999};
    while (sizes.hash < connections)
        sizes.hash *= 2;
    must(inet_tables_new(&t->shared, &sizes, 1), "new");
    must(inet_tables_worker(&t->shared, &LIMITS, &t->worker, &t->number), "worker");
    must(inet_tables_looker(&t->shared, &t->looker), "looker");
}

static void accept_all(struct tables *t, uint32_t connections) {
    uint64_t listeners[LISTENERS], socket;
    for (uint32_t i = 0; i < LISTENERS; i++)
        listeners[i] = open_listener(&t->worker, (uint16_t)(8000 + i));
    for (uint32_t i = 0; i < connections; i++) {
        struct ends e = ends_of(i);
        must(inet_worker_accept(&t->worker, listeners[i % LISTENERS], e.from, e.from_port, PROXY, e.port, 0,
                                &socket),
             "accept");
    }
}

/* How many of these lookups, at random, find their connection. */
static uint32_t look_at(struct tables *t, uint32_t connections) {
    uint64_t word = 1;
    uint32_t found = 0;
    for (uint32_t i = 0; i < LOOKUPS; i++) {
        struct inet_sight sight;
        word = word * 6364136223846793005 + 1442695040888963407;
        struct ends e = ends_of((uint32_t)((word >> 32) % connections));
        must(inet_looker_look(&t->looker, e.from, e.from_port, PROXY, e.port, 0, 0, 0, &sight), "look");
        found += sight.kind == INET_CONNECTED;
    }
    return found;
}

static void measure(uint32_t connections) {
    struct tables t = {{0}, {0}, {0}, 0};
    uint64_t before = memory(), begun = nanoseconds();
    open_tables(&t, connections);
    uint64_t empty = memory(), shared = nanoseconds();
    accept_all(&t, connections);
    uint64_t full = memory(), accepted = nanoseconds();
    uint32_t found = look_at(&t, connections);
    uint64_t looked = nanoseconds();
    fprintf(stderr,
            "%u connections: new %.1f ms; accept %.0f ns; %.0f bytes each of tables, and %.0f of sockets; look %.0f "
            "ns\n",
            connections, (double)(shared - begun) / 1e6, (double)(accepted - shared) / connections,
            (double)(empty - before) * 1024 / connections, (double)(full - empty) * 1024 / connections,
            (double)(looked - accepted) / LOOKUPS);
    printf("%u standing connections: %u of %u lookups found theirs\n", connections, found, (uint32_t)LOOKUPS);
    inet_looker_free(&t.looker);
    inet_worker_free(&t.worker);
    inet_tables_free(&t.shared);
}

int main(int words, char **word) {
    uint32_t connections = words > 1 ? (uint32_t)strtoul(word[1], NULL, 10) : MANY;
    measure(FEW);
    measure(connections);
    return 0;
}
