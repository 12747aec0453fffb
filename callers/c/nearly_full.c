/* Tables with few slots left: how long an accept takes where 99 of 100 slots are taken, and how long a refusal takes
 * where all are: the first, which looks at all of them, and the next ones, which don't.
 *
 * usage: nearly_full [SLOTS]
 *
 * Standard output is the same each time, but for the number; the figures go to standard error. */
#include "measure.h"

enum { SLOTS = 1048576, ACCEPTS = 200000, REFUSALS = 20, FULL_FOR = 1000, PORT = 8000 };

struct tables {
    struct inet_tables shared;
    struct inet_worker worker;
    uint32_t number, connections;
    uint64_t listener, made;
    uint64_t *sockets;
};

/* Calls of one kind: how many, what they took together, and the slowest. */
struct timing { uint64_t calls, all, slowest; };

static void open_tables(struct tables *t, uint32_t slots) {
    struct inet_sizes sizes = {.size = sizeof sizes, .slots = slots, .bind = 256, .hash = 2, .listen = 32, .seed = 1,
                               .low = 32768, .high = 60999};
    struct inet_limits limits = {.size = sizeof limits, .tries = 1000, .full_for = FULL_FOR};
    while (sizes.hash < slots)
        sizes.hash *= 2;
    must(inet_tables_new(&t->shared, &sizes, 1), "new");
    must(inet_tables_worker(&t->shared, &limits, &t->worker, &t->number), "worker");
    t->listener = open_listener(&t->worker, PORT);
    t->connections = slots - 1;
    t->sockets = malloc(slots * sizeof *t->sockets);
    must(t->sockets == NULL ? ENOMEM : 0, "malloc");
}

/* The next connection; each has a four-tuple of its own. */
static int accept_one(struct tables *t, uint64_t *socket, struct timing *timing) {
    uint64_t begun = nanoseconds();
    int error = inet_worker_accept(&t->worker, t->listener, CLIENTS + (uint32_t)(t->made / CLIENT_PORTS),
                                   (uint16_t)(1024 + t->made % CLIENT_PORTS), PROXY, PORT, 0, socket);
    uint64_t took = nanoseconds() - begun;
    timing->calls++;
    timing->all += took;
    if (took > timing->slowest)
        timing->slowest = took;
    t->made++;
    return error;
}

static void tell(const char *what, struct timing timing) {
    fprintf(stderr, "%s: %.0f ns, the slowest %.0f ns\n", what, (double)timing.all / (double)timing.calls,
            (double)timing.slowest);
}

/* All slots are taken, and then one of a hundred is free again, anywhere. */
static void fill(struct tables *t, uint64_t *word) {
    struct timing timing = {0, 0, 0};
    for (uint32_t i = 0; i < t->connections; i++)
        must(accept_one(t, &t->sockets[i], &timing), "accept");
    for (uint32_t left = t->connections, i = 0; i < left / 100; i++) {
        *word = *word * 6364136223846793005 + 1442695040888963407;
        uint32_t at = (uint32_t)((*word >> 32) % t->connections);
        must(inet_worker_drop(&t->worker, t->sockets[at]), "drop");
        t->sockets[at] = t->sockets[--t->connections];
    }
}

/* Connections go and others come, and 99 of 100 slots stay taken. */
static void turn_over(struct tables *t, uint64_t *word) {
    struct timing timing = {0, 0, 0};
    for (uint32_t i = 0; i < ACCEPTS; i++) {
        *word = *word * 6364136223846793005 + 1442695040888963407;
        uint64_t *socket = &t->sockets[(*word >> 32) % t->connections];
        must(inet_worker_drop(&t->worker, *socket), "drop");
        must(accept_one(t, socket, &timing), "accept");
    }
    tell("accept, 99 of 100 slots taken", timing);
}

/* How many of the calls behind a refusal didn't look. */
static uint32_t refuse(struct tables *t) {
    struct timing looked = {0, 0, 0}, unlooked = {0, 0, 0}, filling = {0, 0, 0};
    uint64_t socket;
    uint32_t count = 0;
    int error;
    while ((error = accept_one(t, &socket, &filling)) == 0) {}
    must(error == ENFILE ? 0 : error, "accept");
    for (uint32_t i = 0; i < REFUSALS; i++) {
        for (uint32_t k = 0; k < FULL_FOR; k++)
            count += accept_one(t, &socket, &unlooked) == ENOBUFS;
        must(accept_one(t, &socket, &looked) == ENFILE ? 0 : 1, "refusal");
    }
    tell("ENFILE, all slots taken", looked);
    tell("ENOBUFS, all slots taken", unlooked);
    return count;
}

int main(int words, char **word) {
    uint32_t slots = words > 1 ? (uint32_t)strtoul(word[1], NULL, 10) : SLOTS;
    uint64_t random = 1;
    struct tables t = {{0}, {0}, 0, 0, 0, 0, NULL};
    open_tables(&t, slots);
    fill(&t, &random);
    turn_over(&t, &random);
    printf("%u slots, of which 99 of 100 are taken: %u accepts, none refused\n", slots, (uint32_t)ACCEPTS);
    uint32_t count = refuse(&t);
    printf("all slots taken: %u refusals by ENFILE, and %u by ENOBUFS behind them\n", (uint32_t)REFUSALS, count);
    inet_worker_free(&t.worker);
    inet_tables_free(&t.shared);
    free(t.sockets);
    return 0;
}
