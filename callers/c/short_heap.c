/* A heap that fails: the same calls over and over, of which first the first allocation fails, then the second, and so
 * on, until none does. A failure is ENOMEM, leaves what stood, and the call can be made again; or the call does without
 * that memory, as a list that is put into its order. It is built without heap.c, which it includes, over a malloc, a
 * realloc and a free of its own. */
#include <errno.h>
#include <stdbool.h>
#include <stdio.h>
#include <stdlib.h>

#include <inet_tables.h>

enum { HOST = 0x0A000001, PEER = 0x0A000002, LEAST = 5 };

static const struct inet_limits LIMITS = {sizeof(struct inet_limits), 10, 0, 0};

/* How many allocations are left until the one that fails, or 0 where none is to fail; how many failed, how many blocks
 * are out, and how many bytes were asked for last. */
static uint64_t until, failed;
static int64_t out;
static size_t asked;

static bool fails(size_t size) {
    bool now = until == 1;
    asked = size;
    if (until != 0)
        until--;
    failed += now;
    return now;
}

static void *short_malloc(size_t size) {
    void *p = fails(size) ? NULL : malloc(size);
    out += p != NULL;
    return p;
}

static void *short_realloc(void *p, size_t size) {
    return fails(size) ? NULL : realloc(p, size);
}

static void short_free(void *p) {
    out -= p != NULL;
    free(p);
}

#define malloc short_malloc
#define realloc short_realloc
#define free short_free
#include "../heap.c"
#undef malloc
#undef realloc
#undef free

static uint64_t refused;

/* Notes a call that memory ran out for, which is then made again; any other errno is wrong. */
static bool again(int error, const char *what) {
    if (error != 0 && error != ENOMEM) {
        fprintf(stderr, "%s: errno %d\n", what, error);
        exit(1);
    }
    refused += error == ENOMEM;
    return error == ENOMEM;
}

#define MAKE(call, what) do {} while (again((call), (what)))

/* A packet of this port is to find this kind of socket, whatever failed. */
static void is_seen(int error, struct inet_sight sight, uint16_t port, uint32_t kind) {
    if (error != 0 || sight.kind != kind) {
        fprintf(stderr, "a packet of port %u doesn't find kind %u\n", port, kind);
        exit(1);
    }
}

static void see_list(struct inet_list *list, uint16_t port, uint32_t kind) {
    struct inet_sight sight;
    int error = inet_list_look(list, PEER, port, HOST, 80, 0, 0, &sight);
    is_seen(error, sight, port, kind);
}

static void see(struct inet_looker *looker, uint16_t port, uint32_t kind) {
    struct inet_sight sight;
    int error = inet_looker_look(looker, PEER, port, HOST, 80, 0, 0, 0, &sight);
    is_seen(error, sight, port, kind);
}

/* What a server does, by a list. */
static void by_list(struct inet_sizes *sizes) {
    struct inet_list list = {NULL};
    struct inet_item items[4];
    uint64_t web, in, request, out_socket, count;
    uint32_t addr;
    uint16_t port;
    bool waits;
    MAKE(inet_list_new(&list, sizes), "new");
    MAKE(inet_list_socket(&list, 1, 0, 0, 0, INET_REUSEADDR, &web), "socket");
    MAKE(inet_list_bind(&list, 1, web, HOST, 80, &port), "bind");
    see_list(&list, 1000, INET_NONE);
    MAKE(inet_list_listen(&list, 1, web, &port), "listen");
    MAKE(inet_list_accept(&list, 1, web, PEER, 1000, HOST, 80, &in), "accept");
    see_list(&list, 1000, INET_CONNECTED);
    MAKE(inet_list_syn(&list, 1, web, PEER, 1001, HOST, 80, &request), "syn");
    MAKE(inet_list_ack(&list, 1, request, &request), "ack");
    see_list(&list, 1001, INET_CONNECTED);
    MAKE(inet_list_socket(&list, 1, 0, 0, 0, 0, &out_socket), "socket");
    MAKE(inet_list_connect(&list, 1, out_socket, HOST, PEER, 443, &addr, &port), "connect");
    MAKE(inet_list_close(&list, 1, in, &waits), "close");
    MAKE(inet_list_drop(&list, 1, request), "drop");
    MAKE(inet_list_at(&list, 1, 60), "at");
    MAKE(inet_list_reap(&list, 1, &count), "reap");
    see_list(&list, 1000, INET_LISTENER);
    MAKE(inet_list_items(&list, items, 4, &count), "items");
    if (count != 2) {
        fprintf(stderr, "%llu sockets in place of 2\n", (unsigned long long)count);
        exit(1);
    }
    inet_list_free(&list);
}

/* The same by a worker, with packets by a looker. */
static void serve(struct inet_worker *worker, struct inet_looker *looker) {
    uint64_t web, in, request, out_socket, count;
    uint32_t addr;
    uint16_t port;
    bool waits;
    MAKE(inet_worker_socket(worker, 0, 0, 0, INET_REUSEADDR, 0, &web), "socket");
    MAKE(inet_worker_bind(worker, web, HOST, 80, &port), "bind");
    see(looker, 1000, INET_NONE);
    MAKE(inet_worker_listen(worker, web, &port), "listen");
    see(looker, 1000, INET_LISTENER);
    MAKE(inet_worker_accept(worker, web, PEER, 1000, HOST, 80, 0, &in), "accept");
    see(looker, 1000, INET_CONNECTED);
    MAKE(inet_worker_syn(worker, web, PEER, 1001, HOST, 80, 0, &request), "syn");
    see(looker, 1001, INET_REQUEST);
    MAKE(inet_worker_ack(worker, request, 0, &request), "ack");
    see(looker, 1001, INET_CONNECTED);
    MAKE(inet_worker_socket(worker, 0, 0, 0, 0, 0, &out_socket), "socket");
    MAKE(inet_worker_connect(worker, out_socket, HOST, PEER, 443, &addr, &port), "connect");
    MAKE(inet_worker_close(worker, in, &waits), "close");
    see(looker, 1000, INET_TIME_WAIT);
    MAKE(inet_worker_drop(worker, request), "drop");
    see(looker, 1001, INET_LISTENER);
    MAKE(inet_worker_at(worker, 60), "at");
    MAKE(inet_worker_reap(worker, &count), "reap");
    see(looker, 1000, INET_LISTENER);
}

static void by_worker(struct inet_sizes *sizes) {
    struct inet_tables tables = {NULL};
    struct inet_worker worker = {NULL};
    struct inet_looker looker = {NULL};
    uint32_t number;
    MAKE(inet_tables_new(&tables, sizes, 1), "new");
    MAKE(inet_tables_worker(&tables, &LIMITS, &worker, &number), "worker");
    MAKE(inet_tables_looker(&tables, &looker), "looker");
    serve(&worker, &looker);
    inet_tables_free(&tables);
    inet_worker_free(&worker);
    inet_looker_free(&looker);
}

/* Fails the first allocation, the second, and so on, until all succeed. */
static void go(const char *what, void (*calls)(struct inet_sizes *)) {
    struct inet_sizes sizes = {.size = sizeof sizes, .slots = 64, .bind = 4, .hash = 16, .listen = 4, .seed = 7,
                               .low = 32768, .high = 60999, .twreuse = false};
    uint64_t rounds = 0;
    failed = refused = 0;
    do {
        until = ++rounds;
        calls(&sizes);
    } while (until == 0);
    until = 0;
    printf("%s: a failed allocation is one call's ENOMEM, or the call does without it: %s; all memory is back: %s\n", what,
           refused >= LEAST && refused <= failed && failed == rounds - 1 ? "yes" : "no", out == 0 ? "yes" : "no");
}

/* Nothing is asked of malloc as the least block of the alignment, since it may have none of 0 bytes. */
static void no_bytes(void) {
    struct tried one = rattle_alloc(0, 16);
    size_t first = asked;
    struct tried two = rattle_realloc(one.p, 0, 0, 8);
    printf("blocks of no bytes: %s, %zu and %zu bytes asked for\n", one.ok && two.ok ? "had" : "not had", first, asked);
    rattle_dealloc(two.p);
}

int main(void) {
    no_bytes();
    go("a list", by_list);
    go("shared tables", by_worker);
    return 0;
}
