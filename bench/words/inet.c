/* The driver over the library: build with callers/heap.c and libinet_c.a, as docs/CALLERS.md says. */
#include "driver.h"
#include "inet_tables.h"

static const char *table_name = "the library";

_Static_assert((int)KIND_FULL == (int)INET_CONNECTED && (int)KIND_LISTEN == (int)INET_LISTENER &&
                   (int)KIND_NONE == (int)INET_NONE,
               "the driver's kinds are the header's");

/* What a thread has: one of its handles holds nothing. */
struct worker {
    struct inet_worker worker;
    struct inet_looker looker;
    uint32_t number;
};

static struct inet_tables tables;

static void must(const char *what, int error)
{
    if (error) {
        fprintf(stderr, "%s: %s\n", what, strerror(error));
        exit(1);
    }
}

static void table_init(int threads)
{
    struct inet_sizes sizes = {
        .size = sizeof sizes, .slots = 65536, .bind = 256, .hash = 65536, .listen = 4096, .seed = 0x21524105,
        .low = 32768, .high = 60999};
    (void)threads;
    must("inet_tables_new", inet_tables_new(&tables, &sizes, 1));
}

static struct worker *new_worker(void)
{
    struct worker *w = aligned_alloc(128, (sizeof *w + 127) / 128 * 128);
    if (!w)
        must("aligned_alloc", 12);
    memset(w, 0, sizeof *w);
    return w;
}

static struct worker *table_worker(int number)
{
    struct worker *w = new_worker();
    (void)number;
    const struct inet_limits limits = {.size = sizeof limits, .tries = 1000};
    must("inet_tables_worker", inet_tables_worker(&tables, &limits, &w->worker, &w->number));
    return w;
}

static struct worker *table_looker(int number)
{
    struct worker *w = new_worker();
    (void)number;
    must("inet_tables_looker", inet_tables_looker(&tables, &w->looker));
    return w;
}

static int table_socket(struct worker *w, uint32_t flags, uint64_t *s)
{
    return inet_worker_socket(&w->worker, 0, 0, 0, flags, 0, s);
}

static int table_bind(struct worker *w, uint64_t s, uint32_t addr, uint16_t port)
{
    uint16_t bound;
    return inet_worker_bind(&w->worker, s, addr, port, &bound);
}

static int table_listen(struct worker *w, uint64_t s)
{
    uint16_t bound;
    return inet_worker_listen(&w->worker, s, &bound);
}

static int table_connect(struct worker *w, uint64_t s, uint32_t from, uint32_t to, uint16_t to_port)
{
    uint32_t addr;
    uint16_t port;
    return inet_worker_connect(&w->worker, s, from, to, to_port, &addr, &port);
}

static int table_accept(struct worker *w, uint64_t l, uint32_t from, uint16_t from_port, uint32_t at, uint16_t at_port,
                        uint64_t *s)
{
    return inet_worker_accept(&w->worker, l, from, from_port, at, at_port, 0, s);
}

static int table_close(struct worker *w, uint64_t s)
{
    bool waits;
    return inet_worker_close(&w->worker, s, &waits);
}

static int table_drop(struct worker *w, uint64_t s)
{
    return inet_worker_drop(&w->worker, s);
}

static int table_at(struct worker *w, uint32_t moment)
{
    return inet_worker_at(&w->worker, moment);
}

static int table_reap(struct worker *w, uint64_t *count)
{
    return inet_worker_reap(&w->worker, count);
}

static int table_look(struct worker *w, uint32_t from, uint16_t from_port, uint32_t at, uint16_t at_port,
                      uint32_t *kind)
{
    struct inet_sight sight;
    int error = inet_looker_look(&w->looker, from, from_port, at, at_port, 0, 0, 0, &sight);
    *kind = error ? 9 : sight.kind;
    return error;
}
