/* One driver for two tables: those of the library (inet.c) and those of plain.c. Each includes this file and gives the
 * functions declared here; the driver has `main`.
 *
 * PROGRAM MODE THREADS SECONDS     prints the thread's processor time of one call, or of one pair of calls
 *
 * Lookups, beside 32,768 accepted connections: hit, miss (port 81), listener (another remote end), hot (one socket).
 * Changes, each thread on ends of its own: accept-close and connect-close (with `reap`), accept-drop, connect-drop,
 * bind-drop, search-drop (`bind` to port 0).
 */
#define _GNU_SOURCE
#include <pthread.h>
#include <sched.h>
#include <stdatomic.h>
#include <stdbool.h>
#include <stdint.h>
#include <stdio.h>
#include <stdlib.h>
#include <string.h>
#include <time.h>
#include <unistd.h>

/* What a table gives; each returns an errno, EAGAIN where it is to be called again. */
struct worker;
static const char *table_name;
static void table_init(int threads);
static struct worker *table_worker(int number);
static struct worker *table_looker(int number);
static int table_socket(struct worker *w, uint32_t flags, uint64_t *s);
static int table_bind(struct worker *w, uint64_t s, uint32_t addr, uint16_t port);
static int table_listen(struct worker *w, uint64_t s);
static int table_connect(struct worker *w, uint64_t s, uint32_t from, uint32_t to, uint16_t to_port);
static int table_accept(struct worker *w, uint64_t l, uint32_t from, uint16_t from_port, uint32_t at, uint16_t at_port,
                        uint64_t *s);
static int table_close(struct worker *w, uint64_t s);
static int table_drop(struct worker *w, uint64_t s);
static int table_at(struct worker *w, uint32_t moment);
static int table_reap(struct worker *w, uint64_t *count);
static int table_look(struct worker *w, uint32_t from, uint16_t from_port, uint32_t at, uint16_t at_port,
                      uint32_t *kind);

#define ENDS 32768u
#define AT_ONCE 200
#define SERVER 0x0A000001u /* 10.0.0.1 */

enum {
    HIT,
    MISS,
    LISTENER,
    HOT,
    ACCEPT_CLOSE,
    ACCEPT_DROP,
    CONNECT_CLOSE,
    CONNECT_DROP,
    BIND_DROP,
    SEARCH_DROP,
    MODES
};

static const char *const mode_names[MODES] = {"hit",          "miss",        "listener",      "hot",
                                              "accept-close", "accept-drop", "connect-close", "connect-drop",
                                              "bind-drop",    "search-drop"};

enum { KIND_FULL = 1, KIND_LISTEN = 3, KIND_NONE = 0 };

struct thread {
    pthread_t handle;
    int number;
    struct worker *worker;
    double nanoseconds;
    uint64_t calls, wrong;
};

static atomic_int started, stop;
static int threads, mode;

static double processor_time(void)
{
    struct timespec t;
    clock_gettime(CLOCK_THREAD_CPUTIME_ID, &t);
    return t.tv_sec * 1e9 + t.tv_nsec;
}

/* The remote end of a connection, by its number. */
static void end_of(uint32_t number, uint32_t *addr, uint16_t *port)
{
    *addr = 0x0A010000u + (number >> 10);
    *port = (uint16_t)(1024 + (number & 1023));
}

static void wait_for_all(void)
{
    atomic_fetch_add(&started, 1);
    while (atomic_load(&started) < threads)
        sched_yield();
}

/* Calls again while a table says EAGAIN (11). */
#define CALL(result, call)                                                                                             \
    while (((result) = (call)) == 11) {                                                                                \
        sched_yield();                                                                                                 \
    }

static int make_listener(struct worker *w, uint32_t addr, uint16_t port, uint64_t *listener)
{
    int error;
    table_socket(w, 0, listener);
    CALL(error, table_bind(w, *listener, addr, port))
    if (!error)
        CALL(error, table_listen(w, *listener))
    return error;
}

static void look(struct thread *t)
{
    uint32_t next = 500000u * t->number;
    static const uint32_t wanted[] = {KIND_FULL, KIND_NONE, KIND_LISTEN, KIND_FULL};
    while (!atomic_load_explicit(&stop, memory_order_relaxed)) {
        for (int k = 0; k < 256; k++) {
            uint32_t addr, kind = 9;
            uint16_t port;
            end_of(mode == HOT ? 0 : next * 40503u % ENDS, &addr, &port);
            next++;
            table_look(t->worker, mode == LISTENER ? addr + 0x00100000u : addr, port, SERVER, mode == MISS ? 81 : 80,
                       &kind);
            t->wrong += kind != wanted[mode];
        }
        t->calls += 256;
    }
}

/* Makes one socket of the mode; an errno. */
static int make_one(struct thread *t, uint64_t listener, uint32_t number, uint64_t *s)
{
    struct worker *w = t->worker;
    uint32_t own = SERVER + t->number;
    int error;
    if (mode == ACCEPT_CLOSE || mode == ACCEPT_DROP) {
        uint32_t from = 0x0B000000u + (number >> 15 & 0xFFFF) + (uint32_t)t->number * 65536u;
        CALL(error, table_accept(w, listener, from, (uint16_t)(1024 + (number & 32767)), own, 2000 + t->number, s))
        return error;
    }
    table_socket(w, 0, s);
    if (mode == CONNECT_CLOSE || mode == CONNECT_DROP)
        CALL(error, table_connect(w, *s, own, 0x0C000001u + (number & 255), 80))
    else
        CALL(error, table_bind(w, *s, own, mode == BIND_DROP ? (uint16_t)(10000 + number % 20000) : 0))
    return error;
}

static void change(struct thread *t)
{
    uint64_t made[AT_ONCE], listener = 0;
    uint32_t number = 0, moment = 0;
    bool closes = mode == ACCEPT_CLOSE || mode == CONNECT_CLOSE;
    while (!atomic_load_explicit(&stop, memory_order_relaxed)) {
        if (!number && (mode == ACCEPT_CLOSE || mode == ACCEPT_DROP))
            t->wrong += make_listener(t->worker, SERVER + t->number, 2000 + t->number, &listener) != 0;
        int count = 0, error;
        for (int k = 0; k < AT_ONCE; k++) {
            error = make_one(t, listener, ++number, &made[count]);
            t->wrong += error != 0;
            count += !error;
        }
        for (int k = 0; k < count; k++) {
            CALL(error, closes ? table_close(t->worker, made[k]) : table_drop(t->worker, made[k]))
            t->wrong += error != 0;
        }
        if (closes) {
            uint64_t over;
            table_at(t->worker, moment += 61);
            CALL(error, table_reap(t->worker, &over))
        }
        t->calls += count;
    }
}

static void *run(void *argument)
{
    struct thread *t = argument;
    wait_for_all();
    double begun = processor_time();
    if (mode <= HOT)
        look(t);
    else
        change(t);
    t->nanoseconds = processor_time() - begun;
    return NULL;
}

/* The listener and the connections that lookups find. */
static void fill(void)
{
    struct worker *w = table_worker(0);
    uint64_t listener, s;
    int error = make_listener(w, 0, 80, &listener);
    for (uint32_t k = 0; !error && k < ENDS; k++) {
        uint32_t addr;
        uint16_t port;
        end_of(k, &addr, &port);
        error = table_accept(w, listener, addr, port, SERVER, 80, &s);
    }
    if (error) {
        fprintf(stderr, "the table can't be filled: %d\n", error);
        exit(1);
    }
}

int main(int count, char **words)
{
    if (count != 4)
        return 2;
    while (mode < MODES && strcmp(words[1], mode_names[mode]))
        mode++;
    threads = atoi(words[2]);
    if (mode == MODES || threads < 1 || threads > 60)
        return 2;
    table_init(threads);
    if (mode <= HOT)
        fill();
    struct thread *all[60];
    for (int k = 0; k < threads; k++) {
        all[k] = aligned_alloc(4096, 4096); /* each on lines of its own */
        *all[k] = (struct thread){.number = k, .worker = mode <= HOT ? table_looker(k) : table_worker(k)};
    }
    for (int k = 0; k < threads; k++)
        pthread_create(&all[k]->handle, NULL, run, all[k]);
    usleep((useconds_t)(atof(words[3]) * 1e6));
    atomic_store(&stop, 1);
    double each = 0;
    uint64_t calls = 0, wrong = 0;
    for (int k = 0; k < threads; k++) {
        pthread_join(all[k]->handle, NULL);
        each += all[k]->nanoseconds / all[k]->calls / threads;
        calls += all[k]->calls;
        wrong += all[k]->wrong;
    }
    printf("%s %s %d threads: %.0f ns, %lu calls, %lu wrong\n", table_name, words[1], threads, each,
           (unsigned long)calls, (unsigned long)wrong);
    return wrong != 0;
}
