/* Shared tables at work: four workers accept connections and drop the oldest at full speed, and two lookers look their
 * packets up meanwhile. Memory follows the open sockets, and no call is refused but by EAGAIN.
 *
 * usage: years [SECONDS]
 *
 * Standard output is the same each time; each ten seconds, and at the end, the figures go to standard error. */
#include <pthread.h>
#include <sched.h>
#include <stdatomic.h>
#include <unistd.h>

#include "measure.h"

enum { WORKERS = 4, LOOKERS = 2, OPEN = 1000, ERRNOS = 128 };

/* What a thread has done, by what its calls answered (0 where they were done), and its slowest call. One of
 * its handles holds nothing. */
struct actor {
    struct inet_worker worker;
    struct inet_looker looker;
    uint32_t number;
    uint64_t listener, made;
    uint64_t sockets[OPEN];
    _Atomic uint64_t answers[ERRNOS], slowest, strange;
    uint64_t before;
};

static struct actor actors[WORKERS + LOOKERS];
static atomic_bool over;

/* Counts a call, and the time since the last one. */
static int count(struct actor *me, int error) {
    uint64_t now = nanoseconds();
    atomic_fetch_add_explicit(&me->answers[error < ERRNOS ? error : ERRNOS - 1], 1, memory_order_relaxed);
    if (now - me->before > atomic_load_explicit(&me->slowest, memory_order_relaxed))
        atomic_store_explicit(&me->slowest, now - me->before, memory_order_relaxed);
    me->before = now;
    if (error == EAGAIN)
        sched_yield();
    return error;
}

/* The oldest of its connections goes, where it has as many as it may have, and a new one comes in its place. */
static void turn_over(struct actor *me) {
    uint64_t at = me->made % OPEN;
    uint16_t from_port = (uint16_t)(1024 + me->made % CLIENT_PORTS);
    if (me->made >= OPEN)
        while (count(me, inet_worker_drop(&me->worker, me->sockets[at])) == EAGAIN) {}
    while (count(me, inet_worker_accept(&me->worker, me->listener, CLIENTS + me->number, from_port, PROXY,
                                        (uint16_t)(8000 + me->number), 0, &me->sockets[at])) == EAGAIN) {}
    me->made++;
}

static void *work(void *given) {
    struct actor *me = given;
    me->before = nanoseconds();
    while (!atomic_load(&over))
        turn_over(me);
    return NULL;
}

/* Each packet finds a socket of that worker: a connection, or else the listener. */
static void look(struct actor *me) {
    struct inet_sight sight;
    uint32_t worker = 1 + (uint32_t)(me->made % WORKERS);
    uint16_t from_port = (uint16_t)(1024 + me->made % CLIENT_PORTS);
    if (count(me, inet_looker_look(&me->looker, CLIENTS + worker, from_port, PROXY, (uint16_t)(8000 + worker), 0, 0, 0,
                                   &sight)) == 0 &&
        (sight.kind == INET_NONE || sight.worker != worker))
        atomic_fetch_add_explicit(&me->strange, 1, memory_order_relaxed);
    me->made++;
}

static void *watch(void *given) {
    struct actor *me = given;
    me->before = nanoseconds();
    while (!atomic_load(&over))
        look(me);
    return NULL;
}

static void open_all(void) {
    struct inet_tables tables = {0};
    struct inet_sizes sizes = {.size = sizeof sizes, .slots = 65536, .bind = 256, .hash = 65536, .listen = 32,
                               .seed = 1, .low = 32768, .high = 60999};
    must(inet_tables_new(&tables, &sizes, 1), "new");
    for (int i = 0; i < WORKERS; i++) {
        must(inet_tables_worker(&tables, &LIMITS, &actors[i].worker, &actors[i].number), "worker");
        actors[i].listener = open_listener(&actors[i].worker, (uint16_t)(8000 + actors[i].number));
    }
    for (int i = WORKERS; i < WORKERS + LOOKERS; i++)
        must(inet_tables_looker(&tables, &actors[i].looker), "looker");
    inet_tables_free(&tables);
}

static uint64_t sum(int first, int end, int error) {
    uint64_t all = 0;
    for (int i = first; i < end; i++)
        all += atomic_load(&actors[i].answers[error]);
    return all;
}

static void report(uint64_t begun) {
    uint64_t slowest[2] = {0, 0};
    for (int i = 0; i < WORKERS + LOOKERS; i++)
        if (atomic_load(&actors[i].slowest) > slowest[i >= WORKERS])
            slowest[i >= WORKERS] = atomic_load(&actors[i].slowest);
    fprintf(stderr, "%5.0f s: %12llu calls, slowest %.3f ms; %12llu lookups, slowest %.3f ms; VmRSS %llu KiB\n",
            (double)(nanoseconds() - begun) / 1e9, (unsigned long long)sum(0, WORKERS, 0), (double)slowest[0] / 1e6,
            (unsigned long long)sum(WORKERS, WORKERS + LOOKERS, 0), (double)slowest[1] / 1e6,
            (unsigned long long)memory());
}

int main(int words, char **word) {
    int seconds = words > 1 ? atoi(word[1]) : 600;
    pthread_t threads[WORKERS + LOOKERS];
    uint64_t begun = nanoseconds(), strange = 0, refused = 0;
    open_all();
    for (int i = 0; i < WORKERS + LOOKERS; i++)
        must(pthread_create(&threads[i], NULL, i < WORKERS ? work : watch, &actors[i]), "thread");
    for (int left = seconds; left > 0; left -= 10) {
        sleep((unsigned)(left < 10 ? left : 10));
        report(begun);
    }
    atomic_store(&over, true);
    for (int i = 0; i < WORKERS + LOOKERS; i++)
        must(pthread_join(threads[i], NULL), "join");
    for (int error = 1; error < ERRNOS; error++)
        if (sum(0, WORKERS + LOOKERS, error) != 0) {
            fprintf(stderr, "errno %d: %llu of the workers, %llu of the lookers\n", error,
                    (unsigned long long)sum(0, WORKERS, error),
                    (unsigned long long)sum(WORKERS, WORKERS + LOOKERS, error));
            refused += error == EAGAIN ? 0 : sum(0, WORKERS + LOOKERS, error);
        }
    for (int i = 0; i < WORKERS + LOOKERS; i++) {
        strange += atomic_load(&actors[i].strange);
        inet_worker_free(&actors[i].worker);
        inet_looker_free(&actors[i].looker);
    }
    printf("calls refused, but by EAGAIN: %llu\n", (unsigned long long)refused);
    printf("packets that found nobody, or another worker: %llu\n", (unsigned long long)strange);
    return 0;
}
