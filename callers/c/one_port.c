/* One port that several workers share: 1, 2 and 4 workers accept connections and drop them again, each at a listener of
 * its own, first all at one port, by INET_REUSEPORT, and then each at another one. A port is in one bind bucket, whose
 * turn one worker has at a time.
 *
 * usage: one_port [SECONDS]
 *
 * Standard output is the same each time; the figures go to standard error. */
#include <pthread.h>
#include <sched.h>
#include <stdatomic.h>
#include <unistd.h>

#include "measure.h"

enum { WORKERS = 4, OPEN = 100, PORT = 8000 };

/* A worker: how often a call was done, how often another was in its way, and how often it was refused. */
struct seat {
    struct inet_worker worker;
    pthread_t thread;
    uint32_t number;
    uint16_t port;
    uint64_t listener, made, done, again, refused;
};

static struct seat seats[WORKERS];
static atomic_bool over;

static void count(struct seat *me, int error) {
    me->done += error == 0;
    me->again += error == EAGAIN;
    me->refused += error != 0 && error != EAGAIN;
    if (error == EAGAIN)
        sched_yield();
}

static int accept_one(struct seat *me, uint64_t *socket) {
    int error = inet_worker_accept(&me->worker, me->listener, CLIENTS + me->number,
                                   (uint16_t)(1024 + me->made % CLIENT_PORTS), PROXY, me->port, 0, socket);
    count(me, error);
    return error;
}

static int drop_one(struct seat *me, uint64_t socket) {
    int error = inet_worker_drop(&me->worker, socket);
    count(me, error);
    return error;
}

static void *work(void *given) {
    struct seat *me = given;
    uint64_t sockets[OPEN];
    while (!atomic_load(&over)) {
        for (int i = 0; i < OPEN; i++, me->made++)
            while (accept_one(me, &sockets[i]) == EAGAIN) {}
        for (int i = 0; i < OPEN; i++)
            while (drop_one(me, sockets[i]) == EAGAIN) {}
    }
    return NULL;
}

static void open_seat(struct inet_tables *tables, struct seat *seat, bool shared) {
    uint16_t bound;
    *seat = (struct seat){.port = PORT};
    must(inet_tables_worker(tables, &LIMITS, &seat->worker, &seat->number), "worker");
    if (!shared)
        seat->port = (uint16_t)(PORT + seat->number);
    must(inet_worker_socket(&seat->worker, 0, 0, 0, INET_REUSEPORT, 0, &seat->listener), "socket");
    must(inet_worker_bind(&seat->worker, seat->listener, 0, seat->port, &bound), "bind");
    must(inet_worker_listen(&seat->worker, seat->listener, &bound), "listen");
}

/* How many calls were refused. */
static uint64_t measure(int workers, bool shared, int seconds) {
    struct inet_tables tables = {0};
    struct inet_sizes sizes = {.size = sizeof sizes, .slots = 65536, .bind = 256, .hash = 65536, .listen = 32,
                               .seed = 1, .low = 32768, .high = 60999};
    uint64_t done = 0, again = 0, refused = 0, begun = nanoseconds();
    must(inet_tables_new(&tables, &sizes, 1), "new");
    for (int i = 0; i < workers; i++)
        open_seat(&tables, &seats[i], shared);
    atomic_store(&over, false);
    for (int i = 0; i < workers; i++)
        must(pthread_create(&seats[i].thread, NULL, work, &seats[i]), "thread");
    sleep((unsigned)seconds);
    atomic_store(&over, true);
    for (int i = 0; i < workers; i++) {
        must(pthread_join(seats[i].thread, NULL), "join");
        done += seats[i].done;
        again += seats[i].again;
        refused += seats[i].refused;
        inet_worker_free(&seats[i].worker);
    }
    inet_tables_free(&tables);
    fprintf(stderr, "%d workers, %s: %.0f accepts or drops a second, %.2f EAGAIN for each\n", workers,
            shared ? "one port" : "a port each", (double)done / ((double)(nanoseconds() - begun) / 1e9),
            (double)again / (double)done);
    return refused;
}

int main(int words, char **word) {
    int seconds = words > 1 ? atoi(word[1]) : 10;
    uint64_t refused = 0;
    for (int workers = 1; workers <= WORKERS; workers *= 2)
        refused += measure(workers, true, seconds) + measure(workers, false, seconds);
    printf("calls refused, but by EAGAIN: %llu\n", (unsigned long long)refused);
    return 0;
}
