/* Threads that come and go: lookers and workers are taken from shared tables, and given back. All 255 workers are out
 * at a time, and a thousand lookers; the next holder of a worker drops the connection that the last one left.
 *
 * usage: turnover [LOOKERS [WORKERS]]
 *
 * Standard output is the same each time, but for the numbers; the figures go to standard error. */
#include "measure.h"

enum { MOST_WORKERS = 255, MOST_LOOKERS = 1000 };

/* A worker that is out, and the number of the connection that it has. */
struct seat { struct inet_worker worker; uint32_t number; uint64_t socket; };

static struct seat seats[MOST_WORKERS];
static struct inet_looker lookers[MOST_LOOKERS];

/* The connection that each worker of that number has left; 0 before the first. */
static uint64_t left[MOST_WORKERS + 1], listeners[MOST_WORKERS + 1];

static void take_worker(struct inet_tables *tables, struct seat *seat) {
    must(inet_tables_worker(tables, &LIMITS, &seat->worker, &seat->number), "worker");
    uint32_t n = seat->number;
    if (left[n] != 0)
        must(inet_worker_drop(&seat->worker, left[n]), "drop");
    else
        listeners[n] = open_listener(&seat->worker, (uint16_t)(8000 + n));
    must(inet_worker_accept(&seat->worker, listeners[n], CLIENTS + n, 1024, PROXY, (uint16_t)(8000 + n), 0,
                            &seat->socket),
         "accept");
}

static void give_worker_back(struct inet_tables *tables, struct seat *seat) {
    left[seat->number] = seat->socket;
    must(inet_worker_give_back(&seat->worker, tables), "give back");
}

static void take_workers(struct inet_tables *tables, uint32_t count) {
    for (uint32_t done = 0; done < count;) {
        uint32_t out = count - done < MOST_WORKERS ? count - done : MOST_WORKERS;
        for (uint32_t i = 0; i < out; i++)
            take_worker(tables, &seats[i]);
        for (uint32_t i = 0; i < out; i++)
            give_worker_back(tables, &seats[i]);
        done += out;
    }
}

/* How many lookers found the connection of the worker of their number. */
static uint32_t take_lookers(struct inet_tables *tables, uint32_t count) {
    uint32_t found = 0;
    for (uint32_t done = 0; done < count;) {
        uint32_t out = count - done < MOST_LOOKERS ? count - done : MOST_LOOKERS;
        for (uint32_t i = 0; i < out; i++, done++) {
            uint32_t n = 1 + done % MOST_WORKERS;
            struct inet_sight sight;
            must(inet_tables_looker(tables, &lookers[i]), "looker");
            must(inet_looker_look(&lookers[i], CLIENTS + n, 1024, PROXY, (uint16_t)(8000 + n), 0, 0, 0, &sight),
                 "look");
            found += sight.kind == INET_CONNECTED && sight.worker == n && sight.socket == left[n];
        }
        for (uint32_t i = 0; i < out; i++)
            must(inet_looker_give_back(&lookers[i], tables), "give back");
    }
    return found;
}

int main(int words, char **word) {
    uint32_t looker_count = words > 1 ? (uint32_t)strtoul(word[1], NULL, 10) : 100000;
    uint32_t worker_count = words > 2 ? (uint32_t)strtoul(word[2], NULL, 10) : 10000;
    struct inet_tables tables = {0};
    struct inet_sizes sizes = {.size = sizeof sizes, .slots = 1024, .bind = 256, .hash = 1024, .listen = 32, .seed = 1,
                               .low = 32768, .high = 60999};
    must(inet_tables_new(&tables, &sizes, 1), "new");
    uint64_t before = memory(), begun = nanoseconds();
    take_workers(&tables, worker_count);
    uint64_t between = memory(), taken = nanoseconds();
    uint32_t found = take_lookers(&tables, looker_count);
    fprintf(stderr, "a worker taken, a connection dropped and one accepted, given back: %.0f ns, %llu KiB more\n",
            (double)(taken - begun) / worker_count, (unsigned long long)(between - before));
    fprintf(stderr, "a looker taken, one lookup, given back: %.0f ns, %llu KiB more\n",
            (double)(nanoseconds() - taken) / looker_count, (unsigned long long)(memory() - between));
    printf("%u workers, each with a connection, taken and given back\n", worker_count);
    printf("%u lookers, of which %u found a connection, taken and given back\n", looker_count, found);
    inet_tables_free(&tables);
    return 0;
}
