/* A proxy that checks what it is told: four workers open connections and close them at full speed, and two lookers
 * look their packets up meanwhile and compare each answer with the proxy's own record of what stood then.
 *
 * usage: checked [SECONDS]
 *
 * A worker writes into its record before and after each call what becomes of a client's port. A looker reads that
 * record before its lookup and after it. Where nothing had changed in between, exactly one answer is right: the
 * connection that stood, its TIME_WAIT, or else the listener. Where something had, one of the two is.
 *
 * Standard output is the same each time; the figures go to standard error. */
#include <pthread.h>
#include <sched.h>
#include <stdatomic.h>
#include <unistd.h>

#include "measure.h"

enum { WORKERS = 4, LOOKERS = 2, PORTS = 512, FIRST_PORT = 2000 };

/* What stands of a client's port, above the number of its last socket; numbers ascend, so no entry comes again. */
enum { NOBODY = 0, COMES, STANDS, LEAVES, WAITS, ENDS };

static _Atomic uint64_t record[WORKERS][PORTS];

static uint64_t entry(uint64_t what, uint64_t socket) {
    return what << 56 | socket;
}

static uint64_t what_of(uint64_t entry) {
    return entry >> 56;
}

static uint64_t socket_of(uint64_t entry) {
    return entry & (((uint64_t)1 << 56) - 1);
}

struct actor {
    struct inet_worker worker;
    struct inet_looker looker;
    uint32_t number, moment;
    uint64_t listener, state, opened, checked, moving, wrong;
};

static struct actor actors[WORKERS + LOOKERS];
static atomic_bool over;

/* The next number of a simple generator, below a limit. */
static uint32_t draw(struct actor *me, uint32_t limit) {
    me->state = me->state * 6364136223846793005u + 1442695040888963407u;
    return (uint32_t)(me->state >> 33) % limit;
}

/* Another worker was in the way: it goes first, and the call is made again. */
static bool again(int error, const char *what) {
    if (error == EAGAIN)
        sched_yield();
    else
        must(error, what);
    return error == EAGAIN;
}

static void open_connection(struct actor *me, _Atomic uint64_t *mine, uint16_t from_port) {
    uint64_t socket = 0;
    atomic_store(mine, entry(COMES, socket_of(atomic_load(mine))));
    while (again(inet_worker_accept(&me->worker, me->listener, CLIENTS + me->number, from_port, PROXY,
                                    (uint16_t)(8000 + me->number), 0, &socket), "accept")) {}
    atomic_store(mine, entry(STANDS, socket));
    me->opened++;
}

/* It leaves a TIME_WAIT, or none. */
static void end_connection(struct actor *me, _Atomic uint64_t *mine, uint64_t socket, bool waits) {
    atomic_store(mine, entry(LEAVES, socket));
    if (!waits) {
        while (again(inet_worker_drop(&me->worker, socket), "drop")) {}
    } else
        while (again(inet_worker_close(&me->worker, socket, &waits), "close")) {}
    atomic_store(mine, entry(waits ? WAITS : NOBODY, socket));
}

/* A minute goes by: all TIME_WAITs are over. */
static void end_waits(struct actor *me) {
    _Atomic uint64_t *mine = record[me->number - 1];
    uint64_t count;
    for (int i = 0; i < PORTS; i++)
        if (what_of(atomic_load(&mine[i])) == WAITS)
            atomic_store(&mine[i], entry(ENDS, socket_of(atomic_load(&mine[i]))));
    me->moment += 60;
    must(inet_worker_at(&me->worker, me->moment), "at");
    while (again(inet_worker_reap(&me->worker, &count), "reap")) {}
    for (int i = 0; i < PORTS; i++)
        if (what_of(atomic_load(&mine[i])) == ENDS)
            atomic_store(&mine[i], entry(NOBODY, socket_of(atomic_load(&mine[i]))));
}

static void *work(void *given) {
    struct actor *me = given;
    while (!atomic_load(&over)) {
        uint32_t port = draw(me, PORTS);
        _Atomic uint64_t *mine = &record[me->number - 1][port];
        uint64_t stands = atomic_load(mine);
        if (what_of(stands) == NOBODY)
            open_connection(me, mine, (uint16_t)(FIRST_PORT + port));
        else if (what_of(stands) == STANDS)
            end_connection(me, mine, socket_of(stands), draw(me, 4) == 0);
        if (draw(me, 2000) == 0)
            end_waits(me);
    }
    return NULL;
}

/* The answer is right of what stood all the time. */
static bool is_right(const struct inet_sight *sight, uint64_t stood) {
    if (what_of(stood) == NOBODY)
        return sight->kind == INET_LISTENER;
    return sight->kind == (what_of(stood) == WAITS ? INET_TIME_WAIT : INET_CONNECTED) &&
           sight->socket == socket_of(stood);
}

/* It is right of what changed meanwhile: the listener, or a socket from the one that stood before to the one that did
 * after. */
static bool may_be_right(const struct inet_sight *sight, uint64_t before, uint64_t after) {
    bool is_new = what_of(before) == NOBODY || what_of(before) == COMES;
    return sight->kind == INET_LISTENER || (sight->socket >= socket_of(before) + is_new &&
                                            (sight->socket <= socket_of(after) || what_of(after) == COMES));
}

static void check(struct actor *me, uint32_t worker, uint32_t port) {
    struct inet_sight sight;
    int error;
    uint64_t before = atomic_load(&record[worker - 1][port]);
    error = inet_looker_look(&me->looker, CLIENTS + worker, (uint16_t)(FIRST_PORT + port), PROXY,
                             (uint16_t)(8000 + worker), 0, 0, 0, &sight);
    uint64_t after = atomic_load(&record[worker - 1][port]);
    if (again(error, "look"))
        return;
    uint64_t what = what_of(before);
    bool rests = before == after && (what == NOBODY || what == STANDS || what == WAITS);
    bool right = sight.kind != INET_NONE && sight.worker == worker &&
                 (rests ? is_right(&sight, before) : may_be_right(&sight, before, after));
    me->checked++;
    me->moving += !rests;
    me->wrong += !right;
}

static void *watch(void *given) {
    struct actor *me = given;
    while (!atomic_load(&over))
        check(me, 1 + draw(me, WORKERS), draw(me, PORTS));
    return NULL;
}

static void open_all(void) {
    struct inet_tables tables = {0};
    struct inet_sizes sizes = {.size = sizeof sizes, .slots = 65536, .bind = 256, .hash = 4096, .listen = 32, .seed = 1,
                               .low = 32768, .high = 60999};
    must(inet_tables_new(&tables, &sizes, 1), "new");
    for (int i = 0; i < WORKERS; i++) {
        must(inet_tables_worker(&tables, &LIMITS, &actors[i].worker, &actors[i].number), "worker");
        actors[i].listener = open_listener(&actors[i].worker, (uint16_t)(8000 + actors[i].number));
    }
    for (int i = WORKERS; i < WORKERS + LOOKERS; i++)
        must(inet_tables_looker(&tables, &actors[i].looker), "looker");
    inet_tables_free(&tables);
}

int main(int words, char **word) {
    int seconds = words > 1 ? atoi(word[1]) : 60;
    pthread_t threads[WORKERS + LOOKERS];
    uint64_t opened = 0, checked = 0, moving = 0, wrong = 0, early, late;
    open_all();
    for (int i = 0; i < WORKERS + LOOKERS; i++) {
        actors[i].state = (uint64_t)i + 1;
        must(pthread_create(&threads[i], NULL, i < WORKERS ? work : watch, &actors[i]), "thread");
    }
    sleep((unsigned)(seconds + 5) / 6);
    early = memory();
    sleep((unsigned)(seconds - (seconds + 5) / 6));
    late = memory();
    atomic_store(&over, true);
    for (int i = 0; i < WORKERS + LOOKERS; i++) {
        must(pthread_join(threads[i], NULL), "join");
        opened += actors[i].opened;
        checked += actors[i].checked;
        moving += actors[i].moving;
        wrong += actors[i].wrong;
        inet_worker_free(&actors[i].worker);
        inet_looker_free(&actors[i].looker);
    }
    fprintf(stderr, "%llu connections; %llu answers, %llu while their socket changed; VmRSS %llu, then %llu KiB\n",
            (unsigned long long)opened, (unsigned long long)checked, (unsigned long long)moving,
            (unsigned long long)early, (unsigned long long)late);
    printf("wrong answers: %llu\n", (unsigned long long)wrong);
    printf("memory: %s\n", late <= early + 1024 ? "level" : "GROWS");
    return 0;
}
