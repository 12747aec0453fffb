/* Objects by marks: two workers accept connections and drop them, each with an object of its own in an array, and two
 * lookers find a packet's connection and read its object meanwhile, by the mark that the lookup answers. An object is
 * freed while lookups go on, once none can lead to it any more: its worker's clock says from when on lookups don't find
 * a connection that it dropped, and each looker says from when on it looks.
 *
 * What it prints is the same whichever thread comes first. */
#include <errno.h>
#include <pthread.h>
#include <sched.h>
#include <stdatomic.h>
#include <stdio.h>
#include <stdlib.h>

#include <inet_tables.h>

enum { WORKERS = 2, LOOKERS = 2, CONNECTIONS = 20000, OPEN = 100, PLACES = 4 * OPEN, PROXY = 0x0A000001 };

static const uint32_t CLIENTS = 0xC0000200;

/* A call tries so often again for what another worker has. */
static const struct inet_limits LIMITS = {sizeof(struct inet_limits), 1000, 0, 0};

/* What a caller keeps of a connection. It stands at its place before lookups can find the connection. */
struct object { uint32_t worker; uint16_t from_port; };

static _Atomic(struct object *) objects[WORKERS * PLACES];

/* A worker has places of its own in the array, and each knows the clock at which its last connection was gone. Lookers
 * read how many connections it made, and the clock as it left it. */
struct accepter {
    struct inet_worker worker;
    uint32_t number;
    uint64_t listener, sockets[PLACES], gone[PLACES];
    _Atomic uint64_t made, now;
};

/* Its lookups begin at that clock or later, and it has no object from earlier ones. */
struct watcher {
    struct inet_looker looker;
    _Atomic uint64_t since;
    uint64_t led, strange;
};

static struct accepter accepters[WORKERS];
static struct watcher watchers[LOOKERS];
static atomic_bool over;

static void must(int error, const char *what) {
    if (error != 0) {
        fprintf(stderr, "%s: errno %d\n", what, error);
        exit(1);
    }
}

/* Others were in the way of a call: they go first, and the call is made again. */
static bool again(int error) {
    if (error == EAGAIN)
        sched_yield();
    return error == EAGAIN;
}

static uint16_t port_of(uint32_t worker) {
    return (uint16_t)(8000 + worker);
}

/* Connections of one place have different ports. */
static uint16_t port_from(uint64_t connection) {
    return (uint16_t)(1024 + connection);
}

/* A connection's place is its worker's, and its mark is 1 more: 0 is the listener's. */
static uint32_t place_of(const struct accepter *me, uint64_t connection) {
    return (uint32_t)((me->number - 1) * PLACES + connection % PLACES);
}

static void open_listener(struct accepter *me) {
    uint16_t bound;
    must(inet_worker_socket(&me->worker, 0, 0, 0, 0, 0, &me->listener), "socket");
    must(inet_worker_bind(&me->worker, me->listener, PROXY, port_of(me->number), &bound), "bind");
    must(inet_worker_listen(&me->worker, me->listener, &bound), "listen");
}

/* No lookup that any looker is at, or begins, leads to what was gone at that clock. */
static bool is_past(uint64_t clock) {
    for (int i = 0; i < LOOKERS; i++)
        if (atomic_load(&watchers[i].since) < clock)
            return false;
    return true;
}

/* Frees the object at a place whose connection is gone, once no lookup leads there any more. */
static void clear(struct accepter *me, uint64_t connection) {
    uint32_t place = place_of(me, connection);
    while (!is_past(me->gone[connection % PLACES]))
        sched_yield();
    free(atomic_exchange(&objects[place], NULL));
}

static void accept_with_object(struct accepter *me, uint64_t connection) {
    uint32_t place = place_of(me, connection);
    struct object *object = malloc(sizeof *object);
    must(object == NULL ? ENOMEM : 0, "malloc");
    *object = (struct object){me->number, port_from(connection)};
    atomic_store(&objects[place], object);
    int error;
    do
        error = inet_worker_accept(&me->worker, me->listener, CLIENTS + me->number, object->from_port, PROXY,
                                   port_of(me->number), place + 1, &me->sockets[connection % PLACES]);
    while (again(error));
    must(error, "accept");
    atomic_store(&me->made, connection + 1);
}

/* The connection is gone, and the clock says from when on. */
static void drop(struct accepter *me, uint64_t connection) {
    uint64_t clock;
    int error;
    do
        error = inet_worker_drop(&me->worker, me->sockets[connection % PLACES]);
    while (again(error));
    must(error, "drop");
    must(inet_worker_now(&me->worker, &clock), "now");
    me->gone[connection % PLACES] = clock;
    atomic_store(&me->now, clock);
}

static void *work(void *given) {
    struct accepter *me = given;
    for (uint64_t i = 0; i < CONNECTIONS; i++) {
        if (i >= OPEN)
            drop(me, i - OPEN);
        if (i >= PLACES)
            clear(me, i - PLACES);
        accept_with_object(me, i);
    }
    for (uint64_t i = CONNECTIONS - OPEN; i < CONNECTIONS; i++)
        drop(me, i);
    for (uint64_t i = CONNECTIONS - PLACES; i < CONNECTIONS; i++)
        clear(me, i);
    return NULL;
}

/* Each change of a worker's calls that had ended by then is below this number of the clock. */
static uint64_t latest(void) {
    uint64_t clock = 0;
    for (int i = 0; i < WORKERS; i++) {
        uint64_t now = atomic_load(&accepters[i].now);
        if (now > clock)
            clock = now;
    }
    return clock;
}

/* A packet of one of a worker's last connections: the object is that of the connection, or the listener takes it. */
static void look(struct watcher *me, struct accepter *accepter, uint64_t back) {
    struct inet_sight sight;
    uint32_t worker = accepter->number;
    uint64_t made = atomic_load(&accepter->made);
    uint16_t from_port = port_from(made > back ? made - 1 - back : 0);
    uint64_t since = latest();
    atomic_store(&me->since, since);
    int error;
    do
        error = inet_looker_look(&me->looker, CLIENTS + worker, from_port, PROXY, port_of(worker), 0, 0, since, &sight);
    while (again(error));
    must(error, "look");
    if (sight.kind == INET_CONNECTED) {
        const struct object *object = sight.mark > 0 ? atomic_load(&objects[sight.mark - 1]) : NULL;
        me->led++;
        if (object == NULL || object->worker != worker || object->from_port != from_port)
            me->strange++;
    } else if (sight.kind != INET_LISTENER || sight.mark != 0)
        me->strange++;
}

static void *watch(void *given) {
    struct watcher *me = given;
    for (uint64_t i = 0; !atomic_load(&over); i++)
        look(me, &accepters[i % WORKERS], i / WORKERS % (2 * OPEN));
    atomic_store(&me->since, UINT64_MAX);
    return NULL;
}

static void open_all(void) {
    struct inet_tables tables = {0};
    struct inet_sizes sizes = {.size = sizeof sizes, .slots = 1024, .bind = 16, .hash = 256, .listen = 32, .seed = 1,
                               .low = 32768, .high = 60999};
    must(inet_tables_new(&tables, &sizes, 1), "new");
    for (int i = 0; i < WORKERS; i++) {
        must(inet_tables_worker(&tables, &LIMITS, &accepters[i].worker, &accepters[i].number), "worker");
        open_listener(&accepters[i]);
    }
    for (int i = 0; i < LOOKERS; i++)
        must(inet_tables_looker(&tables, &watchers[i].looker), "looker");
    inet_tables_free(&tables);
}

int main(void) {
    pthread_t workers[WORKERS], lookers[LOOKERS];
    uint64_t led = 0, strange = 0, left = 0;
    open_all();
    for (int i = 0; i < LOOKERS; i++)
        must(pthread_create(&lookers[i], NULL, watch, &watchers[i]), "thread");
    for (int i = 0; i < WORKERS; i++)
        must(pthread_create(&workers[i], NULL, work, &accepters[i]), "thread");
    for (int i = 0; i < WORKERS; i++)
        must(pthread_join(workers[i], NULL), "join");
    atomic_store(&over, true);
    for (int i = 0; i < LOOKERS; i++) {
        must(pthread_join(lookers[i], NULL), "join");
        led += watchers[i].led;
        strange += watchers[i].strange;
        inet_looker_free(&watchers[i].looker);
    }
    for (int i = 0; i < WORKERS; i++)
        inet_worker_free(&accepters[i].worker);
    for (int i = 0; i < WORKERS * PLACES; i++)
        left += atomic_load(&objects[i]) != NULL;
    printf("connections, each with an object: %d\n", WORKERS * CONNECTIONS);
    printf("lookups that led to an object: %s\n", led > 0 ? "some" : "none");
    printf("to none, or to that of another connection: %llu\n", (unsigned long long)strange);
    printf("objects that weren't freed: %llu\n", (unsigned long long)left);
    return strange == 0 && left == 0 ? 0 : 1;
}
