/* The toy proxy of proxy.c over tables that threads share: two threads accept connections and close them, each by a
 * worker of its own, and two look packets up meanwhile, each by a looker of its own. No lock is round any call. What
 * it prints is the same whichever thread comes first. */
#include <errno.h>
#include <pthread.h>
#include <sched.h>
#include <stdio.h>
#include <stdlib.h>

#include <inet_tables.h>

enum { CONNECTIONS = 500, PROXY = 0x0A000001 };

static const uint32_t CLIENTS = 0xC0000200;

/* A call tries so often again for what another worker has. */
static const struct inet_limits LIMITS = {sizeof(struct inet_limits), 1000, 0, 0};

static void must(int error, const char *what) {
    if (error != 0) {
        fprintf(stderr, "%s: errno %d\n", what, error);
        exit(1);
    }
}

/* Others were in the way of a call: they go first, and the call is made again. */
static bool again(int error) {
    if (error == EAGAIN)
        sched_yield();
    return error == EAGAIN;
}

static const char *name(int error) {
    switch (error) {
    case 0: return "done";
    case EBADF: return "EBADF";
    case EBUSY: return "EBUSY";
    case EINVAL: return "EINVAL";
    case EADDRINUSE: return "EADDRINUSE";
    default: return "another errno";
    }
}

static uint16_t port_of(uint32_t worker) {
    return (uint16_t)(8000 + worker);
}

struct accepter { struct inet_worker worker; uint64_t listener; uint32_t number, closed, waiting; };

static void open_listener(struct accepter *me) {
    uint16_t bound;
    must(inet_worker_socket(&me->worker, 0, 0, 0, INET_REUSEADDR, 0, &me->listener), "socket");
    must(inet_worker_bind(&me->worker, me->listener, PROXY, port_of(me->number), &bound), "bind");
    must(inet_worker_listen(&me->worker, me->listener, &bound), "listen");
}

/* The socket's number is that of the call that made it: each call gives another one. */
static uint64_t accept_from(struct accepter *me, uint16_t from_port) {
    uint64_t socket;
    int error;
    do
        error = inet_worker_accept(&me->worker, me->listener, CLIENTS + me->number, from_port, PROXY,
                                   port_of(me->number), 0, &socket);
    while (again(error));
    must(error, "accept");
    return socket;
}

static bool close_socket(struct accepter *me, uint64_t socket) {
    bool waits;
    int error;
    do
        error = inet_worker_close(&me->worker, socket, &waits);
    while (again(error));
    must(error, "close");
    return waits;
}

static void *accept_all(void *given) {
    struct accepter *me = given;
    for (uint32_t i = 0; i < CONNECTIONS; i++) {
        uint64_t socket = accept_from(me, (uint16_t)(1024 + i));
        me->waiting += close_socket(me, socket);
        me->closed++;
    }
    return NULL;
}

struct looker { struct inet_looker handle; uint32_t worker, found; };

static struct inet_sight look(struct looker *me, uint16_t from_port) {
    struct inet_sight sight;
    int error;
    do
        error = inet_looker_look(&me->handle, CLIENTS + me->worker, from_port, PROXY, port_of(me->worker), 0, 0, 0,
                                 &sight);
    while (again(error));
    must(error, "look");
    return sight;
}

/* Each packet finds its connection, the TIME_WAIT of that, or else the listener: always a socket of that worker. */
static void *look_all(void *given) {
    struct looker *me = given;
    for (uint32_t i = 0; i < CONNECTIONS; i++) {
        struct inet_sight sight = look(me, (uint16_t)(1024 + i));
        me->found += sight.kind != INET_NONE && sight.worker == me->worker;
    }
    return NULL;
}

static void refusals(struct accepter *two) {
    uint64_t socket;
    uint16_t bound;
    bool waits;
    must(inet_worker_socket(&two->worker, 0, 0, 0, 0, 0, &socket), "socket");
    printf("a port that another worker has: %s\n",
           name(inet_worker_bind(&two->worker, socket, 0, port_of(1), &bound)));
    must(inet_worker_drop(&two->worker, socket), "drop");
    printf("a number of no open socket: %s\n", name(inet_worker_close(&two->worker, socket, &waits)));
}

/* A handle holds one worker, and gives it back to its own tables. */
static void misused(struct inet_tables *tables, struct accepter *accepter) {
    uint32_t number;
    printf("a worker into a handle that has one: %s\n",
           name(inet_tables_worker(tables, &LIMITS, &accepter->worker, &number)));
}

/* A handshake in two steps: its request takes the packets while it lasts, and then the connection. */
static void shake_hands(struct accepter *me, struct looker *looker) {
    uint64_t request, socket;
    must(inet_worker_syn(&me->worker, me->listener, CLIENTS + me->number, 1023, PROXY,
                         port_of(me->number), 0, &request),
         "syn");
    struct inet_sight sight = look(looker, 1023);
    printf("a packet of a handshake: %s\n",
           sight.kind == INET_REQUEST && sight.socket == request ? "the request" : "another socket");
    must(inet_worker_ack(&me->worker, request, 0, &socket), "ack");
    sight = look(looker, 1023);
    printf("a packet after it: %s\n",
           sight.kind == INET_CONNECTED && sight.socket == socket ? "the connection" : "another socket");
    must(inet_worker_drop(&me->worker, socket), "drop");
}

/* The next holder of a worker that was given back closes what its last holder left open, but the listener. */
static void hand_over(struct inet_tables *tables, struct accepter *me) {
    uint64_t socket, dropped = 0;
    accept_from(me, 1021);
    accept_from(me, 1022);
    must(inet_worker_give_back(&me->worker, tables), "give back");
    must(inet_tables_worker(tables, &LIMITS, &me->worker, &me->number), "worker");
    must(inet_worker_next_open(&me->worker, me->listener, &socket), "next open");
    while (socket != 0) {
        must(inet_worker_drop(&me->worker, socket), "drop");
        dropped++;
        must(inet_worker_next_open(&me->worker, socket, &socket), "next open");
    }
    printf("worker %u, handed over: %llu connections dropped\n", me->number, (unsigned long long)dropped);
}

/* All TIME_WAITs are over, and go by sixty-four a call, so that none takes long. */
static void finish(struct accepter *me) {
    uint64_t count, all = 0;
    bool more = true;
    must(inet_worker_at(&me->worker, 60), "at");
    while (more) {
        must(inet_worker_reap_most(&me->worker, 64, &count, &more), "reap");
        all += count;
    }
    printf("worker %u: %llu TIME_WAITs are over after a minute\n", me->number, (unsigned long long)all);
    inet_worker_free(&me->worker);
}

int main(void) {
    struct inet_sizes sizes = {.size = sizeof sizes, .slots = 4096, .bind = 16, .hash = 256, .listen = 32, .seed = 7,
                               .low = 32768, .high = 60999};
    struct inet_tables tables = {NULL};
    must(inet_tables_new(&tables, &sizes, 1), "new");
    printf("tables in the same handle again: %s\n", name(inet_tables_new(&tables, &sizes, 2)));
    struct accepter accepters[2] = {{{NULL}, 0, 0, 0, 0}, {{NULL}, 0, 0, 0, 0}};
    struct looker lookers[2] = {{{NULL}, 1, 0}, {{NULL}, 2, 0}};
    pthread_t threads[4];
    for (uint32_t i = 0; i < 2; i++) {
        must(inet_tables_worker(&tables, &LIMITS, &accepters[i].worker, &accepters[i].number), "worker");
        must(inet_tables_looker(&tables, &lookers[i].handle), "looker");
        open_listener(&accepters[i]);
    }
    for (uint32_t i = 0; i < 2; i++) {
        must(pthread_create(&threads[i], NULL, accept_all, &accepters[i]), "thread");
        must(pthread_create(&threads[i + 2], NULL, look_all, &lookers[i]), "thread");
    }
    for (uint32_t i = 0; i < 4; i++)
        must(pthread_join(threads[i], NULL), "join");
    for (uint32_t i = 0; i < 2; i++)
        printf("worker %u: %u connections closed, %u in TIME_WAIT; %u of %d packets found a socket of its own\n",
               accepters[i].number, accepters[i].closed, accepters[i].waiting, lookers[i].found, CONNECTIONS);
    refusals(&accepters[1]);
    misused(&tables, &accepters[0]);
    shake_hands(&accepters[0], &lookers[0]);
    hand_over(&tables, &accepters[0]);
    inet_tables_free(&tables);
    finish(&accepters[0]);
    finish(&accepters[1]);
    struct inet_sight sight = look(&lookers[1], 1024);
    printf("a packet when the workers are gone: %s\n",
           sight.kind == INET_LISTENER ? "the listener" : "another socket");
    inet_looker_free(&lookers[0].handle);
    inet_looker_free(&lookers[1].handle);
    printf("a packet when all are gone: %s\n", name(inet_looker_look(&lookers[1].handle, 1, 1, 1, 1, 0, 0, 0, &sight)));
    return 0;
}
