/* The socket tables of a toy proxy: two threads accept connections and close them, and two look packets up meanwhile.
 * What it prints is the same whichever thread comes first. */
#include <errno.h>
#include <pthread.h>
#include <stdio.h>
#include <stdlib.h>

#include <inet_tables.h>

enum { CONNECTIONS = 500, PROXY = 0x0A000001 };

static const uint32_t CLIENTS = 0xC0000200;

static struct inet_list list;
/* A handle is at one call at a time. */
static pthread_mutex_t turn = PTHREAD_MUTEX_INITIALIZER;

static void must(int error, const char *what) {
    if (error != 0) {
        fprintf(stderr, "%s: errno %d\n", what, error);
        exit(1);
    }
}

static uint16_t port_of(uint32_t worker) {
    return (uint16_t)(8000 + worker);
}

static uint64_t open_listener(uint32_t worker) {
    uint64_t socket;
    uint16_t bound;
    must(inet_list_socket(&list, worker, 0, 0, 0, INET_REUSEADDR, &socket), "socket");
    must(inet_list_bind(&list, worker, socket, PROXY, port_of(worker), &bound), "bind");
    must(inet_list_listen(&list, worker, socket, &bound), "listen");
    return socket;
}

struct accepter { uint64_t listener; uint32_t worker, closed, waiting; };

static void *accept_all(void *given) {
    struct accepter *me = given;
    for (uint32_t i = 0; i < CONNECTIONS; i++) {
        uint64_t socket;
        bool waits;
        pthread_mutex_lock(&turn);
        must(inet_list_accept(&list, me->worker, me->listener, CLIENTS + me->worker, (uint16_t)(1024 + i), PROXY,
                                port_of(me->worker), &socket),
             "accept");
        pthread_mutex_unlock(&turn);
        pthread_mutex_lock(&turn);
        must(inet_list_close(&list, me->worker, socket, &waits), "close");
        pthread_mutex_unlock(&turn);
        me->closed++;
        me->waiting += waits;
    }
    return NULL;
}

struct looker { uint32_t worker, found; };

/* Each packet finds its connection, the TIME_WAIT of that, or, before both, the listener: always one of that worker. */
static void *look_all(void *given) {
    struct looker *me = given;
    for (uint32_t i = 0; i < CONNECTIONS; i++) {
        struct inet_sight sight;
        pthread_mutex_lock(&turn);
        must(inet_list_look(&list, CLIENTS + me->worker, (uint16_t)(1024 + i), PROXY, port_of(me->worker), 0, 0,
                              &sight),
             "look");
        pthread_mutex_unlock(&turn);
        me->found += sight.kind != INET_NONE && sight.worker == me->worker;
    }
    return NULL;
}

static void refusals(void) {
    uint64_t socket;
    uint16_t bound;
    bool waits;
    must(inet_list_socket(&list, 3, 0, 0, 0, 0, &socket), "socket");
    printf("a port that is taken: %s\n",
           inet_list_bind(&list, 3, socket, 0, port_of(1), &bound) == EADDRINUSE ? "EADDRINUSE" : "another errno");
    printf("another worker's socket: %s\n",
           inet_list_close(&list, 2, socket, &waits) == EBADF ? "EBADF" : "another errno");
    printf("worker 65: %s\n", inet_list_at(&list, 65, 1) == EINVAL ? "EINVAL" : "another errno");
    must(inet_list_drop(&list, 3, socket), "drop");
}

static void connect_out(void) {
    uint64_t socket;
    uint32_t addr;
    uint16_t port;
    must(inet_list_socket(&list, 3, 0, 0, 0, 0, &socket), "socket");
    must(inet_list_connect(&list, 3, socket, PROXY, CLIENTS + 9, 443, &addr, &port), "connect");
    printf("a connection out, from %u.%u.%u.%u: %s\n", addr >> 24, addr >> 16 & 255, addr >> 8 & 255, addr & 255,
           port >= 32768 && port <= 60999 ? "a port of the range" : "another port");
    printf("the same again: %s\n",
           inet_list_connect(&list, 3, socket, PROXY, CLIENTS + 9, 443, &addr, &port) == EISCONN ? "EISCONN"
                                                                                                     : "another errno");
    must(inet_list_drop(&list, 3, socket), "drop");
}

/* A handshake in two steps: its request takes the packets while it lasts, and then the connection. */
static void shake_hands(void) {
    uint64_t listener = open_listener(3), request, socket, again;
    struct inet_sight sight;
    must(inet_list_syn(&list, 3, listener, CLIENTS + 3, 1024, PROXY, port_of(3), &request), "syn");
    must(inet_list_look(&list, CLIENTS + 3, 1024, PROXY, port_of(3), 0, 0, &sight), "look");
    printf("a packet of a handshake: %s\n",
           sight.kind == INET_REQUEST && sight.socket == request ? "the request" : "another socket");
    must(inet_list_ack(&list, 3, request, &socket), "ack");
    must(inet_list_look(&list, CLIENTS + 3, 1024, PROXY, port_of(3), 0, 0, &sight), "look");
    printf("a packet after it: %s\n",
           sight.kind == INET_CONNECTED && sight.socket == socket ? "the connection" : "another socket");
    printf("the request: %s\n", inet_list_ack(&list, 3, request, &again) == EBADF ? "EBADF" : "another errno");
    must(inet_list_drop(&list, 3, socket), "drop");
    must(inet_list_drop(&list, 3, listener), "drop");
}

static void finish(uint32_t worker) {
    uint64_t count;
    must(inet_list_at(&list, worker, 60), "at");
    must(inet_list_reap(&list, worker, &count), "reap");
    printf("worker %u: %llu TIME_WAITs are over after a minute\n", worker, (unsigned long long)count);
}

/* What is left are the two listeners. */
static void list_left(void) {
    struct inet_item items[2];
    uint64_t count;
    must(inet_list_items(&list, items, 2, &count), "items");
    printf("%llu sockets are left\n", (unsigned long long)count);
    for (uint64_t i = 0; i < count && i < 2; i++)
        printf("worker %u: a %s at %u.%u.%u.%u:%u\n", items[i].worker,
               items[i].kind == INET_LISTENER ? "listener" : "connection", items[i].addr >> 24,
               items[i].addr >> 16 & 255, items[i].addr >> 8 & 255, items[i].addr & 255, items[i].port);
}

int main(void) {
    struct inet_sizes sizes = {.size = sizeof sizes, .slots = 4096, .bind = 16, .hash = 256, .listen = 32, .seed = 7,
                               .low = 32768, .high = 60999};
    must(inet_list_new(&list, &sizes), "new");
    printf("tables in the same handle again: %s\n",
           inet_list_new(&list, &sizes) == EBUSY ? "EBUSY" : "another errno");
    struct accepter accepters[2];
    struct looker lookers[2];
    pthread_t threads[4];
    for (uint32_t i = 0; i < 2; i++) {
        accepters[i] = (struct accepter){open_listener(i + 1), i + 1, 0, 0};
        lookers[i] = (struct looker){i + 1, 0};
    }
    for (uint32_t i = 0; i < 2; i++) {
        must(pthread_create(&threads[i], NULL, accept_all, &accepters[i]), "thread");
        must(pthread_create(&threads[i + 2], NULL, look_all, &lookers[i]), "thread");
    }
    for (uint32_t i = 0; i < 4; i++)
        must(pthread_join(threads[i], NULL), "join");
    for (uint32_t i = 0; i < 2; i++)
        printf("worker %u: %u connections closed, %u in TIME_WAIT; %u of %d packets found a socket of its own\n", i + 1,
               accepters[i].closed, accepters[i].waiting, lookers[i].found, CONNECTIONS);
    refusals();
    connect_out();
    shake_hands();
    finish(1);
    finish(2);
    list_left();
    inet_list_free(&list);
    struct inet_sight sight;
    printf("a lookup when the tables are gone: %s\n",
           inet_list_look(&list, 1, 1, 1, 1, 0, 0, &sight) == EBADF ? "EBADF" : "another errno");
    return 0;
}
