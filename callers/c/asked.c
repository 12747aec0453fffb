/* What a worker tells of itself: the state and ends of its sockets, what is left to it, when its next TIME_WAIT ends,
 * and its clock, from which on a batch of lookups meets what its calls had hashed. */
#include <errno.h>
#include <inttypes.h>
#include <stdio.h>
#include <stdlib.h>

#include <inet_tables.h>

enum { PROXY = 0x0A000001, CLIENT = 0x0A000002, PACKETS = 3 };

static const char *const KINDS[] = {"nobody", "connected", "in TIME_WAIT", "listening", "a request", "bound",
                                    "without a port", "to be asked again"};

static void must(int error, const char *what) {
    if (error != 0) {
        fprintf(stderr, "%s: errno %d\n", what, error);
        exit(1);
    }
}

static void tell(struct inet_worker *worker, uint64_t socket) {
    struct inet_item item;
    int error = inet_worker_ask(worker, socket, &item);
    if (error == EBADF)
        printf("socket %" PRIu64 ": not open\n", socket);
    else
        printf("socket %" PRIu64 ": %s, port %u, peer %u\n", socket, KINDS[item.kind], item.port, item.peer_port);
}

/* Packets of a connection, of a client that is unknown, and to a port at which nobody listens. */
static void look(struct inet_looker *looker, uint64_t after, const char *when) {
    const struct inet_packet packets[PACKETS] = {
        {CLIENT, PROXY, 4000, 80, 0, 0}, {CLIENT, PROXY, 4001, 80, 0, 0}, {CLIENT, PROXY, 4000, 81, 0, 0}};
    struct inet_sight sights[PACKETS];
    must(inet_looker_look_all(looker, packets, PACKETS, after, sights, PACKETS), "look");
    printf("packets, %s:", when);
    for (int i = 0; i < PACKETS; i++)
        printf(" %s%s", KINDS[sights[i].kind], i + 1 < PACKETS ? "," : "\n");
}

/* The connection's packet alone. */
static void look_once(struct inet_looker *looker, uint64_t after, const char *when) {
    struct inet_sight sight;
    int error = inet_looker_look(looker, CLIENT, 4000, PROXY, 80, 0, 0, after, &sight);
    printf("one packet, %s: %s\n", when, KINDS[error == EAGAIN ? INET_AGAIN : (int)sight.kind]);
}

static void tell_left(struct inet_worker *worker) {
    struct inet_left left;
    uint64_t moment;
    must(inet_worker_left(worker, &left), "left");
    must(inet_worker_next_over(worker, &moment), "next over");
    printf("sockets left: 2^56 - %" PRIu64 "; TIME_WAITs: %" PRIu64 ", the next ends at %s%" PRIu64 "\n",
           ((uint64_t)1 << 56) - left.sockets, left.waits, moment == UINT64_MAX ? "no moment, " : "",
           moment == UINT64_MAX ? 0 : moment);
}

int main(void) {
    struct inet_tables tables = {0};
    struct inet_worker worker = {0};
    struct inet_looker looker = {0};
    struct inet_sizes sizes = {.size = sizeof sizes, .slots = 4096, .bind = 16, .hash = 256, .listen = 32, .seed = 0,
                               .low = 32768, .high = 60999};
    struct inet_limits limits = {sizeof limits, 0, 0, 0};
    uint64_t listener, socket, clock, count;
    uint32_t number;
    uint16_t port;
    bool waits, more;
    must(inet_tables_new(&tables, &sizes, 1), "new");
    must(inet_tables_worker(&tables, &limits, &worker, &number), "worker");
    must(inet_tables_looker(&tables, &looker), "looker");
    must(inet_worker_socket(&worker, 0, 0, 0, 0, 0, &listener), "socket");
    tell(&worker, listener);
    must(inet_worker_bind(&worker, listener, PROXY, 80, &port), "bind");
    tell(&worker, listener);
    must(inet_worker_listen(&worker, listener, &port), "listen");
    must(inet_worker_accept(&worker, listener, CLIENT, 4000, PROXY, 80, 0, &socket), "accept");
    tell(&worker, listener);
    tell(&worker, socket);
    must(inet_worker_now(&worker, &clock), "now");
    look(&looker, clock, "from the worker's clock on");
    look(&looker, clock + 1, "from a later clock on");
    look_once(&looker, clock, "from the worker's clock on");
    look_once(&looker, clock + 1, "from a later clock on");
    must(inet_worker_close(&worker, socket, &waits), "close");
    tell(&worker, socket);
    tell_left(&worker);
    must(inet_worker_accept(&worker, listener, CLIENT, 4001, PROXY, 80, 0, &socket), "accept");
    must(inet_worker_close(&worker, socket, &waits), "close");
    must(inet_worker_at(&worker, 60), "at");
    must(inet_worker_reap_most(&worker, 1, &count, &more), "reap");
    printf("over of one at most: %" PRIu64 ", %s\n", count, more ? "and there are more" : "and there are no more");
    must(inet_worker_reap_most(&worker, 1, &count, &more), "reap");
    printf("over of one at most: %" PRIu64 ", %s\n", count, more ? "and there are more" : "and there are no more");
    tell_left(&worker);
    inet_looker_free(&looker);
    inet_worker_free(&worker);
    inet_tables_free(&tables);
    return 0;
}
