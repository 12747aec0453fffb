/* Linux's TCP socket tables for IPv4: one list of sockets, or tables that threads share. docs/CALLERS.md has a table
 * of the calls and their errnos.
 *
 * There are four handles: a list; shared tables, which hand out the other two; a worker of shared tables, whose sockets
 * stand there; a looker in them. Each holds nothing at first, and again once it was given up. Workers and lookers want
 * no lock: each is used by one thread at a time, beside all others.
 *
 * Proved of the library behind this header: each call answers, writes and leaves what the definitions in specs/ say,
 * for every handle and all numbers; it is safe, waits for no other thread, and returns. Taken on trust: that this
 * header says of each call what the library has, that malloc, realloc and free do their work, and that the caller
 * keeps these rules:
 *
 * - A handle is all zero before it is made, is changed by these calls alone, and isn't copied.
 * - A handle is at one call at a time, and so are both handles of a call that has two. Handles of the same shared
 *   tables may be at calls at the same time. Threads that share one handle put a lock of their own round each call.
 * - A handle goes from one thread to another by a lock, by a thread's start or join, or by an atomic that is stored
 *   and loaded as memory_order_seq_cst.
 * - No pointer is null, and no two arguments of a call point to the same bytes.
 * - No call is made from a signal handler, or in a forked child of a process with threads.
 *
 * Addresses and ports are numbers in the processor's own order: 10.0.0.1 is 0x0A000001. Each call but those that free
 * answers 0 or a number of <errno.h>; EBADF comes only where the handle holds nothing, or where a number is no open
 * socket. What a call writes says nothing where the answer isn't 0, but a found socket, the ports, the count of items
 * and the number of a worker are then 0.
 */
#ifndef INET_TABLES_H
#define INET_TABLES_H

#include <stdbool.h>
#include <stddef.h>
#include <stdint.h>

/* The version of this header and of the library behind it. */
#define INET_TABLES_VERSION "0.2.0"
#define INET_TABLES_VERSION_MAJOR 0
#define INET_TABLES_VERSION_MINOR 2
#define INET_TABLES_VERSION_PATCH 0

#ifdef __cplusplus
extern "C" {
#endif

/* The handles. Each call writes its handle; by the bytes behind it no two handles share a cache line, and neither does
 * what they hold. */
struct inet_list { void *at; unsigned char apart[120]; };
struct inet_tables { void *at; unsigned char apart[120]; };
struct inet_worker { void *at; unsigned char apart[120]; };
struct inet_looker { void *at; unsigned char apart[120]; };

struct inet_sizes {
    uint32_t size;   /* sizeof(struct inet_sizes) */
    uint32_t slots;  /* 1 to 2^24: hashed sockets at a time, and TIME_WAITs */
    uint32_t bind;   /* bind buckets, a power of two to 256 */
    uint32_t hash;   /* established buckets, a power of two to 2^24 */
    uint32_t listen; /* listening buckets, a power of two to 2^20 */
    uint32_t seed;   /* of searches and hashes */
    uint16_t low;    /* ports of searches: from low, at least 1, */
    uint16_t high;   /* to high, an even number of them */
    bool twreuse;    /* tcp_tw_reuse */
    bool has_offset; /* each search begins at offset, from low on round the range; else at one that is drawn */
    uint16_t offset;
    uint16_t reserved[64];  /* ip_local_reserved_ports: the first */
    uint8_t reserved_count; /* of these, 64 at most, are kept from searches */
};

/* The limits of a worker. All 0 but the size: each call tries once, and there is no other limit. */
struct inet_limits {
    uint32_t size;       /* sizeof(struct inet_limits) */
    uint64_t tries;      /* where another worker has what a call needs, it tries as often again, and then is EAGAIN */
    uint64_t most_waits; /* with so many TIME_WAITs of its own close leaves none, until some are reaped; 0: no limit */
    uint64_t full_for;   /* after ENFILE none of the worker's next calls, as many as this, looks for a slot */
};

enum { INET_REUSEADDR = 1, INET_REUSEPORT = 2, INET_BIND_ADDRESS_NO_PORT = 4 };

/* Kinds: the last three are no lookup's, but of a worker's own socket and of a batch. */
enum {
    INET_NONE = 0, INET_CONNECTED = 1, INET_TIME_WAIT = 2, INET_LISTENER = 3, INET_REQUEST = 4,
    INET_BOUND = 5, INET_UNBOUND = 6, INET_AGAIN = 7
};

struct inet_sight {
    uint32_t kind;   /* INET_NONE and so on */
    uint32_t worker; /* whose socket it is */
    uint64_t socket; /* its number, also after it was closed */
    uint32_t mark;   /* what its worker's call gave with it; 0 of a list's socket */
};

struct inet_item {
    uint32_t kind;      /* INET_CONNECTED and so on */
    uint32_t worker;    /* whose socket it is */
    uint64_t socket;    /* its number, also after it was closed */
    uint32_t addr;      /* its own end, with port */
    uint32_t peer_addr; /* the other's, with peer_port: all 0 of a listener */
    uint16_t port;
    uint16_t peer_port;
    uint16_t dev;       /* 0 where it names no device */
    uint8_t net;
};

/* A packet of a batch. */
struct inet_packet {
    uint32_t src;
    uint32_t dst;
    uint16_t sport;
    uint16_t dport;
    uint16_t dev;
    uint8_t net;
};

/* What is left to a worker, beside what is kept back for close, drop, at and reap and what its TIME_WAITs will take. A
 * call takes 65,540 entries and 7 stamps at most, and is EOVERFLOW where fewer are left, but for those four. */
struct inet_left {
    uint64_t sockets; /* that it may make */
    uint64_t entries; /* of bind buckets */
    uint64_t stamps;  /* numbers of the clock */
    uint64_t waits;   /* TIME_WAITs that it has, and hasn't reaped */
};

/* Make a list, or shared tables, in a handle that holds nothing. EINVAL comes exactly where the sizes are none of those
 * above, and else EBUSY exactly where the handle holds something; and else ENOMEM may. The tag is any number: by it
 * shared tables know what they handed out, so give tables that stand at one time different ones. */
int inet_list_new(struct inet_list *list, const struct inet_sizes *sizes);
int inet_tables_new(struct inet_tables *tables, const struct inet_sizes *sizes, uint64_t tag);

/* Hand out of shared tables, into a handle that holds nothing: a worker, 255 at a time at most, or a looker, 16000 at a
 * time. What was given back goes out again, the last of it first: such a worker has the number, the sockets, the
 * TIME_WAITs and the moment that it had. Else workers are numbered from 1 on as they are made. The limits are the
 * worker's until it is given back; of another size they are EINVAL. Else EBUSY comes exactly where the second handle
 * holds something, else EBADF where the first holds nothing, and else EUSERS exactly where all are out; and else ENOMEM
 * may. */
int inet_tables_worker(struct inet_tables *tables, const struct inet_limits *limits, struct inet_worker *worker,
                       uint32_t *number);
int inet_tables_looker(struct inet_tables *tables, struct inet_looker *looker);

/* Give a worker or a looker back to its shared tables, for the next who asks for one: its handle holds nothing then.
 * They take no memory. The sockets of a worker stand meanwhile: its next holder lists them by inet_worker_next_open.
 * EBADF where a handle holds nothing, and else EINVAL exactly where it isn't theirs: it has another tag than they, or
 * all that they made are there. */
int inet_worker_give_back(struct inet_worker *worker, struct inet_tables *tables);
int inet_looker_give_back(struct inet_looker *looker, struct inet_tables *tables);

/* Give up what the handle holds: it holds nothing then. Shared tables go with the last handle that has a part in them,
 * in whatever order. A worker or a looker that is given up so is lost to its tables, and the sockets of such a worker
 * stand until these go, and nobody can close them: give it back in its place. */
void inet_list_free(struct inet_list *list);
void inet_tables_free(struct inet_tables *tables);
void inet_worker_free(struct inet_worker *worker);
void inet_looker_free(struct inet_looker *looker);

/* A list's calls. Its workers are 1 to 64, each with its own sockets, moment and searches; another is EINVAL. A
 * namespace (net) is 0 to 15, and flags are the three above; others are EINVAL, and nothing is done. No number of a
 * socket is given twice by a list. ENOMEM: the sockets stand as they did. EOVERFLOW: the list has replied to 2^56 - 2
 * calls. */
int inet_list_socket(struct inet_list *list, uint32_t worker, uint8_t net, uint32_t uid, uint16_t dev, uint32_t flags,
                     uint64_t *socket);
int inet_list_bind(struct inet_list *list, uint32_t worker, uint64_t socket, uint32_t addr, uint16_t port, uint16_t
                   *bound);
int inet_list_listen(struct inet_list *list, uint32_t worker, uint64_t socket, uint16_t *bound);
int inet_list_connect(struct inet_list *list, uint32_t worker, uint64_t socket, uint32_t from, uint32_t to_addr,
                      uint16_t to_port, uint32_t *addr, uint16_t *port);
int inet_list_accept(struct inet_list *list, uint32_t worker, uint64_t listener, uint32_t from_addr, uint16_t from_port,
                     uint32_t at_addr, uint16_t at_port, uint64_t *socket);
/* A handshake with a listener begins, and ends: a request stands for the connection meanwhile, and then goes. */
int inet_list_syn(struct inet_list *list, uint32_t worker, uint64_t listener, uint32_t from_addr, uint16_t from_port,
                  uint32_t at_addr, uint16_t at_port, uint64_t *request);
int inet_list_ack(struct inet_list *list, uint32_t worker, uint64_t request, uint64_t *socket);
/* A connected socket leaves a TIME_WAIT, where a slot is free for it. Else it is gone, as by drop. */
int inet_list_close(struct inet_list *list, uint32_t worker, uint64_t socket, bool *waits);
int inet_list_drop(struct inet_list *list, uint32_t worker, uint64_t socket);
/* The worker's moment in seconds, and the end of its TIME_WAITs that have lasted 60. */
int inet_list_at(struct inet_list *list, uint32_t worker, uint32_t moment);
int inet_list_reap(struct inet_list *list, uint32_t worker, uint64_t *count);
/* Which socket takes a packet. Takes no memory, and changes nothing. A namespace above 15 is EINVAL. */
int inet_list_look(struct inet_list *list, uint32_t src, uint16_t sport, uint32_t dst, uint16_t dport, uint16_t dev,
                   uint8_t net, struct inet_sight *sight);
/* All sockets that packets can find, by worker, and those of one worker in the order in which they were made. The first
 * of them are written to items, as many as there is room for; the count is of all. Changes nothing. */
int inet_list_items(struct inet_list *list, struct inet_item *items, size_t room, uint64_t *count);

/* A worker's calls, which are a list's without the worker. No number of a socket is given twice by a worker.
 *
 * EAGAIN and ENOMEM: the worker's sockets stand as they did, and the call can be made again. But a call may have used
 * up the number that it gives, or the place where a search begins; and of a reap a first part is done.
 * ENOBUFS: one of the worker's last full_for calls was ENFILE, and this one, which would take a slot, did not look for
 * one (listen, connect, accept, syn, ack). Nothing else was tested, and nothing has changed.
 * A socket's mark is any number, such as the place of the caller's object for it, and lookups answer it: a request's,
 * and then that of the socket that ack makes of it; a TIME_WAIT has its socket's.
 * EOVERFLOW: a worker makes 2^56 - 2 sockets, and has 2^48 entries for bind buckets and 2^48 numbers of the clock, of
 * which a connection that is accepted, closed and reaped takes 3 and 8. The last 2^32 of both are kept for close, drop,
 * at and reap. */
int inet_worker_socket(struct inet_worker *worker, uint8_t net, uint32_t uid, uint16_t dev, uint32_t flags,
                       uint32_t mark, uint64_t *socket);
int inet_worker_bind(struct inet_worker *worker, uint64_t socket, uint32_t addr, uint16_t port, uint16_t *bound);
int inet_worker_listen(struct inet_worker *worker, uint64_t socket, uint16_t *bound);
int inet_worker_connect(struct inet_worker *worker, uint64_t socket, uint32_t from, uint32_t to_addr, uint16_t to_port,
                        uint32_t *addr, uint16_t *port);
int inet_worker_accept(struct inet_worker *worker, uint64_t listener, uint32_t from_addr, uint16_t from_port,
                       uint32_t at_addr, uint16_t at_port, uint32_t mark, uint64_t *socket);
int inet_worker_syn(struct inet_worker *worker, uint64_t listener, uint32_t from_addr, uint16_t from_port,
                    uint32_t at_addr, uint16_t at_port, uint32_t mark, uint64_t *request);
int inet_worker_ack(struct inet_worker *worker, uint64_t request, uint32_t mark, uint64_t *socket);
/* It leaves a TIME_WAIT only while the worker has fewer than most_waits: of those that it left, all that it has not
 * reaped. */
int inet_worker_close(struct inet_worker *worker, uint64_t socket, bool *waits);
int inet_worker_drop(struct inet_worker *worker, uint64_t socket);
int inet_worker_at(struct inet_worker *worker, uint32_t moment);
int inet_worker_reap(struct inet_worker *worker, uint64_t *count);
/* The same, of `most` TIME_WAITs at most; `more` says whether more of them have lasted 60 seconds. */
int inet_worker_reap_most(struct inet_worker *worker, uint64_t most, uint64_t *count, bool *more);
/* The lowest number above `after` that names an open socket of the worker, or 0 where none does, so from 0 on all of
 * them, one after the other. Takes no memory and no time for sockets that are gone. */
int inet_worker_next_open(struct inet_worker *worker, uint64_t after, uint64_t *socket);
/* What its open socket of that number is, with its ends: INET_BOUND has a port and isn't hashed, INET_UNBOUND has none.
 * EBADF: the number is no open socket. */
int inet_worker_ask(struct inet_worker *worker, uint64_t socket, struct inet_item *item);
int inet_worker_left(struct inet_worker *worker, struct inet_left *left);
/* The least moment at which one of its TIME_WAITs has lasted its minute, or UINT64_MAX where none does. */
int inet_worker_next_over(struct inet_worker *worker, uint64_t *moment);
/* The clock as its last call left it: each change that its calls made has ended below that number. */
int inet_worker_now(struct inet_worker *worker, uint64_t *clock);

/* Which socket of the looker's tables takes a packet, by the number of its worker, the one that the worker's call gave,
 * and the mark that it got there. Takes no memory, locks nothing and waits for nobody: what it finds stood hashed at some time between the call's
 * beginning and its end, and nothing that matches better did so all the time. EAGAIN: others changed a chain at each of
 * 16 passes through it, and the call can be made again; or the lookup began before the clock was at `after` (0: any),
 * which none does that begins once inet_worker_now has answered that number. So what that worker's calls had hashed by
 * then stood throughout, unless its unhash began meanwhile. A namespace above 15 is EINVAL.
 *
 * A caller's object that a mark leads to may be freed, or its place given to another, once its socket isn't hashed any
 * more, by close and the reap of its TIME_WAIT, or by drop, and then each looker's thread has come from no lookup, or
 * from one that began later, and has let go of all that earlier ones found: a quiescent point of each. */
int inet_looker_look(struct inet_looker *looker, uint32_t src, uint16_t sport, uint32_t dst, uint16_t dport,
                     uint16_t dev, uint8_t net, uint64_t after, struct inet_sight *sight);
/* A lookup for each packet, told at its place. INET_AGAIN: that lookup would be EAGAIN. EINVAL: there aren't as many
 * places as packets, and nothing was done. */
int inet_looker_look_all(struct inet_looker *looker, const struct inet_packet *packets, size_t count, uint64_t after,
                         struct inet_sight *sights, size_t room);

#ifdef __cplusplus
}
#endif

#endif
