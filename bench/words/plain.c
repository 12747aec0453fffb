/* The tables of the library once more, in plain C: the same words of chains and slots, in the same order, and the same
 * sequentially consistent steps, with buckets of owners in lists under a lock. It has no receipts, no groups, no
 * journals, no options and no devices, and numbers its sockets by their places. */
#include "driver.h"

static const char *table_name = "plain C";

#define OWN (1ull << 63)
#define LIVE (1ull << 62)
#define SLOTS 65536u
#define CONNECTION_CHAINS 65536u
#define LISTENER_CHAINS 4096u
#define BIND_BUCKETS 256u
#define PORTS 28232 /* from 32768 on: what searches try */

typedef _Atomic uint64_t word;
static word *words;
/* The clock, then two words for each chain, then six for each slot: state, link, two of the ends, name, extra. */
#define CLOCK_WORDS 1
#define SLOT_WORDS 6
#define CLOCK (words[0])
#define HEAD(b) (words[CLOCK_WORDS + 2 * (uint64_t)(b)])
#define LOCK(b) (words[CLOCK_WORDS + 1 + 2 * (uint64_t)(b)])
#define SLOT(i) (words + CLOCK_WORDS + 2 * (uint64_t)(CONNECTION_CHAINS + LISTENER_CHAINS) + SLOT_WORDS * (uint64_t)(i))

static inline uint32_t rotate(uint32_t x, int k)
{
    return x << k | x >> (32 - k);
}

#define SEED 0x21524105u

static inline uint32_t final_mix(uint32_t a, uint32_t b, uint32_t c)
{
    c ^= b;
    c -= rotate(b, 14);
    a ^= c;
    a -= rotate(c, 11);
    b ^= a;
    b -= rotate(a, 25);
    c ^= b;
    c -= rotate(b, 16);
    a ^= c;
    a -= rotate(c, 4);
    b ^= a;
    b -= rotate(a, 14);
    c ^= b;
    c -= rotate(b, 24);
    return c;
}

static inline uint32_t tuple_hash(uint32_t l, uint16_t lp, uint32_t r, uint16_t rp)
{
    uint32_t i = SEED + 0xdeadbeefu + 12;
    return final_mix(l + i, r + i, ((uint32_t)lp << 16 | rp) + i);
}

static inline uint32_t listen_hash(uint32_t a, uint16_t p)
{
    uint32_t i = SEED + 0xdeadbeefu + 4;
    return final_mix(a + i, i, i) ^ p;
}

struct owner {
    struct owner *next, **place;
    uint32_t name, addr, remote;
    uint16_t port, rport;
    uint8_t state, by_connect;
};

/* Owners of ports, in lists by a port's upper half. */
struct bind_bucket {
    word lock;
    struct owner *of_port[256];
    char pad[64];
};
static struct bind_bucket buckets[BIND_BUCKETS];

enum { UNBOUND, BOUND, LISTENING, FULL, WAITING };

struct sock {
    uint8_t state;
    uint16_t port, rport;
    uint32_t addr, remote, slot, bucket;
    struct owner *owner;
};

struct wait {
    uint32_t stamp, bucket, slot, name;
    struct owner *owner;
    uint16_t port;
};

/* A worker: its sockets by their numbers, its TIME_WAITs, the slot that it claimed last. */
struct worker {
    struct sock *socks;
    uint32_t count, room;
    uint32_t last;
    uint32_t moment;
    uint64_t drawn;
    struct wait *waits;
    uint32_t wait_count, wait_room;
    int id;
    struct owner *free_owners;
    char pad[128];
};

/* Takes a lock, and gives way where it lasts. */
static void take(word *l)
{
    uint64_t z = 0;
    int n = 0;
    while (!atomic_compare_exchange_strong(l, &z, 1)) {
        z = 0;
        if (++n > 1000) {
            n = 0;
            sched_yield();
        }
    }
}

static void give(word *l)
{
    atomic_store(l, 0);
}

static void table_init(int t)
{
    (void)t;
    uint64_t n = CLOCK_WORDS + 2 * (uint64_t)(CONNECTION_CHAINS + LISTENER_CHAINS) + SLOT_WORDS * (uint64_t)SLOTS;
    words = aligned_alloc(64, (8 * n + 63) / 64 * 64);
    memset((void *)words, 0, 8 * n);
    for (uint32_t b = 0; b < CONNECTION_CHAINS + LISTENER_CHAINS; b++)
        atomic_store(&HEAD(b), 2 * (uint64_t)b + 1);
}

static struct worker *table_worker(int i)
{
    struct worker *w = aligned_alloc(128, (sizeof(struct worker) + 127) / 128 * 128);
    memset(w, 0, sizeof *w);
    w->id = i;
    w->room = 1 << 16;
    w->socks = malloc(w->room * sizeof *w->socks);
    w->wait_room = 1 << 12;
    w->waits = malloc(w->wait_room * sizeof *w->waits);
    w->drawn = i * 77 + 5;
    w->last = SLOTS - 1;
    return w;
}

static struct worker *table_looker(int i)
{
    return table_worker(i);
}

static int table_socket(struct worker *w, uint32_t f, uint64_t *s)
{
    (void)f;
    if (w->count == w->room) {
        w->room *= 2;
        w->socks = realloc(w->socks, w->room * sizeof *w->socks);
    }
    w->socks[w->count] = (struct sock){0};
    *s = w->count++;
    return 0;
}

/* An owner, of those given back first. */
static struct owner *new_owner(struct worker *w)
{
    struct owner *o = w->free_owners;
    if (o)
        w->free_owners = o->next;
    else {
        o = malloc(sizeof *o);
    }
    return o;
}

static void add_owner(struct bind_bucket *b, struct owner *o)
{
    struct owner **h = &b->of_port[o->port >> 8];
    o->next = *h;
    o->place = h;
    if (*h)
        (*h)->place = &o->next;
    *h = o;
}

static void remove_owner(struct worker *w, struct owner *o)
{
    *o->place = o->next;
    if (o->next)
        o->next->place = o->place;
    o->next = w->free_owners;
    w->free_owners = o;
}

/* Where a search begins. */
static uint16_t draw_port(struct worker *w)
{
    w->drawn = w->drawn * 6364136223846793005ull + 1;
    return (uint16_t)((w->drawn >> 33) % PORTS);
}

/* One port, in its bucket's turn; EADDRINUSE where an owner is in the way. */
static int bind_at(struct worker *w, struct sock *s, uint32_t a, uint16_t p)
{
    struct bind_bucket *b = &buckets[p & (BIND_BUCKETS - 1)];
    take(&b->lock);
    for (struct owner *o = b->of_port[p >> 8]; o; o = o->next)
        if (o->port == p && (o->addr == a || !o->addr || !a)) {
            give(&b->lock);
            return 98;
        }
    struct owner *o = new_owner(w);
    *o = (struct owner){.addr = a, .port = p, .state = BOUND};
    add_owner(b, o);
    s->owner = o;
    s->addr = a;
    s->port = p;
    s->state = BOUND;
    give(&b->lock);
    return 0;
}

static int table_bind(struct worker *w, uint64_t i, uint32_t a, uint16_t p)
{
    struct sock *s = &w->socks[i];
    if (p)
        return bind_at(w, s, a, p);
    uint16_t o = draw_port(w) | 1;
    for (int h = 0; h < 2; h++, o--)
        for (int k = 0; k < PORTS / 2; k++) {
            uint16_t q = 32768 + (o + 2 * k) % PORTS;
            if (!bind_at(w, s, a, q))
                return 0;
        }
    return 98;
}

/* A free slot, from the one after the last on. */
static uint32_t claim(struct worker *w)
{
    for (uint32_t n = 0; n < SLOTS; n++) {
        w->last = (w->last + 1) % SLOTS;
        word *s = &SLOT(w->last)[0];
        uint64_t z = 0;
        if (!atomic_load(s) && atomic_compare_exchange_strong(s, &z, OWN))
            return w->last;
    }
    return ~0u;
}

static void put_card(word *s, uint64_t a, uint64_t p, uint64_t n, uint64_t x)
{
    atomic_store(&s[2], a);
    atomic_store(&s[3], p);
    atomic_store(&s[4], n);
    atomic_store(&s[5], x);
}

/* The slot is the first of its chain, and found from now on. */
static void link_in(uint32_t b, uint32_t i)
{
    word *s = SLOT(i);
    atomic_store(&s[1], atomic_load(&HEAD(b)));
    atomic_store(&HEAD(b), 2 * (uint64_t)i);
    atomic_fetch_or(&s[0], LIVE);
    atomic_fetch_add(&CLOCK, 1);
}

/* The slot leaves its chain. */
static void unhash(uint32_t b, uint32_t i)
{
    word *prev = &HEAD(b);
    uint64_t l;
    while ((l = atomic_load(prev)) != 2 * (uint64_t)i)
        prev = &SLOT(l / 2)[1];
    word *s = SLOT(i);
    atomic_fetch_add(&CLOCK, 1);
    atomic_fetch_and(&s[0], ~LIVE);
    atomic_store(prev, atomic_load(&s[1]));
    atomic_fetch_and(&s[0], ~OWN);
    atomic_fetch_add(&CLOCK, 1);
}

/* A connection comes into its chain: EADDRNOTAVAIL (99) where its four-tuple is there, ENFILE (23) without a slot. */
static int insert(struct worker *w, struct sock *s, uint32_t la, uint16_t lp, uint32_t ra, uint16_t rp, uint32_t name)
{
    uint32_t b = tuple_hash(la, lp, ra, rp) & (CONNECTION_CHAINS - 1);
    uint64_t k0 = (uint64_t)la << 32 | ra, k1 = (uint64_t)lp << 48 | (uint64_t)rp << 32 | 1;
    take(&LOCK(b));
    for (uint64_t l = atomic_load(&HEAD(b)); !(l & 1); l = atomic_load(&SLOT(l / 2)[1])) {
        word *t = SLOT(l / 2);
        if (atomic_load(&t[2]) == k0 && atomic_load(&t[3]) >> 32 == k1 >> 32) {
            give(&LOCK(b));
            return 99;
        }
    }
    atomic_fetch_add(&CLOCK, 1);
    uint32_t i = claim(w);
    if (i == ~0u) {
        give(&LOCK(b));
        return 23;
    }
    put_card(SLOT(i), k0, k1, name, 0);
    link_in(b, i);
    give(&LOCK(b));
    s->slot = i;
    s->bucket = b;
    return 0;
}

static int table_listen(struct worker *w, uint64_t i)
{
    struct sock *s = &w->socks[i];
    struct bind_bucket *bucket = &buckets[s->port & (BIND_BUCKETS - 1)];
    take(&bucket->lock);
    uint32_t b = CONNECTION_CHAINS + (listen_hash(s->addr, s->port) & (LISTENER_CHAINS - 1));
    take(&LOCK(b));
    atomic_fetch_add(&CLOCK, 1);
    uint32_t sl = claim(w);
    put_card(SLOT(sl), (uint64_t)s->addr << 32, (uint64_t)s->port << 48 | 3, (uint64_t)(w->id + 1) << 24 | i, 0);
    link_in(b, sl);
    give(&LOCK(b));
    s->slot = sl;
    s->bucket = b;
    s->state = LISTENING;
    s->owner->state = LISTENING;
    give(&bucket->lock);
    return 0;
}

static int table_accept(struct worker *w, uint64_t l, uint32_t fa, uint16_t fp, uint32_t aa, uint16_t ap, uint64_t *out)
{
    uint64_t i;
    table_socket(w, 0, &i);
    *out = i;
    struct sock *s = &w->socks[i];
    if (w->socks[l].state != LISTENING || w->socks[l].port != ap)
        return 22;
    struct bind_bucket *bucket = &buckets[ap & (BIND_BUCKETS - 1)];
    take(&bucket->lock);
    int r = insert(w, s, aa, ap, fa, fp, (uint32_t)(w->id + 1) << 24 | i);
    if (r) {
        give(&bucket->lock);
        return r;
    }
    struct owner *o = new_owner(w);
    *o = (struct owner){.name = i, .addr = aa, .port = ap, .remote = fa, .rport = fp, .state = FULL};
    add_owner(bucket, o);
    s->owner = o;
    s->state = FULL;
    s->addr = aa;
    s->port = ap;
    s->remote = fa;
    s->rport = fp;
    give(&bucket->lock);
    return 0;
}

static int table_connect(struct worker *w, uint64_t i, uint32_t f, uint32_t to, uint16_t tp)
{
    struct sock *s = &w->socks[i];
    uint16_t o0 = draw_port(w) & ~1;
    for (int h = 0; h < 2; h++, o0++)
        for (int k = 0; k < PORTS / 2; k++) {
            uint16_t q = 32768 + (o0 + 2 * k) % PORTS;
            struct bind_bucket *bucket = &buckets[q & (BIND_BUCKETS - 1)];
            take(&bucket->lock);
            int ok = 1;
            for (struct owner *o = bucket->of_port[q >> 8]; o; o = o->next)
                if (o->port == q && !o->by_connect) {
                    ok = 0;
                    break;
                }
            if (ok) {
                int r = insert(w, s, f, q, to, tp, (uint32_t)(w->id + 1) << 24 | i);
                if (!r) {
                    struct owner *o = new_owner(w);
                    *o = (struct owner){
                        .name = i, .addr = f, .port = q, .remote = to, .rport = tp, .state = FULL, .by_connect = 1};
                    add_owner(bucket, o);
                    s->owner = o;
                    s->state = FULL;
                    s->addr = f;
                    s->port = q;
                    s->remote = to;
                    s->rport = tp;
                    give(&bucket->lock);
                    return 0;
                }
                if (r == 23) {
                    give(&bucket->lock);
                    return r;
                }
            }
            give(&bucket->lock);
        }
    return 99;
}

static int table_drop(struct worker *w, uint64_t i)
{
    struct sock *s = &w->socks[i];
    if (s->owner) {
        struct bind_bucket *bucket = &buckets[s->port & (BIND_BUCKETS - 1)];
        take(&bucket->lock);
        if (s->state >= LISTENING) {
            take(&LOCK(s->bucket));
            unhash(s->bucket, s->slot);
            give(&LOCK(s->bucket));
        }
        remove_owner(w, s->owner);
        give(&bucket->lock);
    }
    s->state = UNBOUND;
    s->owner = 0;
    return 0;
}

static int table_close(struct worker *w, uint64_t i)
{
    struct sock *s = &w->socks[i];
    if (s->state != FULL)
        return table_drop(w, i);
    if (w->wait_count == w->wait_room) {
        w->wait_room *= 2;
        w->waits = realloc(w->waits, w->wait_room * sizeof *w->waits);
    }
    struct bind_bucket *bucket = &buckets[s->port & (BIND_BUCKETS - 1)];
    take(&bucket->lock);
    uint32_t b = s->bucket;
    take(&LOCK(b));
    for (uint64_t l = atomic_load(&HEAD(b)); !(l & 1); l = atomic_load(&SLOT(l / 2)[1]))
        ;
    atomic_fetch_add(&CLOCK, 1);
    uint32_t t = claim(w);
    word *o = SLOT(s->slot);
    put_card(SLOT(t), atomic_load(&o[2]), (atomic_load(&o[3]) & ~15ull) | 2, atomic_load(&o[4]), w->moment);
    link_in(b, t);
    unhash(b, s->slot);
    give(&LOCK(b));
    s->owner->state = WAITING;
    w->waits[w->wait_count++] = (struct wait){w->moment, b, t, i, s->owner, s->port};
    give(&bucket->lock);
    s->state = UNBOUND;
    s->owner = 0;
    return 0;
}

static int table_at(struct worker *w, uint32_t m)
{
    w->moment = m;
    return 0;
}

static int table_reap(struct worker *w, uint64_t *n)
{
    uint64_t c = 0;
    for (uint32_t k = 0; k < w->wait_count; k++) {
        struct wait *x = &w->waits[k];
        struct bind_bucket *bucket = &buckets[x->port & (BIND_BUCKETS - 1)];
        take(&bucket->lock);
        take(&LOCK(x->bucket));
        unhash(x->bucket, x->slot);
        give(&LOCK(x->bucket));
        remove_owner(w, x->owner);
        give(&bucket->lock);
        c++;
    }
    w->wait_count = 0;
    *n = c;
    return 0;
}

static inline int rank(uint64_t a, uint64_t p, uint32_t dst, uint16_t dp)
{
    int k = p & 15;
    if (k != 3 || (p >> 48) != dp)
        return 0;
    uint32_t l = a >> 32;
    return l == dst ? 3 : l == 0 ? 1 : 0;
}

static int table_look(struct worker *w, uint32_t src, uint16_t sp, uint32_t dst, uint16_t dp, uint32_t *kind)
{
    (void)w;
    uint64_t k0 = (uint64_t)dst << 32 | src, k1 = (uint64_t)dp << 48 | (uint64_t)sp << 32;
    uint64_t t0 = atomic_load(&CLOCK), t1;
    uint32_t b = tuple_hash(dst, dp, src, sp) & (CONNECTION_CHAINS - 1);
again:
    for (uint64_t l = atomic_load(&HEAD(b));;) {
        if (l & 1) {
            if (l != 2 * (uint64_t)b + 1)
                goto again;
            break;
        }
        word *s = SLOT(l / 2);
        if (atomic_load(&s[2]) == k0 && atomic_load(&s[3]) >> 32 == k1 >> 32) {
            uint64_t was = atomic_fetch_add(&s[0], 1);
            if (!(was & LIVE)) {
                atomic_fetch_sub(&s[0], 1);
                goto again;
            }
            uint64_t a = atomic_load(&s[2]), p = atomic_load(&s[3]), n = atomic_load(&s[4]), x = atomic_load(&s[5]);
            (void)n;
            (void)x;
            if (a != k0 || p >> 32 != k1 >> 32) {
                atomic_fetch_sub(&s[0], 1);
                goto again;
            }
            t1 = atomic_load(&CLOCK);
            atomic_fetch_sub(&s[0], 1);
            t1 = atomic_load(&CLOCK);
            *kind = p & 15;
            return t1 < t0;
        }
        l = atomic_load(&s[1]);
    }
    t1 = atomic_load(&CLOCK);
    for (int h = 0; h < 2; h++) {
        uint32_t ad = h ? 0 : dst;
        t0 = atomic_load(&CLOCK);
        uint32_t c = CONNECTION_CHAINS + (listen_hash(ad, dp) & (LISTENER_CHAINS - 1));
        int best = 0, least = h ? 1 : 3;
        uint32_t bs = 0;
    ag2:
        best = 0;
        for (uint64_t l = atomic_load(&HEAD(c));;) {
            if (l & 1) {
                if (l != 2 * (uint64_t)c + 1) {
                    if (best)
                        atomic_fetch_sub(&SLOT(bs)[0], 1);
                    goto ag2;
                }
                break;
            }
            word *s = SLOT(l / 2);
            int r = rank(atomic_load(&s[2]), atomic_load(&s[3]), dst, dp);
            if (r >= least && r > best) {
                uint64_t was = atomic_fetch_add(&s[0], 1);
                if (!(was & LIVE)) {
                    atomic_fetch_sub(&s[0], 1);
                    if (best)
                        atomic_fetch_sub(&SLOT(bs)[0], 1);
                    goto ag2;
                }
                uint64_t a = atomic_load(&s[2]), p = atomic_load(&s[3]);
                (void)atomic_load(&s[4]);
                (void)atomic_load(&s[5]);
                if (rank(a, p, dst, dp) != r) {
                    atomic_fetch_sub(&s[0], 1);
                    goto ag2;
                }
                if (best)
                    atomic_fetch_sub(&SLOT(bs)[0], 1);
                best = r;
                bs = l / 2;
            }
            l = atomic_load(&s[1]);
        }
        t1 = atomic_load(&CLOCK);
        if (best) {
            atomic_fetch_sub(&SLOT(bs)[0], 1);
            t1 = atomic_load(&CLOCK);
            *kind = 3;
            return t1 < t0;
        }
    }
    *kind = 0;
    return 0;
}
