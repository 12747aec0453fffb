/* What the measuring programs beside this file share: the clock, the process's memory, and a listener. */
#ifndef MEASURE_H
#define MEASURE_H

#include <errno.h>
#include <stdio.h>
#include <stdlib.h>
#include <string.h>
#include <time.h>

#include <inet_tables.h>

enum { CLIENT_PORTS = 60000 };

static const uint32_t PROXY = 0x0A000001, CLIENTS = 0xC0000200;

/* A call tries so often again for what another worker has. */
static const struct inet_limits LIMITS = {sizeof(struct inet_limits), 1000, 0, 0};

static void must(int error, const char *what) {
    if (error != 0) {
        fprintf(stderr, "%s: errno %d\n", what, error);
        exit(1);
    }
}

static inline uint64_t nanoseconds(void) {
    struct timespec now;
    clock_gettime(CLOCK_MONOTONIC, &now);
    return (uint64_t)now.tv_sec * 1000000000 + (uint64_t)now.tv_nsec;
}

/* The memory that the process has in use, in KiB, as Linux counts it (VmRSS); 0 elsewhere. */
static inline uint64_t memory(void) {
    char line[256];
    unsigned long long kib = 0;
    FILE *status = fopen("/proc/self/status", "r");
    if (status == NULL)
        return 0;
    while (fgets(line, sizeof line, status) != NULL)
        if (sscanf(line, "VmRSS: %llu", &kib) == 1)
            break;
    fclose(status);
    return kib;
}

/* A listener of the worker's at any address. */
static inline uint64_t open_listener(struct inet_worker *worker, uint16_t port) {
    uint64_t listener;
    uint16_t bound;
    must(inet_worker_socket(worker, 0, 0, 0, INET_REUSEADDR, 0, &listener), "socket");
    must(inet_worker_bind(worker, listener, 0, port, &bound), "bind");
    must(inet_worker_listen(worker, listener, &bound), "listen");
    return listener;
}

#endif
