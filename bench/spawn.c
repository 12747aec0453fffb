/* spawn LIMIT STDIN STDOUT PROGRAM ARG..: runs the program and prints
 * "WALL CPU PEAK_KIB STATUS"; STATUS is -1 where LIMIT seconds went by.
 * A small program of its own, since a child's peak memory counts from its
 * parent's size at the fork. */
#include <fcntl.h>
#include <signal.h>
#include <stdio.h>
#include <stdlib.h>
#include <sys/resource.h>
#include <sys/wait.h>
#include <time.h>
#include <unistd.h>

static pid_t child;
static volatile sig_atomic_t late;

static void on_alarm(int s)
{
    (void)s;
    late = 1;
    kill(child, SIGKILL);
}

int main(int argc, char **argv)
{
    struct timespec a, b;
    struct rusage u;
    int status;
    if (argc < 5)
        return 2;
    signal(SIGALRM, on_alarm);
    clock_gettime(CLOCK_MONOTONIC, &a);
    child = fork();
    if (child == 0) {
        int in = open(argv[2], O_RDONLY), out = open(argv[3], O_WRONLY | O_CREAT | O_TRUNC, 0644);
        if (in < 0 || out < 0 || dup2(in, 0) < 0 || dup2(out, 1) < 0)
            _exit(126);
        execv(argv[4], argv + 4);
        _exit(127);
    }
    alarm(atoi(argv[1]));
    while (wait4(child, &status, 0, &u) < 0)
        ;
    clock_gettime(CLOCK_MONOTONIC, &b);
    printf("%.6f %.6f %ld %d\n", b.tv_sec - a.tv_sec + (b.tv_nsec - a.tv_nsec) / 1e9,
           u.ru_utime.tv_sec + u.ru_stime.tv_sec + (u.ru_utime.tv_usec + u.ru_stime.tv_usec) / 1e6, u.ru_maxrss,
           late                ? -1
           : WIFEXITED(status) ? WEXITSTATUS(status)
                               : 128 + WTERMSIG(status));
    return 0;
}
