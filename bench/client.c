// Asks 127.0.0.1 for the targets of standard input, one a line, over several lanes at once, each request by a connection of its own.
//
// usage: client PORT LANES < TARGETS            asks once for each target, which has to be answered 200, and prints the seconds, the bytes
//                                               and its own seconds of processor time
//        client PORT LANES SECONDS < TARGETS    asks for them on and on until the seconds are over, and prints a line for each request:
//                                               when it began, when its answer was whole, both by the monotonic clock, and the status;
//                                               SIGTERM ends it sooner
//
// A lane is a thread. A request that begins before the end is waited for.
#include <arpa/inet.h>
#include <err.h>
#include <netinet/in.h>
#include <pthread.h>
#include <signal.h>
#include <stdatomic.h>
#include <stdio.h>
#include <stdlib.h>
#include <string.h>
#include <sys/resource.h>
#include <sys/socket.h>
#include <time.h>
#include <unistd.h>

enum { PART = 1 << 20 };

struct outcome {
    double begun, ended;
    int status;
};

struct lane {
    pthread_t thread;
    char *part;
    long bytes;
    struct outcome *outcomes;
    size_t count, room;
};

static char **targets;
static size_t target_count;
static atomic_size_t next_target;
static struct sockaddr_in there;
// when to stop; 0 where each target is asked for once
static double stop;
static volatile sig_atomic_t is_over;

static double now(void) {
    struct timespec told;
    clock_gettime(CLOCK_MONOTONIC, &told);
    return told.tv_sec + told.tv_nsec / 1e9;
}

static void end(int signal) {
    (void)signal;
    is_over = 1;
}

static void read_targets(void) {
    char *line = NULL;
    size_t length = 0, room = 0;
    while (getline(&line, &length, stdin) > 0) {
        line[strcspn(line, "\n")] = 0;
        if (target_count == room && !(targets = realloc(targets, (room = 2 * room + 64) * sizeof *targets))) err(1, "realloc");
        if (!(targets[target_count++] = strdup(line))) err(1, "strdup");
    }
    free(line);
}

// Asks for a target, and returns the status.
static int fetch(struct lane *lane, const char *target) {
    char request[1024];
    int status = 0, length = snprintf(request, sizeof request, "GET %s HTTP/1.1\r\nHost: a\r\nConnection: close\r\n\r\n", target);
    int conn = socket(AF_INET, SOCK_STREAM | SOCK_CLOEXEC, 0);
    if (conn < 0 || connect(conn, (const struct sockaddr *)&there, sizeof there) != 0) err(1, "connect");
    if (write(conn, request, length) != length) err(1, "write");
    ssize_t got;
    while ((got = read(conn, lane->part, PART)) > 0) {
        if (!status && got >= 12) status = atoi(lane->part + 9);
        lane->bytes += got;
    }
    if (got < 0) err(1, "read");
    close(conn);
    return status;
}

static void keep(struct lane *lane, struct outcome it) {
    if (lane->count == lane->room && !(lane->outcomes = realloc(lane->outcomes, (lane->room = 2 * lane->room + 1024) * sizeof it))) err(1, "realloc");
    lane->outcomes[lane->count++] = it;
}

static void *ask(void *of) {
    struct lane *lane = of;
    for (;;) {
        size_t at = atomic_fetch_add(&next_target, 1);
        double begun = now();
        if (stop ? is_over || begun >= stop : at >= target_count) return NULL;
        int status = fetch(lane, targets[at % target_count]);
        if (stop) keep(lane, (struct outcome){begun, now(), status});
        else if (status != 200) {
            fprintf(stderr, "%s is answered %d\n", targets[at], status);
            exit(1);
        }
    }
}

int main(int count, char **words) {
    if (count < 3 || count > 4) return 2;
    there = (struct sockaddr_in){.sin_family = AF_INET, .sin_port = htons(atoi(words[1])), .sin_addr.s_addr = htonl(INADDR_LOOPBACK)};
    size_t lane_count = atoi(words[2]);
    struct lane *lanes = calloc(lane_count, sizeof *lanes);
    read_targets();
    for (size_t at = 0; at < lane_count; at++)
        if (!(lanes[at].part = malloc(PART))) err(1, "malloc");
    double begun = now();
    stop = count == 4 ? begun + atof(words[3]) : 0;
    if (stop) signal(SIGTERM, end);
    for (size_t at = 0; at < lane_count; at++)
        if (pthread_create(&lanes[at].thread, NULL, ask, &lanes[at])) err(1, "pthread_create");
    long bytes = 0;
    for (size_t at = 0; at < lane_count; at++) {
        pthread_join(lanes[at].thread, NULL);
        bytes += lanes[at].bytes;
        for (size_t n = 0; n < lanes[at].count; n++)
            printf("%.6f %.6f %d\n", lanes[at].outcomes[n].begun, lanes[at].outcomes[n].ended, lanes[at].outcomes[n].status);
    }
    struct rusage used;
    getrusage(RUSAGE_SELF, &used);
    double own = used.ru_utime.tv_sec + used.ru_stime.tv_sec + (used.ru_utime.tv_usec + used.ru_stime.tv_usec) / 1e6;
    if (!stop) printf("%f %ld %f\n", now() - begun, bytes, own);
}
