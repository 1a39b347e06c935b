// Asks what a plan says, over many connections at once, and writes how each request was answered and how long it took. bench/company.py
// writes the plan and reads the outcome.
//
// usage: company PLAN LANES > OUTCOME
//
// A plan is a row of lists. `L DUE PORT` begins one: microseconds from the start, and the port of 127.0.0.1 to ask. `R LENGTH` and so many
// bytes are a request of it. The requests of a list are asked one after another on one connection, which is made anew where the answer closes
// it. A list begins when it is due and a lane is free. The first request of a list is timed from when the list was due, each other one from the
// end of the answer before it. The outcome is a struct outcome for each request, in the order of the plan, and on standard error the seconds.

#include <arpa/inet.h>
#include <err.h>
#include <errno.h>
#include <fcntl.h>
#include <netinet/tcp.h>
#include <stdint.h>
#include <stdio.h>
#include <stdlib.h>
#include <string.h>
#include <strings.h>
#include <sys/epoll.h>
#include <sys/socket.h>
#include <sys/stat.h>
#include <time.h>
#include <unistd.h>

enum { HEAD = 8192, PART = 65536 };

struct outcome {
    uint32_t status, micros;   // status 0: no whole answer
    uint64_t length, sum;      // of the body
};

struct request {
    const char *bytes;
    size_t length;
};

struct list {
    uint64_t due;
    int port;
    size_t first, count;       // its requests
};

struct lane {
    int fd, is_open, is_busy;
    size_t list, at;           // the list, and which of its requests
    size_t sent, head_length, body_left;
    uint64_t begun, low, high;
    uint32_t status, closes;
    char head[HEAD + 1];
};

static struct request *requests;
static struct list *lists;
static struct outcome *outcomes;
static size_t list_count, request_count, next_list, answered;
static uint64_t start;
static int poller;

static uint64_t micros(void) {
    struct timespec now;
    clock_gettime(CLOCK_MONOTONIC, &now);
    return now.tv_sec * 1000000ull + now.tv_nsec / 1000;
}

static char *whole_file(const char *name, size_t *length) {
    int fd = open(name, O_RDONLY);
    struct stat told;
    if (fd < 0 || fstat(fd, &told) < 0) err(1, "%s", name);
    char *bytes = malloc(told.st_size + 1);
    size_t held = 0;
    while (held < (size_t)told.st_size) {
        ssize_t got = read(fd, bytes + held, told.st_size - held);
        if (got <= 0) err(1, "%s", name);
        held += got;
    }
    bytes[held] = 0;
    *length = held;
    return bytes;
}

static void read_plan(const char *name) {
    size_t length;
    char *at = whole_file(name, &length), *end = at + length;
    size_t room = 1024, list_room = 1024;
    requests = malloc(room * sizeof *requests);
    lists = malloc(list_room * sizeof *lists);
    while (at < end) {
        char kind = *at++;
        uint64_t number = strtoull(at, &at, 10);
        if (kind == 'L') {
            if (list_count == list_room) lists = realloc(lists, (list_room *= 2) * sizeof *lists);
            lists[list_count++] = (struct list){number, strtol(at, &at, 10), request_count, 0};
            at++;
        } else {
            if (request_count == room) requests = realloc(requests, (room *= 2) * sizeof *requests);
            requests[request_count++] = (struct request){++at, number};
            lists[list_count - 1].count++;
            at += number;
        }
    }
    outcomes = calloc(request_count, sizeof *outcomes);
}

static void watch(struct lane *lane, int events, int how) {
    struct epoll_event event = {.events = events, .data.ptr = lane};
    if (epoll_ctl(poller, how, lane->fd, &event) < 0) err(1, "epoll_ctl");
}

static void open_lane(struct lane *lane) {
    struct sockaddr_in there = {.sin_family = AF_INET, .sin_port = htons(lists[lane->list].port), .sin_addr.s_addr = htonl(INADDR_LOOPBACK)};
    int one = 1;
    lane->fd = socket(AF_INET, SOCK_STREAM | SOCK_NONBLOCK | SOCK_CLOEXEC, 0);
    if (lane->fd < 0) err(1, "socket");
    setsockopt(lane->fd, IPPROTO_TCP, TCP_NODELAY, &one, sizeof one);
    if (connect(lane->fd, (struct sockaddr *)&there, sizeof there) < 0 && errno != EINPROGRESS) err(1, "connect");
    lane->is_open = 1;
    watch(lane, EPOLLOUT, EPOLL_CTL_ADD);
}

static void close_lane(struct lane *lane) {
    if (lane->is_open) close(lane->fd);
    lane->is_open = 0;
}

static void send_more(struct lane *lane) {
    struct request *it = &requests[lists[lane->list].first + lane->at];
    while (lane->sent < it->length) {
        ssize_t sent = send(lane->fd, it->bytes + lane->sent, it->length - lane->sent, MSG_NOSIGNAL);
        if (sent < 0) break;   // a peer that has answered and closed is read from all the same
        lane->sent += sent;
    }
    watch(lane, lane->sent < it->length && errno == EAGAIN ? EPOLLOUT | EPOLLIN : EPOLLIN, EPOLL_CTL_MOD);
}

static void begin_request(struct lane *lane, uint64_t begun) {
    lane->begun = begun;
    lane->sent = lane->head_length = lane->body_left = 0;
    lane->status = lane->closes = 0;
    lane->low = lane->high = 0;
    if (lane->is_open) send_more(lane);
    else open_lane(lane);
}

// Gives the lane the next list that is due, if there is one.
static void begin_list(struct lane *lane) {
    uint64_t now = micros() - start;
    lane->is_busy = next_list < list_count && lists[next_list].due <= now;
    if (!lane->is_busy) {
        close_lane(lane);
        return;
    }
    size_t before = lane->list;
    lane->list = next_list++;
    lane->at = 0;
    if (lane->is_open && lists[before].port != lists[lane->list].port) close_lane(lane);
    begin_request(lane, lists[lane->list].due ? lists[lane->list].due : now);
}

// The answer is here, or there will be none. Each list is a go command of its own, so a connection ends with it.
static void end_request(struct lane *lane, int is_whole) {
    uint64_t now = micros() - start;
    struct outcome *it = &outcomes[lists[lane->list].first + lane->at];
    *it = (struct outcome){is_whole ? lane->status : 0, now - lane->begun, it->length, lane->high << 32 ^ lane->low};
    answered++;
    if (!is_whole || lane->closes || lane->at + 1 == lists[lane->list].count) close_lane(lane);
    if (++lane->at == lists[lane->list].count) begin_list(lane);
    else begin_request(lane, now);
}

static void add(struct lane *lane, const char *bytes, size_t length) {
    uint64_t low = lane->low, high = lane->high;
    for (size_t at = 0; at < length; at++) high += low += (unsigned char)bytes[at];
    lane->low = low, lane->high = high;
    lane->body_left -= length;
}

static const char *value_of(const char *head, const char *name) {
    const char *at = strcasestr(head, name);
    return at ? at + strlen(name) : "";
}

// Reads the head. Returns where the body begins, or 0 where the head has not come whole.
static size_t read_head(struct lane *lane) {
    lane->head[lane->head_length] = 0;
    char *end = strstr(lane->head, "\r\n\r\n");
    if (!end) return 0;
    end[2] = 0;
    lane->status = atoi(lane->head + 9);
    lane->closes = !strncasecmp(value_of(lane->head, "\r\nConnection: "), "close", 5);
    lane->body_left = strtoull(value_of(lane->head, "\r\nContent-Length: "), 0, 10);
    outcomes[lists[lane->list].first + lane->at].length = lane->body_left;
    return end + 4 - lane->head;
}

static void receive(struct lane *lane) {
    static char part[PART];
    int is_head = !lane->status;
    char *into = is_head ? lane->head + lane->head_length : part;
    size_t room = is_head ? HEAD - lane->head_length : PART;
    ssize_t got = recv(lane->fd, into, room, 0);
    if (got < 0 && errno == EAGAIN) return;
    if (got <= 0) {
        end_request(lane, 0);
        return;
    }
    if (is_head) {
        lane->head_length += got;
        size_t body = read_head(lane);
        if (!body) return;
        size_t more = lane->head_length - body;
        add(lane, lane->head + body, more < lane->body_left ? more : lane->body_left);
    } else {
        add(lane, part, (size_t)got < lane->body_left ? (size_t)got : lane->body_left);
    }
    if (!lane->body_left) end_request(lane, 1);
}

// Milliseconds until a list is due that a free lane could begin.
static int patience(struct lane *lanes, size_t count) {
    int is_free = 0;
    for (size_t at = 0; at < count && !is_free; at++) is_free = !lanes[at].is_busy;
    if (!is_free || next_list == list_count) return 1000;
    uint64_t now = micros() - start, due = lists[next_list].due;
    return due <= now + 1000 ? 0 : (due - now) / 1000;
}

static void begin_due(struct lane *lanes, size_t count) {
    for (size_t at = 0; at < count && next_list < list_count && lists[next_list].due <= micros() - start; at++)
        if (!lanes[at].is_busy) begin_list(&lanes[at]);
}

int main(int count, char **words) {
    struct epoll_event events[256];
    if (count != 3) return 2;
    read_plan(words[1]);
    size_t lane_count = atoi(words[2]);
    struct lane *lanes = calloc(lane_count, sizeof *lanes);
    if ((poller = epoll_create1(EPOLL_CLOEXEC)) < 0) err(1, "epoll_create1");
    start = micros();
    while (answered < request_count) {
        begin_due(lanes, lane_count);
        int found = epoll_wait(poller, events, 256, patience(lanes, lane_count));
        for (int at = 0; at < found; at++) {
            struct lane *lane = events[at].data.ptr;
            if (!lane->is_open) continue;
            if (events[at].events & (EPOLLIN | EPOLLHUP | EPOLLERR)) receive(lane);
            else send_more(lane);
        }
    }
    fprintf(stderr, "%.6f\n", (micros() - start) / 1e6);
    fwrite(outcomes, sizeof *outcomes, request_count, stdout);
    return 0;
}
