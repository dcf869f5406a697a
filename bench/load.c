/* Two ends of queries on the loopback address.
 *
 * load echo PORT                               sends each datagram back
 * load ask KIND PORT CLIENTS MILLIS HEX        each client sends the query, waits for its reply, and asks again: in datagrams (udp), over
 *                                              one connection (tcp) or over a connection for each query (once). Where no reply comes
 *                                              within a second, it counts as lost. Prints the replies, the lost, and the bytes of the
 *                                              last reply
 * load draw KIND PORT CLIENTS MILLIS FILE      the same with the queries of a file, each behind its length of two bytes with the high
 *                                              byte first: each client sends the next one, and behind the last comes the first
 */
#include <arpa/inet.h>
#include <fcntl.h>
#include <netinet/tcp.h>
#include <poll.h>
#include <stdio.h>
#include <stdlib.h>
#include <string.h>
#include <sys/mman.h>
#include <sys/socket.h>
#include <sys/stat.h>
#include <time.h>
#include <unistd.h>

/* A message over TCP has its length before it, two bytes (RFC 1035, 4.2.2). */
enum { MOST_CLIENTS = 64, LENGTH = 2, ROOM = 65536 + LENGTH };

enum kind { UDP, TCP, ONCE, NONE };

struct client {
    unsigned char reply[ROOM];
    size_t got;
};

static const char *kinds[NONE] = {"udp", "tcp", "once"};
static struct sockaddr_in server;
/* The queries, each behind its length, their bytes, and where the next one begins. */
static unsigned char *queries;
static size_t queries_size, next_at;

static void fail(const char *what) {
    perror(what);
    exit(1);
}

static long millis(void) {
    struct timespec now;
    clock_gettime(CLOCK_MONOTONIC, &now);
    return now.tv_sec * 1000 + now.tv_nsec / 1000000;
}

static struct sockaddr_in loopback(int port) {
    struct sockaddr_in address = {.sin_family = AF_INET, .sin_port = htons(port)};
    address.sin_addr.s_addr = htonl(INADDR_LOOPBACK);
    return address;
}

static void echo(int port) {
    static char bytes[ROOM];
    struct sockaddr_in own = loopback(port), peer;
    int fd = socket(AF_INET, SOCK_DGRAM, 0);
    if (fd < 0 || bind(fd, (struct sockaddr *)&own, sizeof own) < 0) fail("bind");
    for (;;) {
        socklen_t size = sizeof peer;
        ssize_t count = recvfrom(fd, bytes, sizeof bytes, 0, (struct sockaddr *)&peer, &size);
        if (count >= 0) sendto(fd, bytes, count, 0, (struct sockaddr *)&peer, size);
    }
}

static int opened(enum kind kind) {
    int fd = socket(AF_INET, kind == UDP ? SOCK_DGRAM : SOCK_STREAM, 0), on = 1;
    if (fd < 0 || connect(fd, (struct sockaddr *)&server, sizeof server) < 0) fail("connect");
    if (kind != UDP) setsockopt(fd, IPPROTO_TCP, TCP_NODELAY, &on, sizeof on);
    return fd;
}

static void take_query(const char *text) {
    static unsigned char one[ROOM];
    size_t count = strlen(text) / 2;
    for (size_t i = 0; i < count && LENGTH + i < ROOM; i++) sscanf(text + 2 * i, "%2hhx", &one[LENGTH + i]);
    one[0] = count >> 8, one[1] = count & 255;
    queries = one, queries_size = LENGTH + count;
}

static void take_queries(const char *path) {
    struct stat found;
    int fd = open(path, O_RDONLY);
    if (fd < 0 || fstat(fd, &found) < 0) fail(path);
    queries = mmap(NULL, found.st_size, PROT_READ, MAP_PRIVATE | MAP_POPULATE, fd, 0);
    if (queries == MAP_FAILED) fail(path);
    queries_size = found.st_size;
}

/* Sends the next query. Its length goes before it but in a datagram. */
static ssize_t send_next(enum kind kind, int fd) {
    const unsigned char *query = queries + next_at;
    size_t size = LENGTH + ((size_t)query[0] << 8 | query[1]), left_out = kind == UDP ? LENGTH : 0;
    next_at = next_at + size < queries_size ? next_at + size : 0;
    return send(fd, query + left_out, size - left_out, MSG_NOSIGNAL);
}

/* Where the reply begins, if it is whole; 0 is a beginning, too. */
static int whole(enum kind kind, const struct client *client) {
    if (kind == UDP) return 0;
    size_t length = client->got < LENGTH ? ROOM : (size_t)client->reply[0] << 8 | client->reply[1];
    return client->got == LENGTH + length ? LENGTH : -1;
}

static int ask(enum kind kind, int clients, long length) {
    static struct client those[MOST_CLIENTS];
    static unsigned char last[ROOM];
    struct pollfd waiting[MOST_CLIENTS];
    size_t last_size = 0;
    long replies = 0, lost = 0, end = millis() + length;
    for (int i = 0; i < clients; i++) {
        waiting[i] = (struct pollfd){.fd = opened(kind), .events = POLLIN};
        if (send_next(kind, waiting[i].fd) < 0) fail("send");
    }
    while (millis() < end) {
        int ready = poll(waiting, clients, 1000);
        for (int i = 0; i < clients; i++) {
            struct client *client = &those[i];
            if (ready && !waiting[i].revents) continue;
            ssize_t count = ready ? recv(waiting[i].fd, client->reply + client->got, ROOM - client->got, 0) : -1;
            int is_lost = count < 0 || (count == 0 && kind != UDP);
            if (!is_lost) client->got += count;
            int at = is_lost ? 0 : whole(kind, client);
            if (at < 0) continue;
            if (is_lost) lost++;
            else replies++, last_size = client->got - at, memcpy(last, client->reply + at, last_size);
            if (kind == ONCE || (is_lost && kind == TCP)) close(waiting[i].fd), waiting[i].fd = opened(kind);
            client->got = 0;
            send_next(kind, waiting[i].fd);
        }
    }
    printf("%ld %ld ", replies, lost);
    for (size_t i = 0; i < last_size; i++) printf("%02x", last[i]);
    putchar('\n');
    return 0;
}

int main(int count, char **words) {
    enum kind kind = UDP;
    if (count == 3 && !strcmp(words[1], "echo")) echo(atoi(words[2]));
    if (count != 7) return 2;
    while (kind < NONE && strcmp(words[2], kinds[kind])) kind++;
    int clients = atoi(words[4]);
    if (kind == NONE || clients < 1 || clients > MOST_CLIENTS) return 2;
    server = loopback(atoi(words[3]));
    if (!strcmp(words[1], "ask")) take_query(words[6]);
    else if (!strcmp(words[1], "draw")) take_queries(words[6]);
    else return 2;
    return ask(kind, clients, atol(words[5]));
}
