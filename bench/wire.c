/* A client of one connection on loopback, and a server that echoes, for `bench/run.sh serve`:
 *
 *     wire ask PORT FILE COUNT REPLY     sends the bytes of FILE so many times, each once the last one's reply
 *                                        has come, and prints how many seconds that took. Before that it sends
 *                                        one, whose reply each other one must be, and which REPLY gets, and a
 *                                        tenth as many as COUNT
 *     wire echo PORT LENGTH FILE COUNT   takes one connection, and answers each LENGTH bytes with those of
 *                                        FILE, so many times at most
 *
 * Both send a message by one write, and take one by reads until it is there, as a rule one. */
#include <arpa/inet.h>
#include <netinet/tcp.h>
#include <stdio.h>
#include <stdlib.h>
#include <string.h>
#include <sys/socket.h>
#include <time.h>
#include <unistd.h>

#define MOST 65536

static void fail(const char *what) {
    perror(what);
    exit(1);
}

/* The bytes of a file, at most MOST. */
static size_t bytes_of(const char *path, char *bytes) {
    FILE *file = fopen(path, "rb");
    if (!file) fail(path);
    size_t length = fread(bytes, 1, MOST, file);
    fclose(file);
    return length;
}

static void write_all(int peer, const char *bytes, size_t length) {
    for (size_t sent = 0; sent < length;) {
        ssize_t count = write(peer, bytes + sent, length - sent);
        if (count <= 0) fail("write");
        sent += (size_t)count;
    }
}

/* Reads so many bytes; 0 where the other side ended before the first. */
static int read_all(int peer, char *bytes, size_t length) {
    for (size_t got = 0; got < length;) {
        ssize_t count = read(peer, bytes + got, length - got);
        if (count == 0 && got == 0) return 0;
        if (count <= 0) fail("read");
        got += (size_t)count;
    }
    return 1;
}

/* The length of a reply by its own Content-Length, once its head is whole; 0 before that. */
static size_t length_of(const char *bytes, size_t got) {
    char text[MOST + 1];
    memcpy(text, bytes, got);
    text[got] = 0;
    char *end = strstr(text, "\r\n\r\n"), *field = strstr(text, "Content-Length: ");
    return end && field ? (size_t)(end + 4 - text) + strtoul(field + 16, NULL, 10) : 0;
}

/* Reads the first reply, and tells its length. */
static size_t first_reply(int peer, char *reply) {
    size_t got = 0;
    for (size_t length = 0; got < MOST; length = length_of(reply, got)) {
        if (length && got >= length) return got;
        ssize_t count = read(peer, reply + got, MOST - got);
        if (count <= 0) fail("read of the first reply");
        got += (size_t)count;
    }
    fputs("the first reply is too long\n", stderr);
    exit(1);
}

/* An address of loopback, and a socket. */
static int socket_at(const char *port, struct sockaddr_in *at) {
    memset(at, 0, sizeof *at);
    at->sin_family = AF_INET;
    at->sin_port = htons((unsigned short)atoi(port));
    at->sin_addr.s_addr = htonl(INADDR_LOOPBACK);
    int it = socket(AF_INET, SOCK_STREAM, 0);
    if (it < 0) fail("socket");
    return it;
}

static void at_once(int peer) {
    int on = 1;
    if (setsockopt(peer, IPPROTO_TCP, TCP_NODELAY, &on, sizeof on)) fail("setsockopt");
}

static int connected(const char *port) {
    struct sockaddr_in at;
    for (int tried = 0; tried < 500; tried++) {
        int peer = socket_at(port, &at);
        if (!connect(peer, (struct sockaddr *)&at, sizeof at)) {
            at_once(peer);
            return peer;
        }
        close(peer);
        nanosleep(&(struct timespec){0, 20000000}, NULL);
    }
    fail("connect");
    return -1;
}

static void keep(const char *path, const char *bytes, size_t length) {
    FILE *file = fopen(path, "wb");
    if (!file || fwrite(bytes, 1, length, file) != length || fclose(file)) fail(path);
}

static void ask(const char *port, const char *path, long count, const char *kept) {
    static char message[MOST], first[MOST], reply[MOST];
    size_t length = bytes_of(path, message);
    int peer = connected(port);
    write_all(peer, message, length);
    size_t wanted = first_reply(peer, first);
    keep(kept, first, wanted);
    struct timespec from, to;
    clock_gettime(CLOCK_MONOTONIC, &from);
    for (long number = -count / 10; number < count; number++) {
        if (number == 0) clock_gettime(CLOCK_MONOTONIC, &from);
        write_all(peer, message, length);
        if (!read_all(peer, reply, wanted) || memcmp(reply, first, wanted)) {
            fputs("another reply than the first\n", stderr);
            exit(1);
        }
    }
    clock_gettime(CLOCK_MONOTONIC, &to);
    close(peer);
    printf("%.6f\n", (double)(to.tv_sec - from.tv_sec) + (double)(to.tv_nsec - from.tv_nsec) / 1e9);
}

static void echo(const char *port, size_t length, const char *path, long count) {
    static char message[MOST], reply[MOST];
    struct sockaddr_in at;
    size_t replied = bytes_of(path, reply);
    int listener = socket_at(port, &at);
    if (bind(listener, (struct sockaddr *)&at, sizeof at) || listen(listener, 1)) fail("bind");
    int peer = accept(listener, NULL, NULL);
    if (peer < 0 || length > MOST) fail("accept");
    at_once(peer);
    for (long number = 0; number < count && read_all(peer, message, length); number++) write_all(peer, reply, replied);
    close(peer);
    close(listener);
}

int main(int count, char **words) {
    if (count == 6 && !strcmp(words[1], "ask")) ask(words[2], words[3], atol(words[4]), words[5]);
    else if (count == 6 && !strcmp(words[1], "echo")) echo(words[2], strtoul(words[3], NULL, 10), words[4], atol(words[5]));
    else return 2;
    return 0;
}
