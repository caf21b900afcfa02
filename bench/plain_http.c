/* What a plain program does over HTTP on loopback, to measure a server with and beside it.

   plain_http load PORT PATH TOKEN CONNECTIONS SECONDS
       asks for PATH over so many kept connections, a thread each, and prints the replies a second
   plain_http serve PORT FILE
       answers each request over kept connections, a thread each, with the bytes of FILE, until it is ended */

#include <arpa/inet.h>
#include <netinet/tcp.h>
#include <pthread.h>
#include <stdio.h>
#include <stdlib.h>
#include <string.h>
#include <strings.h>
#include <time.h>
#include <unistd.h>

static struct sockaddr_in at;
static char text[1 << 24];
static size_t length;
static double seconds;

static void fail(const char *what) {
    perror(what);
    exit(1);
}

static double now(void) {
    struct timespec t;
    clock_gettime(CLOCK_MONOTONIC, &t);
    return t.tv_sec + t.tv_nsec / 1e9;
}

static void send_all(int fd, const char *bytes, size_t count) {
    while (count) {
        ssize_t sent = write(fd, bytes, count);
        if (sent <= 0) fail("write");
        bytes += sent;
        count -= sent;
    }
}

/* Reads to the end of a head, and gives the length of the body that it names; the body's front may be in the buffer too. */
static long read_head(int fd, char *buffer, size_t room, size_t *held, size_t *head) {
    for (;;) {
        buffer[*held] = 0;
        char *end = strstr(buffer, "\r\n\r\n");
        if (end) {
            *head = end + 4 - buffer;
            break;
        }
        ssize_t got = read(fd, buffer + *held, room - *held - 1);
        if (got <= 0) return -1;
        *held += got;
    }
    char *field = strcasestr(buffer, "\r\ncontent-length:");
    return field && field < buffer + *head ? atol(field + 17) : 0;
}

static int connected(void) {
    struct timeval patience = {30, 0};
    int one = 1, fd = socket(AF_INET, SOCK_STREAM, 0);
    setsockopt(fd, SOL_SOCKET, SO_RCVTIMEO, &patience, sizeof patience);
    if (connect(fd, (struct sockaddr *)&at, sizeof at)) fail("connect");
    setsockopt(fd, IPPROTO_TCP, TCP_NODELAY, &one, sizeof one);
    return fd;
}

/* Asks once over a connection, and says whether the peer keeps it open. */
static int asks(int fd, char *buffer) {
    size_t held = 0, head;
    send_all(fd, text, length);
    long body = read_head(fd, buffer, 1 << 16, &held, &head);
    if (body < 0 || strncmp(buffer, "HTTP/1.1 200", 12)) fail("reply");
    char *ends = strcasestr(buffer, "\r\nconnection: close");
    int keeps = !ends || ends > buffer + head;
    for (size_t left = head + body - held; left;) {
        ssize_t got = read(fd, buffer, left < 1 << 16 ? left : 1 << 16);
        if (got <= 0) fail("read");
        left -= got;
    }
    return keeps;
}

static void *load(void *found) {
    char *buffer = malloc(1 << 16);
    double end = now() + seconds;
    long count = 0;
    int fd = connected();
    for (; now() < end; count++)
        if (!asks(fd, buffer)) {
            close(fd);
            fd = connected();
        }
    close(fd);
    *(long *)found = count;
    return 0;
}

static void *answer(void *connection) {
    int one = 1, fd = (int)(long)connection;
    char *buffer = malloc(1 << 16);
    size_t held = 0, head;
    setsockopt(fd, IPPROTO_TCP, TCP_NODELAY, &one, sizeof one);
    while (read_head(fd, buffer, 1 << 16, &held, &head) >= 0) {
        memmove(buffer, buffer + head, held -= head);
        send_all(fd, text, length);
    }
    close(fd);
    free(buffer);
    return 0;
}

_Noreturn static void serve(const char *path) {
    static char body[1 << 23];
    FILE *file = fopen(path, "rb");
    if (!file) fail(path);
    size_t count = fread(body, 1, sizeof body, file);
    length = sprintf(text, "HTTP/1.1 200 OK\r\nContent-Type: application/json\r\nContent-Length: %zu\r\n\r\n", count);
    memcpy(text + length, body, count);
    length += count;
    int one = 1, listener = socket(AF_INET, SOCK_STREAM, 0);
    setsockopt(listener, SOL_SOCKET, SO_REUSEADDR, &one, sizeof one);
    if (bind(listener, (struct sockaddr *)&at, sizeof at) || listen(listener, 128)) fail("listen");
    for (;;) {
        long fd = accept(listener, 0, 0);
        pthread_t thread;
        if (fd < 0) fail("accept");
        pthread_create(&thread, 0, answer, (void *)fd);
        pthread_detach(thread);
    }
}

int main(int count, char **words) {
    if (count < 4) return 2;
    at.sin_family = AF_INET;
    at.sin_addr.s_addr = htonl(INADDR_LOOPBACK);
    at.sin_port = htons(atoi(words[2]));
    if (!strcmp(words[1], "serve")) serve(words[3]);
    if (count < 7) return 2;
    length = sprintf(text, "GET %s HTTP/1.1\r\nHost: hub\r\nAuthorization: Bearer %s\r\n\r\n", words[3], words[4]);
    int threads = atoi(words[5]);
    seconds = atof(words[6]);
    pthread_t thread[64];
    long found[64], all = 0;
    for (int i = 0; i < threads && i < 64; i++) pthread_create(&thread[i], 0, load, &found[i]);
    for (int i = 0; i < threads && i < 64; i++) pthread_join(thread[i], 0), all += found[i];
    printf("%.1f\n", all / seconds);
    return 0;
}
