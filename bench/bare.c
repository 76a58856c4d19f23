/* Answers calls over the loopback with what has the right shape, and does nothing else: no group, no table, no data. It is no
 * server, but a yardstick for `caller` beside it: the least that a call may cost on this machine. A thread for each
 * connection reads a PDU, forms an answer and writes it.
 *
 * usage: bare PORT
 */
#include <arpa/inet.h>
#include <netinet/tcp.h>
#include <pthread.h>
#include <stdatomic.h>
#include <stdint.h>
#include <stdio.h>
#include <stdlib.h>
#include <string.h>
#include <unistd.h>

enum { ROOM = 1 << 17, HEAD = 24, ANSWER = 48, ENTRY = 184 };
enum { REQUEST = 0, RESPONSE = 2, BIND = 11, BIND_ACK = 12, FIRST = 1, LAST = 2 };

static atomic_uint handles, groups;

static unsigned at16(const unsigned char *from) { return from[0] | from[1] << 8; }

static void put16(unsigned char *to, unsigned it) { to[0] = it, to[1] = it >> 8; }

static void put32(unsigned char *to, uint32_t it) { put16(to, it), put16(to + 2, it >> 16); }

/* Whether so many octets came, and all of them. */
static int take(int link, unsigned char *to, size_t size) {
    while (size > 0) {
        ssize_t n = read(link, to, size);
        if (n <= 0) return 0;
        to += n, size -= n;
    }
    return 1;
}

static unsigned acknowledged(unsigned char *to, const unsigned char *bind) {
    to[2] = BIND_ACK;
    put16(to + 16, 4280), put16(to + 18, 4280);
    put32(to + 20, atomic_fetch_add(&groups, 1) + 1);
    to[28] = 1;
    memcpy(to + 36, bind + 52, 20);
    return 56;
}

/* A response to an operation of the interface whose identifier begins with an octet: a handle and a result, or an entry. */
static unsigned answered(unsigned char *to, unsigned char interface, unsigned operation) {
    unsigned size = interface == 0x08 && operation == 2 ? ENTRY : ANSWER;
    int is_null = interface == 0x12 ? operation == 1 : interface == 0x08 && operation == 4;
    to[2] = RESPONSE;
    put32(to + 16, size - HEAD);
    if (!is_null) put32(to + HEAD + 4, 1), put32(to + HEAD + 16, atomic_fetch_add(&handles, 1) + 1);
    if (size == ENTRY) put32(to + 44, 1), put32(to + 48, 1), put32(to + 56, 1), put32(to + 100, 75);
    return size;
}

static void *serve(void *given) {
    int link = (int)(intptr_t)given;
    static __thread unsigned char came[ROOM], made[256];
    unsigned char interface = 0;
    while (take(link, came, 16) && at16(came + 8) >= HEAD && take(link, came + 16, at16(came + 8) - 16)) {
        unsigned size;
        if (came[2] == REQUEST && !(came[3] & LAST)) continue;
        memset(made, 0, sizeof made);
        memcpy(made, came, 16);
        made[3] = FIRST | LAST;
        if (came[2] == BIND) interface = came[32], size = acknowledged(made, came);
        else size = answered(made, interface, at16(came + 22));
        put16(made + 8, size);
        if (write(link, made, size) != (ssize_t)size) break;
    }
    close(link);
    return NULL;
}

int main(int count, char **words) {
    int on = 1, door = socket(AF_INET, SOCK_STREAM, 0);
    struct sockaddr_in at = {.sin_family = AF_INET};
    if (count != 2) return 1;
    at.sin_port = htons(atoi(words[1]));
    at.sin_addr.s_addr = htonl(INADDR_LOOPBACK);
    setsockopt(door, SOL_SOCKET, SO_REUSEADDR, &on, sizeof on);
    if (bind(door, (struct sockaddr *)&at, sizeof at) || listen(door, 128)) {
        perror("bare");
        return 1;
    }
    for (;;) {
        pthread_t thread;
        int link = accept(door, NULL, NULL);
        if (link < 0) continue;
        setsockopt(link, IPPROTO_TCP, TCP_NODELAY, &on, sizeof on);
        if (pthread_create(&thread, NULL, serve, (void *)(intptr_t)link)) close(link);
        else pthread_detach(thread);
    }
}
