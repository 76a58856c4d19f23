/* Calls a server over the loopback, one call out at a time on each connection, each connection in a thread of its own, and
 * prints how many calls a second were answered. An answer that isn't one as wanted ends it with 1.
 *
 * usage: caller PORT probe|store|cursor|lookup CONNECTIONS CALLS [OCTETS]
 *
 *   probe    probe_open, then probe_close of its handle
 *   store    store_append of so many octets to a file of the connection's own, and another one before 16 MiB
 *   cursor   the same to one cursor, of one group, so that the connections take turns at it
 *   lookup   ept_lookup of one entry, then ept_lookup_handle_free of its handle: any endpoint map answers that
 */
#include <arpa/inet.h>
#include <netinet/tcp.h>
#include <pthread.h>
#include <stdint.h>
#include <stdio.h>
#include <stdlib.h>
#include <string.h>
#include <time.h>
#include <unistd.h>

enum { MOST_CONNECTIONS = 256, HEAD = 24, MOST = 4280, HANDLE = 20, FILE_MOST = 16 << 20, ROOM = 1 << 17 };
enum { REQUEST = 0, RESPONSE = 2, BIND = 11, BIND_ACK = 12, FIRST = 1, LAST = 2 };
enum kind { PROBE, STORE, CURSOR, LOOKUP };

static const char *const kinds[] = {"probe", "store", "cursor", "lookup"};
static const unsigned char interfaces[][20] = {
    {0x12, 0x7a, 0x0c, 0x5f, 0x4d, 0x3b, 0x6f, 0x4e, 0x8a, 0x90, 0xb1, 0xc2, 0xd3, 0xe4, 0xf5, 0x06, 1},
    {0x7e, 0x3c, 0x1d, 0x9b, 0xf4, 0x52, 0x0b, 0x4a, 0x8e, 0x6d, 0x1f, 0x0c, 0x2a, 0x3b, 0x4d, 0x5e, 1},
    {0x7e, 0x3c, 0x1d, 0x9b, 0xf4, 0x52, 0x0b, 0x4a, 0x8e, 0x6d, 0x1f, 0x0c, 0x2a, 0x3b, 0x4d, 0x5e, 1},
    {0x08, 0x83, 0xaf, 0xe1, 0x1f, 0x5d, 0xc9, 0x11, 0x91, 0xa4, 0x08, 0x00, 0x2b, 0x14, 0xa0, 0xfa, 3},
};
static const unsigned char ndr[20] = {0x04, 0x5d, 0x88, 0x8a, 0xeb, 0x1c, 0xc9, 0x11, 0x9f, 0xe8,
                                      0x08, 0x00, 0x2b, 0x10, 0x48, 0x60, 2};
static const unsigned char null[HANDLE];

struct connection {
    pthread_t thread;
    int link, most, file;
    uint32_t call;
    long calls, used;
    unsigned char handle[HANDLE], stub[ROOM], taken[ROOM];
};

static enum kind kind;
static int octets = 64;
static struct sockaddr_in at;
static struct connection all[MOST_CONNECTIONS];
static pthread_barrier_t ready;

static void fail(const char *what) {
    perror(what);
    exit(1);
}

static void wrong(const char *what) {
    fprintf(stderr, "caller: %s\n", what);
    exit(1);
}

static void put16(unsigned char *to, unsigned it) { to[0] = it, to[1] = it >> 8; }

static void put32(unsigned char *to, uint32_t it) { put16(to, it), put16(to + 2, it >> 16); }

static uint32_t at32(const unsigned char *from) { return from[0] | from[1] << 8 | from[2] << 16 | (uint32_t)from[3] << 24; }

static void put(int link, const unsigned char *from, size_t size) {
    while (size > 0) {
        ssize_t n = write(link, from, size);
        if (n <= 0) fail("write");
        from += n, size -= n;
    }
}

static void take(int link, unsigned char *to, size_t size) {
    while (size > 0) {
        ssize_t n = read(link, to, size);
        if (n < 0) fail("read");
        if (n == 0) wrong("the server closed a connection");
        to += n, size -= n;
    }
}

static void head(unsigned char *to, int type, int flags, unsigned size, uint32_t call) {
    memset(to, 0, 16);
    to[0] = 5, to[2] = type, to[3] = flags, to[4] = 0x10;
    put16(to + 8, size);
    put32(to + 12, call);
}

/* A PDU, whole, at `to`; its size. */
static unsigned pdu(int link, unsigned char *to, unsigned room) {
    take(link, to, 16);
    unsigned size = to[8] | to[9] << 8;
    if (size < HEAD || size > room) wrong("a PDU of no size");
    take(link, to + 16, size - 16);
    return size;
}

/* Makes a call with the stub, in fragments that are sent as one. Answers the size of the response's stub, in `taken`. */
static unsigned ask(struct connection *it, int operation, unsigned size) {
    static __thread unsigned char sent[2 * ROOM], came[ROOM];
    unsigned step = (it->most - HEAD) / 8 * 8, done = 0, made = 0, got = 0;
    it->call++;
    do {
        unsigned part = size - done < step ? size - done : step;
        head(sent + made, REQUEST, (done == 0 ? FIRST : 0) | (done + part == size ? LAST : 0), HEAD + part, it->call);
        put32(sent + made + 16, size - done);
        put16(sent + made + 20, 0);
        put16(sent + made + 22, operation);
        memcpy(sent + made + HEAD, it->stub + done, part);
        made += HEAD + part, done += part;
    } while (done < size);
    put(it->link, sent, made);
    do {
        unsigned n = pdu(it->link, came, sizeof came);
        if (came[2] != RESPONSE || at32(came + 12) != it->call) wrong("an answer that isn't one");
        if (got + n - HEAD > ROOM) wrong("an answer that is too long");
        memcpy(it->taken + got, came + HEAD, n - HEAD);
        got += n - HEAD;
    } while (!(came[3] & LAST));
    return got;
}

static uint32_t connect_to(struct connection *it, uint32_t group) {
    unsigned char sent[72] = {0}, came[512];
    int on = 1;
    it->link = socket(AF_INET, SOCK_STREAM, 0);
    if (connect(it->link, (struct sockaddr *)&at, sizeof at)) fail("connect");
    setsockopt(it->link, IPPROTO_TCP, TCP_NODELAY, &on, sizeof on);
    head(sent, BIND, FIRST | LAST, sizeof sent, 1);
    put16(sent + 16, MOST), put16(sent + 18, MOST);
    put32(sent + 20, group);
    sent[24] = 1, sent[30] = 1;
    memcpy(sent + 32, interfaces[kind], 20);
    memcpy(sent + 52, ndr, 20);
    put(it->link, sent, sizeof sent);
    pdu(it->link, came, sizeof came);
    if (came[2] != BIND_ACK) wrong("a bind was refused");
    it->most = came[18] | came[19] << 8;
    if (it->most > MOST || it->most < 1432) it->most = it->most > MOST ? MOST : 1432;
    it->call = 1;
    return at32(came + 20);
}

/* The handle with which the answer begins, and its result behind it. */
static void keep_handle(struct connection *it, unsigned size, int is_null) {
    if (size != HANDLE + 4 || at32(it->taken + HANDLE) != 0) wrong("a call wasn't done");
    memcpy(it->handle, it->taken, HANDLE);
    if ((memcmp(it->handle, null, HANDLE) == 0) != is_null) wrong("a handle that isn't as it should be");
}

static void open_file(struct connection *it) {
    char name[64];
    int size = snprintf(name, sizeof name, "caller %d %d %d", (int)getpid(), (int)(it - all), it->file++) + 1;
    put32(it->stub, size), put32(it->stub + 4, 0), put32(it->stub + 8, size);
    memcpy(it->stub + 12, name, size);
    keep_handle(it, ask(it, 0, 12 + size), 0);
    it->used = 0;
}

static void probe(struct connection *it, long n) {
    if (n % 2 == 0) {
        put32(it->stub, n);
        keep_handle(it, ask(it, 0, 4), 0);
    } else {
        memcpy(it->stub, it->handle, HANDLE);
        keep_handle(it, ask(it, 1, HANDLE), 1);
    }
}

static void append(struct connection *it) {
    if (kind == STORE && it->used + octets > FILE_MOST) open_file(it);
    memcpy(it->stub, it->handle, HANDLE);
    put32(it->stub + HANDLE, octets), put32(it->stub + HANDLE + 4, octets);
    keep_handle(it, ask(it, 1, HANDLE + 8 + octets), 0);
    it->used += octets;
}

static void lookup(struct connection *it, long n) {
    unsigned size;
    memset(it->stub, 0, 40);
    if (n % 2 == 0) {
        put32(it->stub + 12, 1);
        put32(it->stub + 36, 1);
        size = ask(it, 2, 40);
        if (size < 40 || !memcmp(it->taken, null, HANDLE) || at32(it->taken + HANDLE) != 1) wrong("no entry was found");
        memcpy(it->handle, it->taken, HANDLE);
    } else {
        /* (Samba's map leaves the handle as it was, where C706 has it null) */
        memcpy(it->stub, it->handle, HANDLE);
        if (ask(it, 4, HANDLE) != HANDLE + 4 || at32(it->taken + HANDLE) != 0) wrong("a handle wasn't freed");
    }
}

static void *calls(void *given) {
    struct connection *it = given;
    pthread_barrier_wait(&ready);
    for (long n = 0; n < it->calls; n++) {
        if (kind == PROBE) probe(it, n);
        else if (kind == LOOKUP) lookup(it, n);
        else append(it);
    }
    return NULL;
}

int main(int count, char **words) {
    struct timespec from, to;
    uint32_t group = 0;
    int connections = count > 4 ? atoi(words[3]) : 0, n;
    long each;
    for (n = 0; count > 4 && n < 4 && strcmp(words[2], kinds[n]); n++) {}
    if (connections < 1 || connections > MOST_CONNECTIONS || n == 4) wrong("PORT probe|store|cursor|lookup CONNECTIONS CALLS [OCTETS]");
    kind = n;
    if (count > 5) octets = atoi(words[5]);
    if (octets < 0 || octets > ROOM / 2) wrong("too many octets");
    each = (atol(words[4]) / connections + 1) / 2 * 2;
    if (kind == CURSOR && each * connections * octets > FILE_MOST) wrong("a file has 16 MiB at most");
    at.sin_family = AF_INET;
    at.sin_port = htons(atoi(words[1]));
    at.sin_addr.s_addr = htonl(INADDR_LOOPBACK);
    pthread_barrier_init(&ready, NULL, connections + 1);
    for (n = 0; n < connections; n++) {
        all[n].calls = each;
        group = connect_to(&all[n], kind == CURSOR ? group : 0);
        if (kind == STORE || (kind == CURSOR && n == 0)) open_file(&all[n]);
        if (kind == CURSOR) memcpy(all[n].handle, all[0].handle, HANDLE);
        if (pthread_create(&all[n].thread, NULL, calls, &all[n])) fail("thread");
    }
    pthread_barrier_wait(&ready);
    clock_gettime(CLOCK_MONOTONIC, &from);
    for (n = 0; n < connections; n++) pthread_join(all[n].thread, NULL);
    clock_gettime(CLOCK_MONOTONIC, &to);
    printf("%.0f\n", each * connections / ((to.tv_sec - from.tv_sec) + (to.tv_nsec - from.tv_nsec) / 1e9));
    return 0;
}
