/* A gateway in one process: it takes connections on one port of this host, opens another for each to the host that
 * stands behind it, and guards what goes there. What comes back isn't looked at. Report lines go to standard error.
 *
 *     cc -o gateway gateway.c $(pkg-config --cflags --libs derguard)
 *     ./gateway orders.toml orders.asn1 5000 5001         from port 5000 to port 5001, until it is killed
 */
#include <derguard.h>

#include <arpa/inet.h>
#include <poll.h>
#include <signal.h>
#include <stdio.h>
#include <stdlib.h>
#include <string.h>
#include <sys/socket.h>
#include <unistd.h>

enum { MOST = 100, PIECE = 65536, ROOM = PIECE + 1048579 };

/* two connections, and the link of what goes from the one to the other */
struct pair {
    int from, to;
    bool ended; /* nothing more goes */
    derguard_link link;
};

static derguard_policy policy = DERGUARD_EMPTY;
static struct pair pairs[MOST];
static int count;
static uint8_t piece[PIECE], out[ROOM];

static void fail(const char *what) {
    perror(what);
    exit(1);
}

static derguard_octets file_of(const char *path) {
    static uint8_t room[1 << 20];
    FILE *file = fopen(path, "rb");
    if (!file)
        fail(path);
    size_t length = fread(room, 1, sizeof room, file);
    fclose(file);
    uint8_t *octets = malloc(length ? length : 1);
    if (!octets)
        fail("malloc");
    return (derguard_octets){memcpy(octets, room, length), length};
}

static void load(const char *policy_path, const char *module_path) {
    derguard_octets module = file_of(module_path), text = file_of(policy_path);
    uint8_t fault[300];
    size_t needed;
    if (derguard_load(&policy, &module, 1, text.octets, text.length, fault, sizeof fault, &needed) != DERGUARD_OK) {
        fprintf(stderr, "gateway: %.*s\n", (int)(needed < sizeof fault ? needed : sizeof fault), (const char *)fault);
        exit(2);
    }
    free((void *)module.octets);
    free((void *)text.octets);
}

static struct sockaddr_in here(const char *port) {
    struct sockaddr_in address = {.sin_family = AF_INET, .sin_port = htons((uint16_t)atoi(port))};
    address.sin_addr.s_addr = htonl(INADDR_LOOPBACK);
    return address;
}

static int listening(const char *port) {
    struct sockaddr_in address = here(port);
    int one = 1, s = socket(AF_INET, SOCK_STREAM, 0);
    setsockopt(s, SOL_SOCKET, SO_REUSEADDR, &one, sizeof one);
    if (s < 0 || bind(s, (struct sockaddr *)&address, sizeof address) || listen(s, 10))
        fail(port);
    return s;
}

/* All of the octets, or false where the other side takes no more. */
static bool put(int s, const uint8_t *octets, size_t length) {
    while (length > 0) {
        ssize_t sent = write(s, octets, length);
        if (sent <= 0)
            return false;
        octets += sent;
        length -= (size_t)sent;
    }
    return true;
}

static void report(derguard_link *link) {
    uint8_t lines[4096];
    size_t needed;
    uint32_t status;
    while ((status = derguard_link_reports(link, lines, sizeof lines, &needed)) == DERGUARD_TOO_SMALL) {
        uint8_t *more = malloc(needed);
        if (!more)
            return;
        if (derguard_link_reports(link, more, needed, &needed) == DERGUARD_OK)
            put(2, more, needed);
        free(more);
    }
    if (status == DERGUARD_OK)
        put(2, lines, needed);
}

static void close_pair(struct pair *p) {
    close(p->from);
    close(p->to);
    derguard_link_free(&p->link);
    *p = pairs[--count]; /* the handle moves, so the old one is made empty */
    pairs[count] = (struct pair){0};
}

static void open_pair(int listener, const char *port) {
    struct sockaddr_in address = here(port);
    int from = accept(listener, NULL, NULL), to = socket(AF_INET, SOCK_STREAM, 0);
    struct pair *p = &pairs[count];
    if (from < 0 || to < 0 || connect(to, (struct sockaddr *)&address, sizeof address) ||
        derguard_link_open(&p->link) != DERGUARD_OK) {
        close(from);
        close(to);
        return;
    }
    p->from = from;
    p->to = to;
    count++;
}

/* One piece of the guarded stream, or its end. */
static void guard(struct pair *p) {
    size_t written = 0;
    ssize_t got = read(p->from, piece, PIECE);
    uint32_t status = got > 0 ? derguard_link_feed(&policy, &p->link, piece, (size_t)got, out, ROOM, &written)
                              : derguard_link_end(&p->link);
    bool taken = put(p->to, out, written);
    report(&p->link);
    if (status != DERGUARD_OK)
        fprintf(stderr, "gateway: status %u\n", (unsigned)status);
    if (got <= 0 || !taken || status != DERGUARD_OK) {
        p->ended = true;
        shutdown(p->to, SHUT_WR);
    }
}

static bool pass_back(struct pair *p) {
    ssize_t got = read(p->to, piece, PIECE);
    return got > 0 && put(p->from, piece, (size_t)got);
}

int main(int words, char **word) {
    if (words != 5) {
        fputs("usage: gateway POLICY MODULE PORT PORT\n", stderr);
        return 2;
    }
    signal(SIGPIPE, SIG_IGN);
    load(word[1], word[2]);
    int listener = listening(word[3]);
    for (;;) {
        struct pollfd waits[1 + 2 * MOST];
        int had = count;
        waits[0] = (struct pollfd){count < MOST ? listener : -1, POLLIN, 0};
        for (int i = 0; i < had; i++) {
            waits[1 + 2 * i] = (struct pollfd){pairs[i].ended ? -1 : pairs[i].from, POLLIN, 0};
            waits[2 + 2 * i] = (struct pollfd){pairs[i].to, POLLIN, 0};
        }
        if (poll(waits, (nfds_t)(1 + 2 * had), -1) < 0)
            fail("poll");
        for (int i = had - 1; i >= 0; i--) {
            if (waits[1 + 2 * i].revents)
                guard(&pairs[i]);
            if (waits[2 + 2 * i].revents && !pass_back(&pairs[i]))
                close_pair(&pairs[i]);
        }
        if (waits[0].revents)
            open_pair(listener, word[4]);
    }
}
