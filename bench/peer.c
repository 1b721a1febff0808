/* Times a reader of messages in process, and sets it between two pipes with the framing of `derguard run`.

       peer time CASE FILE    prints the nanoseconds of one message, the least of nine rounds; status 1 where it is
                              refused
       peer pipe CASE         frames from standard input; those whose message it takes go to standard output; status 1
                              where one stayed, 3 where a device failed or the input ended inside a frame

   Status 2 where there is no such case or file. Names of a frame are stepped over, and nothing is looked up by them.
   Frames that lie side by side and go are written at once, as `derguard run` does, and reads are as long as its. */
#include "peer.h"
#include <stdio.h>
#include <stdlib.h>
#include <string.h>
#include <time.h>
#include <unistd.h>

enum { PIECE = 65536, GREATEST = 1048576 + 4 };

static double now(void) {
    struct timespec time;
    clock_gettime(CLOCK_MONOTONIC, &time);
    return (double)time.tv_sec * 1e9 + (double)time.tv_nsec;
}

static volatile int answer;

static double least_of(reader *read, message m) {
    long times = 1;
    double taken, least = 1e18;
    for (;; times *= 2) {
        double begin = now();
        for (long at = 0; at < times; at++) answer = read(m);
        taken = now() - begin;
        if (taken > 5e6 || times > (1L << 40)) break;
    }
    for (int round = 0; round < 9; round++) {
        double begin = now();
        for (long at = 0; at < times; at++) answer = read(m);
        taken = (now() - begin) / (double)times;
        if (taken < least) least = taken;
    }
    return least;
}

static int in_process(reader *read, const char *path) {
    FILE *file = fopen(path, "rb");
    if (!file) return 2;
    fseek(file, 0, SEEK_END);
    size_t size = (size_t)ftell(file);
    rewind(file);
    unsigned char *octets = malloc(size + 64);
    if (!octets || fread(octets, 1, size, file) != size) return 2;
    message m = {octets, size};
    if (!read(m)) return 1;
    printf("%.2f\n", least_of(read, m));
    return 0;
}

/* How long the frame is that begins there, with its length; 0 where it isn't whole yet. */
static size_t whole(const unsigned char *octets, size_t held) {
    if (held < 4) return 0;
    size_t size = 4 + ((size_t)octets[0] << 24 | (size_t)octets[1] << 16 | (size_t)octets[2] << 8 | octets[3]);
    if (size > GREATEST) exit(3);
    return size <= held ? size : 0;
}

static int goes(reader *read, const unsigned char *octets, size_t size) {
    size_t at = 4;
    for (int name = 0; name < 3; name++) {
        if (at >= size || octets[at] == 0 || octets[at] > 63 || octets[at] >= size - at) return 0;
        at += 1 + (size_t)octets[at];
    }
    return read((message){octets + at, size - at});
}

static void put(const unsigned char *octets, size_t size) {
    while (size) {
        ssize_t taken = write(1, octets, size);
        if (taken <= 0) exit(3);
        octets += taken;
        size -= (size_t)taken;
    }
}

static unsigned char held_octets[GREATEST + PIECE];

static int on_a_pipe(reader *read_message) {
    size_t held = 0;
    int stayed = 0;
    for (;;) {
        ssize_t got = read(0, held_octets + held, PIECE);
        if (got <= 0) return got < 0 || held ? 3 : stayed;
        held += (size_t)got;
        size_t at = 0, unwritten = 0, size;
        for (; (size = whole(held_octets + at, held - at)); at += size) {
            if (goes(read_message, held_octets + at, size)) continue;
            put(held_octets + unwritten, at - unwritten);
            unwritten = at + size;
            stayed = 1;
        }
        put(held_octets + unwritten, at - unwritten);
        held -= at;
        memmove(held_octets, held_octets + at, held);
    }
}

int main(int words, char **word) {
    reader *read = words >= 3 ? reader_of(word[2]) : NULL;
    if (!read) return 2;
    if (words == 4 && !strcmp(word[1], "time")) return in_process(read, word[3]);
    if (words == 3 && !strcmp(word[1], "pipe")) return on_a_pipe(read);
    return 2;
}
