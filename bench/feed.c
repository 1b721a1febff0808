/* feed FILE N: N copies of a file to standard output, in writes of whole copies of up to 64 KiB. */
#include <stdio.h>
#include <stdlib.h>
#include <string.h>
#include <unistd.h>

int main(int words, char **word) {
    FILE *file = words == 3 ? fopen(word[1], "rb") : NULL;
    if (!file) return 2;
    fseek(file, 0, SEEK_END);
    size_t size = (size_t)ftell(file);
    rewind(file);
    long left = atol(word[2]);
    long copies = size < 65536 ? (long)(65536 / size) : 1;
    char *block = malloc(size * (size_t)copies);
    if (!block || fread(block, 1, size, file) != size) return 2;
    for (long at = 1; at < copies; at++) memcpy(block + (size_t)at * size, block, size);
    for (; left > 0; left -= copies) {
        size_t wanted = (size_t)(left < copies ? left : copies) * size;
        for (size_t at = 0; at < wanted;) {
            ssize_t put = write(1, block + at, wanted - at);
            if (put <= 0) return 3;
            at += (size_t)put;
        }
    }
    return 0;
}
