/* What the tests of the library share. */
#include "derguard.h"

#include <stdio.h>
#include <stdlib.h>
#include <string.h>

/* Ends the test with the place of a check that fails. */
#define CHECK(holds)                                                                                                   \
    do {                                                                                                               \
        if (!(holds)) {                                                                                                \
            fprintf(stderr, "%s:%d: %s\n", __FILE__, __LINE__, #holds);                                                \
            exit(1);                                                                                                   \
        }                                                                                                              \
    } while (0)

static inline const uint8_t *octets_of(const char *text) { return (const uint8_t *)text; }

/* The octets of a file, in a block that is exactly as long, so that a sanitizer sees each octet beyond it. */
static inline derguard_octets file_of(const char *path) {
    FILE *file = fopen(path, "rb");
    uint8_t *octets = NULL, buffer[4096];
    size_t length = 0, count;
    if (!file) {
        perror(path);
        exit(1);
    }
    while ((count = fread(buffer, 1, sizeof buffer, file)) > 0) {
        octets = realloc(octets, length + count);
        memcpy(octets + length, buffer, count);
        length += count;
    }
    fclose(file);
    return (derguard_octets){octets, length};
}

static inline void drop(derguard_octets octets) { free((void *)octets.octets); }

/* A load of the policy of examples/orders.toml. */
static inline uint32_t load_orders(derguard_policy *policy) {
    derguard_octets module = file_of("examples/orders.asn1"), text = file_of("examples/orders.toml");
    uint8_t fault[200];
    size_t needed;
    uint32_t status =
        derguard_load(policy, &module, 1, text.octets, text.length, fault, sizeof fault, &needed);
    drop(module);
    drop(text);
    return status;
}

/* a header's names, a message that passes there, and one that is stopped there */
#define NAMES "\5north\5south\5order"
#define GOOD "\x30\x0b\x80\x01\x05\x81\x01\x01\xa4\x03\x02\x01\x07"
#define GREAT "\x30\x0e\x80\x01\x05\x81\x01\x00\x82\x01\x0b\xa4\x03\x02\x01\x07"
#define NAMES_LENGTH (sizeof NAMES - 1)
#define GOOD_LENGTH (sizeof GOOD - 1)
#define GREAT_LENGTH (sizeof GREAT - 1)
