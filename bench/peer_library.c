/* The library as a reader of messages: each goes by `derguard_passes` on the route of its case, under the policy and the
 * module that POLICY and MODULE name. */
#include "peer.h"

#include <derguard.h>
#include <stdio.h>
#include <stdlib.h>
#include <string.h>

static derguard_policy policy = DERGUARD_EMPTY;
static unsigned char names[64];
static size_t names_length;

static int passes(message m) { return derguard_passes(&policy, names, names_length, m.octets, m.end); }

static derguard_octets file_of(const char *variable) {
    FILE *file = getenv(variable) ? fopen(getenv(variable), "rb") : NULL;
    unsigned char *octets = malloc(1 << 20);
    if (!file || !octets) exit(2);
    size_t length = fread(octets, 1, 1 << 20, file);
    fclose(file);
    return (derguard_octets){octets, length};
}

reader *reader_of(const char *name) {
    derguard_octets text = file_of("POLICY"), module = file_of("MODULE");
    size_t needed;
    names_length = (size_t)snprintf((char *)names, sizeof names, "\5north\5south%c%s", (int)strlen(name), name);
    return derguard_load(&policy, &module, 1, text.octets, text.length, NULL, 0, &needed) ? NULL : passes;
}
