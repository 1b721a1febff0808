/* The messages of bench/run as the code reads them that asn1c makes of the module Bench: BER to a value in memory, then
   the constraints of the rule's type. It is compiled with that code, which bench/run has made. */
#include "peer.h"
#include "Bag.h"
#include "Bulk.h"
#include "Chars.h"
#include "Digits.h"
#include "N30.h"
#include "Sets.h"
#include "Small.h"
#include <string.h>

static int checked(asn_TYPE_descriptor_t *type, asn_constr_check_f *check, message m) {
    void *value = NULL;
    asn_dec_rval_t done = ber_decode(NULL, type, &value, m.octets, m.end);
    if (!check) check = type->check_constraints;
    int taken = done.code == RC_OK && done.consumed == m.end && !check(type, value, NULL, NULL);
    ASN_STRUCT_FREE(*type, value);
    return taken;
}

static int reads(asn_TYPE_descriptor_t *type, message m) { return checked(type, NULL, m); }

static int order(message m) { return reads(&asn_DEF_Small, m); }
static int bulk(message m) { return reads(&asn_DEF_Bulk, m); }
static int nest(message m) { return reads(&asn_DEF_N30, m); }
/* A decoding puts the check of Text into the descriptor of Digits, so that of Digits is called by its name. */
static int text(message m) { return checked(&asn_DEF_Digits, Digits_constraint, m); }
static int utf8(message m) { return reads(&asn_DEF_Chars, m); }
static int set(message m) { return reads(&asn_DEF_Sets, m); }
static int set_of(message m) { return reads(&asn_DEF_Bag, m); }

static const struct { const char *name; reader *read; } cases[] = {
    {"order", order}, {"bulk", bulk}, {"nest", nest}, {"text", text}, {"utf8", utf8}, {"set", set}, {"set-of", set_of},
};

reader *reader_of(const char *name) {
    for (size_t at = 0; at < sizeof cases / sizeof *cases; at++)
        if (!strcmp(name, cases[at].name)) return cases[at].read;
    return NULL;
}
