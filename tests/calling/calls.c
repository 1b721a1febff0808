/* Calls each function of the library, and sees each status that needs no want of memory. The words are a file of
 * frames, and two files of what the program lets out of it and reports. */
#include "common.h"

#include <pthread.h>

static bool passes(derguard_policy *policy, const char *names, const char *message, size_t length) {
    return derguard_passes(policy, octets_of(names), strlen(names), octets_of(message), length);
}

/* ---- texts in buffers of every length */

static void verdict_is(derguard_policy *policy, const char *message, size_t length, const char *text) {
    size_t whole = strlen(text);
    for (size_t room = 0; room <= whole + 3; room++)
        for (int from = 0; from < 2; from++) {
            uint8_t *out = malloc(room ? room : 1);
            size_t needed = 99;
            memset(out, '#', room);
            uint32_t status =
                from ? derguard_verdict_from(policy, octets_of("north"), 5, octets_of("south"), 5, octets_of("order"),
                                             5, octets_of(message), length, room ? out : NULL, room, &needed)
                     : derguard_verdict(policy, octets_of(NAMES), NAMES_LENGTH, octets_of(message), length,
                                        room ? out : NULL, room, &needed);
            CHECK(status == (room < whole ? DERGUARD_TOO_SMALL : DERGUARD_OK) && needed == whole);
            for (size_t i = 0; i < room; i++)
                CHECK(out[i] == (i < whole ? (uint8_t)text[i] : '#'));
            free(out);
        }
}

static void version(void) {
    uint8_t out[20];
    size_t needed;
    CHECK(derguard_version(NULL, 0, &needed) == DERGUARD_TOO_SMALL && needed > 4);
    CHECK(derguard_version(out, sizeof out, &needed) == DERGUARD_OK && needed < sizeof out);
    printf("%.*s\n", (int)needed, (const char *)out);
}

/* ---- handles that are empty, or of the other kind */

static void empty(derguard_policy *policy, derguard_link *link) {
    derguard_policy other = DERGUARD_EMPTY;
    uint8_t out[4] = {9, 9, 9, 9};
    size_t needed = 99;
    CHECK(!passes(policy, NAMES, GOOD, GOOD_LENGTH));
    CHECK(!derguard_passes_from(policy, octets_of("north"), 5, octets_of("south"), 5, octets_of("order"), 5,
                                octets_of(GOOD), GOOD_LENGTH));
    CHECK(derguard_verdict(policy, NULL, 0, NULL, 0, out, 4, &needed) == DERGUARD_NO_POLICY);
    CHECK(needed == 0 && out[0] == 9);
    needed = 99;
    CHECK(derguard_verdict_from(policy, NULL, 0, NULL, 0, NULL, 0, NULL, 0, out, 4, &needed) == DERGUARD_NO_POLICY);
    CHECK(needed == 0 && out[0] == 9);
    CHECK(derguard_share(policy, &other) == DERGUARD_NO_POLICY && !other.at);
    needed = 99;
    CHECK(derguard_link_feed(policy, link, octets_of(GOOD), 1, out, 4, &needed) == DERGUARD_NO_POLICY);
    CHECK(needed == 0 && out[0] == 9);
    needed = 99;
    CHECK(derguard_link_reports(link, out, 4, &needed) == DERGUARD_NO_LINK && needed == 0 && out[0] == 9);
    CHECK(derguard_link_end(link) == DERGUARD_NO_LINK);
}

static void handles(void) {
    derguard_policy policy = DERGUARD_EMPTY;
    derguard_link link = DERGUARD_EMPTY;
    uint8_t out[4];
    size_t needed = 99;
    empty(&policy, &link);
    derguard_free(&policy);
    derguard_link_free(&link);

    /* each in place of the other is taken for an empty one, and stays as it is */
    CHECK(load_orders(&policy) == DERGUARD_OK && derguard_link_open(&link) == DERGUARD_OK);
    derguard_policy as_policy = {link.at};
    derguard_link as_link = {policy.at};
    empty(&as_policy, &as_link);
    CHECK(derguard_link_feed(&policy, &as_link, octets_of(GOOD), 1, out, 4, &needed) == DERGUARD_NO_LINK);
    CHECK(needed == 0 && as_policy.at == link.at && as_link.at == policy.at);
    CHECK(passes(&policy, NAMES, GOOD, GOOD_LENGTH) && derguard_link_end(&link) == DERGUARD_OK);

    derguard_link_free(&link);
    derguard_free(&policy);
    CHECK(!policy.at && !link.at && !passes(&policy, NAMES, GOOD, GOOD_LENGTH));
    derguard_free(&policy);
    derguard_link_free(&link);
}

/* ---- policies */

static void loads(derguard_policy *policy) {
    static const char none[] = "modules = []\n", torn[] = "modules = [";
    derguard_octets module = file_of("examples/orders.asn1"), text = file_of("examples/orders.toml");
    derguard_octets bad = {octets_of("Orders DEFINITIONS ::= BEGIN A ::= B END"), 40}, two[2] = {module, module};
    uint8_t fault[80];
    size_t needed;

    /* what is refused leaves the policy that was in force, and says why */
    struct {
        const derguard_octets *modules;
        size_t count;
        derguard_octets text;
    } refused[] = {
        {&module, 1, {octets_of(torn), sizeof torn - 1}}, {NULL, 0, text}, {&bad, 1, text}, {two, 2, text},
        {&module, 1, {NULL, 0}},
    };
    for (int held = 0; held < 2; held++) {
        for (size_t i = 0; i < sizeof refused / sizeof *refused; i++) {
            memset(fault, '#', sizeof fault);
            needed = 0;
            CHECK(derguard_load(policy, refused[i].modules, refused[i].count, refused[i].text.octets,
                                refused[i].text.length, fault, sizeof fault, &needed) == DERGUARD_REFUSED);
            CHECK(needed > 0 && needed < sizeof fault && fault[needed] == '#' && fault[needed - 1] != '#');
            printf("%.*s\n", (int)needed, (const char *)fault);
            size_t whole = needed;
            CHECK(derguard_load(policy, refused[i].modules, refused[i].count, refused[i].text.octets,
                                refused[i].text.length, fault, 2, &needed) == DERGUARD_REFUSED && needed == whole);
            CHECK((policy->at != NULL) == held && passes(policy, NAMES, GOOD, GOOD_LENGTH) == held);
        }
        if (!held) {
            memset(fault, '#', sizeof fault);
            CHECK(derguard_load(policy, &module, 1, text.octets, text.length, fault, sizeof fault, &needed) ==
                  DERGUARD_OK);
            CHECK(needed == 0 && fault[0] == '#');
        }
    }

    /* what is loaded replaces it */
    CHECK(derguard_load(policy, NULL, 0, octets_of(none), sizeof none - 1, fault, sizeof fault, &needed) ==
          DERGUARD_OK);
    CHECK(policy->at && !passes(policy, NAMES, GOOD, GOOD_LENGTH));
    CHECK(derguard_load(policy, &module, 1, text.octets, text.length, NULL, 0, &needed) == DERGUARD_OK);
    drop(module);
    drop(text);
}

static void asks(derguard_policy *policy) {
    uint8_t out[40] = {9};
    size_t needed = 99;
    CHECK(passes(policy, NAMES, GOOD, GOOD_LENGTH) && !passes(policy, NAMES, GREAT, GREAT_LENGTH));
    CHECK(!passes(policy, NAMES, GOOD, GOOD_LENGTH - 1) && !passes(policy, NAMES, NULL, 0));
    CHECK(!passes(policy, "\5south\5north\5order", GOOD, GOOD_LENGTH));

    /* octets that are no three names with nothing after them */
    static const char *const bad[] = {"", "\5north", "\5north\5south\5orde", NAMES "x", "\5nor:h\5south\5order",
                                      "\5north\5south\6order"};
    for (size_t i = 0; i < sizeof bad / sizeof *bad; i++) {
        CHECK(!passes(policy, bad[i], GOOD, GOOD_LENGTH));
        CHECK(derguard_verdict(policy, octets_of(bad[i]), strlen(bad[i]), octets_of(GOOD), GOOD_LENGTH, out, 40,
                               &needed) == DERGUARD_BAD_NAMES);
        CHECK(needed == 0 && out[0] == 9);
    }
    CHECK(derguard_passes_from(policy, octets_of("north"), 5, octets_of("south"), 5, octets_of("order"), 5,
                               octets_of(GOOD), GOOD_LENGTH));
    CHECK(!derguard_passes_from(policy, octets_of("south"), 5, octets_of("north"), 5, octets_of("order"), 5,
                                octets_of(GOOD), GOOD_LENGTH));
    CHECK(!derguard_passes_from(policy, octets_of("*"), 1, octets_of("south"), 5, octets_of("order"), 5,
                                octets_of(GOOD), GOOD_LENGTH));
    CHECK(derguard_verdict_from(policy, octets_of("*"), 1, octets_of("south"), 5, octets_of("order"), 5,
                                octets_of(GOOD), GOOD_LENGTH, out, 40, &needed) == DERGUARD_BAD_NAMES);
    verdict_is(policy, GOOD, GOOD_LENGTH, "pass");
    verdict_is(policy, GREAT, GREAT_LENGTH, "not-allowed small Orders:8:45 $.qty");
    verdict_is(policy, "", 0, "undecodable Truncated at 0 $");
}

/* ---- four threads ask one policy, which outlives the handle that loaded it */

static void *judge(void *handle) {
    for (int i = 0; i < 20000; i++) {
        CHECK(passes(handle, NAMES, GOOD, GOOD_LENGTH));
        CHECK(!passes(handle, NAMES, GREAT, GREAT_LENGTH));
    }
    derguard_free(handle);
    return NULL;
}

static void threads(derguard_policy *policy) {
    pthread_t threads[4];
    derguard_policy handles[4] = {DERGUARD_EMPTY, DERGUARD_EMPTY, DERGUARD_EMPTY, DERGUARD_EMPTY};
    for (int i = 0; i < 4; i++)
        CHECK(derguard_share(policy, &handles[i]) == DERGUARD_OK);
    for (int i = 0; i < 4; i++)
        CHECK(pthread_create(&threads[i], NULL, judge, &handles[i]) == 0);
    derguard_free(policy);
    for (int i = 0; i < 4; i++)
        CHECK(pthread_join(threads[i], NULL) == 0 && !handles[i].at);
}

/* ---- links */

/* What came out of a link, and what it reported. */
static uint8_t *sent, *told;
static size_t sent_length, told_length;

static uint32_t feed(derguard_policy *policy, derguard_link *link, const uint8_t *octets, size_t length, size_t held) {
    size_t room = held + length, written = 99;
    uint8_t *piece = malloc(length ? length : 1), *out = malloc(room ? room : 1);
    if (length)
        memcpy(piece, octets, length);
    uint32_t status =
        derguard_link_feed(policy, link, length ? piece : NULL, length, room ? out : NULL, room, &written);
    CHECK(written <= room);
    if (status == DERGUARD_TOO_SMALL)
        CHECK(written == 0);
    memcpy(sent + sent_length, out, written);
    sent_length += written;
    free(piece);
    free(out);
    return status;
}

static void fetch(derguard_link *link, size_t room) {
    uint8_t *out = malloc(room ? room : 1);
    size_t needed = 0;
    uint32_t status = derguard_link_reports(link, room ? out : NULL, room, &needed);
    CHECK(status == (needed <= room ? DERGUARD_OK : DERGUARD_TOO_SMALL));
    if (status == DERGUARD_OK) {
        memcpy(told + told_length, out, needed);
        told_length += needed;
    }
    free(out);
}

/* The octets of the frame that has begun after so many octets of the stream. */
static size_t pending(derguard_octets stream, size_t at) {
    size_t begin = 0;
    for (;;) {
        if (at - begin < 4)
            return at - begin;
        const uint8_t *l = stream.octets + begin;
        size_t end = begin + 4 + (((size_t)l[0] << 24) | ((size_t)l[1] << 16) | ((size_t)l[2] << 8) | l[3]);
        if (at < end)
            return at - begin;
        begin = end;
    }
}

/* A stream cut into pieces of `step` octets, the first one of `first`, gives what the program gives. */
static void cut(derguard_policy *policy, derguard_octets stream, derguard_octets out, derguard_octets reports,
                size_t first, size_t step) {
    derguard_link link = DERGUARD_EMPTY;
    CHECK(derguard_link_open(&link) == DERGUARD_OK);
    sent_length = told_length = 0;
    for (size_t at = 0, length = first; at < stream.length; at += length, length = step) {
        length = length < stream.length - at ? length : stream.length - at;
        size_t held = pending(stream, at);
        if (held + length > 0) /* one octet of room less is too little, and does nothing */
            CHECK(feed(policy, &link, stream.octets + at, length, held - 1) == DERGUARD_TOO_SMALL);
        CHECK(feed(policy, &link, stream.octets + at, length, held) == DERGUARD_OK);
        if (at % 3 == 0)
            fetch(&link, at % 50);
    }
    CHECK(derguard_link_end(&link) == DERGUARD_OK && derguard_link_end(&link) == DERGUARD_CLOSED);
    CHECK(feed(policy, &link, octets_of("x"), 1, 0) == DERGUARD_CLOSED);
    fetch(&link, 1 << 16);
    CHECK(sent_length == out.length && !memcmp(sent, out.octets, out.length));
    CHECK(told_length == reports.length && !memcmp(told, reports.octets, reports.length));
    derguard_link_free(&link);
}

static void links(derguard_policy *policy, char **words) {
    derguard_octets stream = file_of(words[1]), out = file_of(words[2]), reports = file_of(words[3]);
    sent = malloc(stream.length + 4096);
    told = malloc(1 << 16);
    for (size_t first = 0; first <= stream.length; first++)
        cut(policy, stream, out, reports, first, stream.length);
    for (size_t step = 1; step < 9; step++)
        cut(policy, stream, out, reports, step, step);

    derguard_link link = DERGUARD_EMPTY;
    CHECK(derguard_link_open(&link) == DERGUARD_OK);
    CHECK(feed(policy, &link, stream.octets, 5, 0) == DERGUARD_OK);
    CHECK(derguard_link_end(&link) == DERGUARD_TORN_FRAME && derguard_link_end(&link) == DERGUARD_CLOSED);
    CHECK(derguard_link_open(&link) == DERGUARD_OK);
    CHECK(feed(policy, &link, octets_of("\0\x10\0\1"), 4, 0) == DERGUARD_FRAME_TOO_LONG);
    CHECK(feed(policy, &link, NULL, 0, 0) == DERGUARD_CLOSED);
    derguard_link_free(&link);
    free(sent);
    free(told);
    drop(stream);
    drop(out);
    drop(reports);
}

int main(int count, char **words) {
    CHECK(count == 4);
    derguard_policy policy = DERGUARD_EMPTY;
    version();
    handles();
    loads(&policy);
    asks(&policy);
    links(&policy, words);
    threads(&policy);
    CHECK(!policy.at);
    return 0;
}
