/* Refuses each growth of memory in turn: of a load, a share, a verdict, a link and its pieces. Whatever fails, the
 * policy that was in force decides. The word is a file of frames. */
#include "common.h"

void *__real_malloc(size_t size);
void *__real_realloc(void *block, size_t size);

static long left = -1; /* growths before the one that is refused; none is where it is below 0 */

static bool refused(void) { return left >= 0 && left-- == 0; }
void *__wrap_malloc(size_t size) { return refused() ? NULL : __real_malloc(size); }
void *__wrap_realloc(void *block, size_t size) { return refused() ? NULL : __real_realloc(block, size); }

static derguard_octets module, text, stream;

/* How many of the calls of one turn found no memory. */
static int turn_of(long turn, bool *all) {
    derguard_policy policy = DERGUARD_EMPTY, other = DERGUARD_EMPTY;
    derguard_link link = DERGUARD_EMPTY;
    uint8_t out[40] = {9}, *frames = __real_malloc(stream.length);
    size_t needed = 99, told = 99, written = 99;
    static const char none[] = "modules = []\n";
    CHECK(derguard_load(&policy, NULL, 0, octets_of(none), sizeof none - 1, NULL, 0, &needed) == DERGUARD_OK);

    left = turn;
    uint32_t loaded = derguard_load(&policy, &module, 1, text.octets, text.length, NULL, 0, &needed);
    uint32_t said = derguard_verdict(&policy, octets_of(NAMES), NAMES_LENGTH, octets_of(GREAT), GREAT_LENGTH, out, 40,
                                     &told);
    uint32_t shared = derguard_share(&policy, &other);
    uint32_t opened = derguard_link_open(&link);
    uint32_t fed = derguard_link_feed(&policy, &link, stream.octets, stream.length, frames, stream.length, &written);
    *all = left >= 0;
    left = -1;

    CHECK(loaded == DERGUARD_OK || loaded == DERGUARD_OUT_OF_MEMORY);
    CHECK(said == DERGUARD_OK ? told > 0 : said == DERGUARD_OUT_OF_MEMORY && told == 0 && out[0] == 9);
    CHECK(shared == DERGUARD_OK ? other.at != NULL : shared == DERGUARD_OUT_OF_MEMORY && !other.at);
    CHECK(opened == DERGUARD_OK ? link.at != NULL : opened == DERGUARD_OUT_OF_MEMORY && !link.at);
    CHECK(fed == DERGUARD_OK || fed == DERGUARD_WRITE_FAILED || (fed == DERGUARD_NO_LINK && !link.at && written == 0));
    if (fed == DERGUARD_WRITE_FAILED)
        CHECK(derguard_link_end(&link) == DERGUARD_CLOSED);
    /* the policy that was in force lets nothing pass; the loaded one does */
    CHECK(derguard_passes(&policy, octets_of(NAMES), NAMES_LENGTH, octets_of(GOOD), GOOD_LENGTH) ==
          (loaded == DERGUARD_OK));
    CHECK(!derguard_passes(&policy, octets_of(NAMES), NAMES_LENGTH, octets_of(GREAT), GREAT_LENGTH));
    derguard_free(&policy);
    derguard_free(&other);
    derguard_link_free(&link);
    free(frames);
    return (loaded != DERGUARD_OK) + (said != DERGUARD_OK) + (shared != DERGUARD_OK) + (opened != DERGUARD_OK) +
           (fed == DERGUARD_WRITE_FAILED);
}

int main(int count, char **words) {
    CHECK(count == 2);
    module = file_of("examples/orders.asn1");
    text = file_of("examples/orders.toml");
    stream = file_of(words[1]);
    bool all = false, failed = false;
    long turn = 0;
    for (; !all; turn++) {
        int failures = turn_of(turn, &all);
        CHECK(failures <= 1 && !(all && failures));
        failed |= failures;
    }
    CHECK(failed && turn > 50);

    /* what asks whether a message passes takes no memory */
    derguard_policy policy = DERGUARD_EMPTY;
    CHECK(load_orders(&policy) == DERGUARD_OK);
    left = 0;
    CHECK(derguard_passes(&policy, octets_of(NAMES), NAMES_LENGTH, octets_of(GOOD), GOOD_LENGTH));
    CHECK(derguard_passes_from(&policy, octets_of("north"), 5, octets_of("south"), 5, octets_of("order"), 5,
                               octets_of(GOOD), GOOD_LENGTH));
    CHECK(left == 0);
    left = -1;
    derguard_free(&policy);
    drop(module);
    drop(text);
    drop(stream);
    return 0;
}
