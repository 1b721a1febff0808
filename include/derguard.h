/* derguard as a library: which messages of a link may pass under a written policy, and why another one is stopped.
 *
 * A program keeps two kinds of handles in its own storage: a policy, and a link, which is one stream of frames. Each
 * begins as DERGUARD_EMPTY, and every call takes the address of one.
 *
 *     derguard_policy policy = DERGUARD_EMPTY;
 *     if (derguard_load(&policy, modules, count, text, length, fault, sizeof fault, &needed) != DERGUARD_OK) ..
 *     if (derguard_passes(&policy, names, names_length, message, message_length)) ..
 *     derguard_free(&policy);
 *
 * What is proved, for every content of every buffer and every order of calls: what each call answers and leaves in
 * handles, buffers, `*needed` and `*written`, as it is said beside the call, and that no call reads or writes anywhere
 * else. What is only tested: the numbers and names of this header, the texts of faults, that no memory is taken where
 * it is said to be so, and what is said of null below. The calls ask this of their caller, and don't check it:
 *
 *   - The address of a handle, `needed` and `written` are never null.
 *   - A handle is read and written by these calls alone. It isn't copied: derguard_share makes one more of the same
 *     policy. To move one, copy it and set the old one to DERGUARD_EMPTY.
 *   - One call at a time uses a handle. Another thread may use it later, if a lock, the start or end of a thread, or an
 *     atomic access that is sequentially consistent lies between. Threads that ask one policy at the same time each
 *     have a handle of their own, made by derguard_share; what the policy takes of memory is there once. A link belongs
 *     to one thread at a time.
 *   - Octets are a pointer and their number, and so are modules. The pointer may be null where the number is 0: no call
 *     reads or writes at such a pointer, or compares it. The proofs speak of places in memory, and null is none, so this
 *     is tested: with each such pointer null, under sanitizers and valgrind. What a call reads isn't written meanwhile,
 *     and no two things that a call writes overlap, nor does one overlap what it reads.
 *   - malloc, realloc and free come from one allocator, and its blocks are aligned as C11 asks.
 *   - No call is made from a signal handler, nor in the child of a fork of a process with threads before it runs
 *     another program.
 *
 * Every call is allowed for every handle. An empty policy lets nothing pass, and a link in place of a policy, or a
 * policy in place of a link, is taken for an empty handle. No call waits, and none reads or writes a file.
 *
 * A call that gives a text or frames puts them at the front of a buffer of the caller, with no zero after them.
 * `*needed` is how many octets they are in all, 0 where there are none; what lies behind them in the buffer stays as
 * it was. Where they are too long for the buffer, as much of them as fits is there, and the call answers
 * DERGUARD_TOO_SMALL.
 */
#ifndef DERGUARD_H
#define DERGUARD_H

#include <stdbool.h>
#include <stddef.h>
#include <stdint.h>

#ifdef __cplusplus
extern "C" {
#endif

/* A policy, or none. */
typedef struct derguard_policy {
    void *at;
} derguard_policy;

/* A link, or none: a stream of frames, and the report lines of those that stayed. */
typedef struct derguard_link {
    void *at;
} derguard_link;

#define DERGUARD_EMPTY {0}

/* Octets, and how many they are. */
typedef struct derguard_octets {
    const uint8_t *octets;
    size_t length;
} derguard_octets;

/* How a call ends. A call answers only those that are named with it. */
enum derguard_status {
    DERGUARD_OK = 0,             /* what was asked for is done */
    DERGUARD_REFUSED = 1,        /* the texts say no policy */
    DERGUARD_OUT_OF_MEMORY = 2,  /* memory ran out, and nothing was done */
    DERGUARD_NO_POLICY = 3,      /* the handle holds no policy */
    DERGUARD_NO_LINK = 4,        /* the handle holds no link */
    DERGUARD_BAD_NAMES = 5,      /* the names are no route */
    DERGUARD_TOO_SMALL = 6,      /* the buffer is too short */
    DERGUARD_FRAME_TOO_LONG = 7, /* a frame's body is longer than 1,048,576 octets; the link is closed */
    DERGUARD_WRITE_FAILED = 8,   /* memory ran out for what a piece adds, and the link is closed */
    DERGUARD_CLOSED = 9,         /* the link was closed before */
    DERGUARD_TORN_FRAME = 10     /* the stream ended within a frame */
};

/* The version of the library, as "0.1.0". Answers DERGUARD_OK or DERGUARD_TOO_SMALL. */
uint32_t derguard_version(uint8_t *out, size_t out_length, size_t *needed);

/* ---- policies */

/* Loads the policy that `text` says over the ASN.1 modules that the other texts are, one module each, in place of what
 * the handle held. The texts are those of the files that the program reads. The policy's key `modules` must be there,
 * as a list of texts; which files it names makes no difference.
 *
 * DERGUARD_OK: the handle holds the policy.
 * DERGUARD_REFUSED: the texts say none. `fault` has the text of their first fault, the modules' before the policy's, as
 *     the program prints it after "derguard: ", with its number and place; as much of it as fits, and `*needed` is how
 *     long it is.
 * DERGUARD_OUT_OF_MEMORY may be answered for any texts.
 *
 * Unless it answers DERGUARD_OK, the handle holds what it held: a policy that is in force stays in force. */
uint32_t derguard_load(derguard_policy *policy, const derguard_octets *modules, size_t modules_length,
                       const uint8_t *text, size_t text_length, uint8_t *fault, size_t fault_length, size_t *needed);

/* Whether a message passes. `names` are as they lie in a frame's header: the sender, the receiver and the message's
 * name, each after one octet with its length. True exactly if a policy is held, the three are names (1 to 63 letters,
 * digits, '-', '_' and '.') with nothing after them, and the message is the DER encoding of a value of its declared
 * type that some rule of that route allows and none denies. It takes no memory. */
bool derguard_passes(derguard_policy *policy, const uint8_t *names, size_t names_length, const uint8_t *message,
                     size_t message_length);

/* Whether a message passes, of a sender, a receiver and a name that lie anywhere. It takes no memory. */
bool derguard_passes_from(derguard_policy *policy, const uint8_t *sender, size_t sender_length,
                          const uint8_t *receiver, size_t receiver_length, const uint8_t *name, size_t name_length,
                          const uint8_t *message, size_t message_length);

/* The text of the verdict on a message, as in a report: "pass", or why it is stopped. The names are as derguard_passes
 * takes them.
 *
 * DERGUARD_OK, DERGUARD_TOO_SMALL: the text is in `out`, all of it or as much as fits.
 * DERGUARD_NO_POLICY, DERGUARD_BAD_NAMES, DERGUARD_OUT_OF_MEMORY: `out` stays as it was. */
uint32_t derguard_verdict(derguard_policy *policy, const uint8_t *names, size_t names_length, const uint8_t *message,
                          size_t message_length, uint8_t *out, size_t out_length, size_t *needed);

/* The text of the verdict on a message, as derguard_verdict gives it, of a sender, a receiver and a name that lie anywhere. */
uint32_t derguard_verdict_from(derguard_policy *policy, const uint8_t *sender, size_t sender_length,
                               const uint8_t *receiver, size_t receiver_length, const uint8_t *name,
                               size_t name_length, const uint8_t *message, size_t message_length, uint8_t *out,
                               size_t out_length, size_t *needed);

/* Has `other` hold the policy that `policy` holds, in place of what it held. The two are different handles.
 *
 * DERGUARD_OK: both hold it.
 * DERGUARD_NO_POLICY, DERGUARD_OUT_OF_MEMORY: `other` stays as it was. */
uint32_t derguard_share(derguard_policy *policy, derguard_policy *other);

/* Empties a handle. The policy is freed with the last handle that holds it. An empty handle stays empty. */
void derguard_free(derguard_policy *policy);

/* ---- links */

/* Opens a new link, in place of what the handle held: it has had no octets yet, and its frames are numbered from 1.
 *
 * DERGUARD_OK: the handle holds it. It takes memory for the longest frame, 1 MiB and four octets.
 * DERGUARD_OUT_OF_MEMORY: the handle stays as it was. */
uint32_t derguard_link_open(derguard_link *link);

/* Feeds a link the next octets of its stream, cut anywhere, under the policy that is held now. The frames whose last
 * octet is among them and that pass come into `out`, in their order, each as it came in; for each other one a report
 * line, as the program's, stands with the link from then on. `*written` is how many octets came into `out`.
 *
 * DERGUARD_OK: all of the piece is taken.
 * DERGUARD_TOO_SMALL: nothing is done, since `out` has fewer octets than the link holds of a frame that isn't whole and
 *     the piece together; that is at most 1,048,579 and the length of the piece.
 * DERGUARD_FRAME_TOO_LONG, DERGUARD_WRITE_FAILED: the link is closed. Of the frames before the fault those that pass are
 *     in `out`, and the others have their lines. After DERGUARD_WRITE_FAILED the last frame in `out`, or the last line,
 *     may be there in part.
 * DERGUARD_CLOSED, DERGUARD_NO_LINK, DERGUARD_NO_POLICY: nothing is done. */
uint32_t derguard_link_feed(derguard_policy *policy, derguard_link *link, const uint8_t *piece, size_t piece_length,
                            uint8_t *out, size_t out_length, size_t *written);

/* Fetches the report lines that weren't fetched before, each with its line feed. They stay with the link also once it
 * is closed.
 *
 * DERGUARD_OK: all of them are in `out`, and the link has them no more.
 * DERGUARD_TOO_SMALL: the link has all of them still; `out` has as much of them as fits.
 * DERGUARD_NO_LINK: `out` stays as it was. */
uint32_t derguard_link_reports(derguard_link *link, uint8_t *out, size_t out_length, size_t *needed);

/* Says that the stream of a link has ended. The link is closed then.
 *
 * DERGUARD_OK: it ended with a frame, or had none.
 * DERGUARD_TORN_FRAME: it ended within a frame.
 * DERGUARD_CLOSED: the link was closed before. DERGUARD_NO_LINK: there is none. */
uint32_t derguard_link_end(derguard_link *link);

/* Empties a handle, and frees the link with the lines that weren't fetched. An empty handle stays empty. */
void derguard_link_free(derguard_link *link);

#ifdef __cplusplus
}
#endif

#endif
