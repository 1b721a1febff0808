/* What a reader under measurement gives to bench/peer.c. */
#include <stddef.h>

typedef struct { const unsigned char *octets; size_t end; } message;

/* 1 where it takes the message, else 0. */
typedef int reader(message);

/* The reader of a case of bench/run, or NULL where there is none. */
reader *reader_of(const char *name);
