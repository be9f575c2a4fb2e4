/* A registry of tables, proved in Rattle (crates/stabby_c). A table is a list of 64-bit words. Equal tables get one
 * number, whichever thread asks first; numbers are 0, 1, 2 and so on, and no table ever loses its own.
 *
 * docs/CALLING_FROM_C.md says what of this is checked by a prover, and what rests on the caller.
 *
 * Clients. A client is one caller of a registry. `stabby_client_new` makes a registry and its first client, and
 * `stabby_client_split` further clients of the same registry. The registry lives as long as one of its clients does.
 *
 * Ownership. A `stabby_client` is an address that `new` or `split` wrote. It is yours until you give it to
 * `stabby_client_free`, or to `stabby_client_join` and that answers STABBY_DONE. Give each back once, and use none
 * after that. Its copies are the same client. What it points to is never read or written by you.
 *
 * Threads. Several threads may use one registry at once, each by a client of its own. A client may go to another
 * thread, but one call at a time uses it: order the calls by a lock, or by a thread's start and join. No call waits for
 * another thread, and none may be made from a signal handler, or in a child after fork from a process with threads.
 *
 * Pointers. No argument is null. Where a length is 0, its pointer is not read, and still isn't null. Two arguments of a
 * call never overlap, unless both are only read. Each is aligned as its type asks.
 *
 * Memory. The library calls malloc, realloc and free, by the three functions of the kit's liblibc_c.a, or of heap.c.
 */
#ifndef STABBY_H
#define STABBY_H
#include <stddef.h>
#include <stdint.h>
#ifdef __cplusplus
extern "C" {
#endif

struct stabby_opaque;

typedef struct {
    struct stabby_opaque *at;
} stabby_client;

/* What a call answers. */
enum {
    STABBY_DONE = 0,
    /* Memory could not be had. No table was added by this try. */
    STABBY_MEMORY = 1,
    /* Another client was inside a call on this registry at that moment. Try again; no table was added by this try.
     * It never comes while the registry has one client, which was never split or has all others joined to it. */
    STABBY_BUSY = 2,
    /* Another client added a table meanwhile. Try again; no table was added by this try. It never comes where
     * STABBY_BUSY never does. */
    STABBY_MOVED = 3,
    /* The table is new, and the registry has 2^63 - 1 tables. */
    STABBY_FULL = 4,
    /* No table has this number. */
    STABBY_ABSENT = 5,
    /* The two clients are of different registries. */
    STABBY_FOREIGN = 6,
    /* The weight isn't above 0 and below the client's. */
    STABBY_LIGHT = 7,
    /* The lengths of a batch don't add up to its words, or there are more lengths than places for numbers. */
    STABBY_MALFORMED = 8
};

/* An empty registry, which `number` names, and its first client, of weight 2^32, into out.
 *
 * `stabby_client_join` tells registries apart by their numbers: give no two registries that are alive the same one. A
 * count that goes up will do, and so will the address of something that lives as long as the registry.
 *
 * Answers DONE; or MEMORY, and `out` is as before. */
uint32_t stabby_client_new(uint64_t number, struct stabby_opaque **out);

/* A further client of the same registry into `out`, with this weight, which comes off `client`. Both have seen the
 * same tables. Weights are there to be cut: give 1 to a client that will not be split, and more to one that will.
 *
 * Answers DONE; LIGHT exactly where the weight is 0 or not below `client`'s; or MEMORY. Where it isn't DONE, `client`
 * weighs what it did, and `out` is as before. */
uint32_t stabby_client_split(stabby_client *client, uint64_t weight, struct stabby_opaque **out);

/* The client's weight: its part of the 2^32 of all clients of its registry. At least 1. */
uint64_t stabby_client_weight(stabby_client *client);

/* Puts `other` into `client`, which then has the weight of both and has seen what either had; `other` is used up.
 *
 * Answers DONE; or FOREIGN, exactly where the registries' numbers differ, or the two weigh more than 2^32 (so two
 * registries were given one number). Then both clients are as before, and `other` is still yours. */
uint32_t stabby_client_join(stabby_client *client, stabby_client other);

/* Ends a client; the last one of a registry ends the registry. */
void stabby_client_free(stabby_client client);

/* The number of the table of these `len` words into `number`, by one try. A table that the registry lacks is added at
 * the end, and its number is how many there were.
 *
 * Answers DONE, MEMORY, BUSY, MOVED or FULL. Where it isn't DONE, nothing was added, and `number` is as before. A table
 * that this client has seen is never added again. */
uint32_t stabby_client_try_insert(stabby_client *client, const uint64_t *words, size_t len, uint64_t *number);

/* The numbers of many tables, by one try for each, in order. The tables lie behind one another in `words`; the i-th has
 * `lengths[i]` words, and its number goes to `numbers[i]`.
 *
 * It stops at the first table that is refused. `done` is how many tables before it have their numbers: go on from there.
 *
 * Answers DONE, with `done` = `tables`; MALFORMED exactly where the lengths don't add up to `len` or `room` is below
 * `tables`, with nothing done; or MEMORY, BUSY, MOVED or FULL for the table `done`, which was not added. */
uint32_t stabby_client_try_insert_all(stabby_client *client, const uint64_t *words, size_t len, const size_t *lengths,
                                      size_t tables, uint64_t *numbers, size_t room, size_t *done);

/* How many tables the registry has. Those have the numbers below it. */
uint64_t stabby_client_count(stabby_client *client);

/* Copies the words of the table with this number to `words`, as many as there is `room` for, and puts into `length` how
 * many it has. Where `length` is more than `room`, call again with more.
 *
 * Answers DONE; ABSENT, where the number isn't below the count; BUSY or MEMORY. Where it isn't DONE, `words` and
 * `length` are as before. It takes time in the number of tables. */
uint32_t stabby_client_try_entry(stabby_client *client, uint64_t number, uint64_t *words, size_t room, size_t *length);

#ifdef __cplusplus
}
#endif
#endif
