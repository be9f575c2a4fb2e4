/* Each allocation of a run of calls fails in turn: the call answers STABBY_MEMORY, nothing changes, and nothing is
 * leaked. The heap of this program is its own. */
#include "stabby.h"
#include <stdio.h>
#include <stdlib.h>

struct tried {
    size_t ok;
    void *at;
};

static char none;
static long blocks;   /* how many are out */
static long left = -1; /* how many allocations succeed until one fails; below 0: all do */

static int refuses(void) {
    return left >= 0 && left-- == 0;
}

struct tried rattle_alloc(size_t size, size_t align) {
    if (refuses()) return (struct tried){0, &none};
    void *at = malloc(size != 0 ? size : align);
    blocks += at != NULL;
    return (struct tried){at != NULL, at != NULL ? at : &none};
}

struct tried rattle_realloc(void *at, size_t old_size, size_t size, size_t align) {
    (void)old_size;
    if (refuses()) return (struct tried){0, &none};
    void *moved = realloc(at, size != 0 ? size : align);
    return (struct tried){moved != NULL, moved != NULL ? moved : &none};
}

void rattle_dealloc(void *at) {
    blocks--;
    free(at);
}

/* Runs the calls with the n-th allocation failing. Whether one did; -1 where something else went wrong. */
static int run(long n) {
    stabby_client client = {NULL}, part = {NULL};
    uint64_t words[3] = {1, 2, 3}, numbers[2] = {9, 9}, found[3];
    size_t lengths[2] = {1, 2}, done = 0, length = 0;
    left = n;
    uint32_t answer = stabby_client_new(1, &client.at);
    if (answer == STABBY_MEMORY) return client.at == NULL && blocks == 0 ? 1 : -1;
    if (answer != STABBY_DONE) return -1;
    int failed = 0, wrong = 0;
    answer = stabby_client_split(&client, 5, &part.at);
    if (answer == STABBY_MEMORY) {
        failed++;
        wrong |= part.at != NULL || stabby_client_weight(&client) != (uint64_t)1 << 32;
    } else wrong |= answer != STABBY_DONE;
    answer = stabby_client_try_insert_all(&client, words, 3, lengths, 2, numbers, 2, &done);
    if (answer == STABBY_MEMORY) {
        failed++;
        wrong |= done >= 2 || numbers[done] != 9 || stabby_client_count(&client) != done;
    } else wrong |= answer != STABBY_DONE || done != 2 || numbers[0] != 0 || numbers[1] != 1;
    answer = stabby_client_try_entry(&client, 0, found, 3, &length);
    if (answer == STABBY_MEMORY) failed++;
    else wrong |= answer != (done > 0 ? STABBY_DONE : STABBY_ABSENT) || (done > 0 && (length != 1 || found[0] != 1));
    if (part.at != NULL) wrong |= stabby_client_join(&client, part) != STABBY_DONE;
    wrong |= stabby_client_weight(&client) != (uint64_t)1 << 32;
    stabby_client_free(client);
    return wrong || failed > 1 || blocks != 0 ? -1 : failed;
}

int main(void) {
    long n = 0;
    for (;; n++) {
        int failed = run(n);
        if (failed < 0) {
            fprintf(stderr, "allocation %ld: wrong, %ld blocks are out\n", n, blocks);
            return 1;
        }
        if (failed == 0) break;
    }
    printf("%s allocations failed in turn, %ld blocks left\n", n > 8 ? "many" : "few", blocks);
    return n <= 8;
}
