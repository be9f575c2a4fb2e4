/* Two threads give the same tables their numbers, one table by table and one in batches, and agree. */
#include "stabby.h"
#include <pthread.h>
#include <sched.h>
#include <stdio.h>
#include <stdlib.h>

enum { TABLES = 700, BATCH = 7, ROUNDS = 20 };

struct worker {
    stabby_client client;
    uint64_t first; /* where in the tables this worker begins */
    uint64_t numbers[TABLES];
};

/* The table i: its words are i / 2 and i, or i alone. */
static size_t table(uint64_t i, uint64_t words[2]) {
    words[0] = i / 2;
    words[i % 2] = i;
    return 1 + i % 2;
}

static void stop(const char *call, uint32_t answer) {
    fprintf(stderr, "%s answered %u\n", call, (unsigned)answer);
    exit(1);
}

static void *one_by_one(void *at) {
    struct worker *worker = at;
    for (uint64_t k = 0; k < (uint64_t)TABLES * ROUNDS; k++) {
        uint64_t i = (worker->first + k) % TABLES, words[2];
        size_t len = table(i, words);
        for (;;) {
            uint32_t answer = stabby_client_try_insert(&worker->client, words, len, &worker->numbers[i]);
            if (answer == STABBY_DONE) break;
            if (answer == STABBY_BUSY) sched_yield();
            else if (answer != STABBY_MOVED) stop("try_insert", answer);
        }
    }
    return NULL;
}

static void *in_batches(void *at) {
    struct worker *worker = at;
    for (uint64_t k = 0; k < (uint64_t)TABLES * ROUNDS; k += BATCH) {
        uint64_t first = (worker->first + k) % TABLES;
        for (size_t gone = 0; gone < BATCH;) {
            /* the tables that have no number yet */
            uint64_t words[2 * BATCH], numbers[BATCH];
            size_t lengths[BATCH], len = 0, tables = BATCH - gone, done;
            for (size_t j = 0; j < tables; j++) {
                lengths[j] = table(first + gone + j, words + len);
                len += lengths[j];
            }
            uint32_t answer =
                stabby_client_try_insert_all(&worker->client, words, len, lengths, tables, numbers, tables, &done);
            for (size_t j = 0; j < done; j++) worker->numbers[first + gone + j] = numbers[j];
            gone += done;
            if (answer == STABBY_BUSY) sched_yield();
            else if (answer != STABBY_DONE && answer != STABBY_MOVED) stop("try_insert_all", answer);
        }
    }
    return NULL;
}

int main(void) {
    static struct worker one, other;
    pthread_t threads[2];
    uint32_t answer = stabby_client_new(1, &one.client.at);
    if (answer != STABBY_DONE) stop("new", answer);
    answer = stabby_client_split(&one.client, 1, &other.client.at);
    if (answer != STABBY_DONE) stop("split", answer);
    other.first = TABLES / 2;
    if (pthread_create(&threads[0], NULL, one_by_one, &one) != 0) return 1;
    if (pthread_create(&threads[1], NULL, in_batches, &other) != 0) return 1;
    pthread_join(threads[0], NULL);
    pthread_join(threads[1], NULL);

    uint64_t unequal = 0, wrong = 0, count = stabby_client_count(&one.client);
    for (uint64_t i = 0; i < TABLES; i++) {
        uint64_t expected[2], words[2] = {0, 0};
        size_t len = table(i, expected), length = 0;
        if (one.numbers[i] != other.numbers[i]) unequal++;
        answer = stabby_client_try_entry(&other.client, one.numbers[i], words, 2, &length);
        if (answer != STABBY_DONE || length != len || words[0] != expected[0]) wrong++;
        else if (len == 2 && words[1] != expected[1]) wrong++;
    }
    answer = stabby_client_join(&one.client, other.client);
    if (answer != STABBY_DONE) stop("join", answer);
    printf("%llu tables, %llu unequal numbers, %llu wrong entries, weight %llu\n", (unsigned long long)count,
           (unsigned long long)unequal, (unsigned long long)wrong,
           (unsigned long long)stabby_client_weight(&one.client));
    stabby_client_free(one.client);
    return count != TABLES || unequal != 0 || wrong != 0;
}
