/* Each call once, with each answer that one thread can get where there is memory. */
#include "stabby.h"
#include <stdio.h>
#include <string.h>

static int failures;

static void expect(int holds, const char *what, int line) {
    if (!holds) {
        fprintf(stderr, "calls.c:%d: %s\n", line, what);
        failures++;
    }
}
#define EXPECT(fact) expect((fact), #fact, __LINE__)

static void numbers_and_entries(stabby_client *client, stabby_client *other) {
    uint64_t number = 9, words[4] = {1, 2, 3, 4}, found[3] = {7, 7, 7};
    size_t length = 9;
    EXPECT(stabby_client_try_insert(client, words, 4, &number) == STABBY_DONE && number == 0);
    EXPECT(stabby_client_try_insert(other, words, 0, &number) == STABBY_DONE && number == 1);
    EXPECT(stabby_client_try_insert(other, words, 4, &number) == STABBY_DONE && number == 0);
    EXPECT(stabby_client_count(client) == 2);
    EXPECT(stabby_client_try_entry(client, 2, found, 3, &length) == STABBY_ABSENT && length == 9 && found[0] == 7);
    EXPECT(stabby_client_try_entry(client, 0, found, 3, &length) == STABBY_DONE && length == 4);
    EXPECT(found[0] == 1 && found[1] == 2 && found[2] == 3);
    EXPECT(stabby_client_try_entry(client, 1, found, 3, &length) == STABBY_DONE && length == 0 && found[0] == 1);
}

static void batches(stabby_client *client) {
    uint64_t words[6] = {5, 1, 2, 3, 4, 5}, numbers[4] = {9, 9, 9, 9};
    size_t lengths[4] = {1, 4, 0, 1}, done = 9;
    EXPECT(stabby_client_try_insert_all(client, words, 5, lengths, 4, numbers, 4, &done) == STABBY_MALFORMED);
    EXPECT(done == 0 && numbers[0] == 9 && stabby_client_count(client) == 2);
    EXPECT(stabby_client_try_insert_all(client, words, 6, lengths, 4, numbers, 3, &done) == STABBY_MALFORMED);
    lengths[1] = SIZE_MAX;
    EXPECT(stabby_client_try_insert_all(client, words, 6, lengths, 4, numbers, 4, &done) == STABBY_MALFORMED);
    lengths[1] = 4;
    EXPECT(stabby_client_try_insert_all(client, words, 6, lengths, 4, numbers, 4, &done) == STABBY_DONE);
    EXPECT(done == 4 && numbers[0] == 2 && numbers[1] == 0 && numbers[2] == 1 && numbers[3] == 2);
    EXPECT(stabby_client_count(client) == 3);
}

static void splits_and_joins(stabby_client *client) {
    const uint64_t whole = (uint64_t)1 << 32;
    stabby_client part = {NULL}, foreign = {NULL}, twin = {NULL};
    EXPECT(stabby_client_weight(client) == whole);
    EXPECT(stabby_client_split(client, 0, &part.at) == STABBY_LIGHT && part.at == NULL);
    EXPECT(stabby_client_split(client, whole, &part.at) == STABBY_LIGHT && part.at == NULL);
    EXPECT(stabby_client_split(client, whole - 1, &part.at) == STABBY_DONE);
    EXPECT(stabby_client_weight(client) == 1 && stabby_client_weight(&part) == whole - 1);
    EXPECT(stabby_client_split(client, 1, &foreign.at) == STABBY_LIGHT);
    numbers_and_entries(client, &part);
    batches(&part);
    /* A client of another registry, and one of a registry that was wrongly given the same number. */
    EXPECT(stabby_client_new(2, &foreign.at) == STABBY_DONE);
    EXPECT(stabby_client_join(&part, foreign) == STABBY_FOREIGN);
    EXPECT(stabby_client_count(&foreign) == 0 && stabby_client_count(&part) == 3);
    EXPECT(stabby_client_new(1, &twin.at) == STABBY_DONE);
    EXPECT(stabby_client_join(&part, twin) == STABBY_FOREIGN);
    EXPECT(stabby_client_count(&twin) == 0 && stabby_client_weight(&part) == whole - 1);
    stabby_client_free(foreign);
    stabby_client_free(twin);
    EXPECT(stabby_client_join(client, part) == STABBY_DONE);
    EXPECT(stabby_client_weight(client) == whole && stabby_client_count(client) == 3);
}

int main(void) {
    stabby_client client;
    EXPECT(stabby_client_new(1, &client.at) == STABBY_DONE);
    splits_and_joins(&client);
    stabby_client_free(client);
    printf("%d failures\n", failures);
    return failures != 0;
}
