/* Bytes that grow, and the lines of an answer. What can't go on ends the program. */
#ifndef ANSWERS_H
#define ANSWERS_H

#include "ndc.h"

#include <inttypes.h>
#include <stdio.h>
#include <stdlib.h>
#include <string.h>

struct bytes {
    uint8_t *at;
    size_t len, room;
};

static inline void stop(const char *why, int32_t code) {
    uint8_t words[100];
    uint64_t len = 0;
    ndc_words(code, words, sizeof words, &len);
    fprintf(stderr, "%s: %" PRId32 ", %.*s\n", why, code, (int)len, (const char *)words);
    exit(1);
}

/* Memory for so many things of a size, with what is at a place. */
static inline void *room_for(void *at, size_t *room, size_t wanted, size_t size) {
    if (wanted <= *room)
        return at;
    *room = wanted * 2;
    at = realloc(at, *room * size);
    if (!at)
        stop("out of memory", NDC_MEMORY);
    return at;
}

static inline void push(struct bytes *to, const void *from, size_t len) {
    to->at = room_for(to->at, &to->room, to->len + len, 1);
    if (len > 0)
        memcpy(to->at + to->len, from, len);
    to->len += len;
}

/* Fetches a node's answer of this length. */
static inline void fetch(ndc_node *node, struct bytes *answer, uint64_t len) {
    answer->len = 0;
    answer->at = room_for(answer->at, &answer->room, len, 1);
    int32_t code = ndc_reply(node, answer->at, len, &len);
    if (code != NDC_DONE)
        stop("an answer is not fetched", code);
    answer->len = len;
}

/* Appends the units that are not stored to what was kept, and lets go of them: whether there was
 * one. */
static inline int keep_units(ndc_node *node, struct bytes *kept) {
    struct bytes text = {NULL, 0, 0};
    int count = 0;
    for (;; count++) {
        uint64_t unit, len;
        int32_t code = ndc_changes(node, &unit, &len);
        if (code != NDC_DONE)
            stop("a unit is not told", code);
        if (len == 0)
            break;
        fetch(node, &text, len);
        push(kept, text.at, text.len);
        if (ndc_stored(node, unit) != NDC_DONE)
            stop("a unit is not let go", NDC_REFUSED);
    }
    free(text.at);
    return count > 0;
}

/* Appends the whole node to what was kept. */
static inline void keep_store(ndc_node *node, struct bytes *kept) {
    struct bytes text = {NULL, 0, 0};
    uint64_t unit, len;
    int32_t code = ndc_store(node, &unit, &len);
    if (code != NDC_DONE)
        stop("the node is not stored", code);
    fetch(node, &text, len);
    push(kept, text.at, text.len);
    free(text.at);
}

/* The first line from a place on that begins with these words: what follows them; the place is then
 * after the line. NULL where there is no such line. */
static inline const uint8_t *line_with(const struct bytes *text, size_t *place, const char *words,
                                       size_t *len) {
    size_t count = strlen(words);
    while (*place < text->len) {
        const uint8_t *line = text->at + *place, *end = memchr(line, '\n', text->len - *place);
        size_t all = end ? (size_t)(end - line) : text->len - *place;
        *place += all + 1;
        if (all >= count && memcmp(line, words, count) == 0) {
            *len = all - count;
            return line + count;
        }
    }
    return NULL;
}

/* A number that is as good as one at random. */
static inline uint32_t next_random(uint64_t *state) {
    *state = *state * 6364136223846793005u + 1442695040888963407u;
    return (uint32_t)(*state >> 33);
}

#endif
