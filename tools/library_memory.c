/* library_memory
 *
 * Two nodes of the C library go through each kind of call. It is done again and again, with the
 * first allocation made to fail, then the second, and so on: the call in which one fails ends with
 * the code of that, a node that it may have changed does nothing more, and once the nodes are
 * closed no memory is kept. Linked with malloc, realloc and free wrapped. */
#include "answers.h"

void *__real_malloc(size_t size);
void *__real_realloc(void *at, size_t size);
void __real_free(void *at);

/* How many allocations succeed before one fails; and how many blocks there are, while the library
 * works. */
static long left, live;
static int is_in_library, has_failed;

static int fails(void) {
    if (!is_in_library || has_failed)
        return 0;
    if (left-- > 0)
        return 0;
    has_failed = 1;
    return 1;
}

void *__wrap_malloc(size_t size) {
    if (fails())
        return NULL;
    void *at = __real_malloc(size);
    live += is_in_library && at;
    return at;
}

void *__wrap_realloc(void *at, size_t size) {
    if (fails())
        return NULL;
    void *moved = __real_realloc(at, size);
    live += is_in_library && !at && moved;
    return moved;
}

void __wrap_free(void *at) {
    live -= is_in_library && at;
    __real_free(at);
}

static const char HEADER[] = "ndc 1\nincrement 10\nshards 1\nlimit 100\ncluster A 1\ncluster B 2\n";

static const ndc_bounds BOUNDS = {1048576, 100, 100, 10};

/* Makes a call inside of the library. */
#define CALL(call) (is_in_library = 1, code = (call), is_in_library = 0, code)

/* A call on a node that may change it; ends the round where an allocation fails. */
#define TRY(node, may_change, call)                                                                \
    do {                                                                                           \
        if (CALL(call) == NDC_MEMORY) {                                                            \
            check_spent(node, may_change);                                                         \
            return 0;                                                                              \
        }                                                                                          \
        if (code != NDC_DONE)                                                                      \
            stop("a call has another code", code);                                                 \
    } while (0)

static int32_t code;

/* After a call ran out of memory. */
static void check_spent(ndc_node *node, int may_change) {
    uint64_t len;
    if (!has_failed)
        stop("memory ran out, and no allocation failed", code);
    if (may_change && node->at &&
        CALL(ndc_line(node, (const uint8_t *)"trim", 4, &len)) != NDC_SPENT)
        stop("a node that ran out of memory goes on", code);
}

/* A line at a node. */
static int do_line(ndc_node *node, struct bytes *answer, const char *line, int may_change) {
    uint64_t len;
    TRY(node, may_change, ndc_line(node, (const uint8_t *)line, strlen(line), &len));
    fetch(node, answer, len);
    return 1;
}

/* What one node says to another one is heard there, and what is answered is heard back. */
static int tell(ndc_node *from, ndc_node *to, const char *name, struct bytes *answer) {
    uint64_t len;
    struct bytes said = {NULL, 0, 0}, back = {NULL, 0, 0};
    size_t place = 0, text_len;
    const uint8_t *text;
    int is_done = 0;
    if (CALL(ndc_ask(from, (const uint8_t *)name, 1, &len)) == NDC_DONE) {
        fetch(from, &said, len);
        is_done = 1;
    }
    while (is_done && (text = line_with(&said, &place, "frame ", &text_len))) {
        is_done = CALL(ndc_hear(to, text, text_len, &len)) == NDC_DONE;
        if (is_done)
            fetch(to, answer, len);
        size_t place_back = 0;
        back.len = 0;
        push(&back, answer->at, answer->len);
        const uint8_t *next;
        while (is_done && (next = line_with(&back, &place_back, "frame ", &text_len))) {
            is_done = CALL(ndc_hear(from, next, text_len, &len)) == NDC_DONE;
            if (is_done)
                fetch(from, answer, len);
        }
    }
    free(said.at);
    free(back.at);
    if (!is_done && (code != NDC_MEMORY || !has_failed))
        stop("a frame has another code", code);
    return is_done;
}

/* All units of a node, one after the other. */
static int keep(ndc_node *node, struct bytes *answer, struct bytes *kept) {
    for (;;) {
        uint64_t unit, len;
        TRY(node, 0, ndc_changes(node, &unit, &len));
        if (len == 0)
            return 1;
        fetch(node, answer, len);
        push(kept, answer->at, answer->len);
        TRY(node, 0, ndc_stored(node, unit));
    }
}

/* Each kind of call: whether all were done. */
static int go_through(ndc_node *a, ndc_node *b, struct bytes *answer, struct bytes *kept) {
    static const char *const writes[] = {"register D A 7 A B", "start D w order", "signal D w s x",
                                         "decide D w", "retain D 9"};
    static const char *const reads[] = {"dump D w", "status", "letters", "gaps", "branches D w"};
    uint64_t len, unit, dropped, line;
    TRY(a, 0,
        ndc_open(a, (const uint8_t *)HEADER, sizeof HEADER - 1, (const uint8_t *)"A", 1, &BOUNDS));
    TRY(b, 0,
        ndc_open(b, (const uint8_t *)HEADER, sizeof HEADER - 1, (const uint8_t *)"B", 1, &BOUNDS));
    TRY(a, 0, ndc_store(a, &unit, &len));
    fetch(a, answer, len);
    push(kept, answer->at, answer->len);
    for (size_t place = 0; place < sizeof writes / sizeof *writes; place++)
        if (!do_line(a, answer, writes[place], 1))
            return 0;
    if (!tell(b, a, "A", answer) || !tell(a, b, "B", answer) || !tell(b, a, "A", answer))
        return 0;
    if (!do_line(b, answer, "failover D B", 1) || !do_line(a, answer, "signal D w lost x", 1) ||
        !do_line(b, answer, "signal D w kept x", 1))
        return 0;
    if (!tell(a, b, "B", answer) || !tell(b, a, "A", answer) || !do_line(b, answer, "reapply", 1) ||
        !do_line(a, answer, "trim", 1))
        return 0;
    for (size_t place = 0; place < sizeof reads / sizeof *reads; place++)
        if (!do_line(b, answer, reads[place], 0))
            return 0;
    if (!keep(a, answer, kept))
        return 0;
    is_in_library = 1;
    ndc_close(a);
    is_in_library = 0;
    TRY(a, 0, ndc_load(a, kept->at, kept->len, &BOUNDS, &dropped, &line));
    return 1;
}

int main(void) {
    for (long number = 0;; number++) {
        ndc_node a = {0}, b = {0};
        struct bytes answer = {NULL, 0, 0}, kept = {NULL, 0, 0};
        left = number;
        live = 0;
        has_failed = 0;
        int is_done = go_through(&a, &b, &answer, &kept);
        is_in_library = 1;
        ndc_close(&a);
        ndc_close(&b);
        is_in_library = 0;
        free(answer.at);
        free(kept.at);
        if (live != 0)
            stop("memory is kept", (int32_t)live);
        if (is_done && !has_failed) {
            printf("each of %ld allocations made to fail: its code is told, and nothing is kept\n",
                   number);
            return 0;
        }
    }
}
