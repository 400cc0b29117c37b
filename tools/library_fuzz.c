/* library_fuzz COUNT SEED
 *
 * Nodes of the C library in small networks: lines that are given to them and frames that they hear
 * are changed at random, in what they say and in their bytes. Each call must end with one of its
 * codes; each node must be loaded from what was kept of it, with the same dumps, and what was kept,
 * changed at random, must be loaded or refused. Prints how many changed lines and frames there
 * were, and how many of them changed a node. */
#include "answers.h"

enum { NODES = 3, PER_NETWORK = 150, WORKFLOWS = 3 };

static const char HEADER[] =
    "ndc 1\nincrement 10\nshards 2\nlimit 1000\ncluster A 1\ncluster B 2\ncluster C 3\n";

static const ndc_bounds BOUNDS = {1048576, 100, 100, 100};

static uint64_t state;

/* One network: its nodes, what was kept of each, and its last answer. */
struct network {
    ndc_node nodes[NODES];
    struct bytes kept[NODES];
    struct bytes answer;
};

static struct {
    size_t changed_inputs, changed_nodes, frames, lines, refused, loads, refused_loads;
} counts;

static uint32_t below(uint32_t most) {
    return next_random(&state) % most;
}

/* Puts bytes in the place of others. */
static void replace(struct bytes *text, size_t place, size_t len, const void *with,
                    size_t with_len) {
    struct bytes rest = {NULL, 0, 0};
    push(&rest, text->at + place + len, text->len - place - len);
    text->len = place;
    push(text, with, with_len);
    push(text, rest.at, rest.len);
    free(rest.at);
}

static int is_digit(uint8_t byte) {
    return byte >= '0' && byte <= '9';
}

/* A place in a text: mostly in what a frame says, before the parts that are the same in each frame.
 */
static size_t some_place(const struct bytes *text) {
    static const char end[] = ",\"format\":";
    int is_anywhere = below(8) == 0;
    for (size_t place = 0; !is_anywhere && place + sizeof end <= text->len; place++)
        if (memcmp(text->at + place, end, sizeof end - 1) == 0)
            return below((uint32_t)place + 1);
    return below((uint32_t)text->len);
}

/* Another number in the place of one, where there is one from a random place on. */
static void change_number(struct bytes *text) {
    static const char *const numbers[] = {
        "0", "1", "2", "3", "11", "12", "99", "1000000000000", "10000000000001", "007"};
    size_t place = some_place(text), len = 0;
    while (place < text->len && !is_digit(text->at[place]))
        place++;
    while (place + len < text->len && is_digit(text->at[place + len]))
        len++;
    if (len == 0)
        return;
    char next[32];
    const char *with = numbers[below(sizeof numbers / sizeof *numbers)];
    if (below(4) > 0 && len < 15) {
        uint64_t number = 0;
        for (size_t digit = 0; digit < len; digit++)
            number = number * 10 + (uint64_t)(text->at[place + digit] - '0');
        snprintf(next, sizeof next, "%" PRIu64, below(2) ? number + 1 : number - (number > 0));
        with = next;
    }
    replace(text, place, len, with, strlen(with));
}

/* Another name in the place of a letter that is one, where there is one from a random place on. */
static void change_name(struct bytes *text) {
    size_t place = some_place(text);
    while (place < text->len && (text->at[place] < 'A' || text->at[place] > 'E'))
        place++;
    if (place < text->len)
        text->at[place] = (uint8_t)('A' + below(5));
}

/* Some bytes are others, more or fewer. */
static void change_bytes(struct bytes *text) {
    static const uint8_t usual[] = "{}[]\",:\\ 0.\n";
    size_t place = some_place(text);
    uint8_t byte = below(2) ? usual[below(sizeof usual - 1)] : (uint8_t)below(256);
    switch (below(4)) {
    case 0:
        text->at[place] = byte;
        break;
    case 1:
        replace(text, place, 1, NULL, 0);
        break;
    case 2:
        replace(text, place, 0, &byte, 1);
        break;
    default:
        text->len = place;
    }
}

/* Another byte in the place of one that is no space, after the third word of a line. */
static void change_word(struct bytes *line) {
    size_t place = 0, spaces = 0;
    while (place < line->len && spaces < 3)
        spaces += line->at[place++] == ' ';
    if (place == line->len)
        return;
    place += below((uint32_t)(line->len - place));
    if (line->at[place] != ' ')
        line->at[place] = (uint8_t)('!' + below(94));
}

/* One thing is changed, or two; of so many in ten cases bytes, whatever they mean. */
static void mutate(struct bytes *text, uint32_t bytes_of_ten) {
    for (uint32_t count = 1 + below(2); count > 0 && text->len > 0; count--) {
        if (below(10) < bytes_of_ten)
            change_bytes(text);
        else if (below(4) == 0)
            change_name(text);
        else
            change_number(text);
    }
}

/* Fetches an answer in one of the ways that there are: at once, with a buffer that is too short
 * first, or twice; before it is fetched the next call is refused. */
static void fetch_somehow(ndc_node *node, struct bytes *answer, uint64_t len) {
    uint64_t told;
    if (len > 0 && below(8) == 0) {
        if (ndc_reply(node, NULL, 0, &told) != NDC_SHORT || told != len)
            stop("a short buffer is not told", 0);
        if (ndc_line(node, (const uint8_t *)"trim", 4, &told) != NDC_UNFETCHED || told != len)
            stop("an answer that waits is not told", 0);
    }
    fetch(node, answer, len);
    if (below(8) == 0)
        fetch(node, answer, len);
}

/* Ends a call on a node: whether it changed the node. */
static int end_call(struct network *network, int at, int32_t code, uint64_t len) {
    if (code < NDC_DONE || code > NDC_NEEDS_FAILOVER || code == NDC_MEMORY || code == NDC_SPENT)
        stop("a call has another code", code);
    fetch_somehow(&network->nodes[at], &network->answer, len);
    counts.refused += code != NDC_DONE;
    return keep_units(&network->nodes[at], &network->kept[at]);
}

static int do_line(struct network *network, int at, const void *line, size_t line_len) {
    uint64_t len;
    int32_t code = ndc_line(&network->nodes[at], line, line_len, &len);
    int has_changed = end_call(network, at, code, len);
    if (code == NDC_BEHIND_ITS_PAST || code == NDC_AWAITING)
        do_line(network, at, "force", 5);
    return has_changed;
}

/* Whether these words stand in an answer. */
static int says(const struct bytes *answer, const char *words) {
    size_t len = strlen(words);
    for (size_t place = 0; place + len <= answer->len; place++)
        if (memcmp(answer->at + place, words, len) == 0)
            return 1;
    return 0;
}

/* A node takes its domains over. */
static void take_over(struct network *network, int at) {
    char line[] = "failover D A";
    for (line[9] = 'D'; line[9] <= 'E'; line[9]++) {
        line[11] = (char)('A' + at);
        do_line(network, at, line, sizeof line - 1);
    }
}

/* Counts an input that was changed, by whether it changed a node. */
static void count(size_t *kind, int has_changed) {
    (*kind)++;
    counts.changed_inputs++;
    counts.changed_nodes += has_changed != 0;
}

/* A line that may change a node, at random. */
static void make_line(struct bytes *line) {
    static const char *const forms[] = {
        "start %s w%u order",
        "signal %s w%u s%u x",
        "signal %s w%u t%u y",
        "signal %s w%u u%u z",
        "retain %s %u",
        "decide %s w%u",
        "respond %s w%u complete",
        "respond %s w%u activity a%u box",
        "actstart %s w%u a1",
        "beat %s w%u a1 half",
        "cancel %s w%u",
        "terminate %s w%u done",
        "reset %s w%u %u",
        "failover %s C",
        "join %s C",
        "handover %s B",
        "complete %s",
        "failover %s A",
        "reapply",
        "trim",
        "letters",
        "retry",
        "rewind A",
        "drop 0",
        "forget %s w%u 1.%u",
        "status",
        "gaps",
        "dump %s w%u",
    };
    char text[128];
    uint32_t form = below(4) ? below(6) : below(sizeof forms / sizeof *forms);
    snprintf(text, sizeof text, forms[form], below(3) ? "D" : "E", 1 + below(WORKFLOWS),
             1 + below(9));
    line->len = 0;
    push(line, text, strlen(text));
}

/* A line is given to a node, mostly changed. */
static void play_line(struct network *network) {
    struct bytes line = {NULL, 0, 0};
    make_line(&line);
    size_t whole = line.len;
    struct bytes before = {NULL, 0, 0};
    push(&before, line.at, line.len);
    if (below(3) > 0)
        change_word(&line);
    else if (below(2) > 0)
        mutate(&line, 1);
    int is_changed = line.len != whole || memcmp(line.at, before.at, whole) != 0;
    int at = below(4) ? 0 : (int)below(NODES);
    int has_changed = do_line(network, at, line.at, line.len);
    if (below(2) && says(&network->answer, "NotActive"))
        take_over(network, at);
    if (is_changed)
        count(&counts.lines, has_changed);
    free(line.at);
    free(before.at);
}

/* A node hears a frame, which is changed half of the time, and whoever sent it hears what is
 * answered. */
static void play_frame(struct network *network, int from, int to, const uint8_t *text,
                       size_t text_len, int is_answer) {
    struct bytes frame = {NULL, 0, 0};
    push(&frame, text, text_len);
    static const char nothing[] = "{\"body\":{\"reports\":[]}";
    if (below(2) && memcmp(text, nothing, sizeof nothing - 1) != 0)
        mutate(&frame, 1);
    int is_changed = frame.len != text_len || memcmp(frame.at, text, text_len) != 0;
    uint64_t len;
    int32_t code = ndc_hear(&network->nodes[to], frame.at, frame.len, &len);
    int has_changed = end_call(network, to, code, len);
    if (is_changed)
        count(&counts.frames, has_changed);
    free(frame.at);
    struct bytes answer = network->answer;
    network->answer = (struct bytes){NULL, 0, 0};
    size_t place = 0, answered;
    const uint8_t *next;
    while (!is_answer && (next = line_with(&answer, &place, "frame ", &answered)))
        play_frame(network, to, from, next, answered, 1);
    free(answer.at);
}

/* A node says to another one what is new. */
static void play_ask(struct network *network) {
    int from = (int)below(NODES), to = (int)((uint32_t)from + 1 + below(NODES - 1)) % NODES;
    char name = (char)('A' + to);
    uint64_t len;
    int32_t code = ndc_ask(&network->nodes[from], (const uint8_t *)&name, 1, &len);
    if (end_call(network, from, code, len))
        stop("a question changed a node", code);
    struct bytes answer = network->answer;
    network->answer = (struct bytes){NULL, 0, 0};
    size_t place = 0, text_len;
    const uint8_t *text;
    while ((text = line_with(&answer, &place, "frame ", &text_len)))
        play_frame(network, from, to, text, text_len, 0);
    free(answer.at);
}

/* The dumps of all workflows at a node, without the numbers of lines. */
static void show_dumps(ndc_node *node, struct bytes *shown) {
    struct bytes answer = {NULL, 0, 0};
    for (uint32_t number = 0; number < 2 * WORKFLOWS; number++) {
        char line[32];
        uint64_t len;
        snprintf(line, sizeof line, "dump %s w%u", number % 2 ? "D" : "E", 1 + number / 2);
        int32_t code = ndc_line(node, (const uint8_t *)line, strlen(line), &len);
        if (code != NDC_DONE && code != NDC_REFUSED)
            stop("a dump has another code", code);
        fetch(node, &answer, len);
        const uint8_t *from = memchr(answer.at, ' ', answer.len);
        push(shown, from, answer.len - (size_t)(from - answer.at));
    }
    free(answer.at);
}

/* A node is loaded from what was kept of it, and shows the same; then from that, changed at random.
 */
static void check_loading(struct network *network, int at) {
    ndc_node other = {0};
    uint64_t dropped, line;
    struct bytes *kept = &network->kept[at], one = {NULL, 0, 0}, two = {NULL, 0, 0};
    int32_t code = ndc_load(&other, kept->at, kept->len, &BOUNDS, &dropped, &line);
    if (code != NDC_DONE || dropped != 0)
        stop("a node is not loaded", code);
    show_dumps(&network->nodes[at], &one);
    show_dumps(&other, &two);
    if (one.len != two.len || memcmp(one.at, two.at, one.len) != 0)
        stop("a node that was loaded shows something else", 0);
    if (ndc_open(&other, (const uint8_t *)HEADER, sizeof HEADER - 1, (const uint8_t *)"A", 1,
                 &BOUNDS) != NDC_HAS_NODE)
        stop("a node is opened over another one", 0);
    ndc_close(&other);
    ndc_close(&other);
    mutate(kept, 3);
    code = ndc_load(&other, kept->at, kept->len, &BOUNDS, &dropped, &line);
    if (code != NDC_DONE && code != NDC_NO_STORE && code != NDC_NO_HEADER && code != NDC_WRONG_UNIT)
        stop("a load has another code", code);
    counts.loads++;
    counts.refused_loads += code != NDC_DONE;
    ndc_close(&other);
    if (ndc_line(&other, (const uint8_t *)"trim", 4, &line) != NDC_NO_NODE)
        stop("a handle without a node is not refused", 0);
    free(one.at);
    free(two.at);
}

static void open_network(struct network *network) {
    for (int at = 0; at < NODES; at++) {
        char name = (char)('A' + at);
        int32_t code = ndc_open(&network->nodes[at], (const uint8_t *)HEADER, sizeof HEADER - 1,
                                (const uint8_t *)&name, 1, &BOUNDS);
        if (code != NDC_DONE)
            stop("no node is opened", code);
        keep_store(&network->nodes[at], &network->kept[at]);
    }
    do_line(network, 0, "register D A 7 A B", 18);
    do_line(network, 0, "register E A 7 A B C", 20);
    for (uint32_t number = 0; number < 2 * WORKFLOWS; number++) {
        char line[32];
        snprintf(line, sizeof line, "start %s w%u order", number % 2 ? "D" : "E", 1 + number / 2);
        do_line(network, 0, line, strlen(line));
    }
}

static void close_network(struct network *network) {
    for (int at = 0; at < NODES; at++) {
        check_loading(network, at);
        ndc_close(&network->nodes[at]);
        free(network->kept[at].at);
    }
    free(network->answer.at);
}

int main(int words, char **word) {
    if (words != 3) {
        fprintf(stderr, "words: library_fuzz COUNT SEED\n");
        return 2;
    }
    size_t wanted = strtoull(word[1], NULL, 10);
    uint64_t seed = strtoull(word[2], NULL, 10);
    for (uint64_t number = 0; counts.changed_inputs < wanted; number++) {
        struct network network = {0};
        state = seed * 1000003 + number;
        open_network(&network);
        size_t last = counts.changed_inputs + PER_NETWORK;
        while (counts.changed_inputs < last && counts.changed_inputs < wanted) {
            if (below(5) > 0)
                play_line(&network);
            else
                play_ask(&network);
        }
        close_network(&network);
    }
    printf("changed inputs %zu (lines %zu, frames %zu), of which changed a node %zu; refused %zu; "
           "changed stores %zu, refused %zu\n",
           counts.changed_inputs, counts.lines, counts.frames, counts.changed_nodes, counts.refused,
           counts.loads, counts.refused_loads);
    return counts.changed_nodes * 3 >= counts.changed_inputs ? 0 : 3;
}
