/* two_centres SCRIPT
 *
 * Two data centres, each a node of the C library, do what a script asks of its clusters A and B.
 * `settle` has them exchange frames, at first with losses, until nothing changes; `# restart NAME`
 * ends a node and loads it from what was kept. Prints the answers to the lines `dump`, numbered as
 * in the script: what `ndc run` prints of them. */
#include "answers.h"

enum { CENTRES = 2, LOSSY_ROUNDS = 5, LOSS_PERCENT = 40 };

/* A node, what was kept of it, its last answer, and how many batches an index was told. */
struct centre {
    const char *name;
    ndc_node node;
    struct bytes kept, answer;
    size_t learned;
};

/* A frame on its way. */
struct frame {
    int from, to;
    struct bytes text;
};

struct frames {
    struct frame *at;
    size_t len, room;
};

static const ndc_bounds BOUNDS = {1048576, 100000, 100000, 1000};

static uint64_t state = 1;

/* What is done with each answer: the frames in it are on their way to a centre, and its batches are
 * counted. */
static void take(struct centre *centre, int from, int to, struct frames *frames) {
    size_t place = 0, len;
    const uint8_t *text;
    while ((text = line_with(&centre->answer, &place, "frame ", &len))) {
        frames->at = room_for(frames->at, &frames->room, frames->len + 1, sizeof *frames->at);
        struct frame frame = {from, to, {NULL, 0, 0}};
        push(&frame.text, text, len);
        frames->at[frames->len++] = frame;
    }
    place = 0;
    while (line_with(&centre->answer, &place, "learned ", &len))
        centre->learned++;
}

/* Fetches the answer of a call, and keeps what it changed: whether it changed anything. */
static int end_call(struct centre *centre, int32_t code, uint64_t len) {
    if (code < 0 || code == NDC_SPENT || code == NDC_MEMORY)
        stop("a call is not done", code);
    fetch(&centre->node, &centre->answer, len);
    return keep_units(&centre->node, &centre->kept);
}

/* Brings frames to where they go, unless they are lost, and what is answered back: whether any
 * changed a node. */
static int deliver(struct centre *centres, struct frames *frames, unsigned loss) {
    int has_changed = 0;
    while (frames->len > 0) {
        struct frames answers = {NULL, 0, 0};
        for (size_t place = 0; place < frames->len; place++) {
            struct frame *frame = &frames->at[place];
            struct centre *centre = &centres[frame->to];
            if (next_random(&state) % 100 >= loss) {
                uint64_t len;
                int32_t code = ndc_hear(&centre->node, frame->text.at, frame->text.len, &len);
                has_changed |= end_call(centre, code, len);
                take(centre, frame->to, frame->from, &answers);
            }
            free(frame->text.at);
        }
        free(frames->at);
        *frames = answers;
    }
    return has_changed;
}

/* Each centre asks the other one: whether any node changed. */
static int exchange_once(struct centre *centres, unsigned loss) {
    struct frames frames = {NULL, 0, 0};
    for (int from = 0; from < CENTRES; from++) {
        int to = 1 - from;
        uint64_t len;
        int32_t code = ndc_ask(&centres[from].node, (const uint8_t *)centres[to].name, 1, &len);
        end_call(&centres[from], code, len);
        take(&centres[from], from, to, &frames);
    }
    int has_changed = deliver(centres, &frames, loss);
    free(frames.at);
    return has_changed;
}

static void exchange(struct centre *centres) {
    for (int round = 0; round < LOSSY_ROUNDS; round++)
        exchange_once(centres, LOSS_PERCENT);
    while (exchange_once(centres, 0)) {
    }
}

/* Does a line at a centre; its answer is at hand then. */
static void do_line(struct centre *centre, const char *line, size_t line_len) {
    uint64_t len;
    int32_t code = ndc_line(&centre->node, (const uint8_t *)line, line_len, &len);
    end_call(centre, code, len);
    size_t place = 0, rest;
    while (line_with(&centre->answer, &place, "learned ", &rest))
        centre->learned++;
}

static void settle(struct centre *centres) {
    exchange(centres);
    for (int place = 0; place < CENTRES; place++)
        do_line(&centres[place], "reapply", 7);
    exchange(centres);
}

static void open_centre(struct centre *centre, const struct bytes *header) {
    int32_t code =
        ndc_open(&centre->node, header->at, header->len, (const uint8_t *)centre->name, 1, &BOUNDS);
    if (code != NDC_DONE)
        stop("no node is opened", code);
    keep_store(&centre->node, &centre->kept);
}

/* A node ends, with a unit half written, and is loaded. */
static void restart(struct centre *centre) {
    static const char torn[] = "unit 9";
    uint64_t dropped, line;
    size_t whole = centre->kept.len;
    ndc_close(&centre->node);
    push(&centre->kept, torn, sizeof torn - 1);
    int32_t code =
        ndc_load(&centre->node, centre->kept.at, centre->kept.len, &BOUNDS, &dropped, &line);
    if (code != NDC_DONE)
        stop("the node is not loaded", code);
    if (dropped != sizeof torn - 1)
        stop("what was not written whole is not dropped", (int32_t)dropped);
    centre->kept.len = whole;
    keep_units(&centre->node, &centre->kept);
}

/* The answer to a line that shows something, without its number. */
static void show(const struct centre *centre, unsigned number) {
    const uint8_t *from = memchr(centre->answer.at, ' ', centre->answer.len);
    if (!from)
        stop("an answer has no number", 0);
    printf("%u", number);
    fwrite(from, 1, centre->answer.len - (size_t)(from - centre->answer.at), stdout);
}

/* Does a line of the script that names a cluster: without the name, at the node of that cluster. */
static void at_cluster(struct centre *centres, const char *line, unsigned number) {
    const char *name = strchr(line, ' ');
    if (!name || (name[1] != 'A' && name[1] != 'B') || name[2] != ' ')
        return;
    struct centre *centre = &centres[name[1] - 'A'];
    char *own = malloc(strlen(line) + 1);
    if (!own)
        stop("out of memory", NDC_MEMORY);
    int len = sprintf(own, "%.*s%s", (int)(name - line), line, name + 2);
    do_line(centre, own, (size_t)len);
    free(own);
    if (strncmp(line, "dump ", 5) == 0)
        show(centre, number);
}

static int is_of_header(const char *line) {
    static const char *const words[] = {"ndc ", "increment ", "shards ", "limit ", "cluster "};
    for (size_t place = 0; place < sizeof words / sizeof *words; place++)
        if (strncmp(line, words[place], strlen(words[place])) == 0)
            return 1;
    return 0;
}

static void run(FILE *script) {
    struct centre centres[CENTRES] = {{.name = "A"}, {.name = "B"}};
    struct bytes header = {NULL, 0, 0};
    char line[1024];
    for (unsigned number = 1; fgets(line, sizeof line, script); number++) {
        if (is_of_header(line)) {
            push(&header, line, strlen(line));
            continue;
        }
        line[strcspn(line, "\n")] = 0;
        if (!centres[0].node.at)
            for (int place = 0; place < CENTRES; place++)
                open_centre(&centres[place], &header);
        if (strncmp(line, "# restart ", 10) == 0)
            restart(&centres[line[10] - 'A']);
        else if (strcmp(line, "settle") == 0)
            settle(centres);
        else if (line[0] != '#')
            at_cluster(centres, line, number);
    }
    for (int place = 0; place < CENTRES; place++) {
        struct centre *centre = &centres[place];
        fprintf(stderr, "%s: %zu batches for an index, %zu bytes are kept\n", centre->name,
                centre->learned, centre->kept.len);
        ndc_close(&centre->node);
        ndc_close(&centre->node);
        free(centre->kept.at);
        free(centre->answer.at);
    }
    free(header.at);
}

int main(int count, char **words) {
    FILE *script = count == 2 ? fopen(words[1], "r") : NULL;
    if (!script || ndc_interface() != NDC_INTERFACE) {
        fprintf(stderr, "words: two_centres SCRIPT, over a library of interface %d\n",
                NDC_INTERFACE);
        return 2;
    }
    run(script);
    fclose(script);
    return 0;
}
