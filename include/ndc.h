/* A node of the replicated workflow history: one data centre, in the hands of a C program.
 *
 * Link libndc_c.a and liblibc_c.a, both from `./ndc library --to FOLDER`. docs/node.md says what a
 * node is and what its lines and frames are; docs/embedding.md begins with which way is for whom.
 *
 * A program keeps to this, and to nothing else:
 *
 * - A handle is all zeros before its first call: `ndc_node node = {0};`. It has one owner: it is
 *   never copied, and no call on it is made while another one runs. Another thread may make the next
 *   call where a lock, or the like, orders the two.
 * - Each pointer points to what the call says. A buffer is as long as its length says; where that is
 *   0 it may be null.
 * - malloc, realloc and free are one allocator's, and no call is made from a signal handler, or in a
 *   child that a process with threads forked.
 *
 * Whatever the bytes are, a call ends, and reads and writes nothing else. A handle without a node
 * is refused by each call that asks something of one; closing it again does nothing. There is no
 * global state and no thread: nodes are independent, and several may be in one process.
 *
 * ANSWERS. A call with a parameter `len` makes an answer, and tells its length. ndc_reply copies it
 * out. It is kept: a buffer that is too short loses nothing, and it can be fetched again until the
 * next one is made. That one is refused, with NDC_UNFETCHED, until the answer before was fetched,
 * so that no batch for an index and no frame is lost; `len` is then the length of the answer that
 * waits. An answer without a byte need not be fetched. Answers are bytes, without a NUL at the end.
 *
 * UNITS. Each call that changed the node leaves a unit. Store the units in turn (ndc_changes,
 * append the answer to a file, see that it is on disk, ndc_stored) before anything that an answer
 * says is sent, shown or indexed: then a node that is loaded from a store and the units after it is
 * as it was. Several calls may be made before their units are stored together. Units that are never
 * stored stay in memory. */
#ifndef NDC_H
#define NDC_H

#include <stdint.h>

#ifdef __cplusplus
extern "C" {
#endif

/* The interface that this header describes. ndc_interface tells that of the library. */
#define NDC_INTERFACE 1

/* A node, in the hands of its one owner. */
typedef struct {
    void *at;
} ndc_node;

/* What a node takes at most. docs/node.md says what comes of each bound when it is reached. */
typedef struct {
    uint64_t frame;   /* the greatest frame that is heard, in bytes */
    uint64_t waiting; /* how many messages may be put off in each shard */
    uint64_t held; /* how many entries of each shard of each source may be told and not learned */
    uint64_t letters; /* how many messages may be set aside */
} ndc_bounds;

/* What becomes of a call. The numbers never change. */
enum {
    NDC_DONE = 0,
    /* Refused by the node. Nothing has changed, but after NDC_MEMORY; the answer, where there is
       one, tells the cause. */
    NDC_REFUSED =
        1, /* for the cause in the answer; by ndc_stored: the unit does not wait to be stored */
    NDC_UNREADABLE = 2, /* the line is none of a node, or the frame is none */
    NDC_SPENT = 3,      /* an earlier call ran out of memory: close the node, and load it again */
    NDC_MEMORY = 4, /* memory ran out; if the call may change the node, it is spent from then on */
    NDC_BEHIND_ITS_PAST = 5, /* another node knows more of what this one has given out than itself:
                                it writes nothing */
    NDC_AWAITING =
        6,        /* it was loaded, and not all others have polled since: it writes nothing yet */
    NDC_FULL = 7, /* there is no room for more */
    NDC_NEEDS_FAILOVER = 8, /* it may have used the domain's version before it lost something: fail
                               over to it again */
    /* Refused before it comes to the node. There is no new answer. */
    NDC_NO_NODE = -1,   /* the handle has no node */
    NDC_HAS_NODE = -2,  /* the handle has a node: close it first */
    NDC_UNFETCHED = -3, /* the answer before was not fetched */
    NDC_SHORT = -4, /* the buffer is shorter than the answer: fetch it again with a longer one */
    NDC_NO_HEADER = -5, /* the header is none, it or the bounds make no node, or it has no cluster
                           of the name */
    NDC_NO_STORE = -6,  /* there is no whole store, or what it says of the node is not read */
    NDC_WRONG_UNIT =
        -7 /* a unit after the store is another one than the next, or comes to something else */
};

/* The interface of the library that is linked: the header's, where it is NDC_INTERFACE. */
uint32_t ndc_interface(void);

/* Copies to `out` what a code says, in words, and tells their length. Asks for no node.
 * NDC_SHORT. */
int32_t ndc_words(int32_t code, uint8_t *out, uint64_t out_len, uint64_t *len);

/* Makes a node in which nothing has happened, in a handle without one. `header` is the header of a
 * script: the lines `ndc 1`, `increment`, `shards`, `limit`, and one `cluster` for each cluster;
 * `name` is the cluster that the node is. All nodes of a network are made with the same header.
 * NDC_HAS_NODE, NDC_NO_HEADER, NDC_MEMORY. */
int32_t ndc_open(ndc_node *node, const uint8_t *header, uint64_t header_len, const uint8_t *name,
                 uint64_t name_len, const ndc_bounds *bounds);

/* Makes the node that was stored, in a handle without one: `kept` is a store with the units that
 * were appended to it, in turn, from the one after the last that is in the store. `dropped` becomes
 * how many bytes at the end are part of a unit that was not written whole: cut them off before
 * anything is appended. The node writes once all others have polled, or after the line `force`, by
 * which the caller vouches that it has all that it ever gave out; a unit says so, so there is one
 * to be stored at once. NDC_HAS_NODE, NDC_NO_STORE, NDC_NO_HEADER, NDC_WRONG_UNIT (`line` becomes
 * the line at which that unit begins, from 1), NDC_MEMORY. */
int32_t ndc_load(ndc_node *node, const uint8_t *kept, uint64_t kept_len, const ndc_bounds *bounds,
                 uint64_t *dropped, uint64_t *line);

/* Ends the node, and gives its memory back; units that are not stored are lost. The handle has no
 * node then, and may be given one again. */
void ndc_close(ndc_node *node);

/* Takes a line, without its end: one of a script without the cluster's name, or `reapply`, `trim`,
 * `rewind NAME`, `letters`, `retry`, `drop N`, `forget DOMAIN WORKFLOW VERSION.TASK`, `force` or
 * `status` (docs/node.md); `hear` and `ask` as well. The answer is lines, each with its end:
 * `learned DOMAIN WORKFLOW BATCH` for each batch that became learned or was written, for an index;
 * then the line that says what came of it, and what was asked for. NDC_DONE to NDC_NEEDS_FAILOVER,
 * NDC_NO_NODE, NDC_UNFETCHED. */
int32_t ndc_line(ndc_node *node, const uint8_t *line, uint64_t line_len, uint64_t *len);

/* Hears a frame. The answer is lines: `learned` as above, and `frame TEXT` for each frame that is
 * to be sent to whoever sent this one; then `NUMBER ok`, how many batches became learned, how many
 * messages were put off, and how many set aside, and `full` where a bound was reached. As ndc_line.
 */
int32_t ndc_hear(ndc_node *node, const uint8_t *frame, uint64_t frame_len, uint64_t *len);

/* Asks what the node would say to the node of this name now. Changes nothing. The answer is a line
 * `frame TEXT` for each frame, and one that counts them. As ndc_line. */
int32_t ndc_ask(ndc_node *node, const uint8_t *name, uint64_t name_len, uint64_t *len);

/* The answer is the next unit that is not stored, and `unit` becomes its number: the same one,
 * until it is told to be stored. It is `unit N`, a line, `end N`, to be appended as it is. Without
 * a byte where all are stored. NDC_MEMORY, NDC_NO_NODE, NDC_UNFETCHED. */
int32_t ndc_changes(ndc_node *node, uint64_t *unit, uint64_t *len);

/* Tells that all units up to this one are stored.
 * NDC_REFUSED, NDC_NO_NODE. */
int32_t ndc_stored(ndc_node *node, uint64_t unit);

/* The answer is a store: the node whole, with all units that were made, the last of which has the
 * number that `unit` becomes. Written to a second file that is then renamed, it takes the place of the
 * store and the units before; ndc_stored(unit) lets go of those that were not stored yet.
 * NDC_SPENT, NDC_MEMORY, NDC_NO_NODE, NDC_UNFETCHED. */
int32_t ndc_store(ndc_node *node, uint64_t *unit, uint64_t *len);

/* Copies the last answer to `out`, and tells its length.
 * NDC_SHORT, NDC_NO_NODE. */
int32_t ndc_reply(ndc_node *node, uint8_t *out, uint64_t out_len, uint64_t *len);

#ifdef __cplusplus
}
#endif

#endif
