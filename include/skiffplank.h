/* skiffplank.h: the library libskiffplank_c.a for C. It reads a state list and looks for a loop through a marked state,
 * by several workers that take turns.
 *
 * A list is lent as a pointer and a length, in elements. All of its elements must be there to be read (and, where the
 * pointer is not const, written), and a list that is lent for writing must not overlap another one. Where a length is 0,
 * nothing is read or written there, and the pointer may be NULL. There is no other condition: any lengths and any words
 * get an answer or a numbered refusal, and what stood before in a list that is lent for writing does not matter.
 *
 * Refusals have the numbers of the paper "What the turn-by-turn search reads, does and refuses":
 *    1 text over 1,048,576 bytes              8 no state
 *    2 the line has none of the two forms     9 worker count not 1 to 8
 *    3 label already declared                10 the words are not a graph
 *    4 label not declared                    11 working room too small
 *    5 the same transition stood before      12 lasso room under 2 N words
 *    6 one state more than the lists hold    13 a turn names a worker that there is not
 *    7 one transition more than they hold
 *
 * For x86-64 Linux. Link with libskiffplank_c.a, which tools/archive proves and builds. The functions keep nothing between
 * calls and allocate nothing.
 */
#ifndef SKIFFPLANK_H
#define SKIFFPLANK_H

#include <stddef.h>
#include <stdint.h>

#ifdef __cplusplus
extern "C" {
#endif

/* The words that a run of p workers on n states needs: the working room, and the lasso room. */
#define SKIFFPLANK_ROOM(n, p) (2 * (n) + (p) * (5 * (n) + 4))
#define SKIFFPLANK_LASSO(n) (2 * (n))

/* What a reading came to. refusal 0: a graph, with its numbers of states and transitions, and line 0. Any other: the
 * refusal's number and its line, or line 0 where none is named, and no states or transitions. */
typedef struct {
    uint32_t refusal;
    uint32_t line;
    uint32_t states;
    uint32_t transitions;
} skiffplank_read_answer;

enum { SKIFFPLANK_UNDECIDED = 0, SKIFFPLANK_CYCLE = 1, SKIFFPLANK_NONE = 2 };

/* What a run came to. refusal 0: answer is one of the three above, stem and loop_ are the lengths of the two parts of the
 * finding (0 unless there is a cycle), and used is the number of turns made. Any other: the refusal's number, and all
 * else 0. */
typedef struct {
    uint32_t refusal;
    uint32_t answer;
    uint32_t stem;
    uint32_t loop_;
    uint64_t used;
} skiffplank_run_answer;

/* The counts of a run: states entered by the outer and by the inner searches, waits, and moves that change something. */
typedef struct {
    uint64_t outer;
    uint64_t inner;
    uint64_t waits;
    uint64_t moves;
} skiffplank_tally;

/* Reads a state list. With N states and E transitions, the front of each list then holds:
 *    offsets  N + 1 words, where the targets of each state start, and last E
 *    targets  E words, the successors of all states, one state after the other
 *    flags    N words, 1 for a state with a mark and 0 for any other
 *    places   2 N words, for each state the start of its label in the text, in bytes from 0, and the label's length
 * Words that are not used become 0; in a refused reading all do. The lists hold as many states as the least of 4,096,
 * offsets_len - 1 (0 if there are no offsets), flags_len and places_len / 2, and as many transitions as the lesser of
 * 16,384 and targets_len. */
skiffplank_read_answer skiffplank_read(
    uint16_t *offsets, size_t offsets_len,
    uint16_t *targets, size_t targets_len,
    uint16_t *flags, size_t flags_len,
    uint32_t *places, size_t places_len,
    const uint8_t *text, size_t text_len);

/* Runs from the start over a list of turns: each byte names the worker, below workers, that makes the next move. The
 * lengths of offsets, targets and flags must be those of the graph: N + 1, E and N. The room is left holding the state of
 * all workers after the last move made (docs/ROOM.md) and, if there is a cycle, the front of the lasso room holds stem and
 * then loop, as numbers of states; further words are left as they were. The tally is set to 0 at the start and counts this
 * run. A refused run leaves all of them as they were. */
skiffplank_run_answer skiffplank_run(
    uint16_t *room, size_t room_len,
    uint16_t *lasso, size_t lasso_len,
    skiffplank_tally *tally,
    const uint8_t *turns, size_t turns_len,
    const uint16_t *offsets, size_t offsets_len,
    const uint16_t *targets, size_t targets_len,
    const uint16_t *flags, size_t flags_len,
    uint64_t workers);

/* The same with the turns 0, 1, .., workers - 1 over and over until there is an answer, which is never
 * SKIFFPLANK_UNDECIDED. workers 0 means the usual two. */
skiffplank_run_answer skiffplank_run_to_end(
    uint16_t *room, size_t room_len,
    uint16_t *lasso, size_t lasso_len,
    skiffplank_tally *tally,
    const uint16_t *offsets, size_t offsets_len,
    const uint16_t *targets, size_t targets_len,
    const uint16_t *flags, size_t flags_len,
    uint64_t workers);

#ifdef __cplusplus
}
#endif

#endif
