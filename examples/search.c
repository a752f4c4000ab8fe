/* search: reads a state list from standard input, looks for a loop through a mark with two workers, and prints what the program skiffplank prints. Then it
 * repeats the run by its list of turns, and says so if that came to anything else.
 *
 *     examples/build
 *     target/examples/search < examples/0417.txt
 */
#include <inttypes.h>
#include <stdio.h>
#include <stdlib.h>
#include <string.h>

#include "skiffplank.h"

enum { TEXT = 32768, STATES = 256, TRANSITIONS = 1024, WORKERS = 2, ROOM = SKIFFPLANK_ROOM(STATES, WORKERS), LASSO = SKIFFPLANK_LASSO(STATES) };

static uint8_t text[TEXT + 1];
static uint16_t offsets[STATES + 1], targets[TRANSITIONS], flags[STATES];
static uint32_t places[2 * STATES];

/* A run and all that it leaves. */
typedef struct {
    skiffplank_run_answer told;
    skiffplank_tally tally;
    uint16_t room[ROOM], lasso[LASSO];
} run;

static void print_refusal(uint32_t number, uint32_t line)
{
    printf("refused\t%" PRIu32 "\t%" PRIu32 "\n", number, line);
}

static void print_states(const char *word, const uint16_t *states, uint32_t count)
{
    for (uint32_t i = 0; i < count; i++) {
        const uint32_t *place = places + 2 * states[i];
        printf("%s\t%.*s\n", word, (int)place[1], (const char *)text + place[0]);
    }
}

static void print_run(const run *r)
{
    if (r->told.refusal != 0) {
        print_refusal(r->told.refusal, 0);
        return;
    }
    printf("answer\t%s\n", r->told.answer == SKIFFPLANK_CYCLE ? "cycle" : "none");
    print_states("stem", r->lasso, r->told.stem);
    print_states("loop", r->lasso + r->told.stem, r->told.loop_);
    printf("tally\t%" PRIu64 "\t%" PRIu64 "\t%" PRIu64 "\t%" PRIu64 "\n", r->tally.outer, r->tally.inner, r->tally.waits, r->tally.moves);
}

static int same(const run *a, const run *b)
{
    return a->told.refusal == b->told.refusal && a->told.answer == b->told.answer && a->told.stem == b->told.stem && a->told.loop_ == b->told.loop_
        && a->told.used == b->told.used && memcmp(&a->tally, &b->tally, sizeof a->tally) == 0 && memcmp(a->room, b->room, sizeof a->room) == 0
        && memcmp(a->lasso, b->lasso, sizeof a->lasso) == 0;
}

int main(void)
{
    static run first, again;

    size_t length = fread(text, 1, sizeof text, stdin);
    if (ferror(stdin)) {
        perror("search");
        return 1;
    }
    if (length > TEXT) {
        print_refusal(1, 0);
        return 0;
    }

    skiffplank_read_answer list = skiffplank_read(offsets, STATES + 1, targets, TRANSITIONS, flags, STATES, places, 2 * STATES, text, length);
    if (list.refusal != 0) {
        print_refusal(list.refusal, list.line);
        return 0;
    }
    size_t n = list.states, e = list.transitions;
    first.told = skiffplank_run_to_end(first.room, ROOM, first.lasso, LASSO, &first.tally, offsets, n + 1, targets, e, flags, n, WORKERS);
    print_run(&first);

    /* the finding again, turn by turn */
    uint8_t *turns = malloc(first.told.used);
    if (turns == NULL) {
        perror("search");
        return 1;
    }
    for (uint64_t i = 0; i < first.told.used; i++)
        turns[i] = (uint8_t)(i % WORKERS);
    again.told = skiffplank_run(again.room, ROOM, again.lasso, LASSO, &again.tally, turns, first.told.used, offsets, n + 1, targets, e, flags, n, WORKERS);
    free(turns);
    if (!same(&first, &again)) {
        fprintf(stderr, "search: the run by its turns came to something else\n");
        return 1;
    }
    return 0;
}
