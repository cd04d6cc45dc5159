/*
 * A rack's loop in C: two reels, with power dips, a bell that rejoins bit by bit, a rack that is re-patched, and
 * moves that end in a later frame.
 *
 * programme.h has the bytes of both reels. The first is played by oamd_timing and oamd_ramp: every ramp ends in
 * its frame. The second is of a newer station, and is played under rule 2; play_over_edges has its calls.
 * A rack says what it knows of the past by one of three calls: oamd_start at the head of a programme,
 * oamd_reset when it is switched on or re-patched, and oamd_gap when it missed something.
 * tools/rack_loop builds this program, runs it, and compares what it prints with rack_loop.expected.
 */
#include <inttypes.h>
#include <stdio.h>

#include "cepokaran.h"
#include "programme.h"

/* ---- What a rack holds ----------------------------------------------------------------------- */

static int16_t retained[CEPOKARAN_RETAINED_LENGTH];
static int16_t start[CEPOKARAN_START_LENGTH];
static int16_t blocks[CEPOKARAN_BLOCKS_LENGTH];
static uint16_t timings[CEPOKARAN_TIMINGS_LENGTH];

/* A ramp that goes over the frame's edge. It is kept from frame to frame, as retained is. */
static int16_t carried[CEPOKARAN_CARRIED_LENGTH];
static uint16_t state[CEPOKARAN_STATE_LENGTH];

/* ---- What it prints -------------------------------------------------------------------------- */

static void print_ramp(uint32_t sample, const uint32_t *ramp, float fraction)
{
    printf("  sample %4" PRIu32 ": row %" PRIu32 " to %" PRIu32 ", %" PRIu32 "/%" PRIu32 " = %.3f", sample,
           ramp[CEPOKARAN_FROM], ramp[CEPOKARAN_TO], ramp[CEPOKARAN_ELAPSED], ramp[CEPOKARAN_DURATION],
           fraction);
}

static void print_place(const float *values)
{
    printf("(%.3f, %.3f, %.3f)", values[CEPOKARAN_SHOWN_X], values[CEPOKARAN_SHOWN_Y], values[CEPOKARAN_SHOWN_Z]);
}

/* The groups that may differ from the mix. A mixer trusts the others. */
static void print_unsettled(int mark)
{
    if (mark == CEPOKARAN_ALL_BITS)
        return;
    printf(", UNSETTLED:");
    for (size_t i = 0; i < sizeof groups / sizeof *groups; i++)
        if ((mark >> i & 1) == 0)
            printf(" %s", groups[i]);
}

/* The floats of a row, its distance, and what of it is not sure. Distance and mark are numbers of the row. */
static void print_row(const char *name, const int16_t *table, size_t length, uint32_t index)
{
    float values[CEPOKARAN_SHOWN_LENGTH] = {0};
    uint32_t silent = 0;
    if (oamd_row(table, length, index) != CEPOKARAN_ACCEPTED)
        return;
    const int16_t *row = table + CEPOKARAN_ROW_WIDTH * index;
    oamd_shown(table, length, index, values, &silent);
    printf("  %-8s ", name);
    print_place(values);
    if (silent)
        printf(" silent");
    else
        printf(" %.1f dB", values[CEPOKARAN_SHOWN_DECIBELS]);
    if (row[CEPOKARAN_DISTANCE] == CEPOKARAN_INFINITY)
        printf(", infinitely far");
    else if (row[CEPOKARAN_DISTANCE] > 0)
        printf(", distance factor %d", row[CEPOKARAN_DISTANCE] - 1);
    print_unsettled(row[CEPOKARAN_MARK]);
    printf("\n");
}

/* Each object as the frame's last block leaves it. */
static void print_rows(uint32_t objects, uint32_t block_count)
{
    for (uint32_t object = 0; object < objects && object < sizeof names / sizeof *names; object++)
        print_row(names[object], blocks, CEPOKARAN_BLOCKS_LENGTH, (block_count - 1) * objects + object);
}

/* ---- A frame in which every ramp ends -------------------------------------------------------- */

/* Whether the frame has a payload, and it is accepted. If not, what was retained stands. */
static int decoded(const struct frame *frame, uint32_t *answer)
{
    if (frame->payload == NULL)
        return 0;
    uint32_t number = oamd_decode(frame->payload, frame->length, retained, CEPOKARAN_RETAINED_LENGTH, start,
                                  CEPOKARAN_START_LENGTH, blocks, CEPOKARAN_BLOCKS_LENGTH, timings,
                                  CEPOKARAN_TIMINGS_LENGTH, answer);
    if (number == CEPOKARAN_ACCEPTED)
        printf("  objects %" PRIu32 ", blocks %" PRIu32 ", unsettled %" PRIu32 "\n", answer[CEPOKARAN_OBJECTS],
               answer[CEPOKARAN_BLOCKS], answer[CEPOKARAN_UNSETTLED]);
    else
        printf("  refused by %" PRIu32 ", context %" PRIu32 ", bit %" PRIu32 ", missing %" PRIu32 "\n", number,
               answer[CEPOKARAN_CONTEXT], answer[CEPOKARAN_PLACE], answer[CEPOKARAN_MISSING]);
    return number == CEPOKARAN_ACCEPTED;
}

/* A renderer asks at every sample of the frame; here at a few. */
static void print_ramps(uint32_t block_count)
{
    for (size_t i = 0; i < sizeof listened / sizeof *listened; i++) {
        uint32_t ramp[CEPOKARAN_RAMP_LENGTH] = {0};
        float fraction = 0;
        uint32_t at = listened[i];
        uint32_t number = oamd_ramp(timings, CEPOKARAN_TIMINGS_LENGTH, block_count, at, ramp, &fraction);
        if (number != CEPOKARAN_ACCEPTED)
            continue;
        print_ramp(at, ramp, fraction);
        printf("\n");
    }
}

/* One payload: decoded, its timings tested, its ramps asked, its last block shown. */
static void play(const struct frame *frame)
{
    uint32_t answer[CEPOKARAN_ANSWER_LENGTH] = {0};
    if (!decoded(frame, answer))
        return;
    /* A refusal here says that the ramps cannot be played. The rows are retained all the same. */
    uint32_t timing = oamd_timing(timings, CEPOKARAN_TIMINGS_LENGTH, answer[CEPOKARAN_BLOCKS]);
    if (timing == CEPOKARAN_ACCEPTED)
        print_ramps(answer[CEPOKARAN_BLOCKS]);
    else
        printf("  timing refused by %" PRIu32 "; the rows stand\n", timing);
    print_rows(answer[CEPOKARAN_OBJECTS], answer[CEPOKARAN_BLOCKS]);
}

/* ---- A frame whose last ramp may end in a later one ------------------------------------------ */

/* The rows of a number in ramp's answer, one for each object. */
static const int16_t *rows_of(uint32_t number, uint32_t objects)
{
    if (number == CEPOKARAN_CARRIED_ROW)
        return carried;
    return number == 0 ? start : blocks + CEPOKARAN_ROW_WIDTH * objects * (number - 1);
}

/* Where the bell comes from and goes to, if it moves, and where it is. */
static void print_bell(const int16_t *from, const int16_t *to, size_t length, float fraction)
{
    float places[3][CEPOKARAN_SHOWN_LENGTH] = {{0}};
    uint32_t silent = 0;
    oamd_shown(from, length, BELL, places[0], &silent);
    oamd_shown(to, length, BELL, places[1], &silent);
    for (size_t i = CEPOKARAN_SHOWN_X; i <= CEPOKARAN_SHOWN_Z; i++)
        places[2][i] = places[0][i] + fraction * (places[1][i] - places[0][i]);
    printf(", bell ");
    if (from != to) {
        print_place(places[0]);
        printf(" to ");
        print_place(places[1]);
        printf(": ");
    }
    print_place(places[2]);
    /* On its way only that is sure which is so at both ends. */
    const size_t mark = CEPOKARAN_ROW_WIDTH * BELL + CEPOKARAN_MARK;
    print_unsettled(from[mark] & to[mark]);
    printf("\n");
}

static void print_moves(uint32_t objects, uint32_t block_count)
{
    for (size_t i = 0; i < sizeof listened / sizeof *listened; i++) {
        uint32_t ramp[CEPOKARAN_RAMP_LENGTH] = {0};
        float fraction = 0;
        uint32_t at = listened[i];
        uint32_t number = oamd_ramp_by_rule(CEPOKARAN_RULE_2, timings, CEPOKARAN_TIMINGS_LENGTH, block_count, at,
                                            state, ramp, &fraction);
        if (number != CEPOKARAN_ACCEPTED)
            continue;
        print_ramp(at, ramp, fraction);
        print_bell(rows_of(ramp[CEPOKARAN_FROM], objects), rows_of(ramp[CEPOKARAN_TO], objects),
                   CEPOKARAN_ROW_WIDTH * objects, fraction);
    }
}

/* The objects of a frame without blocks: they stand, or move on, to where they were told last. */
static uint32_t held(void)
{
    uint32_t objects = 0;
    uint32_t number = oamd_hold(retained, CEPOKARAN_RETAINED_LENGTH, start, CEPOKARAN_START_LENGTH, &objects);
    printf("  hold: %" PRIu32 ", objects %" PRIu32 "\n", number, objects);
    return objects;
}

/* Decoded or held, the timings tested, the ramps asked, and what is left of the last one carried. */
static void play_over_edges(const struct frame *frame)
{
    uint32_t answer[CEPOKARAN_ANSWER_LENGTH] = {0};
    uint32_t objects = decoded(frame, answer) ? answer[CEPOKARAN_OBJECTS] : held();
    uint32_t block_count = answer[CEPOKARAN_BLOCKS]; /* 0 where no payload was accepted */
    uint32_t number = oamd_timing_by_rule(CEPOKARAN_RULE_2, timings, CEPOKARAN_TIMINGS_LENGTH, block_count,
                                          objects, start, CEPOKARAN_START_LENGTH, carried,
                                          CEPOKARAN_CARRIED_LENGTH, state);
    if (number != CEPOKARAN_ACCEPTED) {
        /* Carry is not asked: it would take over the last ramp of this frame, which cannot be played. */
        printf("  timing refused by %" PRIu32 "; the rows stand, and nothing is carried\n", number);
        print_rows(objects, block_count);
        return;
    }
    print_moves(objects, block_count);
    number = oamd_carry(CEPOKARAN_RULE_2, timings, CEPOKARAN_TIMINGS_LENGTH, block_count, objects, start,
                        CEPOKARAN_START_LENGTH, blocks, CEPOKARAN_BLOCKS_LENGTH, carried, CEPOKARAN_CARRIED_LENGTH,
                        state);
    printf("  carry: %" PRIu32 ", objects %d, %d/%d\n", number, state[CEPOKARAN_CARRIED_OBJECTS],
           state[CEPOKARAN_CARRIED_ELAPSED], state[CEPOKARAN_CARRIED_DURATION]);
}

/* ---- The loop -------------------------------------------------------------------------------- */

/* What a rack says before a frame. With each of the three calls a ramp that is carried ends at its target. */
static void tell(enum rack rack, int missed)
{
    /* Before the first payload after a dip: something was missed. */
    if (missed)
        printf("  gap notice: %" PRIu32 "\n", oamd_gap(retained, CEPOKARAN_RETAINED_LENGTH));
    /* The first payload to come is the programme's first. */
    if (rack == STARTS)
        printf("  start: %" PRIu32 "\n", oamd_start(retained, CEPOKARAN_RETAINED_LENGTH));
    /* A programme is under way, and nothing that is retained need be of it. */
    if (rack == IS_REPATCHED)
        printf("  reset: %" PRIu32 "\n", oamd_reset(retained, CEPOKARAN_RETAINED_LENGTH));
    if (missed || rack != HEARS)
        oamd_drop(state);
}

static void loop(const struct frame *reel, size_t frames, void (*play_frame)(const struct frame *))
{
    int missed = 0;
    for (size_t i = 0; i < frames; i++) {
        printf("frame %zu: %s\n", i + 1, reel[i].says);
        if (reel[i].rack == HAS_NO_POWER) {
            printf("  no power\n");
            missed = 1;
            continue;
        }
        tell(reel[i].rack, missed);
        missed = 0;
        play_frame(&reel[i]);
    }
}

int main(void)
{
    printf("the first reel\n");
    loop(first_reel, sizeof first_reel / sizeof *first_reel, play);
    printf("the second reel, under rule 2\n");
    loop(second_reel, sizeof second_reel / sizeof *second_reel, play_over_edges);
    return 0;
}
