/*
 * Cepokaran: a decoder for the object metadata (OAMD) of E-AC-3, for C.
 *
 * Fourteen calls over tables that the caller lends. No call allocates, keeps a pointer, prints or has
 * state of its own: everything that a decoder remembers lies in the table `retained`, and, where ramps go
 * over the frame's edge, in the table `carried` and the three numbers of its state. So one of each is one
 * decoder, and calls on tables of their own may run at the same time.
 *
 * Each call always returns, for every payload, index and content of the tables, and what it returns
 * and leaves is proved to be what this page says. Of the caller it asks only what C itself cannot
 * check:
 *
 *   - A pointer is non-null and aligned for its type, also where its length is 0.
 *   - A length counts numbers, not bytes (for a payload, a container and a buffer the two are the same).
 *     As many lie behind the pointer, in one object, and are initialised.
 *   - What a call may write (a pointer without `const`) overlaps nothing else that the call is given,
 *     and nobody else reads or writes it meanwhile. What it only reads does not change meanwhile.
 *
 * A call returns one number of `enum cepokaran_number`; 0 is accepted. On any other number every
 * further number and float that it hands back is 0, and a gain is silence. Only decode's context, place
 * and missing bits say more. oamd_drop alone returns nothing: it is never refused. A table may be longer
 * than needed: what lies behind the needed length never changes.
 *
 * examples/c/rack_loop.c is a rack's loop over these calls, and examples/c/containers.c takes payloads
 * out of a recorder's file.
 */
#ifndef CEPOKARAN_H
#define CEPOKARAN_H

#include <stddef.h>
#include <stdint.h>

#ifdef __cplusplus
extern "C" {
#endif

/* ---- Sizes ----------------------------------------------------------------------------------- */

enum {
    CEPOKARAN_ROW_WIDTH = 16,         /* numbers in a row */
    CEPOKARAN_OBJECT_LIMIT = 128,     /* objects in a frame, at most */
    CEPOKARAN_BLOCK_LIMIT = 8,        /* blocks in a frame, at most */
    CEPOKARAN_FRAME_LENGTH = 1536,    /* samples in a frame */
    CEPOKARAN_PAYLOAD_LIMIT = 16384,  /* bytes in a payload, at most */
    CEPOKARAN_CONTAINER_LIMIT = 65536 /* bytes in a container, at most */
};

/* A retained table begins with the object count and the doubt. */
enum { CEPOKARAN_OBJECT_COUNT = 0, CEPOKARAN_DOUBT = 1, CEPOKARAN_RETAINED_HEAD = 2 };

/* Lengths that the tables need, whatever the payload. Object o is row o of start and carried; in block b it is
 * row b * objects + o of blocks. Start and ramp of block b, in samples, are timings 2 * b and 2 * b + 1. */
enum {
    CEPOKARAN_START_LENGTH = CEPOKARAN_ROW_WIDTH * CEPOKARAN_OBJECT_LIMIT,
    CEPOKARAN_CARRIED_LENGTH = CEPOKARAN_START_LENGTH,
    CEPOKARAN_RETAINED_LENGTH = CEPOKARAN_RETAINED_HEAD + CEPOKARAN_START_LENGTH,
    CEPOKARAN_BLOCKS_LENGTH = CEPOKARAN_START_LENGTH * CEPOKARAN_BLOCK_LIMIT,
    CEPOKARAN_TIMINGS_LENGTH = 2 * CEPOKARAN_BLOCK_LIMIT
};

/* ---- A row: what is said of one object at one time ------------------------------------------- */

/* The place of each number in a row. */
enum {
    CEPOKARAN_KIND = 0,      /* one of the kinds below */
    CEPOKARAN_ACTIVE = 1,    /* 0 or 1; an inactive row is silent and has priority 0 */
    CEPOKARAN_GAIN = 2,      /* decibels, -49 to 15; or CEPOKARAN_SILENCE */
    CEPOKARAN_PRIORITY = 3,  /* 0 to 32, in 32nds */
    CEPOKARAN_X = 4,         /* 0 to 62, in 62nds */
    CEPOKARAN_Y = 5,         /* 0 to 62, in 62nds */
    CEPOKARAN_Z = 6,         /* -15 to 15, in 15ths */
    CEPOKARAN_WIDTH = 7,     /* 0 to 31, in 31sts */
    CEPOKARAN_DEPTH = 8,     /* 0 to 31, in 31sts */
    CEPOKARAN_HEIGHT = 9,    /* 0 to 31, in 31sts */
    CEPOKARAN_SCREEN = 10,   /* 0 or 1: the screen-reference flag */
    CEPOKARAN_LOCK = 11,     /* 0 or 1: the object-snap flag */
    CEPOKARAN_ZONE = 12,     /* 0 to 5: the zone-constraints index */
    CEPOKARAN_ELEVATION = 13,/* 0 or 1: the elevation-enabled flag */
    CEPOKARAN_DISTANCE = 14, /* 0 not specified; 1 to 16; or CEPOKARAN_INFINITY: see below */
    CEPOKARAN_MARK = 15      /* 0 to 31, a bit for each group that is settled: see oamd_decode */
};

enum cepokaran_kind {
    CEPOKARAN_LFE = 0,
    CEPOKARAN_BED = 1,
    CEPOKARAN_ISF = 2,
    CEPOKARAN_DYNAMIC = 3 /* the only kind whose picture (x to distance) is not the default */
};

enum { CEPOKARAN_SILENCE = -128 }; /* the gain of minus infinity */

/* How far an object stands. 0: the payload does not say. 1 to 16: the index of its distance factor, plus one.
 * Every position that is read sets it, a step too; while an object is inactive it stays. It is a number of the
 * row itself, and oamd_shown has no float of it. */
enum { CEPOKARAN_INFINITY = 17 }; /* the distance of a storm or a crowd: infinitely far */

/* The bits of a mark, and what each tells a mixer where it is set. Where it is not, the numbers of the group are
 * the last that were heard, or the default, and the mix may have others. */
enum {
    CEPOKARAN_POSITION_BIT = 1, /* x, y, z, distance: the object stands where the mix puts it */
    CEPOKARAN_ZONE_BIT = 2,     /* zone, elevation: it sounds from those speakers that the mix lets it use */
    CEPOKARAN_SIZE_BIT = 4,     /* width, depth, height: it is as large as in the mix */
    CEPOKARAN_SCREEN_BIT = 8,   /* screen: it follows the screen, or not, as in the mix */
    CEPOKARAN_LOCK_BIT = 16,    /* lock: it snaps to a speaker, or not, as in the mix */
    CEPOKARAN_ALL_BITS = 31     /* all five: the row is settled, and its whole picture the mix's */
};

/* ---- Numbers given back ---------------------------------------------------------------------- */

enum cepokaran_number {
    CEPOKARAN_ACCEPTED = 0,
    CEPOKARAN_TRUNCATED = 1,   /* the payload ends too early */
    CEPOKARAN_INVALID = 2,     /* the payload says what may not be said */
    CEPOKARAN_LIMIT = 3,       /* the payload passes a limit of the format */
    CEPOKARAN_UNSUPPORTED = 4, /* the payload says what this decoder does not take */
    CEPOKARAN_ROOM = 5,        /* a table, or the buffer for a payload, is shorter than needed */
    CEPOKARAN_FORM = 6,        /* out of form: the retained table, the row that is asked for, or what is carried */
    CEPOKARAN_SIZE = 7,        /* the payload, or the container, is longer than its limit */
    CEPOKARAN_ORDERING = 8,    /* timings: a start falls below the one before it */
    CEPOKARAN_OVERLAP = 9,     /* timings: a block starts before the one before it, or a carried ramp, has ended */
    CEPOKARAN_CROSS_FRAME = 10,/* timings: a start lies behind the frame; under rule 1, or an end */
    CEPOKARAN_QUERY = 11,      /* asked of a sample over 1,535, or of more than 8 blocks or 128 objects */
    CEPOKARAN_INDEX = 12,      /* the row lies outside its table */
    CEPOKARAN_ENDS_EARLY = 13, /* the container ends too early */
    CEPOKARAN_VERSION = 14,    /* the container is not of version 0 */
    CEPOKARAN_NO_OBJECT = 15,  /* the container has no object payload */
    CEPOKARAN_UNKNOWN_RULE = 16/* a rule that is not in `enum cepokaran_rule` */
};

/* ---- The retained table ---------------------------------------------------------------------- */

/* Number 0 is the object count, number 1 the doubt (1 after a gap notice or a reset), and then come the
 * rows of the last block that was accepted. A table that was started or reset, and is written by these
 * calls alone, is in form for ever; it may be stored, copied and compared as it is. Only a table that was
 * stored when rows had no distance, or when a mark was 0 or 1, cannot be used: begin with oamd_reset.
 *
 * Which of the three calls, and when:
 *
 *   oamd_start  at the head of a programme: the first payload to come is the programme's first.
 *   oamd_reset  when the rack is switched on or re-patched: a programme may be under way.
 *   oamd_gap    when something was missed: a power dip, a seek, a lost frame.
 *
 * Where ramps go over the frame's edge, each of the three is told to oamd_drop as well.
 *
 * After a reset or a gap notice the next accepted payload shows as unsettled what it does not tell
 * itself. If in doubt, reset: a reset at the head of a programme makes nothing wrong, and start in
 * the middle of one shows default places as true. */

/*
 * A programme starts: the first CEPOKARAN_RETAINED_LENGTH numbers become 0, whatever they were. A table
 * of zeros needs no start.
 * Refused, and nothing changes: ROOM.
 */
uint32_t oamd_start(int16_t *retained, size_t retained_len);

/*
 * Forgets everything, in doubt: the first CEPOKARAN_RETAINED_LENGTH numbers become 0, whatever they were,
 * but for the doubt, which becomes 1. It is oamd_start and then oamd_gap.
 * Refused, and nothing changes: ROOM.
 */
uint32_t oamd_reset(int16_t *retained, size_t retained_len);

/*
 * A gap notice: payloads may have been missed. The doubt becomes 1, and nothing else changes. Give it
 * before the first payload after what was missed.
 * Refused in this order, and nothing changes: ROOM, FORM.
 */
uint32_t oamd_gap(int16_t *retained, size_t retained_len);

/* ---- Decode ---------------------------------------------------------------------------------- */

/* The place of each number in decode's answer. All six are written, whatever is returned: a program that
 * was built when there were five must be built anew. */
enum {
    CEPOKARAN_CONTEXT = 0,  /* refused by 1 to 4: which field, by the list in docs/CONTEXTS.md */
    CEPOKARAN_PLACE = 1,    /* refused by 1 to 4: its bit, counted from the payload's first */
    CEPOKARAN_OBJECTS = 2,  /* accepted: how many objects, 1 to 128 */
    CEPOKARAN_BLOCKS = 3,   /* accepted: how many blocks, 1 to 8 */
    CEPOKARAN_UNSETTLED = 4,/* accepted: how many rows of the last block have a mark below CEPOKARAN_ALL_BITS */
    CEPOKARAN_MISSING = 5,  /* refused by 1: how many bits were missing, 1 to 559,232; else 0 */
    CEPOKARAN_ANSWER_LENGTH = 6
};

/*
 * Decodes one payload.
 *
 * Refused in this order, and no table changes: ROOM (any of the four tables), FORM (retained), SIZE.
 * Then the payload is read. Refused by TRUNCATED, INVALID, LIMIT or UNSUPPORTED: context and place
 * say where; retained stays; start, blocks and timings become 0 over their needed lengths.
 *
 * TRUNCATED also tells how many bits were missing: what the field, the skipped run or the element at the
 * place needs, less what was left of it. Which end cut it, its context says:
 *
 *   1 to 34   The payload's own end: its tail is lost, or it was cut in transport. With so many bits more
 *             what was cut is there; with fewer it is cut at the same place, by as many bits less.
 *   35 to 86  An element's end: no tail would help, since bytes behind the payload change nothing. The
 *             element says more than its size holds: bits of it were changed, or written wrong.
 *
 * Accepted: the frame has objects and blocks. Written are `objects` rows of start (how each object
 * stands before the first block), blocks * objects rows of blocks, and 2 * blocks numbers of timings;
 * the rest of these tables is unchanged. Retained becomes the last block's rows, without doubt.
 *
 * A row's mark says what to believe after payloads were missed and a gap notice or a reset was given for
 * them. A group of the picture whose bit is set is what a decoder would hold that missed nothing, whatever
 * the other bits are: an object may stand at its true place while its zone is unknown. A program that takes
 * every mark but 0 for settled was built when there was one bit: compare with CEPOKARAN_ALL_BITS.
 *
 * A bit is set once its group is read. Steps leave the position's bit as it was, since a step from an unknown
 * place leads to one, although their distance is new. The lock is read at every render status 1 and 3, and
 * status 0, the default picture, sets all five. No bit falls within a frame. A block row of a fixed kind is
 * settled, and so is each of a Dynamic object that is active in the first block. Without a gap notice or a
 * reset since the last start, or since a table of zeros, every mark is CEPOKARAN_ALL_BITS.
 *
 * In a block row kind, active, gain and priority are always what such a decoder would hold. In a start row the
 * kind is; active, gain and priority are unless retained[CEPOKARAN_DOUBT] was 1 before the call, and then the
 * row's mark is 0.
 *
 * The timings are not tested here: oamd_timing or oamd_timing_by_rule does that, and undoes nothing.
 *
 * A payload may lie behind a slow bus. No byte is fetched more often than fields lie in it, some three times,
 * and none that is skipped or lies behind a refusal. That is counted in the machine code, on generated
 * payloads, and no part of what is proved (docs/SPEED.md).
 */
uint32_t oamd_decode(const uint8_t *payload, size_t payload_len,
                     int16_t *retained, size_t retained_len,
                     int16_t *start, size_t start_len,
                     int16_t *blocks, size_t blocks_len,
                     uint16_t *timings, size_t timings_len,
                     uint32_t answer[CEPOKARAN_ANSWER_LENGTH]);

/* ---- Containers ------------------------------------------------------------------------------ */

/*
 * Takes the object metadata out of an EMDF container (ETSI TS 102 366, Annex H; docs/CONTAINER.md), which
 * is given from its version field on.
 *
 * Payloads of other kinds are passed over. The first object payload (id 11) is copied to the front of the
 * buffer, which has room for CEPOKARAN_PAYLOAD_LIMIT bytes at least, and `length` becomes its bytes, 0 to
 * CEPOKARAN_PAYLOAD_LIMIT: buffer and length are what oamd_decode takes as payload. It may begin within a
 * byte of the container. What lies behind it in the buffer stays, and what lies behind it in the container
 * is not read.
 *
 * Refused, and the buffer stays and length is 0: ROOM (the buffer), SIZE (the container), then in reading
 * order ENDS_EARLY, VERSION, SIZE (the object payload, before its bytes are sought), and, once the whole
 * list was read, NO_OBJECT. That one says that nothing was lost: the frame has no object metadata. After
 * the others give a gap notice, since a payload may have been missed.
 */
uint32_t oamd_emdf(const uint8_t *container, size_t container_len, uint8_t *buffer, size_t buffer_len,
                   uint32_t *length);

/* ---- Timings and ramps ----------------------------------------------------------------------- */

/* Every ramp ends in its frame: rule 1 of the two that the next part has. */

/*
 * Tests the timings of a frame; 0 says that a renderer may play them. It only reads.
 * Refused in this order: QUERY (more than 8 blocks), ROOM (fewer than 2 * blocks numbers), ORDERING
 * (a start falls anywhere), then block by block OVERLAP before CROSS_FRAME.
 *
 * A refusal says that this frame's ramps cannot be played. The frame stays decoded: its rows are
 * retained, and the next payload goes on from them. Do not restore an older retained table.
 */
uint32_t oamd_timing(const uint16_t *timings, size_t timings_len, uint32_t blocks);

/* The place of each number in ramp's answer. */
enum {
    CEPOKARAN_FROM = 0,     /* row number: 0 is the start row, b + 1 that of block b; or CEPOKARAN_CARRIED_ROW */
    CEPOKARAN_TO = 1,       /* row number */
    CEPOKARAN_ELAPSED = 2,  /* samples since the ramp began; 1 where a row stands still */
    CEPOKARAN_DURATION = 3, /* samples that the ramp takes; 1 where a row stands still */
    CEPOKARAN_RAMP_LENGTH = 4
};

/*
 * Between which two rows of each object a sample of the frame lies, and which part of the way is
 * gone: 0 is the row `from`, 1 the row `to`. The answer is given for any timings, also for those that
 * oamd_timing refuses. The fraction is elapsed / duration in one f32 division: below 1 if elapsed is
 * below duration, and only then. A row that stands still is from = to, 1 / 1.
 * Refused in this order: QUERY (a sample over 1,535, or more than 8 blocks), ROOM (fewer than
 * 2 * blocks numbers). Then all four numbers and the fraction are 0.
 */
uint32_t oamd_ramp(const uint16_t *timings, size_t timings_len, uint32_t blocks, uint32_t sample,
                   uint32_t answer[CEPOKARAN_RAMP_LENGTH], float *fraction);

/* ---- Ramps over the frame's edge ------------------------------------------------------------- */

/* A newer station writes moves that end in a later frame. So there are two rules, and a call is told which:
 *
 *   rule 1  Every ramp ends in its frame: the test of oamd_timing, and the choice of oamd_ramp. It looks at
 *           nothing carried, and carries nothing.
 *   rule 2  The last block's ramp may end in a later frame, and is carried there, through as many frames
 *           without blocks as it takes. No block may start before it has ended.
 */
enum cepokaran_rule { CEPOKARAN_RULE_1 = 1, CEPOKARAN_RULE_2 = 2 };

/* What is carried into a frame: in the table `carried` the rows that the ramp comes from, one for each object,
 * and three numbers, the state. The target needs no rows: it is the frame's start row, since the last block is
 * retained. Begin with a state of zeros, and keep both beside the retained table. */
enum {
    CEPOKARAN_CARRIED_OBJECTS = 0,  /* how many rows */
    CEPOKARAN_CARRIED_ELAPSED = 1,  /* samples since the ramp began, at the frame's sample 0 */
    CEPOKARAN_CARRIED_DURATION = 2, /* samples that the ramp takes; 0 says that nothing is carried */
    CEPOKARAN_STATE_LENGTH = 3
};

enum { CEPOKARAN_CARRIED_ROW = 9 }; /* its row number, in what oamd_ramp_by_rule answers */

/* The order of one frame, with one rule:
 *
 *   1. oamd_decode. If it refuses the payload, by any number, or if there is no payload, the frame has no
 *      blocks: oamd_hold then gives its start rows and counts its objects, and `blocks` is 0 below.
 *   2. oamd_timing_by_rule. Unless it gives 0, the frame's ramps cannot be played.
 *   3. oamd_ramp_by_rule, at each sample.
 *   4. oamd_carry, only if 2 gave 0. An OVERLAP may come from what remained of a carried ramp. That is dropped
 *      then, so carry would not find it any more, and would take the refused frame's last ramp over.
 *
 * From the frame where it began a ramp goes on by one sample at a time, over the edges too. The sample after its
 * last stands at the target, unless a block starts there, or the ramp was dropped before.
 *
 * What drops a carried ramp: a gap notice, a reset and a programme start, each of which is told to oamd_drop as
 * well; and in 2 other kinds or another count of objects, ORDERING, OVERLAP, CROSS_FRAME, and rule 1. Then the
 * state is 0, 0, 0, and each object stands in its start row at once; the carried rows stay, and count no more. A
 * frame that is played by oamd_timing is one under rule 1: tell it to oamd_drop. */

/*
 * The start rows of a frame without blocks: the retained rows, and `objects` becomes how many. In doubt each has
 * mark 0, as decode's start rows have. Start stays behind them, and retained is only read.
 * Refused in this order, and start stays and objects is 0: ROOM (either table), FORM (retained).
 */
uint32_t oamd_hold(const int16_t *retained, size_t retained_len, int16_t *start, size_t start_len,
                   uint32_t *objects);

/*
 * Before a frame: tests its timings by a rule; 0 says that a renderer may play them. It writes the state alone.
 *
 * Refused in this order, and nothing changes: UNKNOWN_RULE, QUERY (more than 8 blocks, or more than 128 objects),
 * ROOM (fewer than 2 * blocks timings, or start or carried too short), FORM (elapsed is not below duration, the
 * state has more than 128 objects, or one of that many carried rows cannot be shown). Where duration is 0, FORM is
 * not tested. Under rule 1 nothing carried is tested, not even its room.
 *
 * Rule 1: the test of oamd_timing, and the state becomes 0, 0, 0, whatever it gives.
 *
 * Rule 2: first the count and the kinds of the carried rows are held against those of the start rows. Where they
 * differ the ramp is dropped, which is no refusal. Then the timings are tested, and a refusal drops the ramp, too:
 * ORDERING (a start falls anywhere), then block by block OVERLAP (a start below the end before it; for the first
 * block, below duration less elapsed, which remains of the carried ramp) before CROSS_FRAME (a start over 1,536).
 * No end is tested: the next block's start decides. On 0 the state says what is carried in this frame: as it was,
 * or 0, 0, 0 if that is nothing.
 *
 * A refusal undoes nothing of what was decoded, as with oamd_timing.
 */
uint32_t oamd_timing_by_rule(uint32_t rule, const uint16_t *timings, size_t timings_len,
                             uint32_t blocks, uint32_t objects,
                             const int16_t *start, size_t start_len,
                             const int16_t *carried, size_t carried_len,
                             uint16_t state[CEPOKARAN_STATE_LENGTH]);

/*
 * At a sample: as oamd_ramp, but that under rule 2 a carried ramp comes first. While elapsed + sample is below
 * duration the answer is from CEPOKARAN_CARRIED_ROW to 0, the start row, (elapsed + sample) / duration. From then
 * on, and under rule 1, it is that of oamd_ramp. Give it the state that the timing call left; it is only read.
 * Refused in this order: UNKNOWN_RULE, QUERY (a sample over 1,535, or more than 8 blocks), ROOM (fewer than
 * 2 * blocks timings), FORM (the state, tested as above). Then all four numbers and the fraction are 0.
 */
uint32_t oamd_ramp_by_rule(uint32_t rule, const uint16_t *timings, size_t timings_len,
                           uint32_t blocks, uint32_t sample,
                           const uint16_t state[CEPOKARAN_STATE_LENGTH],
                           uint32_t answer[CEPOKARAN_RAMP_LENGTH], float *fraction);

/*
 * Behind a frame, asked only if its timing call gave 0: what goes over into the next.
 *
 *   with blocks     The last block's ramp, if it ends past 1,536. Carried becomes the rows before that block,
 *                   `objects` of them; elapsed is 1,536 less its start, duration its ramp. A ramp that ends at
 *                   1,536 is over; one that starts there goes over whole, with elapsed 0.
 *   without blocks  The ramp that is carried already, with 1,536 more elapsed, until it is over.
 *
 * Where nothing goes over, and under rule 1, the state becomes 0, 0, 0 and the carried rows stay. Carried stays
 * behind the rows that are written, too.
 *
 * Refused in this order, and nothing changes: UNKNOWN_RULE, QUERY, ROOM, FORM, as by oamd_timing_by_rule; ROOM
 * stands also for block_rows, decode's table of blocks, even where the frame has none. Then the timings are tested
 * again, and not the kinds: ORDERING, OVERLAP or CROSS_FRAME drops the ramp.
 */
uint32_t oamd_carry(uint32_t rule, const uint16_t *timings, size_t timings_len,
                    uint32_t blocks, uint32_t objects,
                    const int16_t *start, size_t start_len,
                    const int16_t *block_rows, size_t block_rows_len,
                    int16_t *carried, size_t carried_len,
                    uint16_t state[CEPOKARAN_STATE_LENGTH]);

/*
 * Drops the carried ramp: the state becomes 0, 0, 0, whatever it was. It goes with every oamd_gap, oamd_reset and
 * oamd_start.
 */
void oamd_drop(uint16_t state[CEPOKARAN_STATE_LENGTH]);

/* ---- Rows ------------------------------------------------------------------------------------ */

/*
 * Tells whether row `index` of a table of rows (start or blocks) can be shown. On 0 the row is the
 * CEPOKARAN_ROW_WIDTH numbers from table + CEPOKARAN_ROW_WIDTH * index. It only reads.
 * Refused in this order: INDEX (the row is not wholly inside the table), FORM.
 * A row that decode wrote is never refused by FORM.
 */
uint32_t oamd_row(const int16_t *table, size_t table_len, uint32_t index);

/* The place of each float in what is shown. */
enum {
    CEPOKARAN_SHOWN_X = 0,        /* x / 62 */
    CEPOKARAN_SHOWN_Y = 1,        /* y / 62 */
    CEPOKARAN_SHOWN_Z = 2,        /* z / 15 */
    CEPOKARAN_SHOWN_WIDTH = 3,    /* width / 31 */
    CEPOKARAN_SHOWN_DEPTH = 4,    /* depth / 31 */
    CEPOKARAN_SHOWN_HEIGHT = 5,   /* height / 31 */
    CEPOKARAN_SHOWN_PRIORITY = 6, /* priority / 32 */
    CEPOKARAN_SHOWN_DECIBELS = 7, /* the gain; +0 where it is silence */
    CEPOKARAN_SHOWN_LENGTH = 8
};

/*
 * What is shown of row `index` of a table of rows, each float by one f32 division; an Lfe always
 * stands at (-1, 1, -1). `silent` is 1 where the gain is silence, else 0: read it before the
 * decibels. Neither the distance nor the mark is among the floats: they are numbers CEPOKARAN_DISTANCE
 * and CEPOKARAN_MARK of the row.
 * Refused in this order: INDEX, FORM, as oamd_row. Then all floats are +0, and silent is 1.
 */
uint32_t oamd_shown(const int16_t *table, size_t table_len, uint32_t index,
                    float values[CEPOKARAN_SHOWN_LENGTH], uint32_t *silent);

#ifdef __cplusplus
}
#endif

#endif
