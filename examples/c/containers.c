/*
 * Takes the object payloads out of a recorder's file, and writes a journal of them:
 *
 *   containers < FILE > JOURNAL
 *   containers start < FILE > JOURNAL
 *
 * The journal begins with a reset (RS): a recorder may be switched on in mid-programme. The word `start`
 * says that the file begins with the head of a programme, and then it is a programme start (PS).
 *
 * The file has EMDF containers one behind the other, each behind a head of four bytes: its length in
 * bytes, the highest byte first. Of each container the journal gets
 *
 *   the object payload (PL), if it has one;
 *   nothing, if oamd_emdf says that it has none: nothing was lost;
 *   a gap notice (GP) after any other refusal: a payload may have been missed.
 *
 * Standard error gets a line for each container, numbered from 1, with the offset of its head:
 *
 *   NUMBER OFFSET ok LENGTH     the object payload has so many bytes
 *   NUMBER OFFSET no REFUSAL    a number of enum cepokaran_number
 *
 * and a last line. After all but the first the journal gets a gap notice too.
 *
 *   end OFFSET      the file ends behind a container
 *   torn OFFSET     the file ends within the head or the container that begins there
 *   fault OFFSET    the file could not be read on, within what begins there
 *
 * The status is 0, whatever the file holds, and 1 if the journal could not be written.
 * tools/container builds and runs this program; with --check it compares what it writes.
 */
#include <inttypes.h>
#include <stdio.h>
#include <string.h>

#include "cepokaran.h"

enum { HEAD_LENGTH = 4 };

/* One byte over the limit: so oamd_emdf itself sees that a container is too long. */
static uint8_t container[CEPOKARAN_CONTAINER_LIMIT + 1];
static uint8_t payload[CEPOKARAN_PAYLOAD_LIMIT];

/* ---- The journal ----------------------------------------------------------------------------- */

/* A payload is shorter than 65,536 bytes, so two bytes hold its length. */
static void write_payload(uint32_t length)
{
    const uint8_t head[] = {'P', 'L', (uint8_t)(length >> 8), (uint8_t)length};
    fwrite(head, 1, sizeof head, stdout);
    fwrite(payload, 1, length, stdout);
}

/* A record of a mark alone. */
static void write_mark(const char *mark)
{
    fwrite(mark, 1, 2, stdout);
}

/* Who reads the journal as it comes need not wait for the next record. What could not be written of an
 * earlier one is noticed here too. */
static int written(void)
{
    return fflush(stdout) == 0 && !ferror(stdout);
}

/* ---- The recorder's file --------------------------------------------------------------------- */

enum arrival { WHOLE, END, TORN, FAULT };

static const char *const last_words[] = {[END] = "end", [TORN] = "torn", [FAULT] = "fault"};

/* Reads so many bytes into the container's buffer. Where they are more than it holds, the later ones
 * replace the earlier: such a container is refused by its length alone, and its bytes are only passed. */
static int read_bytes(uint32_t length)
{
    while (length > 0) {
        uint32_t part = length < sizeof container ? length : sizeof container;
        if (fread(container, 1, part, stdin) < part)
            return 0;
        length -= part;
    }
    return 1;
}

/* The next container, behind its head. */
static enum arrival read_container(uint32_t *length)
{
    uint8_t head[HEAD_LENGTH] = {0};
    size_t got = fread(head, 1, sizeof head, stdin);
    if (got == 0 && !ferror(stdin))
        return END;
    *length = (uint32_t)head[0] << 24 | (uint32_t)head[1] << 16 | (uint32_t)head[2] << 8 | head[3];
    if (got == sizeof head && read_bytes(*length))
        return WHOLE;
    return ferror(stdin) ? FAULT : TORN;
}

/* ---- Both ------------------------------------------------------------------------------------ */

/* Writes the record of the container that was read, and its line. */
static void take(uint64_t number, uint64_t offset, uint32_t length)
{
    size_t kept = length < sizeof container ? length : sizeof container;
    uint32_t taken = 0;
    uint32_t refusal = oamd_emdf(container, kept, payload, sizeof payload, &taken);
    int accepted = refusal == CEPOKARAN_ACCEPTED;
    if (accepted)
        write_payload(taken);
    else if (refusal != CEPOKARAN_NO_OBJECT)
        write_mark("GP");
    fprintf(stderr, "%" PRIu64 " %" PRIu64 " %s %" PRIu32 "\n", number, offset, accepted ? "ok" : "no",
            accepted ? taken : refusal);
}

/* The last line. What did not arrive whole may have had a payload. */
static void finish(enum arrival arrival, uint64_t offset)
{
    if (arrival != END)
        write_mark("GP");
    fprintf(stderr, "%s %" PRIu64 "\n", last_words[arrival], offset);
}

int main(int argc, char **argv)
{
    uint64_t number = 0, offset = 0;
    uint32_t length = 0;
    enum arrival arrival = WHOLE;
    write_mark(argc > 1 && strcmp(argv[1], "start") == 0 ? "PS" : "RS");
    while (arrival == WHOLE && written()) {
        arrival = read_container(&length);
        if (arrival == WHOLE) {
            take(++number, offset, length);
            offset += HEAD_LENGTH + (uint64_t)length;
        } else {
            finish(arrival, offset);
        }
    }
    if (written())
        return 0;
    fprintf(stderr, "the journal could not be written\n");
    return 1;
}
