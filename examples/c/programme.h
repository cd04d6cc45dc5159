/*
 * What rack_loop.c plays: payloads, and two reels of frames.
 *
 * There are three objects: an Lfe, a narrator and a bell. The first reel is of a station whose ramps end in
 * their frames. The second is of a newer one, whose bell moves over the frame's edge.
 */
#ifndef PROGRAMME_H
#define PROGRAMME_H

#include "cepokaran.h"

/* ---- Payloads -------------------------------------------------------------------------------- */

/*
 * 1 block at sample 0, without a ramp. The narrator at (31, 0, 0), 0 dB; the bell at (62, 62, 15), -7 dB.
 * Bit by bit:
 *
 *   00 00010 1 1          version 0; 3 objects, less 1; dynamic only; with an Lfe
 *   0 0001                no alternate data; 1 element
 *   0001 1010 0           the element: its id, for objects; its 11 bytes, less 1; no more of the size
 *   0 00 000              not to be discarded; no sample offset; 1 block, less 1
 *   000000 00 1           its start, in 32s; no ramp; no reserved data
 *   0 00 1 0              Lfe: active; gain 0 dB; default priority; no table data
 *   0 00 1                narrator: the same, and then
 *   011111 000000 1 0000  x 31, y 0, z +0
 *   0 000 1 00 0 0 0      no distance; zone 0, elevation; no size; no screen; no lock; no table data
 *   0 10 010101 1         bell: active; gain word 21, so 14 - 21 dB; default priority
 *   111110 111110 1 1111  x 62, y 62, z +15
 *   0 000 1 00 0 0 0      as the narrator's
 *   0                     padding
 *
 * The other payloads begin in the same way.
 */
static const uint8_t told[] = {0x05, 0x84, 0x68, 0x00, 0x04, 0x42, 0xF8,
                               0x10, 0x08, 0x12, 0xBF, 0xBE, 0xF8, 0x40};

/* 2 blocks, at 0 and at 768, with ramps of 512. Everyone is told in the first; in the second the narrator
 * moves by (3, 2, 0), and the others are kept. */
static const uint8_t walk[] = {0x05, 0x84, 0x7C, 0x08, 0x0B, 0x0C, 0x48, 0x2F, 0x81, 0x00,
                               0x81, 0x71, 0x68, 0x04, 0xAF, 0xEF, 0xBE, 0x10, 0x28};

/* 2 blocks, at 0 without a ramp and at 512 with one of 320. The narrator is told. The bell is inactive, and
 * then active with its picture kept: only a rack that heard the frames before knows where. */
static const uint8_t rejoin[] = {0x05, 0x84, 0x6C, 0x08, 0x02, 0x1D, 0x22, 0x41,
                                 0xA0, 0xA8, 0x04, 0x0A, 0x46, 0x57, 0x00};

/* 2 blocks, at 0 and at 256, without ramps. The narrator is told. The bell is inactive, and then says where it is,
 * (20, 40, 5), and nothing of its zone, size and screen. */
static const uint8_t placed[] = {0x05, 0x84, 0x74, 0x08, 0x01, 0x04, 0x44, 0x86, 0x82,
                                 0xE0, 0x10, 0x13, 0x22, 0x78, 0x29, 0x45, 0x40};

/* 1 block, at 32 with a ramp of 1,536, which ends behind the frame. The bell is told at (10, 40, 5), infinitely
 * far: its distance is 11 and not 0, and the element has a byte more. */
static const uint8_t late[] = {0x05, 0x84, 0x6C, 0x00, 0x34, 0x43, 0x41, 0x90,
                               0x08, 0x12, 0xB2, 0xA8, 0xAE, 0x20, 0x00};

/* 2 blocks, at 0 and at 512, without ramps. The bell as in `rejoin`. */
static const uint8_t after[] = {0x05, 0x84, 0x68, 0x08, 0x02, 0x04, 0x48,
                                0x34, 0x1D, 0x00, 0x81, 0x48, 0xCA, 0xE0};

/* 1 block, at 1,280 with a ramp of 2,048, so that it ends two frames later, at 256. The bell is told at
 * (0, 62, 15). Its ramp takes 5 bits more: 11 1 1111 is index 15 of the table of ramps. */
static const uint8_t leftward[] = {0x05, 0x84, 0x6C, 0x05, 0x1F, 0xE2, 0x17, 0xC0,
                                   0x80, 0x40, 0x95, 0x81, 0xF7, 0xC2, 0x00};

/* 1 block, at 768 with a ramp of 1,536, so that it ends in the next frame, at 768. The bell is told at
 * (62, 62, 0). */
static const uint8_t rightward[] = {0x05, 0x84, 0x68, 0x03, 0x14, 0x42, 0xF8,
                                    0x10, 0x08, 0x12, 0xBF, 0xBE, 0x80, 0x40};

/* ---- Frames ---------------------------------------------------------------------------------- */

enum rack {
    HEARS,
    HAS_NO_POWER,
    STARTS,      /* a programme, with this frame */
    IS_REPATCHED /* just before the frame */
};

struct frame {
    const char *says;
    const uint8_t *payload; /* or NULL: the frame has none */
    size_t length;
    enum rack rack;
};

static const struct frame first_reel[] = {
    {"everyone is told", told, sizeof told, STARTS},
    {"the narrator walks", walk, sizeof walk, HEARS},
    {"the bell moves", late, sizeof late, HAS_NO_POWER},
    {"the bell is where it was", rejoin, sizeof rejoin, HEARS},
    {"the bell says where it is", placed, sizeof placed, HEARS},
    {"the bell moves, and its ramp is too long", late, sizeof late, HEARS},
    {"a payload whose end was lost", late, sizeof late - 5, HEARS},
    {"the bell is where it was", after, sizeof after, HEARS},
    {"the bell is where it was", after, sizeof after, IS_REPATCHED},
};

static const struct frame second_reel[] = {
    {"everyone is told", told, sizeof told, STARTS},
    {"the bell sets out to the left, over two edges", leftward, sizeof leftward, HEARS},
    {"a payload whose end was lost; the bell moves on", rightward, sizeof rightward - 5, HEARS},
    {"the bell arrives, and sets out to the right", rightward, sizeof rightward, HEARS},
    {"the bell moves on", NULL, 0, HAS_NO_POWER},
    {"no payload; the bell is at its target", NULL, 0, HEARS},
    {"the bell sets out to the left", leftward, sizeof leftward, HEARS},
    {"the bell is told to turn before it arrives", rightward, sizeof rightward, HEARS},
    {"no payload; the bell stands", NULL, 0, HEARS},
};

/* ---- What is printed of them ----------------------------------------------------------------- */

enum { BELL = 2 };
static const char *const names[] = {"lfe", "narrator", "bell"};
static const char *const groups[] = {"position", "zone", "size", "screen", "lock"}; /* from the lowest bit */
static const uint32_t listened[] = {0, 256, 600, 1024, CEPOKARAN_FRAME_LENGTH - 1};

#endif
