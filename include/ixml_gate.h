/*
 * The position gate: does a latitude and a longitude, as the texts of two
 * attributes, lie where a grower's fields are?
 *
 * Link with libgate.a, which `tools/staticlib gate` writes to target/staticlib/.
 * It stands beside the reader's library (ixml.h) and needs nothing of it.
 *
 *     cc -I include program.c target/staticlib/libgate.a
 *
 * What is required of the caller: valid pointers, and nothing else, as ixml.h
 * says. Any texts and any limits, infinities and NaN included, get an answer.
 * The calls allocate nothing, keep nothing and may run on several threads.
 * The processor rounds to nearest and keeps subnormal numbers, as it does from
 * a program's start: not so after fesetround or with -ffast-math.
 *
 * A number text has an optional minus, 1 to 3 digits and, optionally, a point
 * and 1 to 9 digits. Its value is the double that is nearest to it. None of
 * these characters is written as a reference in XML, so a caller may hand on
 * what stands between the quotes of an attribute.
 */
#ifndef IXML_GATE_H
#define IXML_GATE_H

#include <stddef.h>
#include <stdint.h>

#ifdef __cplusplus
extern "C" {
#endif

/*
 * The numbers of an answer: 0, or the first of these that applies.
 */
enum {
    IXML_GATE_ANSWERED = 0,
    /* A limit is not finite, or a low limit is above its high one. */
    IXML_UNSOUND_GATE = 30,
    /* The latitude's or the longitude's text is no number text. */
    IXML_NO_NUMBER = 31,
    /* The latitude is beyond 90 degrees, or the longitude beyond 180. */
    IXML_OUT_OF_RANGE = 32
};

/* The verdicts. */
enum {
    /* There is none, since the position is refused. */
    IXML_NO_VERDICT = 0,
    /* Inside the limits, the limits themselves included. */
    IXML_INSIDE = 1,
    /* Outside, but inside once latitude and longitude are exchanged. Only a box
       says so, and never of a longitude beyond 90 degrees. */
    IXML_SWAPPED = 2,
    /* Outside either way. */
    IXML_SUSPECT = 3
};

typedef struct {
    /* 0, or the number of a refusal. */
    uint32_t number;
    /* With 0 one of the verdicts, else IXML_NO_VERDICT. */
    uint32_t verdict;
} ixml_gate_answer;

typedef struct {
    /* 0, or IXML_NO_NUMBER. */
    uint32_t number;
    /* With 0 the value of the text, else 0. */
    double value;
} ixml_number_answer;

/* Limits are in degrees: low and high latitude, low and high longitude. */

/* A box: four limits. */
ixml_gate_answer ixml_gate_box(double south, double north,
                               double west, double east,
                               const uint8_t *lat, size_t lat_length,
                               const uint8_t *lon, size_t lon_length);

/* A band: limits of latitude alone. */
ixml_gate_answer ixml_gate_band(double south, double north,
                                const uint8_t *lat, size_t lat_length,
                                const uint8_t *lon, size_t lon_length);

/* No limits: inside wherever a position can be. */
ixml_gate_answer ixml_gate_anywhere(const uint8_t *lat, size_t lat_length,
                                    const uint8_t *lon, size_t lon_length);

/* The value of a number text. */
ixml_number_answer ixml_number(const uint8_t *text, size_t text_length);

#ifdef __cplusplus
}
#endif

#endif
