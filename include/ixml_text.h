/*
 * Words for the numbers of answers, and the version of the library. Beside the
 * calls of ixml.h and ixml_gate.h; link with libixml (see c/Makefile), or with
 * c/ixml_text.c.
 */
#ifndef IXML_TEXT_H
#define IXML_TEXT_H

#include <stdint.h>

#ifdef __cplusplus
extern "C" {
#endif

/*
 * What a number of an answer means, as a sentence without a capital and a full
 * stop: "answered" for 0, and NULL for a number that no call gives. The text is
 * constant.
 */
const char *ixml_sentence(uint32_t number);

/* The version of the library, as "0.1.0". */
const char *ixml_version(void);

#ifdef __cplusplus
}
#endif

#endif
