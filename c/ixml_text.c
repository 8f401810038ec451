/* refusals.inc and IXML_VERSION are made by the Makefile, from include/refusals.tsv and VERSION. */
#include "ixml_text.h"

#include <stddef.h>

const char *ixml_sentence(uint32_t number)
{
    switch (number) {
    case 0:
        return "answered";
#include "refusals.inc"
    default:
        return NULL;
    }
}

const char *ixml_version(void)
{
    return IXML_VERSION;
}
