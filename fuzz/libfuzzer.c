/*
 * A target for libFuzzer: the first bytes say how long the grammar is and how long what is lent is, the rest is grammar and record. Checks what can
 * be seen from outside: cells after the result, and all of them on a refusal, are as they were; tidying again gives the same; both engines agree.
 */
#include <stdint.h>
#include <stdlib.h>
#include <string.h>

#include "ixml.h"

static uint32_t main_table[1 << 20];
static uint32_t grammar_table[IXML_GRAMMAR_TABLE];

static void require(bool holds)
{
    if (!holds)
        abort();
}

static void unchanged(const uint8_t *cells, size_t from, size_t length)
{
    for (size_t at = from; at < length; ++at)
        require(cells[at] == 7);
}

int LLVMFuzzerTestOneInput(const uint8_t *data, size_t size)
{
    if (size < 4)
        return 0;
    size_t grammar_length = data[0] + 256u * (data[1] & 7u);
    size_t room = data[2] & 1 ? sizeof(uint8_t[4096]) : data[2];
    size_t table = data[3] & 1 ? sizeof main_table / sizeof *main_table : (size_t)data[3] * 16;
    data += 4;
    size -= 4;
    if (grammar_length > size)
        grammar_length = size;
    const uint8_t *record = data + grammar_length;
    size_t record_length = size - grammar_length;
    if (record_length > 40 && !(room & 2))
        record_length = 40;
    static uint8_t bytes[4096], again[4096];
    static uint32_t one[IXML_READING_NUMBERS], other[IXML_READING_NUMBERS];

    memset(bytes, 7, sizeof bytes);
    ixml_answer tidy = ixml_tidy(data, grammar_length, bytes, room);
    unchanged(bytes, tidy.length, sizeof bytes);
    if (tidy.number == IXML_ANSWERED) {
        ixml_answer twice = ixml_tidy(bytes, tidy.length, again, sizeof again);
        require(twice.number == IXML_ANSWERED && twice.length == tidy.length);
        require(memcmp(bytes, again, tidy.length) == 0);
    }

    ixml_answer checked = ixml_check(data, grammar_length);
    memset(bytes, 7, sizeof bytes);
    ixml_answer converted = ixml_convert(data, grammar_length, record, record_length, main_table, table, grammar_table, IXML_GRAMMAR_TABLE, bytes, room);
    unchanged(bytes, converted.length, sizeof bytes);
    require(checked.number == IXML_ANSWERED || converted.number == checked.number);

    memset(one, 7, sizeof one);
    memset(other, 7, sizeof other);
    ixml_answer quick = ixml_read(data, grammar_length, record, record_length, main_table, table, grammar_table, IXML_GRAMMAR_TABLE, one, IXML_READING_NUMBERS);
    if (record_length <= 12) {
        ixml_answer plain = ixml_read_plain(data, grammar_length, record, record_length, main_table, table, grammar_table, IXML_GRAMMAR_TABLE, other, IXML_READING_NUMBERS);
        require(quick.number == plain.number && quick.length == plain.length && quick.ambiguous == plain.ambiguous);
        require(quick.places.fault == plain.places.fault && quick.places.grammar == plain.places.grammar && quick.places.byte == plain.places.byte);
        require(memcmp(one, other, sizeof one) == 0);
    }
    return 0;
}
