/*
 * Converts a record, and says in words why where it cannot:
 *     cc example.c $(pkg-config --cflags --libs ixml)
 *     ./a.out GRAMMAR RECORD        (texts, not files)
 */
#include <inttypes.h>
#include <stdio.h>
#include <stdlib.h>
#include <string.h>

#include "ixml.h"
#include "ixml_text.h"

int main(int argc, char **argv)
{
    static uint32_t grammar_table[IXML_GRAMMAR_TABLE];
    static uint8_t result[1 << 20];
    uint32_t *main_table = malloc(IXML_MAIN_TABLE * sizeof *main_table);
    if (argc != 3 || main_table == NULL) {
        fprintf(stderr, "usage: example GRAMMAR RECORD\n");
        return 2;
    }
    ixml_answer answer = ixml_convert((const uint8_t *)argv[1], strlen(argv[1]),
                                      (const uint8_t *)argv[2], strlen(argv[2]),
                                      main_table, IXML_MAIN_TABLE,
                                      grammar_table, IXML_GRAMMAR_TABLE,
                                      result, sizeof result);
    free(main_table);
    if (answer.number != IXML_ANSWERED) {
        printf("refused %" PRIu32 ": %s\n", answer.number, ixml_sentence(answer.number));
        return 1;
    }
    printf("%.*s\n", (int)answer.length, (const char *)result);
    if (answer.ambiguous)
        fprintf(stderr, "the grammar fits the record in more than one way\n");
    return 0;
}
