/*
 * Converts a record by a grammar, and says what became of it.
 *
 *     cc -I include host/example.c target/staticlib/libcalls.a -o example
 *     ./example "a: 'x'*." xx
 *
 * Without arguments it converts a probe's position.
 */
#include <ixml.h>

#include <stdio.h>
#include <stdlib.h>
#include <string.h>

/* Writes the XML, or the number of the refusal. Returns 0 if there is XML. */
static int convert(const char *grammar, const char *record)
{
    const uint8_t *grammar_bytes = (const uint8_t *)grammar;
    const uint8_t *record_bytes = (const uint8_t *)record;
    size_t record_length = strlen(record);

    /* A record has no more characters than bytes, and is refused before the
       table is looked at if it has too many. */
    size_t characters = record_length < IXML_RECORD_CHARACTERS
                            ? record_length
                            : IXML_RECORD_CHARACTERS;
    size_t main_length = IXML_MAIN_TABLE_LENGTH(IXML_GRAMMAR_SIZE, characters);
    size_t result_length = 1 << 16;

    uint32_t *main_table = malloc(main_length * sizeof *main_table);
    uint32_t *grammar_table = malloc(IXML_GRAMMAR_TABLE * sizeof *grammar_table);
    uint8_t *result = malloc(result_length);
    int status = 1;

    if (main_table == NULL || grammar_table == NULL || result == NULL) {
        fputs("out of memory\n", stderr);
    } else {
        ixml_answer answer = ixml_convert(
            grammar_bytes, strlen(grammar), record_bytes, record_length,
            main_table, main_length, grammar_table, IXML_GRAMMAR_TABLE,
            result, result_length);
        if (answer.number == IXML_ANSWERED) {
            fwrite(result, 1, answer.length, stdout);
            putchar('\n');
            if (answer.ambiguous)
                fputs("ambiguous: there is another reading\n", stderr);
            if (answer.version)
                fputs("the grammar declares another version than 1.0\n", stderr);
            status = 0;
        } else if (answer.number == IXML_NO_READING) {
            puts("the grammar does not derive the record");
        } else {
            printf("refused %u\n", (unsigned)answer.number);
        }
    }
    free(result);
    free(grammar_table);
    free(main_table);
    return status;
}

int main(int count, char **arguments)
{
    const char *grammar =
        "p: @lat, -' ', @lon. lat: d+. lon: d+. -d: ['0'-'9'].";
    const char *record = "45 12";

    if (count == 3) {
        grammar = arguments[1];
        record = arguments[2];
    } else if (count != 1) {
        fprintf(stderr, "usage: %s [GRAMMAR RECORD]\n", arguments[0]);
        return 2;
    }
    return convert(grammar, record);
}
