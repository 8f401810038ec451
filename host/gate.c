/*
 * Says whether a position lies in a box of limits.
 *
 *     cc -I include host/gate.c target/staticlib/libgate.a -o gate
 *     ./gate 44 46.5 11 13 45.4375 12.335
 *
 * The arguments: the low and the high latitude, the low and the high longitude,
 * then the latitude and the longitude of the position.
 */
#include <ixml_gate.h>

#include <stdio.h>
#include <stdlib.h>
#include <string.h>

int main(int count, char **arguments)
{
    static const char *const verdicts[] = {"", "inside", "swapped", "suspect"};
    double limits[4];
    ixml_gate_answer answer;
    int i;

    if (count != 7) {
        fprintf(stderr, "usage: %s SOUTH NORTH WEST EAST LAT LON\n", arguments[0]);
        return 2;
    }
    for (i = 0; i < 4; i++)
        limits[i] = strtod(arguments[1 + i], NULL);
    answer = ixml_gate_box(limits[0], limits[1], limits[2], limits[3],
                           (const uint8_t *)arguments[5], strlen(arguments[5]),
                           (const uint8_t *)arguments[6], strlen(arguments[6]));
    if (answer.number != IXML_GATE_ANSWERED)
        printf("refused %u\n", (unsigned)answer.number);
    else
        puts(verdicts[answer.verdict]);
    return answer.verdict == IXML_INSIDE ? 0 : 1;
}
