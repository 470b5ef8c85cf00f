/* Calls the judge from C: a sheet on standard input; its verdict and place on standard output, and after a verdict the counters.
 *
 *     bin/library judge
 *     cc -Iinclude examples/judge.c target/staticlib/libjudge.a -o judge
 */
#include "judge.h"
#include <stdio.h>

int main(void) {
    static uint8_t sheet[SKANDRULO_SHEET_BYTES + 1];
    static uint16_t authority[SKANDRULO_TABLE], user[SKANDRULO_TABLE], counts[SKANDRULO_DEPTHS], counters[SKANDRULO_COUNTERS];
    size_t length = fread(sheet, 1, sizeof sheet, stdin);
    uint32_t answer = skandrulo_judge_sheet(sheet, length, authority, SKANDRULO_TABLE, user, SKANDRULO_TABLE, counts, SKANDRULO_DEPTHS,
                                            counters, SKANDRULO_COUNTERS);
    printf("verdict %u place %u\n", (unsigned)(answer % 256), (unsigned)(answer / 256));
    if (!skandrulo_refuses((uint8_t)(answer % 256)))
        printf("counters %u %u %u\n", (unsigned)counters[SKANDRULO_COUNTER_EXPLICIT], (unsigned)counters[SKANDRULO_COUNTER_MAPPING],
               (unsigned)counters[SKANDRULO_COUNTER_ANY]);
    return 0;
}
