/* Judges a sheet that arrives in pieces: each read of standard input is a piece, and the end of the input is the finish.
 *
 *     bin/library pieces
 *     cc -Iinclude examples/pieces.c target/staticlib/libpieces.a -o pieces
 *     (head -c 3 examples/E.sheet; sleep 1; tail -c +4 examples/E.sheet) | ./pieces
 */
#define _POSIX_C_SOURCE 200809L
#include "judge.h"
#include <stdio.h>
#include <unistd.h>

int main(void) {
    static uint8_t state[SKANDRULO_STATE], piece[64];
    static uint16_t authority[SKANDRULO_TABLE], user[SKANDRULO_TABLE], counts[SKANDRULO_DEPTHS], counters[SKANDRULO_COUNTERS];
    ssize_t length;
    skandrulo_fresh(state, sizeof state);
    while ((length = read(STDIN_FILENO, piece, sizeof piece)) > 0)
        skandrulo_feed(state, sizeof state, piece, (size_t)length);
    if (length < 0) {
        perror("pieces");
        return 1;
    }
    uint32_t answer = skandrulo_finish(state, sizeof state, authority, SKANDRULO_TABLE, user, SKANDRULO_TABLE, counts, SKANDRULO_DEPTHS,
                                       counters, SKANDRULO_COUNTERS);
    printf("verdict %u place %u\n", (unsigned)(answer % 256), (unsigned)(answer / 256));
    return 0;
}
