/*
 * Replays a recording: the file that is named, or standard input if none is or it is "-". It is
 * read in pieces, and a line is printed for each record, as "2 1 0 3 0": its number, its kind, the
 * code, the steps, and the slots that fences removed; then, as "680 9000000000000003", the register
 * and the bits of each write that dropped some. Status 1 where the file can't be read or the lines
 * not written, 2 on wrong use.
 */
#include <errno.h>
#include <stdio.h>
#include <string.h>

#include "nacl.h"

static uint64_t state[NACL_REPLAY_STATE_WORDS];
static uint8_t memory[NACL_REPLAY_MEMORY_BYTES];
static uint64_t table[NACL_REPLAY_TABLE_WORDS];
static uint8_t pending[NACL_REPLAY_PENDING_BYTES]; /* the record that is not whole yet */
static uint8_t piece[4096];                        /* of the recording; its size does not matter */
static uint8_t out[16 * NACL_REPLAY_LINE_BYTES];   /* lines */
static uint64_t said[NACL_REPLAY_SAID_WORDS];      /* the bytes taken and the bytes written */

/* Says what went wrong with a file; gives the status. */
static int fail(const char *name)
{
    fprintf(stderr, "replay: %s: %s\n", name, strerror(errno));
    return 1;
}

/* Prints the lines that were written; gives 0 where that fails. */
static int print(void)
{
    return fwrite(out, 1, (size_t)said[NACL_REPLAY_WRITTEN], stdout) == said[NACL_REPLAY_WRITTEN];
}

/* Feeds the replay with a piece, as often as there is no room for lines; gives 0 where printing
   fails. Nothing is refused here: the state and the lengths are those of nacl_replay_start. */
static int feed(size_t length)
{
    for (size_t at = 0; at < length; at += (size_t)said[NACL_REPLAY_TAKEN]) {
        nacl_replay_feed(state, NACL_REPLAY_STATE_WORDS, memory, sizeof memory, table,
                         NACL_REPLAY_TABLE_WORDS, pending, sizeof pending, piece + at, length - at,
                         out, sizeof out, said, NACL_REPLAY_SAID_WORDS);
        if (!print())
            return 0;
    }
    return 1;
}

/* Replays what a file has. */
static int replay(FILE *file, const char *name)
{
    nacl_replay_start(state, NACL_REPLAY_STATE_WORDS, memory, sizeof memory, table,
                      NACL_REPLAY_TABLE_WORDS);
    size_t length;
    while ((length = fread(piece, 1, sizeof piece, file)) > 0)
        if (!feed(length))
            return fail("standard output");
    if (ferror(file))
        return fail(name);
    nacl_replay_finish(state, NACL_REPLAY_STATE_WORDS, out, sizeof out, said,
                       NACL_REPLAY_SAID_WORDS);
    if (!print() || fflush(stdout) != 0)
        return fail("standard output");
    return 0;
}

int main(int argc, char **argv)
{
    if (argc > 2) {
        fprintf(stderr, "usage: replay [FILE]\n");
        return 2;
    }
    if (argc < 2 || strcmp(argv[1], "-") == 0)
        return replay(stdin, "standard input");
    FILE *file = fopen(argv[1], "rb");
    if (file == NULL)
        return fail(argv[1]);
    int status = replay(file, argv[1]);
    fclose(file);
    return status;
}
