/*
 * Assembles a stream from standard input to a module on standard output, or
 * says "refused N at R" on standard error, and of a name that is taken also where
 * it was first used. From the repository's root:
 *
 *   tools/staticlib assembler
 *   cc -Iinclude bindings/c/assemble.c target/staticlib/libassembler.a -o target/assemble_c
 *
 * or, where bindings/c/install.sh has put the library:
 *
 *   cc bindings/c/assemble.c $(pkg-config --cflags --libs barrizuppa) -o assemble_c
 */
#include <barrizuppa.h>
#include <stdio.h>
#include <stdlib.h>
#include <string.h>

/* One byte more than a stream may have, so that a longer one is refused and
   not cut. */
static uint8_t stream[BARRIZUPPA_STREAM_BYTES + 1];
static uint32_t work[BARRIZUPPA_WORK_WORDS];

int main(int argc, char **argv)
{
    size_t stream_len;
    size_t room = BARRIZUPPA_STREAM_BYTES;
    uint8_t *out;
    uint32_t answer[4];

    if (argc > 1) {
        int version = argc == 2 && strcmp(argv[1], "--version") == 0;
        fputs(version ? "assemble_c " BARRIZUPPA_VERSION "\n"
                      : "usage: assemble_c < STREAM > MODULE\n", version ? stdout : stderr);
        return version ? 0 : 2;
    }
    stream_len = fread(stream, 1, sizeof stream, stdin);
    out = malloc(room);
    while (out != NULL
           && barrizuppa_assemble(stream, stream_len, work, BARRIZUPPA_WORK_WORDS, out, room, answer)
                  == BARRIZUPPA_REFUSED_ROOM) {
        free(out);
        room *= 2;
        out = malloc(room);
    }
    if (out == NULL) {
        fputs("no memory\n", stderr);
        return 2;
    }
    switch (answer[BARRIZUPPA_NUMBER]) {
    case BARRIZUPPA_ASSEMBLED:
        return fwrite(out, 1, answer[BARRIZUPPA_LENGTH], stdout) == answer[BARRIZUPPA_LENGTH] ? 0 : 2;
    case BARRIZUPPA_REFUSED_UNKNOWN:
        fprintf(stderr, "record %u names what is not there\n", (unsigned)answer[BARRIZUPPA_RECORD]);
        break;
    }
    fprintf(stderr, "refused %u at %u",
            (unsigned)answer[BARRIZUPPA_NUMBER], (unsigned)answer[BARRIZUPPA_RECORD]);
    if (answer[BARRIZUPPA_NUMBER] == BARRIZUPPA_REFUSED_TAKEN)
        fprintf(stderr, ", first at %u", (unsigned)answer[BARRIZUPPA_FIRST]);
    fputs("\n", stderr);
    return 1;
}
