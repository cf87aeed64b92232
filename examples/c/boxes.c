/* boxes FILE: reads a system file, searches in pieces with a list that grows when it is full, and prints each kept box by its middle and half width.
 * The last line before the boxes has the word of the search, and the status says it too: 0 finished, 1 refused, 4 full (the list is not whole), 5 if not all
 * could be read or written, 2 if there is no such file. tests/c/run builds it. */
#include <stdio.h>
#include <stdlib.h>

#include "malachirp.h"

enum { FINISHED = 0, REFUSED = 1, NO_FILE = 2, FULL = 4, NOT_ALL = 5 };

static const char *const words[] = {"", "finished", "spent", "full"};

/* What was printed may still wait to be written: the program ends well only if all of it went. */
static void end(int status)
{
    if (fflush(stdout) != 0 || ferror(stdout)) {
        fprintf(stderr, "boxes: not all could be written\n");
        status = NOT_ALL;
    }
    exit(status);
}

/* A refusal ends the program. */
static void done(const char *call, uint32_t code, const uint64_t *offset)
{
    if (code != MALACHIRP_DONE) {
        printf("%s refused %u at %llu\n", call, code, (unsigned long long)*offset);
        end(REFUSED);
    }
}

static size_t read_file(const char *path, uint8_t *file, size_t room)
{
    FILE *in = path != NULL ? fopen(path, "rb") : NULL;
    if (in == NULL) {
        fprintf(stderr, "usage: boxes FILE\n");
        exit(NO_FILE);
    }
    size_t length = fread(file, 1, room, in);
    if (ferror(in)) {
        fprintf(stderr, "boxes: not all could be read\n");
        exit(NOT_ALL);
    }
    fclose(in);
    return length;
}

static void print_box(const uint16_t *kept, unsigned variables)
{
    double middles[6];
    uint64_t offset;
    done("middles", malachirp_middles(kept, middles, &offset), &offset);
    for (unsigned r = 0; r < variables; r++) {
        printf("%s%.12g +- %.12g", r ? ", " : "", middles[2 * r], middles[2 * r + 1]);
    }
    printf(kept[6] == 1 ? "\n" : ", too large to cut\n");
}

int main(int argc, char **argv)
{
    static uint8_t file[4096]; /* more than MALACHIRP_LONGEST_FILE: what is cut off here is refused */
    static int64_t coefficients[MALACHIRP_MOST_COEFFICIENTS];
    static int64_t store[MALACHIRP_MOST_STORE];
    static uint16_t list[7 * 1024];
    uint8_t head[8];
    uint64_t state[4];
    uint64_t offset;
    uint32_t word;
    size_t room = 2;

    size_t length = read_file(argc == 2 ? argv[1] : NULL, file, sizeof file);
    done("read", malachirp_read(file, length, coefficients, MALACHIRP_MOST_COEFFICIENTS, head, &offset), &offset);
    done("start", malachirp_start(head, coefficients, MALACHIRP_MOST_COEFFICIENTS, store, MALACHIRP_MOST_STORE, state, &offset), &offset);
    do {
        done("run", malachirp_run(head, 25, store, MALACHIRP_MOST_STORE, list, 7 * room, state, &word, &offset), &offset);
        printf("%s: %llu visits, %llu dropped, %llu kept, %llu waiting\n", words[word], (unsigned long long)state[2], (unsigned long long)state[3],
               (unsigned long long)state[1], (unsigned long long)state[0]);
        if (word == MALACHIRP_FULL) {
            room *= 2;
        }
    } while (word != MALACHIRP_FINISHED && room <= 1024);
    for (size_t i = 0; i < state[1]; i++) {
        print_box(list + 7 * i, head[0]);
    }
    end(word == MALACHIRP_FINISHED ? FINISHED : FULL);
}
