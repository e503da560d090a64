/* A host in C: replays the schedule in a file given by name through the C interface, and prints the text of the replay.

       host FILE

   Exit status: 0 every event of the file was accepted; 1 the file or one of its events was refused (the last word of the first line is the number of the refusal);
   2 nothing was replayed or printed: no FILE, one that cannot be read, no memory, or no room for the text. */
#include <stdio.h>
#include <stdlib.h>
#include <string.h>

#include "wagonmoth.h"

enum { LONGEST_SCHEDULE = 65536 };
enum { ACCEPTED = 0, REFUSED = 1, NOT_REPLAYED = 2 };

/* Reads at most `room` bytes of a file, and says whether that was possible. */
static int read_file(const char *name, uint8_t *bytes, size_t room, size_t *length) {
    FILE *file = fopen(name, "rb");
    if (file == NULL) {
        perror(name);
        return 0;
    }
    *length = fread(bytes, 1, room, file);
    int failed = ferror(file);
    if (failed)
        perror(name);
    fclose(file);
    return !failed;
}

/* The first line is `run N M accepted NUMBER` or `refused NUMBER`: 0 is accepted, and no other number begins with 0. */
static int is_refused(const uint8_t *text, size_t length) {
    const char accepted[] = " 0\n";
    size_t line = 0;
    while (line < length && text[line] != '\n')
        line++;
    return line < 2 || line == length || memcmp(text + line - 2, accepted, 3) != 0;
}

static int replay(const uint8_t *bytes, size_t length) {
    size_t room = wagonmoth_longest_text();
    uint8_t *text = malloc(room);
    if (text == NULL) {
        perror("host");
        return NOT_REPLAYED;
    }
    size_t written = wagonmoth_replay(bytes, length, text, room);
    int status = is_refused(text, written) ? REFUSED : ACCEPTED;
    if (fwrite(text, 1, written, stdout) != written || fflush(stdout) != 0) {
        perror("host");
        status = NOT_REPLAYED;
    }
    free(text);
    return status;
}

int main(int count, char **words) {
    /* one byte more than a schedule may have: the replay refuses a longer file by its length */
    static uint8_t bytes[LONGEST_SCHEDULE + 1];
    size_t length;
    if (count != 2) {
        fprintf(stderr, "usage: host FILE   (exit status: 0 all accepted, 1 refused, 2 not replayed)\n");
        return NOT_REPLAYED;
    }
    if (!read_file(words[1], bytes, sizeof bytes, &length))
        return NOT_REPLAYED;
    return replay(bytes, length);
}
