/* Reads the lines of a file against a book: read_batch BOOK LINES. Prints a row for each line: the values of its answer, or the number of
 * its refusal and its value. */
#include "vurzhelik.h"
#include <stdio.h>
#include <stdlib.h>

/* One byte more than a book and a batch may have, so that a longer file is refused. */
static uint8_t book[65536], lines[VURZHELIK_MAX_BATCH + 1];

/* Reads a file into a buffer and returns its length; ends the program where that fails. */
static size_t load(const char *name, uint8_t *buffer, size_t size) {
    FILE *file = fopen(name, "rb");
    size_t length = file ? fread(buffer, 1, size, file) : 0;
    if (!file || ferror(file)) {
        perror(name);
        exit(2);
    }
    fclose(file);
    return length;
}

int main(int argc, char **argv) {
    static uint16_t answers[VURZHELIK_MAX_BATCH_VALUES];
    uint64_t value;
    if (argc != 3 || vurzhelik_version() != VURZHELIK_VERSION) {
        fputs("usage: read_batch BOOK LINES, with library and header of one version\n", stderr);
        return 2;
    }
    size_t book_length = load(argv[1], book, sizeof book);
    size_t lines_length = load(argv[2], lines, sizeof lines);
    uint32_t result = vurzhelik_read_batch(book, book_length, lines, lines_length, answers, VURZHELIK_MAX_BATCH_VALUES, &value);
    if (result != VURZHELIK_OK) {
        printf("refused: %u, value %llu\n", (unsigned)result, (unsigned long long)value);
        return 1;
    }
    const uint16_t *part = answers;
    for (uint64_t line = 0; line < value; line++) {
        const uint16_t *next = part + 1 + part[0];
        if (part[1] != VURZHELIK_OK)
            printf("refused: %u, value %u\n", (unsigned)part[1], (unsigned)part[2]);
        else
            for (const uint16_t *v = part + 2; v < next; v++)
                printf("%u%c", (unsigned)*v, v + 1 < next ? ' ' : '\n');
        part = next;
    }
    return 0;
}
