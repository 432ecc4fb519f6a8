/* Reads a line against a book: read_line BOOK LINE. Prints the values of the answer, or the number of the refusal and its value. */
#include "vurzhelik.h"
#include <stdio.h>
#include <string.h>

/* One byte more than a book may have, so that a longer file is refused. */
static uint8_t book[65536];

int main(int argc, char **argv) {
    uint16_t answer[VURZHELIK_MAX_VALUES];
    uint64_t value;
    if (argc != 3 || vurzhelik_version() != VURZHELIK_VERSION) {
        fputs("usage: read_line BOOK LINE, with library and header of one version\n", stderr);
        return 2;
    }
    FILE *file = fopen(argv[1], "rb");
    size_t length = file ? fread(book, 1, sizeof book, file) : 0;
    if (!file || ferror(file)) {
        perror(argv[1]);
        return 2;
    }
    fclose(file);
    const uint8_t *line = (const uint8_t *)argv[2];
    uint32_t result = vurzhelik_read_line(book, length, line, strlen(argv[2]), answer, VURZHELIK_MAX_VALUES, &value);
    if (result != VURZHELIK_OK) {
        printf("refused: %u, value %llu\n", (unsigned)result, (unsigned long long)value);
        return 1;
    }
    for (uint64_t i = 0; i < value; i++)
        printf("%u%c", (unsigned)answer[i], i + 1 < value ? ' ' : '\n');
    return 0;
}
