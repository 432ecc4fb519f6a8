/* Times the library beside link-grammar on the same lines of 6 to 12 words. The library reads each line against the paper's first book,
 * and against that book filled up to 1,000 entries; it goes through the book's bytes in every call. Link-grammar has a dictionary of
 * the same words, loaded beforehand, and is asked for one linkage. */
#include "vurzhelik.h"
#include <link-grammar/link-includes.h>
#include <stdio.h>
#include <stdlib.h>
#include <string.h>
#include <time.h>

#define MAX_BOOK 65535
#define ENTRIES 1000
#define PAPER_ENTRIES 9
#define ROUNDS 2000

static const char *const lines[] = {
    "please fetch bed4 ward7 urgently urgently",
    "please please fetch bed4 ward7 urgently urgently urgently",
    "please please please fetch bed4 ward7 urgently urgently urgently urgently",
    "please please please please fetch bed4 ward7 urgently urgently urgently urgently urgently",
};

struct book {
  uint8_t bytes[MAX_BOOK];
  size_t length;
};

static Dictionary dictionary;
static Parse_Options options;

static void stop(const char *why) {
  fprintf(stderr, "%s\n", why);
  exit(1);
}

static struct book load(const char *file) {
  struct book book;
  FILE *stream = fopen(file, "rb");
  if (!stream) stop("no book");
  book.length = fread(book.bytes, 1, MAX_BOOK, stream);
  fclose(stream);
  return book;
}

/* Adds entries of other words, with the type of type number 0, until there are 1,000. */
static void fill_up(struct book *book) {
  for (int k = PAPER_ENTRIES; k < ENTRIES; k++) {
    char word[16];
    int length = snprintf(word, sizeof word, "word%d", k);
    uint8_t head[] = {length + 3, 0, 3, 0, length};
    uint8_t simple[] = {0, 0};
    memcpy(book->bytes + book->length, head, sizeof head);
    memcpy(book->bytes + book->length + sizeof head, word, length);
    memcpy(book->bytes + book->length + sizeof head + length, simple, sizeof simple);
    book->length += sizeof head + length + sizeof simple;
  }
}

static void read_line(const struct book *book, const char *line) {
  uint16_t answer[512];
  uint64_t value;
  if (vurzhelik_read_line(book->bytes, book->length, (const uint8_t *)line, strlen(line), answer, 512, &value))
    stop("the library does not read the line");
}

static void parse(const struct book *book, const char *line) {
  (void)book;
  Sentence sentence = sentence_create(line, dictionary);
  if (sentence_parse(sentence, options) < 1) stop("link-grammar does not parse the line");
  linkage_delete(linkage_create(0, sentence, options));
  sentence_delete(sentence);
}

/* The smallest time of a call in microseconds. */
static double smallest(void (*call)(const struct book *, const char *), const struct book *book, const char *line) {
  double least = 1e9;
  for (int round = 0; round < ROUNDS; round++) {
    struct timespec start, end;
    clock_gettime(CLOCK_MONOTONIC, &start);
    call(book, line);
    clock_gettime(CLOCK_MONOTONIC, &end);
    double time = (end.tv_sec - start.tv_sec) * 1e6 + (end.tv_nsec - start.tv_nsec) / 1e3;
    if (time < least) least = time;
  }
  return least;
}

static int words(const char *line) {
  int count = 1;
  for (; *line; line++) count += *line == ' ';
  return count;
}

int main(int count, char **arguments) {
  if (count != 3) stop("beside BOOK DICTIONARY");
  struct book paper = load(arguments[1]);
  struct book full = paper;
  fill_up(&full);
  lg_error_set_handler(0, 0); /* says nothing of the files that the dictionary does without */
  dictionary = dictionary_create_lang(arguments[2]);
  if (!dictionary) stop("no dictionary");
  options = parse_options_create();
  parse_options_set_linkage_limit(options, 1);
  printf("microseconds a line, %s\n", linkgrammar_get_version());
  printf("%6s %22s %24s %14s\n", "words", "library, paper's book", "library, 1,000 entries", "link-grammar");
  for (size_t k = 0; k < sizeof lines / sizeof lines[0]; k++)
    printf("%6d %22.1f %24.1f %14.1f\n", words(lines[k]), smallest(read_line, &paper, lines[k]), smallest(read_line, &full, lines[k]),
           smallest(parse, 0, lines[k]));
  return 0;
}
