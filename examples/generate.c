/*
 * generate.c: how a C program makes a test load with kmer.h, a sequence file that is the same wherever it is
 * made: it asks for the length, makes the file, and adds it to a table. generate.expected has what it must print.
 *
 *   tools/build kmer
 *   cc -std=c11 -Iinclude examples/generate.c target/staticlib/libkmer.a -o target/generate && target/generate
 */
#include <inttypes.h>
#include <stdio.h>
#include <stdlib.h>

#include "kmer.h"

#define K 2
#define CLASSES 10
#define START 1
#define RECORDS 2
#define EACH 65

static const uint8_t letters[4] = {'A', 'C', 'G', 'T'};

static uint64_t make(size_t records, size_t each, uint8_t *out, size_t room)
{
    return kmer_generate(letters, sizeof letters, K, KMER_COMPLEMENT, START, records, each, out, room);
}

/* Adds the file to a cleared table and prints its five numbers. */
static int add(const uint8_t *file, size_t length)
{
    uint32_t table[CLASSES];
    uint64_t numbers[KMER_NUMBERS];
    uint64_t answer = kmer_clear(letters, sizeof letters, K, KMER_COMPLEMENT, table, CLASSES);
    if (!kmer_is_refused(answer))
        answer = kmer_add(letters, sizeof letters, K, KMER_COMPLEMENT, table, CLASSES, KMER_FASTA, file, length,
                          numbers, KMER_NUMBERS);
    if (kmer_is_refused(answer))
        return 1;
    printf("records %" PRIu64 ", letters %" PRIu64 ", foreign %" PRIu64 ", edge %" PRIu64 ", windows %" PRIu64 "\n",
           numbers[0], numbers[1], numbers[2], numbers[3], numbers[4]);
    return 0;
}

int main(void)
{
    /* With an empty buffer the call tells the length. */
    uint64_t answer = make(RECORDS, EACH, NULL, 0);
    if (kmer_refusal(answer) != KMER_SHORT_BUFFER)
        return 1;
    size_t length = kmer_refusal_p(answer);
    uint8_t *file = malloc(length);
    if (file == NULL || make(RECORDS, EACH, file, length) != length)
        return 1;
    printf("%zu bytes:\n", length);
    fwrite(file, 1, length, stdout);
    int status = add(file, length);
    free(file);
    /* A file that would have more than 16,777,216 bytes is refused. */
    printf("refused: ground %u\n", kmer_refusal(make(SIZE_MAX, SIZE_MAX, NULL, 0)));
    return status;
}
