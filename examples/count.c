/*
 * Counts the 2-mers of small sequence files under reverse complement, as the lab would: clear a table, add the
 * files, withdraw one that was mislabelled, print the listing, load it into another table. The first two files
 * are a FASTA and a FASTQ file; the next two, one of each kind, are damaged and are refused whole.
 */
#include <stdio.h>
#include <stdlib.h>
#include <string.h>

#include "kmer.h"

static const uint8_t letters[] = { 'A', 'C', 'G', 'T' };
enum { K = 2, CLASSES = 10 };

/* kmer_add and kmer_withdraw, whose parameters are the same. */
typedef uint64_t file_call(const uint8_t *letters, size_t letters_len, size_t k, uint64_t mirror,
                           uint32_t *table, size_t table_len, uint64_t fastq, const uint8_t *file, size_t file_len,
                           uint64_t *answer, size_t answer_len);

/* Adds or withdraws a file of a kind and prints its five numbers, or why it was refused. */
static void call(file_call *function, uint32_t *table, enum kmer_kinds kind, const char *file)
{
    uint64_t numbers[KMER_NUMBERS];
    uint64_t answer = function(letters, sizeof letters, K, KMER_COMPLEMENT, table, CLASSES, kind,
                               (const uint8_t *)file, strlen(file), numbers, KMER_NUMBERS);
    if (kmer_is_refused(answer)) {
        printf("refused %u %llu\n", kmer_refusal(answer), (unsigned long long)kmer_refusal_p(answer));
        return;
    }
    printf("records %llu letters %llu foreign %llu edge %llu windows %llu\n", (unsigned long long)numbers[0],
           (unsigned long long)numbers[1], (unsigned long long)numbers[2], (unsigned long long)numbers[3],
           (unsigned long long)numbers[4]);
}

/* Loads a listing into a table and prints how many places were set, or why it was refused. */
static void load(uint32_t *table, const uint8_t *text, size_t length)
{
    uint64_t answer = kmer_load(letters, sizeof letters, K, KMER_COMPLEMENT, table, CLASSES, text, length);
    if (kmer_is_refused(answer)) {
        printf("refused %u %llu\n", kmer_refusal(answer), (unsigned long long)kmer_refusal_p(answer));
        return;
    }
    printf("loaded %llu places\n", (unsigned long long)answer);
}

/* Prints the listing (a first call without a buffer is refused with the length needed as its P), and loads it into
 * another table, whose counts are then the same. */
static int list_and_load(const uint32_t *table, uint32_t *other)
{
    uint64_t needed = kmer_refusal_p(kmer_listing(letters, sizeof letters, K, KMER_COMPLEMENT, table, CLASSES, NULL, 0));
    uint8_t *text = malloc(needed);
    if (text == NULL) {
        return 1;
    }
    kmer_listing(letters, sizeof letters, K, KMER_COMPLEMENT, table, CLASSES, text, needed);
    fwrite(text, 1, needed, stdout);
    load(other, text, needed);
    /* Cut off: the total, the last line, has lost its end. */
    load(other, text, needed - 1);
    free(text);
    return memcmp(table, other, CLASSES * sizeof *table) != 0;
}

int main(void)
{
    uint32_t table[CLASSES], other[CLASSES];

    printf("%llu classes\n", (unsigned long long)kmer_clear(letters, sizeof letters, K, KMER_COMPLEMENT, table, CLASSES));
    call(kmer_add, table, KMER_FASTA, ">a\nACGTN\n>b\nAG\nCT\n");
    call(kmer_add, table, KMER_FASTQ, "@c\nCCGA\n+\nII#I\n");
    call(kmer_add, table, KMER_FASTA, ">d\nAC-GT\n");
    /* Cut off: the quality line, at offset 10, is one byte shorter than the sequence line. */
    call(kmer_add, table, KMER_FASTQ, "@e\nACGT\n+\nIII");
    /* Mislabelled: taken in and withdrawn again. For a second withdrawal the counts are too small. */
    call(kmer_add, table, KMER_FASTA, ">f\nTTTT\n");
    call(kmer_withdraw, table, KMER_FASTA, ">f\nTTTT\n");
    call(kmer_withdraw, table, KMER_FASTA, ">f\nTTTT\n");
    return list_and_load(table, other);
}
