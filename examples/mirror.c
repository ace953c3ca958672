/*
 * mirror.c: how a C program takes the reverse complement of k-mers with kmer.h, shows that a word and its
 * mirror have one code, finds the place that a refusal tells, and codes all k-mers along a sequence.
 * mirror.expected has what it must print.
 *
 *   tools/build kmer
 *   cc -std=c11 -Iinclude examples/mirror.c target/staticlib/libkmer.a -o target/mirror && target/mirror
 */
#include <inttypes.h>
#include <stdio.h>
#include <string.h>

#include "kmer.h"

#define K 5

static const uint8_t letters[4] = {'A', 'C', 'G', 'T'};

static uint64_t code(const char *word)
{
    return kmer_code(letters, sizeof letters, K, KMER_COMPLEMENT, (const uint8_t *)word, strlen(word));
}

/* Prints a word's mirror, from a buffer of which the call may use so many bytes, at most K. */
static void print_mirror(const char *word, size_t room)
{
    char mirror[K + 1] = "";
    uint64_t answer = kmer_mirror(letters, sizeof letters, K, KMER_COMPLEMENT, (const uint8_t *)word,
                                  strlen(word), (uint8_t *)mirror, room);
    uint64_t p = kmer_refusal_p(answer);
    if (!kmer_is_refused(answer))
        printf("%s and %s have code %" PRIu64 "\n", word, mirror, code(mirror));
    else if (kmer_refusal(answer) == KMER_FOREIGN_BYTE)
        printf("%s is refused: %c at place %" PRIu64 " is no letter\n", word, word[p], p);
    else if (kmer_refusal(answer) == KMER_SHORT_BUFFER)
        printf("%s is refused: the buffer must have %" PRIu64 " bytes\n", word, p);
    else
        printf("%s is refused: ground %u\n", word, kmer_refusal(answer));
}

/* Prints the codes that a call along a sequence has filled, or why it was refused. */
static void print_codes(const char *call, uint64_t answer, const uint64_t *codes)
{
    if (kmer_is_refused(answer)) {
        printf("%s is refused: ground %u, P %" PRIu64 "\n", call, kmer_refusal(answer), kmer_refusal_p(answer));
        return;
    }
    printf("%s:", call);
    for (uint64_t j = 0; j < answer; j++) {
        if (codes[j] == KMER_NO_CODE)
            printf(" none");
        else
            printf(" %" PRIu64, codes[j]);
    }
    printf("\n");
}

/* A sequence of 8 windows; those with the N have no code. */
static const uint8_t sequence[12] = {'A', 'A', 'C', 'T', 'T', 'g', 'N', 'C', 'C', 'C', 'C', 'C'};
#define WINDOWS (sizeof sequence - K + 1)

/* Codes along it, into lists of which the calls may use so many places, at most WINDOWS. The second call is
   the faster one for ACGT under reverse complement; its list is its own, so that what the first one wrote
   cannot pass for its work. */
static void print_along(size_t room)
{
    uint64_t codes[WINDOWS] = {0}, two_bit[WINDOWS] = {0};
    printf("codes along %.*s, %zu places\n", (int)sizeof sequence, (const char *)sequence, room);
    uint64_t answer = kmer_codes(letters, sizeof letters, K, KMER_COMPLEMENT, sequence, sizeof sequence,
                                 codes, room);
    print_codes("kmer_codes", answer, codes);
    answer = kmer_codes_two_bit(K, sequence, sizeof sequence, two_bit, room);
    print_codes("kmer_codes_two_bit", answer, two_bit);
}

int main(void)
{
    print_mirror("AACTT", K);
    print_mirror("aagtt", K);
    print_mirror("CCCCC", K);
    print_mirror("ACNNT", K);
    print_mirror("ACGTA", K - 1);
    print_mirror("ACGT", K);
    print_along(WINDOWS);
    print_along(WINDOWS - 1);
    return 0;
}
