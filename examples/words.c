/*
 * words.c: how a C program codes k-mers, reads codes back and handles a refusal, with kmer.h.
 * Prints the starred cases of document 01 (AACTT as the word of code 0), words of an odd alphabet (document 02,
 * K10), and some refused calls; words.expected has what it must print.
 *
 *   tools/build kmer
 *   cc -std=c11 -Iinclude examples/words.c target/staticlib/libkmer.a -o target/words && target/words
 */
#include <inttypes.h>
#include <stdio.h>
#include <string.h>

#include "kmer.h"

/* The longest word there is: 62 letters of an alphabet of two. */
#define LONGEST 62

/* The settings of a survey, as a program may keep them. */
struct settings {
    const char *letters;
    size_t k;
    uint64_t mirror;
};

static void print_settings(const struct settings *set)
{
    const char *mirror = set->mirror == KMER_COMPLEMENT ? "complement" : "reversal";
    printf("%s, k %zu, %s\n", set->letters, set->k, mirror);
}

/* What went wrong, for whoever reads the program's output. */
static const char *reason(uint64_t answer)
{
    switch (kmer_refusal(answer)) {
    case KMER_BAD_LETTERS: return "the letters are not 2 to 16 different capitals";
    case KMER_BAD_MIRROR: return "the mirror is neither 0 nor 1";
    case KMER_BAD_K: return "k is 0 or too large for the letters";
    case KMER_BAD_LENGTH: return "the word has not k letters";
    case KMER_SHORT_BUFFER: return "the buffer is shorter than k";
    case KMER_BAD_CODE: return "no class has this code";
    case KMER_FOREIGN_BYTE: return "a byte of the word is no letter of the settings";
    default: return "no known reason";
    }
}

static void print_code(const struct settings *set, const char *word)
{
    uint64_t answer = kmer_code((const uint8_t *)set->letters, strlen(set->letters), set->k, set->mirror,
                                (const uint8_t *)word, strlen(word));
    if (kmer_is_refused(answer))
        printf("  code of %s: refused %u, %s\n", word, kmer_refusal(answer), reason(answer));
    else
        printf("  code of %s: %" PRIu64 "\n", word, answer);
}

/* Reads a code into a buffer with room for so many letters, at most LONGEST. */
static void print_word(const struct settings *set, uint64_t code, size_t room)
{
    /* The call writes no end byte; one more byte than it is told of stays 0 and ends the text. */
    char word[LONGEST + 1] = "";
    uint64_t answer = kmer_word((const uint8_t *)set->letters, strlen(set->letters), set->k, set->mirror,
                                code, (uint8_t *)word, room);
    if (kmer_is_refused(answer))
        printf("  word of %" PRIu64 ": refused %u, %s\n", code, kmer_refusal(answer), reason(answer));
    else
        printf("  word of %" PRIu64 ": %s\n", code, word);
}

/* The canonical words of the codes below a number, on one line each. */
static void print_words(const struct settings *set, uint64_t codes)
{
    print_settings(set);
    for (uint64_t code = 0; code < codes; code++)
        print_word(set, code, LONGEST);
}

static void print_codes(const struct settings *set, const char *const *words, size_t n)
{
    print_settings(set);
    for (size_t i = 0; i < n; i++)
        print_code(set, words[i]);
}

#define COUNT(list) (sizeof(list) / sizeof((list)[0]))

static void some_codes(void)
{
    const char *const six[] = {"AAAACA", "TTGTTT", "ttgttt"};
    const char *const eight[] = {"TACGGCTA", "TAGCCGTA"};
    const char *const one[] = {"C", "G", "A", "T"};
    print_codes(&(struct settings){"ACGT", 6, KMER_REVERSAL}, six, COUNT(six));
    print_codes(&(struct settings){"ACGT", 8, KMER_COMPLEMENT}, eight, COUNT(eight));
    print_codes(&(struct settings){"ACGT", 1, KMER_COMPLEMENT}, one, COUNT(one));
}

/* An odd number of letters: under complement B pairs with itself. */
static void an_odd_alphabet(void)
{
    const char *const one[] = {"B", "A", "C"};
    const struct settings three = {"ABC", 3, KMER_COMPLEMENT};
    print_codes(&(struct settings){"ABC", 1, KMER_COMPLEMENT}, one, COUNT(one));
    print_words(&three, 15);
    print_word(&three, 15, LONGEST);
}

/* RNA: U is read as T where the letters have T and no U; under ACGU it is a letter of its own, and T is none. */
static void rna(void)
{
    const char *const two[] = {"UA", "TA"};
    print_codes(&(struct settings){"ACGT", 2, KMER_COMPLEMENT}, two, COUNT(two));
    print_codes(&(struct settings){"ACGU", 2, KMER_COMPLEMENT}, two, COUNT(two));
}

static void some_words(void)
{
    const struct settings longest = {"ACGT", 31, KMER_COMPLEMENT};
    print_words(&(struct settings){"ACGT", 5, KMER_COMPLEMENT}, 1);
    print_words(&(struct settings){"ACGT", 2, KMER_COMPLEMENT}, 10);
    print_words(&(struct settings){"AB", 3, KMER_REVERSAL}, 6);
    print_words(&(struct settings){"ABC", 2, KMER_REVERSAL}, 6);
    print_settings(&longest);
    print_word(&longest, UINT64_C(2305843009213693951), LONGEST);
    print_word(&longest, UINT64_C(2305843009213693952), LONGEST);
}

static void some_refusals(void)
{
    const struct settings five = {"ACGT", 5, KMER_COMPLEMENT};
    const struct settings refused[] = {
        {"ACGA", 3, KMER_REVERSAL}, {"ACGT", 3, 2},
        {"ACGT", 0, KMER_REVERSAL}, {"ACGT", 32, KMER_REVERSAL},
        {"ABC", 40, KMER_COMPLEMENT},
    };
    print_settings(&five);
    print_code(&five, "ACGTNN");
    print_code(&five, "ACGTN");
    print_word(&five, 0, 4);
    for (size_t i = 0; i < COUNT(refused); i++) {
        printf("%s, k %zu, mirror %" PRIu64 "\n", refused[i].letters, refused[i].k, refused[i].mirror);
        print_code(&refused[i], "AAA");
    }
}

int main(void)
{
    some_codes();
    some_words();
    an_odd_alphabet();
    rna();
    some_refusals();
    return 0;
}
