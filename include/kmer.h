/*
 * kmer.h: the C calls of libkmer.a, which code k-mers, read codes back, mirror k-mers, code all k-mers
 * along a sequence, tell the number of classes, count the k-mers of sequence files (FASTA or FASTQ) in a table, withdraw files from it,
 * list the table, load a listing into a table, and write test loads, sequence files that anyone can make again.
 *
 * A class is a word of k letters together with its mirror. The calls work with the minimal encoding
 * of canonical k-mers (Wittler 2023): each class has one code, from 0 to the number of classes less 1.
 * A plain rank (the ranks of the letters read as base-s digits) counts all words, a code counts
 * classes: neither may be used for the other.
 *
 * Settings, the first arguments of every call (kmer_codes_two_bit takes only k):
 *   letters, letters_len  the alphabet: 2 to 16 different capitals A to Z, one byte each, no end byte.
 *                         A letter's rank is its place in this list, from 0. s is their number. DNA is ACGT.
 *                         Words, sequences and files may have small letters, which count as their capitals;
 *                         and where the letters have T and no U, U counts as T in them, so that RNA is read
 *                         under ACGT: below, such a U is a letter of the settings. Words and test loads that are
 *                         written have the letters of this list alone.
 *   k                     the letters in a word: at least 1, and s^k at most 2^62. The largest k is 62
 *                         for two letters, 39 for three, 31 for four, 15 for sixteen.
 *   mirror                KMER_REVERSAL or KMER_COMPLEMENT. Under the latter the letter of rank i pairs with
 *                         that of rank s - 1 - i, the middle letter of an odd s with itself.
 *
 * Every pointer comes with its length in elements of its type (bytes, 32-bit counts or 64-bit numbers), may be
 * NULL where that length is 0, and must otherwise be aligned for its type and point to as many elements.
 * Nothing need end in a 0 byte. A buffer that is written must not overlap any other lent buffer. Whatever the
 * numbers and bytes are, a call returns and touches no other memory; it never writes to letters, word, sequence
 * or file, nor to the text of kmer_load, and only kmer_clear, kmer_add, kmer_withdraw and kmer_load write to a
 * table. The calls keep no state, so several threads may call at once; they may share what is only read, and
 * what a call writes must be that call's alone. While a call runs nobody else may write to memory that is lent
 * to it, nor read what it writes. When a refused call returns, all lent memory holds what it held before;
 * kmer_withdraw alone may have written meanwhile, to the table.
 *
 * An answer below 2^63 is a result. An answer from 2^63 on is a refusal: see kmer_is_refused below.
 * Of several grounds for refusing that apply, the one with the lowest number is returned, save that those of
 * a file's bytes all come after 7 and before 12 and 18: in FASTA of 10 and 11 the one at the earlier byte; in
 * FASTQ that of the earliest record at fault, and within the record the first that applies of 15, 10, 16, 17;
 * in a listing that of the first line at fault, and within the line the lowest of 20, 21, 22.
 */
#ifndef KMER_H
#define KMER_H

#include <stddef.h>
#include <stdint.h>

#ifdef __cplusplus
extern "C" {
#endif

/* What the mirror of a word is. */
enum kmer_mirrors {
    KMER_REVERSAL = 0,  /* the word reversed */
    KMER_COMPLEMENT = 1 /* the word reversed, with s - 1 - i for each rank i: the reverse complement */
};

/*
 * The kinds of sequence file. In both, lines end in LF or CR LF, and the last may have no end; a CR without LF
 * is a byte of its line. What follows the last line end is a line only where it has bytes. Letters are A to Z
 * and a to z.
 *   FASTA  a line that begins with > is a header: it opens a record, and its other bytes are free. All other
 *          lines hold letters and nothing else; empty lines are skipped.
 *   FASTQ  four lines a record: one that begins with @; the sequence line, of letters and nothing else; one
 *          that begins with +; the quality line, of bytes from 33 to 126, as many as the sequence line has, line
 *          ends not counted. No line is skipped, not even an empty one at the end. The other bytes of the first
 *          and third lines are free. Only the sequence line counts; it may be empty.
 */
enum kmer_kinds {
    KMER_FASTA = 0,
    KMER_FASTQ = 1
};

/* The grounds for refusing a call, by number. Other numbers are never returned (13, 14 and 19 are given by the counter
 * program alone), nor is 3, which is reserved. */
enum kmer_grounds {
    KMER_BAD_LETTERS = 1,     /* letters are not 2 to 16 different capitals */
    KMER_BAD_MIRROR = 2,      /* mirror is neither 0 nor 1 */
    KMER_ODD_COMPLEMENT = 3,  /* reserved, never returned: complement takes an odd number of letters too */
    KMER_BAD_K = 4,           /* k is 0, or s^k is above 2^62 */
    KMER_BAD_LENGTH = 5,      /* word_len is not k */
    KMER_TOO_LARGE = 6,       /* the sequence or file is above 16,777,216 bytes, that of kmer_generate too; in
                                 table calls also: there are more than 16,777,216 classes */
    KMER_SHORT_BUFFER = 7,    /* a lent buffer is too short; P is the length needed */
    KMER_BAD_CODE = 8,        /* code is not below the number of classes */
    KMER_FOREIGN_BYTE = 9,    /* a byte of word is no letter of the settings; P is the first such place */
    KMER_STRAY_BYTE = 10,     /* a byte outside of header lines (FASTA) or in a sequence line (FASTQ) is neither
                                 a letter nor part of a line end (LF or CR LF); P is the offset of the first */
    KMER_EARLY_LETTER = 11,   /* FASTA only: a letter stands before the file's first header; P is the offset of
                                 the first */
    KMER_COUNTS_FULL = 12,    /* kmer_add only: some count is above 4,294,967,295 less the file's windows */
    KMER_BAD_RECORD = 15,     /* FASTQ only: a record's first line does not begin with @, its third not with +,
                                 or the file ends before its fourth; P is the offset of the first line at fault,
                                 for a missing line the file's length */
    KMER_QUALITY_LENGTH = 16, /* FASTQ only: a quality line has more or fewer bytes than its sequence line; P
                                 is the offset of the quality line */
    KMER_QUALITY_BYTE = 17,   /* FASTQ only: a quality byte is not from 33 to 126; P is the offset of the
                                 first */
    KMER_COUNTS_LACKING = 18, /* kmer_withdraw only: some class has a smaller count than the file has windows
                                 of it */
    KMER_BAD_LINE = 20,       /* kmer_load only: a line has none of a listing's shapes, stands where another kind
                                 or none belongs, or is missing; P is its offset, for a missing line text_len */
    KMER_OTHER_SETTINGS = 21, /* kmer_load only: the survey line differs from the settings or their number of
                                 classes; P is its offset, 0 */
    KMER_BAD_COUNT = 22       /* kmer_load only: a word is not canonical, its code does not rise, a count is not 1
                                 to 4,294,967,295, or the total is not the sum; P is the offset of the line */
};

/*
 * Codes a word.
 *   word, word_len  the k-mer, k bytes. A small letter counts as its capital, and U as T where the letters
 *                   have T and no U. It need not be canonical: a word and its mirror have the same code.
 * Returns the code of the word's class, below 2^62, or 2^63 + the number of the first ground that
 * applies of 1, 2, 4, 5, 9. No P is returned. Nothing is written.
 */
uint64_t kmer_code(const uint8_t *letters, size_t letters_len, size_t k, uint64_t mirror,
                   const uint8_t *word, size_t word_len);

/*
 * Reads a code: writes the canonical word of its class, that is the word of lower plain rank.
 *   code          a code under the same settings, below the number of classes.
 *   out, out_len  the buffer for the word, at least k bytes. Its first k bytes receive the word, in
 *                 capitals and with no end byte; later bytes keep what they held.
 * Returns k, or 2^63 + the number of the first ground that applies of 1, 2, 4, 7, 8. No P is
 * returned. A refused call writes nothing to out.
 */
uint64_t kmer_word(const uint8_t *letters, size_t letters_len, size_t k, uint64_t mirror,
                   uint64_t code, uint8_t *out, size_t out_len);

/*
 * Mirrors a word: its reversal or its reverse complement, as mirror says.
 *   word, word_len  the k-mer, k bytes, as for kmer_code.
 *   out, out_len    the buffer for the mirror, at least k bytes. Its first k bytes receive the mirror,
 *                   in capitals and with no end byte; later bytes keep what they held.
 * Returns k, or 2^63 + P * 256 + the number of the first ground that applies of 1, 2, 4, 5, 7, 9,
 * where P is 0 unless the ground states it: kmer_refusal_p gives it. A refused call writes nothing to
 * out.
 */
uint64_t kmer_mirror(const uint8_t *letters, size_t letters_len, size_t k, uint64_t mirror,
                     const uint8_t *word, size_t word_len, uint8_t *out, size_t out_len);

/*
 * Codes every window of k letters along a plain sequence.
 *   sequence, sequence_len  the bytes of the sequence, at most 16,777,216. A small letter counts as its
 *                           capital, and U as T where the letters have T and no U; any byte may stand in
 *                           it.
 *   codes, codes_len        the list for the codes and its length in 64-bit numbers. Its place j, from 0,
 *                           receives the code of the k bytes from place j of the sequence, or KMER_NO_CODE
 *                           where one of them is no letter of the settings; it needs a place for each
 *                           window, that is sequence_len - k + 1, or none where the sequence is shorter
 *                           than k. Later places keep what they held.
 * Returns how many places were filled, or 2^63 + P * 256 + the number of the first ground that applies of
 * 1, 2, 4, 6, 7, where P is the length needed for 7, else 0. A refused call writes nothing to codes.
 */
uint64_t kmer_codes(const uint8_t *letters, size_t letters_len, size_t k, uint64_t mirror,
                    const uint8_t *sequence, size_t sequence_len, uint64_t *codes, size_t codes_len);

/*
 * The same for the letters ACGT under reverse complement, by two-bit numbers: on every input it returns
 * and writes what kmer_codes does with these settings, and is faster.
 */
uint64_t kmer_codes_two_bit(size_t k, const uint8_t *sequence, size_t sequence_len, uint64_t *codes,
                            size_t codes_len);

/*
 * Tells the number of classes, which is how many places a table needs and the first number that is no code. Of
 * a table calls take up to 16,777,216 classes.
 * Returns it, below 2^62, or 2^63 + the number of the first ground that applies of 1, 2, 4. No P is returned.
 */
uint64_t kmer_classes(const uint8_t *letters, size_t letters_len, size_t k, uint64_t mirror);

/*
 * Clears a table of counts.
 *   table, table_len  the table and its length in counts. It needs a place for each class; the class with
 *                     the code q counts at place q. The first places, one a class, are set to 0; later
 *                     places keep what they held.
 * Returns the number of classes, which is the number of places set, or 2^63 + P * 256 + the number of the
 * first ground that applies of 1, 2, 4, 6, 7, where P is the length needed for 7, else 0. A refused call
 * writes nothing to table: call with table NULL and table_len 0 first to learn the length, the refusal's P.
 */
uint64_t kmer_clear(const uint8_t *letters, size_t letters_len, size_t k, uint64_t mirror,
                    uint32_t *table, size_t table_len);

/*
 * Adds a sequence file to a table: 1 at the place of its class for each window of k letters.
 *   table, table_len    a table that was cleared or loaded, and perhaps added to and withdrawn from, with the same
 *                       settings. Files of both kinds may be added to one table.
 *   fastq               the file's kind, which the call does not guess: KMER_FASTA (0) or KMER_FASTQ; any
 *                       number but 0 is taken for KMER_FASTQ. A FASTQ file that is not empty begins with @,
 *                       and no FASTA file that is taken in does.
 *   file, file_len      the bytes of the file, at most 16,777,216. An empty file of either kind has no record.
 *   answer, answer_len  a list of at least KMER_NUMBERS numbers. Its first five places receive the file's
 *                       records (in FASTA: header lines), letters (foreign ones too), foreign letters, edge
 *                       letters and windows; later places keep what they held.
 * Returns 5, or 2^63 + P * 256 + the number of the first ground that applies of 1, 2, 4, 6, 7 (of the
 * table, then of answer), those of the file's bytes (FASTA: 10 or 11, the earlier byte; FASTQ: 15, 10, 16, 17
 * in this order, of the earliest record to which one applies), 12, where P is the length needed for 7, the
 * offset that the ground states for 10, 11, 15, 16 and 17, else 0. A refused call writes nothing to table or
 * answer: no part of a refused file is counted.
 */
uint64_t kmer_add(const uint8_t *letters, size_t letters_len, size_t k, uint64_t mirror,
                  uint32_t *table, size_t table_len, uint64_t fastq, const uint8_t *file, size_t file_len,
                  uint64_t *answer, size_t answer_len);

/*
 * Withdraws a sequence file from a table: takes 1 from the place of its class for each window of k letters.
 * The parameters, and the five numbers in answer, are those of kmer_add.
 * Returns 5, or 2^63 + P * 256 + the number of the first ground that applies: those of kmer_add in their order,
 * with 18 (P is 0) in place of 12.
 *
 * Withdrawing a file that kmer_add has just taken in gives the table back as it was before. A table does not
 * remember its files: one that was never added, or not as it is now, is withdrawn too where each class has as
 * large a count as the file has windows of it. To undo that, add the same file (12 refuses it where some count is
 * above 4,294,967,295 less the file's windows).
 *
 * The call needs no second table: it counts down window by window; at the first window whose class stands at 0 it
 * stops, counts up again the windows taken so far, and returns 18. So when a refused call returns, table and answer
 * hold what they held before; but while a call runs, the first places of the table, one a class, move, and no other
 * thread may read the table meanwhile. A call that does not return, since its thread or process is ended, leaves
 * these places anywhere in between.
 */
uint64_t kmer_withdraw(const uint8_t *letters, size_t letters_len, size_t k, uint64_t mirror,
                       uint32_t *table, size_t table_len, uint64_t fastq, const uint8_t *file, size_t file_len,
                       uint64_t *answer, size_t answer_len);

/*
 * Lists a table: the survey line with the number of classes as its last form, a line for each class with a
 * count above 0 by rising code, the total.
 *   table, table_len  a table that was cleared or loaded, and perhaps added to and withdrawn from, with the same
 *                     settings. Only read.
 *   text, text_len    the buffer for the listing and its length in bytes. Its first bytes receive the
 *                     listing, each line ending in LF and no end byte after the last; later bytes keep
 *                     what they held.
 * Returns how many bytes were written, or 2^63 + P * 256 + the number of the first ground that applies of
 * 1, 2, 4, 6, 7 (of the table, then of text), where P is the length needed for 7, else 0. A refused call
 * writes nothing to text: call with an empty text first to learn the length, which is below 2^31.
 */
uint64_t kmer_listing(const uint8_t *letters, size_t letters_len, size_t k, uint64_t mirror,
                      const uint32_t *table, size_t table_len, uint8_t *text, size_t text_len);

/*
 * Loads a listing into a table: its counts replace the old ones, with 0 for a class that is not listed. What was
 * added to the table before is no longer in it; files may then be added and withdrawn as after kmer_clear.
 *   table, table_len  a table, whatever it holds. It needs a place for each class. The first places, one a class,
 *                     are set; later places keep what they held.
 *   text, text_len    the listing, as kmer_listing writes it, of any length: the survey line with its number of
 *                     classes, lines of classes by rising code, the total, each ending in LF, the last too, and
 *                     nothing behind them. Numbers have no leading zero but 0 itself. A word is k capitals of the
 *                     settings: here a small letter is none, nor is U where it is not in the letters.
 * Just the listings of tables with these settings are loaded: what kmer_listing writes gives the counts back, and
 * kmer_listing of a loaded table gives the text back, byte by byte.
 * Returns the number of classes, which is the number of places set, or 2^63 + P * 256 + the number of the first
 * ground that applies: 1, 2, 4, 6 (of the classes), 7, then that of the first line at fault, the lowest of 20, 21,
 * 22 that applies to it, where P is the length needed for 7, the offset of the line for 20 to 22 (for a missing
 * line text_len), else 0. An offset above KMER_MOST_P, which no text in a machine's memory has today, is told as
 * KMER_MOST_P. The whole text is judged before the table is touched: a refused call writes nothing to table.
 */
uint64_t kmer_load(const uint8_t *letters, size_t letters_len, size_t k, uint64_t mirror,
                   uint32_t *table, size_t table_len, const uint8_t *text, size_t text_len);

/*
 * Writes a test load: a FASTA file by the settings that is the same wherever it is made, from a start, a number of
 * records and a number of letters in each.
 *   start         any 64-bit number: the first state.
 *   records       how many records: each has a header line, > and its number from 1, and then its letters in lines
 *                 of 60, the last perhaps shorter. Each line ends in LF. With 0 letters there is only the header.
 *   letters_each  how many letters each record has. For each the state, which runs on from record to record,
 *                 becomes state * 6364136223846793005 + 1442695040888963407 modulo 2^64; the letter has as its rank
 *                 the state's top 32 bits times s, divided by 2^32 and rounded down.
 *   out, out_len  the buffer for the file and its length in bytes. Its first bytes receive the file; later bytes
 *                 keep what they held.
 * k and mirror change nothing in the file; they are judged all the same. kmer_add takes such a file, of so many
 * records and letters and no foreign ones, into a table of these settings, unless 12 applies.
 * Returns how many bytes were written, or 2^63 + P * 256 + the number of the first ground that applies of 1, 2, 4, 6
 * (the file would have more than 16,777,216 bytes), 7, where P is the length needed for 7, else 0. A refused call
 * writes nothing: call with an empty out first to learn the length (of 0 records it is 0, and the call is not
 * refused).
 */
uint64_t kmer_generate(const uint8_t *letters, size_t letters_len, size_t k, uint64_t mirror, uint64_t start,
                       size_t records, size_t letters_each, uint8_t *out, size_t out_len);

/* How many numbers kmer_add and kmer_withdraw answer with. */
#define KMER_NUMBERS 5

/* What kmer_codes writes for a window that has a byte which is no letter: 2^64 - 1, which is no code. */
#define KMER_NO_CODE UINT64_C(0xffffffffffffffff)

/* The lowest answer that is a refusal: 2^63. */
#define KMER_REFUSED UINT64_C(0x8000000000000000)

/* The largest P that fits beside a number: 2^55 - 1. */
#define KMER_MOST_P UINT64_C(0x7fffffffffffff)

/* 1 where the answer of any call above is a refusal, else 0. */
static inline int kmer_is_refused(uint64_t answer)
{
    return answer >= KMER_REFUSED;
}

/* The number of the ground (enum kmer_grounds) in a refusal; 0 where the answer is no refusal. */
static inline unsigned kmer_refusal(uint64_t answer)
{
    return kmer_is_refused(answer) ? (unsigned)(answer & 0xff) : 0;
}

/*
 * P of a refusal by any call but kmer_code, kmer_word and kmer_classes: the length needed for KMER_SHORT_BUFFER, the place
 * or offset from 0 for KMER_FOREIGN_BYTE, KMER_STRAY_BYTE, KMER_EARLY_LETTER, KMER_BAD_RECORD,
 * KMER_QUALITY_LENGTH, KMER_QUALITY_BYTE, KMER_BAD_LINE, KMER_OTHER_SETTINGS and KMER_BAD_COUNT, else 0.
 * kmer_code, kmer_word and kmer_classes return no P, so for these it is always 0.
 */
static inline uint64_t kmer_refusal_p(uint64_t answer)
{
    return kmer_is_refused(answer) ? (answer - KMER_REFUSED) >> 8 : 0;
}

#ifdef __cplusplus
}
#endif

#endif
