//! The C calls of libkmer.a, declared once for the tests and for host/ (which takes this file by its path). The
//! lines are laid out as in include/kmer.h, so that the two can be read side by side; a pointer may be NULL
//! where its length is 0, and must otherwise point to as many places as the length says.

#[rustfmt::skip]
extern "C" {
    pub fn kmer_code(letters: *const u8, letters_len: usize, k: usize, mirror: u64,
                     word: *const u8, word_len: usize) -> u64;

    pub fn kmer_word(letters: *const u8, letters_len: usize, k: usize, mirror: u64,
                     code: u64, out: *mut u8, out_len: usize) -> u64;

    pub fn kmer_mirror(letters: *const u8, letters_len: usize, k: usize, mirror: u64,
                       word: *const u8, word_len: usize, out: *mut u8, out_len: usize) -> u64;

    pub fn kmer_codes(letters: *const u8, letters_len: usize, k: usize, mirror: u64,
                      sequence: *const u8, sequence_len: usize, codes: *mut u64, codes_len: usize) -> u64;

    pub fn kmer_codes_two_bit(k: usize, sequence: *const u8, sequence_len: usize, codes: *mut u64,
                              codes_len: usize) -> u64;

    pub fn kmer_classes(letters: *const u8, letters_len: usize, k: usize, mirror: u64) -> u64;

    pub fn kmer_clear(letters: *const u8, letters_len: usize, k: usize, mirror: u64,
                      table: *mut u32, table_len: usize) -> u64;

    pub fn kmer_add(letters: *const u8, letters_len: usize, k: usize, mirror: u64,
                    table: *mut u32, table_len: usize, fastq: u64, file: *const u8, file_len: usize,
                    answer: *mut u64, answer_len: usize) -> u64;

    pub fn kmer_withdraw(letters: *const u8, letters_len: usize, k: usize, mirror: u64,
                         table: *mut u32, table_len: usize, fastq: u64, file: *const u8, file_len: usize,
                         answer: *mut u64, answer_len: usize) -> u64;

    pub fn kmer_listing(letters: *const u8, letters_len: usize, k: usize, mirror: u64,
                        table: *const u32, table_len: usize, text: *mut u8, text_len: usize) -> u64;

    pub fn kmer_load(letters: *const u8, letters_len: usize, k: usize, mirror: u64,
                     table: *mut u32, table_len: usize, text: *const u8, text_len: usize) -> u64;

    pub fn kmer_generate(letters: *const u8, letters_len: usize, k: usize, mirror: u64, start: u64,
                         records: usize, letters_each: usize, out: *mut u8, out_len: usize) -> u64;
}
