//! What `--help` prints.

pub const ALL: &str = "\
wontirje counts canonical k-mers: a word of k letters and its reverse complement are one class.

  wontirje count FILE...       count the words of FASTA and FASTQ files and print a listing
  wontirje merge LISTING...    add listings up and print the listing of their sum
  wontirje code WORD...        print the code of each word's class
  wontirje word CODE...        print the canonical word of each code
  wontirje classes [K...]      print the number of classes and the size of their table
  wontirje histogram LISTING   print how many classes have each count, and draw a chart
  wontirje generate OPTIONS    write a test load: a FASTA file that anyone can make again from three numbers
  wontirje --version           print the version

Settings of all but merge and histogram, and what they are when not given (under count --from: the listing's):
  --letters ACGT        2 to 16 different capitals, in the order of their ranks; where T is one and U is not,
                        U is read as T and printed as T (so RNA needs no other letters)
  --k 11                letters in a word (-k 11 will do too)
  --mirror complement   or reversal: what a word is one class with; under complement the first letter pairs
                        with the last, and so on inwards, a middle one with itself (with N: ACNGT, k to 10)

Example:
  wontirje count reads.fa > counts.txt && wontirje histogram counts.txt

Exit status: 0 all was taken in, withdrawn or written; 1 a file was refused or not read by count, or a word,
code or K was refused; 2 the command could not do its work: options, settings, a listing, a test load that is
too large, lines of standard input, an output.
See wontirje COMMAND --help. Codes, counts and test loads are the library's, which is proved; the command is
tested, and so are the sums of merge, which it adds up by itself.
";

pub const COUNT: &str = "\
wontirje count [--letters ACGT] [--k 11] [--mirror complement] [--kind KIND] [--from LISTING] [--output FILE]
               [--strict] [--no-listing] FILE... [--withdraw FILE]...

Clears a table, or loads a listing into it (--from), adds each file in order, withdraws those of --withdraw,
and prints the listing: the survey line with the number of classes, a line for each class with its count, and
the total. - is standard input. A file whose first byte is @ is taken for FASTQ, any other for FASTA; both may
be given together. Of FASTQ, four lines a record, only the sequence line counts. On standard error is a line
for each file: its records, letters, foreign letters (not in --letters; U is read as T where they have T and
no U), edge letters (too near a run's end to begin a word) and windows (words counted or withdrawn); or why it
was refused, where, and what to do. A refused file changes no count and does not stop the others.

  --kind KIND     fasta or fastq: take all files for this kind, whatever their first byte is
  --from LISTING  start from the counts of a listing instead of from 0, as to add this year's files to last
                  year's. What is not given of letters, k and mirror is the listing's; what is given must be
                  the same. A listing that is refused or not read ends the run. It does not remember its
                  files: one that is in it already is counted again. With --withdraw there need be no file to
                  count
  --withdraw FILE when all files are counted, take this one out again: 1 from its class for each window. One
                  file each time, in the order given (a further name after it is a file to count). Refused
                  with 18 where some class has a smaller count than the file has windows of it. Files are not
                  remembered: one that was not counted is withdrawn too where the counts allow it
  --output FILE   write the listing to a new file, which appears only when it is whole; a file that is there
                  already is not overwritten
  --strict        stop at the first file that is refused or not read, and print no listing
  --no-listing    print no listing, only the line for each file

A file has at most 16,777,216 bytes; split larger ones between records. For ACGT under complement k is at
most 12.

Examples:
  wontirje count --k 12 --output counts.txt lake-1.fa lake-2.fq
  wontirje count --from 2023.txt --output 2024.txt lake-2024.fa
  wontirje count lake-*.fa --withdraw lake-7.fa     (as if lake-7.fa had not been counted)
  gzip -dc reads.fa.gz | wontirje count -           (in jellyfish: count -C -m 11, then dump)
";

pub const MERGE: &str = "\
wontirje merge [--output FILE] LISTING...

Prints the listing of the sum of several listings: the count of each class is the sum of its counts in them.
All must have the settings of the first; - is standard input. On standard error is a line for each listing.
Where one is refused or not read, or a sum is above 4,294,967,295, nothing is printed or written.

  --output FILE   write the listing to a new file, which appears only when it is whole; a file that is there
                  already is not overwritten

Example:
  wontirje merge --output lakes.txt north.txt south.txt
";

pub const CODE: &str = "\
wontirje code [--letters ACGT] [--k 11] [--mirror complement] [WORD...]

Prints the code of each word's class, one a line; the words are read from standard input, one a line, where
none is given, or only -. A word and its mirror have the same code. A refused word is named on standard error
instead.

Examples:
  wontirje code --k 8 TACGGCTA TAGCCGTA             prints 1571 twice
  wontirje code --k 2 UA                            prints 3, as for TA: U is read as T
";

pub const WORD: &str = "\
wontirje word [--letters ACGT] [--k 11] [--mirror complement] [CODE...]

Prints the canonical word of each code, one a line; the codes are read from standard input, one a line,
where none is given, or only -. A refused code is named on standard error instead.

Example:
  wontirje word --k 8 1571                          prints TACGGCTA
";

pub const CLASSES: &str = "\
wontirje classes [--letters ACGT] [--k 11] [--mirror complement] [K...]

Prints the number of classes and the bytes of their table, for the k of the settings or for each K given,
one a line; with - each K is read from standard input. A table has at most 16,777,216 classes.

Example:
  wontirje classes 11 12                            prints 2097152 and 8390656 classes
";

pub const HISTOGRAM: &str = "\
wontirje histogram [--bars 40] [--each] [--svg FILE] LISTING

Prints how many classes of a listing have each count, with bars; - is standard input. Classes without a
count are in no bar. Where the highest count is above --bars, a bar may stand for several counts, and the
last one for all above. A listing is taken as wontirje count prints it, byte for byte; any other is refused,
with the place and what to do, and so is an older one, whose first line lacks (classes N).

  --bars N     at most N bars, 2 to 200
  --each       print a line for each count that some class has, however many
  --svg FILE   draw the bars as a chart too, in a new file; a file that is there already is not overwritten

Example:
  wontirje count reads.fa | wontirje histogram --svg counts.svg -
";

pub const GENERATE: &str = "\
wontirje generate [--letters ACGT] [--k 11] [--mirror complement] --start S --records N --length M
                  [--output FILE]

Writes a test load: a FASTA file with N records of M letters each, drawn from the start S. The same numbers
and letters give the same file everywhere, byte for byte, so that several labs can check their builds on equal
input. Of the settings only --letters changes the file; k and mirror must be right all the same.

  --start S       the state before the first letter
  --records N     how many records; the header of each is > and its number from 1
  --length M      how many letters in each, in lines of 60, the last perhaps shorter; with 0 there are only
                  headers
  --output FILE   write to a new file, which appears only when it is whole; a file that is there already is
                  not overwritten

All three numbers must be given, each from 0 to 2^64 - 1. All lines end in LF. For each letter the state,
which goes on from record to record, becomes state * 6364136223846793005 + 1442695040888963407 modulo 2^64;
its top 32 bits times the number of letters, divided by 2^32 and rounded down, are the letter's rank, from 0.

A file has at most 16,777,216 bytes; a larger one is refused with 6, and nothing is written.

Examples:
  wontirje generate --start 1 --records 1000 --length 1000 | wontirje count --k 3 -
  wontirje generate --start 1 --records 2 --length 5     prints >1, CGGCT, >2 and GGATA, a line each
";
