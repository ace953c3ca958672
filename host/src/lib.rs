//! Canonical k-mers in Rust, over `libkmer.a`: a safe function for each of its C calls.
//!
//! A word of k letters and its mirror are one class; each class has one code, from 0 to the number of classes
//! less 1; a table holds one count for each class, at the place of its code. The settings (letters, k,
//! mirror) are the same for a whole survey; every call but `codes_two_bit`, which takes only k, is a method
//! of [`Settings`].
//!
//! What is proved: the library. It is written in Rattle, and every function of it is proved to meet its
//! contract for all inputs. What is tested: this crate. It lends the slices that it is given, as they are,
//! and hands on the answer; it decides nothing about codes and counts. The one exception is
//! [`Settings::write_listing`], which writes the lines of [`Settings::listing`] one by one and is tested to
//! write the same bytes.
//!
//! A call that cannot do what it is asked gives a [`Refusal`] and leaves every slice lent to it as it was.
//!
//! ```
//! use wontirje::{Kind, Settings};
//!
//! let settings = Settings::dna(2);
//! let mut table = vec![0; settings.table_places()?];
//! settings.clear(&mut table)?;
//! let numbers = settings.add(&mut table, Kind::Fasta, b">a\nACGTN\n>b\nAG\nCT\n")?;
//! assert_eq!(numbers.windows, 6);
//! settings.add(&mut table, Kind::Fastq, b"@c\nAC\n+\nII\n")?;
//! // AC and its reverse complement GT are one class.
//! let code = settings.code(b"GT")?;
//! assert_eq!(table[code.0 as usize], 3);
//! settings.withdraw(&mut table, Kind::Fastq, b"@c\nAC\n+\nII\n")?;
//! assert_eq!(table[code.0 as usize], 2);
//! // Next year's files are added to the counts of the listing.
//! let mut listing = vec![0; 1000];
//! let length = settings.listing(&table, &mut listing)?;
//! let mut next_year = vec![0; settings.table_places()?];
//! settings.load(&mut next_year, &listing[..length])?;
//! settings.add(&mut next_year, Kind::Fasta, b">d\nGT\n")?;
//! assert_eq!(next_year[code.0 as usize], 3);
//! # Ok::<(), wontirje::Refusal>(())
//! ```

// The declarations of the C calls, by their path from the tests, so that they are written once.
#[path = "../../tests/src/c_calls.rs"]
mod c_calls;
mod generator;
mod kind;
mod lines;
mod refusal;
mod sequences;
mod settings;
mod tables;
mod words;

pub use kind::Kind;
pub use refusal::Refusal;
pub use sequences::{codes_two_bit, MOST_BYTES, NO_CODE};
pub use settings::{Mirror, Settings};
pub use tables::Numbers;
pub use words::Code;
