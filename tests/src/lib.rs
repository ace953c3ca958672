//! What the tests share. The C calls and what is lent to them: `c_calls`, `lent`, `calls`, `sequences`,
//! `tables`, `table_faults`, `loads`, `generated`. What documents 01 and 02 say that they answer, written apart
//! from the library: `second_coder`, `expected`, `files`, `book`, `second_reader`, `second_loader`,
//! `second_generator`. What the tests go over: `settings`, `draw`, `draw_files`, `draw_fastq`, `draw_listings`, and
//! the stored answers in `vectors`, `table_vectors`. For the counter program: its runs in `program`, the second
//! counter, `draw_inputs` and `program_cases`. For the pages: `repository`, `claims`,
//! `quotations`.

pub mod book;
pub mod c_calls;
pub mod calls;
pub mod claims;
pub mod draw;
pub mod draw_fastq;
pub mod draw_files;
pub mod draw_inputs;
pub mod draw_listings;
pub mod expected;
pub mod files;
pub mod generated;
pub mod lent;
pub mod loads;
pub mod program;
pub mod program_cases;
pub mod quotations;
pub mod repository;
pub mod second_coder;
pub mod second_counter;
pub mod second_generator;
pub mod second_loader;
pub mod second_reader;
pub mod sequences;
pub mod settings;
pub mod table_faults;
pub mod table_vectors;
pub mod tables;
pub mod vectors;
