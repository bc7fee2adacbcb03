//! The program `renew`: a table file on standard input, and its last table as an edition 2 file on standard output.

use crate::output::Output;
use crate::table_file;

/// All that is written for a whole input. A refusal is told on standard error, and nothing on standard output.
pub fn answer(input: &[u8]) -> Output {
    match table_file::renewed(input) {
        Ok(file) => Output::plain(file),
        Err(refusal) => Output { out: Vec::new(), err: format!("refused {}\n", refusal.number).into_bytes() },
    }
}
