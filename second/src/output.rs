//! What a program writes: on standard output, and on standard error.

#[derive(Clone, Debug, PartialEq, Eq)]
pub struct Output {
    pub out: Vec<u8>,
    pub err: Vec<u8>,
}

impl Output {
    /// All of it on standard output.
    pub fn plain(out: Vec<u8>) -> Output {
        Output { out, err: Vec::new() }
    }
}
