//! A refusal: its number in document 01's table and the place it names, if it names one.

#[derive(Clone, Copy, Debug, PartialEq, Eq)]
pub enum Place {
    None,
    Cell(usize),
    Line(usize),
    Record(usize),
}

#[derive(Clone, Copy, Debug, PartialEq, Eq)]
pub struct Refusal {
    pub number: u8,
    pub place: Place,
}

impl Refusal {
    /// A refusal that names no place.
    pub fn plain(number: u8) -> Refusal {
        Refusal { number, place: Place::None }
    }

    pub fn at_cell(number: u8, cell: usize) -> Refusal {
        Refusal { number, place: Place::Cell(cell) }
    }

    pub fn at_line(number: u8, line: usize) -> Refusal {
        Refusal { number, place: Place::Line(line) }
    }

    pub fn at_record(number: u8, record: usize) -> Refusal {
        Refusal { number, place: Place::Record(record) }
    }
}

/// Why a trial or run did not end: it was refused, or the caller's own limit of decisions was used up.
/// Only the generator and the tests set such a limit; the programs never do.
#[derive(Clone, Copy, Debug, PartialEq, Eq)]
pub enum Halt {
    Refused(Refusal),
    TooLong,
}

impl From<Refusal> for Halt {
    fn from(refusal: Refusal) -> Halt {
        Halt::Refused(refusal)
    }
}
