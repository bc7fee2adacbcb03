//! The second program: the route learner of document 01 once more, written from the papers alone,
//! so that another implementation can be compared with it byte for byte.

pub mod aisle;
pub mod calls;
pub mod checks;
pub mod compare;
pub mod decision;
pub mod floor;
pub mod floor_text;
pub mod keep_depth;
pub mod line;
pub mod lookahead;
pub mod make;
pub mod opening;
pub mod output;
pub mod promises;
pub mod refusal;
pub mod renew;
pub mod settling;
pub mod table_file;
pub mod tally;
pub mod third;
pub mod timing;
pub mod trial;
