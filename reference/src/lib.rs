//! Document 01 calculated once more, plainly, to be compared with the proved programs.

pub mod book;
pub mod book_cases;
pub mod calendar;
pub mod case_text;
pub mod clock_cases;
pub mod examples;
pub mod message;
pub mod message_cases;
pub mod program;
pub mod random;
pub mod rank_cases;
pub mod refusal;
pub mod report_cases;
pub mod series;
pub mod settle;
pub mod settle_cases;
pub mod sheet;
pub mod split_cases;
