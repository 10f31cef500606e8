//! A refusal: a number of document 01's table "What is sent back" and its item.

#[derive(Clone, Copy, Debug, PartialEq, Eq)]
pub struct Refusal {
    pub number: u8,
    pub item: u32,
}

pub fn refused<T>(number: u8, item: usize) -> Result<T, Refusal> {
    Err(Refusal { number, item: item as u32 })
}
