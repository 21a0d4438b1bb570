//! For the crate `num_enum`: a number that is none of an enum's.

use std::marker::PhantomData;

#[derive(Debug)]
pub struct TryFromPrimitiveError<T> {
    pub number: u16,
    of: PhantomData<T>,
}

impl<T> TryFromPrimitiveError<T> {
    pub fn new(number: u16) -> Self {
        TryFromPrimitiveError { number, of: PhantomData }
    }
}
