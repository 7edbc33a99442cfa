//! Document 01, "The finder", with the limit of request #102.

use super::frame::{is_acceptable, Frame, LARGEST_SYMBOL, SYMBOLS};
use crate::answer::Answer;

/// The longest list that is searched.
pub const LIMIT: usize = 32_768;

/// The answer and the first place where an acceptable frame stands, 0 where there is none.
pub fn find(list: &[u16]) -> (Answer, usize) {
    if list.len() > LIMIT {
        return (Answer::BadLength, 0);
    }
    if list.iter().any(|symbol| *symbol > LARGEST_SYMBOL) {
        return (Answer::BadSymbol, 0);
    }
    match list.windows(SYMBOLS).position(passes) {
        Some(place) => (Answer::Done, place),
        None => (Answer::NotFound, 0),
    }
}

fn passes(stretch: &[u16]) -> bool {
    Frame::try_from(stretch).map_or(false, |frame| is_acceptable(&frame))
}
