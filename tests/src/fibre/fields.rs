//! The fields of an end, in the order of `dump`.

use super::end::End;
use crate::fields::Field;

pub fn fields(end: &mut End) -> [(&'static str, Field<'_>); 14] {
    use Field::{Bool, Word, Words};
    [
        ("txreq", Bool(&mut end.txreq)),
        ("phyt", Bool(&mut end.phyt)),
        ("mert", Bool(&mut end.mert)),
        ("control", Word(&mut end.transmit.control)),
        ("words", Words(&mut end.transmit.words)),
        ("sent_msgt", Bool(&mut end.sent.msgt)),
        ("sent_phyt", Bool(&mut end.sent.phyt)),
        ("sent_mert", Bool(&mut end.sent.mert)),
        ("sent_control", Word(&mut end.sent.message.control)),
        ("sent_words", Words(&mut end.sent.message.words)),
        ("rxval", Bool(&mut end.rxval)),
        ("rx_toggle", Bool(&mut end.rx_toggle)),
        ("rx_control", Word(&mut end.receive.control)),
        ("rx_words", Words(&mut end.receive.words)),
    ]
}
