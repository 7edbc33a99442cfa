//! The fields of an end, in the order of `dump`.

use super::end::{End, Silence};
use crate::fields::{Field, Number};

pub fn fields(end: &mut End) -> [(&'static str, Field<'_>); 33] {
    use Field::{Bool, Byte, Bytes, Other, Word, Words};
    [
        ("tx", Words(&mut end.tx)),
        ("position", Byte(&mut end.position)),
        ("sending_toggle", Bool(&mut end.sending_toggle)),
        ("ready", Bool(&mut end.ready)),
        ("health", Byte(&mut end.health)),
        ("loaded_health", Byte(&mut end.loaded_health)),
        ("pending", Bool(&mut end.pending)),
        ("register_toggle", Bool(&mut end.register_toggle)),
        ("received", Bool(&mut end.received)),
        ("received_toggle", Bool(&mut end.received_toggle)),
        ("number", Byte(&mut end.number)),
        ("ping_tx", Bool(&mut end.ping_tx)),
        ("bytes", Bytes(&mut end.bytes)),
        ("rx", Words(&mut end.rx)),
        ("count", Byte(&mut end.count)),
        ("partner_health", Byte(&mut end.partner_health)),
        ("ping_got", Bool(&mut end.ping_got)),
        ("partner_ping", Bool(&mut end.partner_ping)),
        ("valid", Bool(&mut end.valid)),
        ("toggle", Bool(&mut end.toggle)),
        ("ack", Bool(&mut end.ack)),
        ("togack", Bool(&mut end.togack)),
        ("expected_toggle", Bool(&mut end.expected_toggle)),
        ("acknowledge", Bool(&mut end.acknowledge)),
        ("full", Bool(&mut end.full)),
        ("rx_toggle", Bool(&mut end.rx_toggle)),
        ("rx_number", Byte(&mut end.rx_number)),
        ("rx_bytes", Bytes(&mut end.rx_bytes)),
        ("accepted_count", Word(&mut end.accepted_count)),
        ("crc_count", Word(&mut end.crc_count)),
        ("marked_count", Word(&mut end.marked_count)),
        ("early_count", Word(&mut end.early_count)),
        ("presence_left", Other(&mut end.silence)),
    ]
}

/// By how many symbols are left until presence lapses.
impl Number for Silence {
    fn number(&self) -> u16 {
        self.left()
    }

    fn set_number(&mut self, left: u16) {
        *self = Silence::of_left(left);
    }
}
