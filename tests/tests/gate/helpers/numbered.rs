//! The fibre channel with numbers in the place of toggles: what two proved ends joined must amount to. Written from the
//! request; of the second implementation it has the lines alone.

use second::link::{self, Joined};

pub type Link = link::Link<Numbered>;

/// An end, and all that a block of it says. Messages are numbered from 1, so the last one's number is how many there are.
#[derive(Clone, Copy, Default)]
pub struct Numbered {
    pub requested: bool,
    /// The last of our messages that was loaded.
    pub loaded: usize,
    /// The last of ours that the partner has stored and that its host has read, as the last good block said.
    pub heard_stored: usize,
    pub heard_read: usize,
    /// The last of the partner's messages that we have stored and that our host has read.
    pub stored: usize,
    pub read: usize,
}

impl Joined for Numbered {
    type Carried = Numbered;

    fn reset() -> Numbered {
        Numbered::default()
    }

    fn put(&mut self) -> Numbered {
        if self.requested && self.heard_stored == self.loaded {
            self.requested = false;
            self.loaded += 1;
        }
        *self
    }

    fn get(&mut self, partner: Numbered, marked: bool) {
        if marked {
            return;
        }
        self.heard_stored = partner.stored;
        self.heard_read = partner.read;
        if partner.loaded > self.stored && self.stored == self.read {
            self.stored = partner.loaded;
        }
    }
}
