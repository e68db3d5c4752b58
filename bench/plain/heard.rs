//! What a node heard of the other members since its last view, and when it asks them again.

use crate::model::{Members, Tell, View};

#[derive(Default, Debug)]
pub struct Heard {
    pub view: Option<View>,
    /// How many views were installed.
    pub installs: u64,
    /// Who said that it does not hold, and who answered at all.
    free: Members,
    told: Members,
    next_ask: u64,
}

impl Heard {
    pub fn on_view(&mut self, tick: u64, view: View) {
        *self = Heard {
            view: Some(view),
            installs: self.installs + 1,
            next_ask: tick,
            ..Heard::default()
        };
    }

    /// A Tell counts where it answers the present incarnation, install number and view.
    pub fn on_tell(&mut self, incarnation: u64, tell: &Tell) {
        if tell.incarnation == incarnation
            && tell.install == self.installs
            && self.view == Some(tell.view)
        {
            self.told = self.told.with(tell.from);
            if !tell.holds {
                self.free = self.free.with(tell.from);
            }
        }
    }

    /// Whether this is an asking moment; the next one is the loop's time later.
    pub fn asks(&mut self, tick: u64, loop_ms: u64) -> bool {
        let is_due = self.view.is_some() && self.next_ask <= tick;
        if is_due {
            self.next_ask = tick + loop_ms;
        }
        is_due
    }

    /// Those of the others that did not say that they are free.
    pub fn not_free(&self, others: Members) -> Members {
        others.without(self.free)
    }

    /// Those of the others that say that they hold.
    pub fn holders(&self, others: Members) -> Members {
        others.both(self.told).without(self.free)
    }

    /// Those of the others that did not answer.
    pub fn unheard(&self, others: Members) -> Members {
        others.without(self.told)
    }
}
