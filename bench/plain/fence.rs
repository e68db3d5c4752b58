//! What a node knows of the slots and the resets of the nodes outside its view.

use crate::model::{DiskOp, Members, Rank, Slot, View};

#[derive(Debug)]
pub struct Fence {
    /// Read as clean, read at all, and reset, each since the node was last in a view.
    clean: Members,
    seen: Members,
    written: Members,
    /// When the last reset was written, by rank.
    ticks: [u64; 32],
    /// The node that the operation out is about, where no view with it came since.
    fresh: Option<Rank>,
}

impl Fence {
    pub fn new() -> Fence {
        Fence {
            clean: Members::default(),
            seen: Members::default(),
            written: Members::default(),
            ticks: [0; 32],
            fresh: None,
        }
    }

    /// What was read of the members and written to them counts no more.
    pub fn on_view(&mut self, view: View) {
        self.clean = self.clean.without(view.members);
        self.seen = self.seen.without(view.members);
        self.written = self.written.without(view.members);
        self.fresh = self.fresh.filter(|rank| !view.members.has(*rank));
    }

    pub fn on_slot(&mut self, rank: Rank, slot: Option<Slot>) {
        if let Some(slot) = slot.filter(|_| self.fresh == Some(rank)) {
            self.seen = self.seen.with(rank);
            if slot.clean {
                self.clean = self.clean.with(rank);
            }
        }
    }

    pub fn on_reset(&mut self, rank: Rank, tick: u64, ok: bool) {
        if ok && self.fresh == Some(rank) {
            self.written = self.written.with(rank);
            self.ticks[rank.index()] = tick;
        }
    }

    /// The next operation, where these nodes are outside the view.
    pub fn next(&self, outside: Members) -> Option<DiskOp> {
        let unread = outside.without(self.seen).least().map(DiskOp::ReadSlot);
        unread.or_else(|| {
            outside
                .without(self.clean)
                .without(self.written)
                .least()
                .map(DiskOp::WriteReset)
        })
    }

    /// Notes that an operation was asked for.
    pub fn issued(&mut self, op: DiskOp) {
        if let DiskOp::ReadSlot(rank) | DiskOp::WriteReset(rank) = op {
            self.fresh = Some(rank);
        }
    }

    /// The least of the nodes outside the view that has no licence, and the ticks that remain of msgwait
    /// where a reset was written to it.
    pub fn unfenced(
        &self,
        outside: Members,
        msgwait: u64,
        tick: u64,
    ) -> Option<(Rank, Option<u64>)> {
        let unclean = outside.without(self.clean).ranks();
        unclean
            .map(|rank| (rank, self.left(rank, msgwait, tick)))
            .find(|(_, left)| *left != Some(0))
    }

    fn left(&self, rank: Rank, msgwait: u64, tick: u64) -> Option<u64> {
        let waited = tick - self.ticks[rank.index()];
        self.written
            .has(rank)
            .then(|| msgwait.saturating_sub(waited))
    }
}
