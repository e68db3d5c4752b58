//! A node as its seat keeps it, the sectors of the image, and the condition that blocks a start.

use crate::text::Text;
use std::ops::{Index, IndexMut};

#[derive(Clone, Copy, PartialEq)]
pub enum Phase {
    Booting,
    Up,
    Leaving,
    Dying,
    Gone,
}

#[derive(Clone, Copy, PartialEq)]
pub enum Resource {
    Free,
    Held,
    Stopping,
    Failed,
}

/// An operation on the image: of a rank, or with an incarnation.
#[derive(Clone, Copy)]
pub enum DiskOp {
    ReadHeader,
    ReadSlot(u8),
    Claim(u64),
    Clear,
    ReadMail,
    Reset(u8),
    Close(u64),
}

/// What a read found when it landed.
#[derive(Clone, Copy, Default)]
pub struct Found {
    pub incarnation: u64,
    pub is_clean: bool,
    pub has_reset: bool,
}

/// The slot and the mailbox of a rank.
#[derive(Clone, Copy)]
pub struct Sectors {
    pub incarnation: u64,
    pub is_clean: bool,
    pub has_reset: bool,
}

#[derive(Clone, Copy, PartialEq)]
pub struct View {
    pub id: u64,
    pub members: u32,
}

/// The high byte of the number of a view under which nobody may start.
const NOBODY: u64 = 254;

impl View {
    /// The member that may start: the one that is named, else the least.
    #[inline(always)]
    pub fn chosen(self) -> Option<u8> {
        match self.id >> 56 {
            0 => Some(least(self.members)),
            NOBODY => None,
            _ => Some(self.named().unwrap_or(least(self.members))),
        }
    }

    /// Whether a node that holds has to give up under it: nobody may start, or another member is named.
    #[inline(always)]
    pub fn gives_away(self, me: u8) -> bool {
        match self.id >> 56 {
            0 => false,
            NOBODY => true,
            _ => self.named().is_some_and(|rank| rank != me),
        }
    }

    /// The member that the high byte of the number names, counted from 1.
    fn named(self) -> Option<u8> {
        let name = self.id >> 56;
        ranks(self.members).find(|rank| u64::from(*rank) + 1 == name)
    }
}

#[derive(Clone, Copy, PartialEq)]
pub enum Blocked {
    Down,
    Holding,
    NoView,
    NotQuorate,
    NotChosen,
    NobodyChosen,
    HeldBy,
    Unheard,
    Unwritten,
    Unfenced,
    Clear,
}

/// The first condition that blocks a start: of a rank, and with the time that is left, where it has these.
#[derive(Clone, Copy, PartialEq)]
pub struct Why {
    pub what: Blocked,
    pub rank: u8,
    pub left: u64,
}

/// The votes of the view, and how many are needed.
#[derive(Clone, Copy)]
pub struct Count {
    pub votes: u64,
    pub expected: u64,
    pub quorum: u64,
}

/// What is known of the nodes outside the view, as masks of ranks.
#[derive(Clone, Copy)]
pub struct Fence {
    pub seen: u32,
    pub clean: u32,
    pub written: u32,
    /// When the reset of a rank was written.
    pub ticks: [u64; 32],
    /// The rank that the operation of the fence that is out is of, unless a view with it came since.
    pub fresh: Option<u8>,
}

pub struct Seat {
    pub is_on: bool,
    pub phase: Phase,
    pub resource: Resource,
    pub op: Option<DiskOp>,
    pub has_landed: bool,
    pub found: Found,
    /// The writes that were given up before they landed.
    pub lost: Vec<DiskOp>,
    /// In hundredths of a millisecond.
    pub clock: u64,
    pub tick: u64,
    pub fed: u64,
    pub decided: Option<u64>,
    pub incarnation: u64,
    pub mail_asked: u64,
    pub next_ask: u64,
    pub failed_at: u64,
    pub installs: u64,
    pub view: Option<View>,
    pub count: Count,
    /// Who answered since the view came, and who said that it does not hold.
    pub told: u32,
    pub free: u32,
    pub fence: Fence,
    /// The end of its line, and the condition that it is of; None once another one may hold.
    pub shown: Option<Why>,
    pub end: Text<128>,
    /// The asks as they are written, and of whom they are.
    pub asked: u32,
    pub asks: Box<Text<512>>,
}

/// A value for each node, by its rank.
pub struct ByRank<T>(Vec<T>);

impl<T> ByRank<T> {
    pub fn iter_mut(&mut self) -> impl Iterator<Item = &mut T> {
        self.0.iter_mut()
    }

    pub fn iter(&self) -> impl Iterator<Item = &T> {
        self.0.iter()
    }
}

impl<T> FromIterator<T> for ByRank<T> {
    fn from_iter<I: IntoIterator<Item = T>>(values: I) -> Self {
        ByRank(values.into_iter().collect())
    }
}

/// A rank is that of a node: `Cluster::rank` gives no other.
impl<T> Index<u8> for ByRank<T> {
    type Output = T;

    #[inline(always)]
    fn index(&self, rank: u8) -> &T {
        unsafe { self.0.get_unchecked(rank as usize) }
    }
}

impl<T> IndexMut<u8> for ByRank<T> {
    #[inline(always)]
    fn index_mut(&mut self, rank: u8) -> &mut T {
        unsafe { self.0.get_unchecked_mut(rank as usize) }
    }
}

pub fn bit(rank: u8) -> u32 {
    1 << rank
}

pub fn least(mask: u32) -> u8 {
    mask.trailing_zeros() as u8
}

/// The ranks of a mask, from the least on.
pub fn ranks(mut mask: u32) -> impl Iterator<Item = u8> {
    std::iter::from_fn(move || {
        let rank = (mask != 0).then(|| least(mask));
        mask &= mask.wrapping_sub(1);
        rank
    })
}

impl Why {
    pub fn of(what: Blocked) -> Why {
        Why {
            what,
            rank: 0,
            left: 0,
        }
    }

    fn by(what: Blocked, rank: u8) -> Why {
        Why {
            what,
            rank,
            left: 0,
        }
    }
}

impl DiskOp {
    fn is_write(self) -> bool {
        matches!(
            self,
            DiskOp::Claim(_) | DiskOp::Clear | DiskOp::Reset(_) | DiskOp::Close(_)
        )
    }
}

impl Sectors {
    pub const NEW: Sectors = Sectors {
        incarnation: 0,
        is_clean: true,
        has_reset: false,
    };
}

impl Count {
    pub fn of(votes: u64, expected: u64) -> Count {
        Count {
            votes,
            expected,
            quorum: expected / 2 + 1,
        }
    }

    pub fn is_quorate(&self) -> bool {
        self.votes >= self.quorum
    }
}

impl Seat {
    /// A seat that is off, of a cluster with so many votes.
    pub fn new(votes: u64) -> Seat {
        Seat {
            is_on: false,
            phase: Phase::Booting,
            resource: Resource::Free,
            op: None,
            has_landed: false,
            found: Found::default(),
            lost: Vec::new(),
            clock: 0,
            tick: 0,
            fed: 0,
            decided: None,
            incarnation: 0,
            mail_asked: 0,
            next_ask: 0,
            failed_at: 0,
            installs: 0,
            view: None,
            count: Count::of(0, votes),
            told: 0,
            free: 0,
            fence: Fence {
                seen: 0,
                clean: 0,
                written: 0,
                ticks: [0; 32],
                fresh: None,
            },
            shown: None,
            end: Text::new(),
            asked: 0,
            asks: Box::new(Text::new()),
        }
    }

    pub fn takes_part(&self) -> bool {
        matches!(self.phase, Phase::Up | Phase::Leaving)
    }

    pub fn holds(&self) -> bool {
        self.resource != Resource::Free
    }

    /// The operation that is out is given up: a write that has not landed may land late.
    pub fn give_up(&mut self) {
        if let (Some(op), false) = (self.op, self.has_landed) {
            if op.is_write() {
                self.lost.push(op);
            }
        }
        self.has_landed = false;
    }

    /// The members of a view beside the node itself.
    pub fn others(&self, me: u8) -> u32 {
        self.view.map_or(0, |view| view.members & !bit(me))
    }

    pub fn install(&mut self, view: View, votes: u64) {
        self.count = Count::of(votes, self.count.expected.max(votes));
        self.view = Some(view);
        self.installs += 1;
        self.free = 0;
        self.told = 0;
        self.next_ask = self.tick;
        let fence = &mut self.fence;
        fence.clean &= !view.members;
        fence.seen &= !view.members;
        fence.written &= !view.members;
        fence.fresh = fence.fresh.filter(|rank| view.members & bit(*rank) == 0);
        self.shown = None;
    }

    #[inline(always)]
    pub fn why(&self, me: u8, all: u32, msgwait: u64) -> Why {
        if self.phase != Phase::Up {
            return Why::of(Blocked::Down);
        }
        if self.holds() {
            return Why::of(Blocked::Holding);
        }
        let Some(view) = self.view else {
            return Why::of(Blocked::NoView);
        };
        if !self.count.is_quorate() {
            return Why::of(Blocked::NotQuorate);
        }
        match view.chosen() {
            Some(rank) if rank == me => {}
            Some(rank) => return Why::by(Blocked::NotChosen, rank),
            None => return Why::of(Blocked::NobodyChosen),
        }
        let others = view.members & !bit(me);
        if others & self.told & !self.free != 0 {
            return Why::by(Blocked::HeldBy, least(others & self.told & !self.free));
        }
        if others & !self.told != 0 {
            return Why::by(Blocked::Unheard, least(others & !self.told));
        }
        self.unfenced(all & !view.members & !self.fence.clean, msgwait)
    }

    /// The first of these ranks whose reset is not yet waited for.
    fn unfenced(&self, outside: u32, msgwait: u64) -> Why {
        for rank in ranks(outside) {
            if self.fence.written & bit(rank) == 0 {
                return Why::by(Blocked::Unwritten, rank);
            }
            let left = msgwait.saturating_sub(self.tick - self.fence.ticks[rank as usize]);
            if left != 0 {
                return Why {
                    what: Blocked::Unfenced,
                    rank,
                    left,
                };
            }
        }
        Why::of(Blocked::Clear)
    }

    /// What is read or written of the nodes outside the view.
    #[inline(always)]
    pub fn fencing(&self, me: u8, all: u32) -> Option<DiskOp> {
        let view = self.view?;
        if !self.count.is_quorate() || view.chosen() != Some(me) {
            return None;
        }
        let outside = all & !view.members;
        let unseen = outside & !self.fence.seen;
        if unseen != 0 {
            return Some(DiskOp::ReadSlot(least(unseen)));
        }
        let open = outside & !self.fence.clean & !self.fence.written;
        (open != 0).then(|| DiskOp::Reset(least(open)))
    }
}
