//! What a cluster is made of: its settings and times, what a node is handed and does, and the events.

use std::iter;

/// A node: its place in the order of the ids.
#[derive(Clone, Copy, PartialEq, Eq, Debug)]
pub struct Rank(pub u8);

impl Rank {
    pub fn index(self) -> usize {
        usize::from(self.0)
    }
}

/// A set of nodes, a bit each.
#[derive(Clone, Copy, PartialEq, Eq, Default, Debug)]
pub struct Members(pub u32);

impl Members {
    /// The first so many nodes.
    pub fn all(count: usize) -> Members {
        Members(u32::MAX >> (32 - count))
    }

    pub fn of(rank: Rank) -> Members {
        Members(1 << rank.0)
    }

    pub fn has(self, rank: Rank) -> bool {
        self.0 >> rank.0 & 1 == 1
    }

    pub fn with(self, rank: Rank) -> Members {
        Members(self.0 | Members::of(rank).0)
    }

    pub fn without(self, other: Members) -> Members {
        Members(self.0 & !other.0)
    }

    pub fn both(self, other: Members) -> Members {
        Members(self.0 & other.0)
    }

    pub fn least(self) -> Option<Rank> {
        (self.0 != 0).then(|| Rank(self.0.trailing_zeros() as u8))
    }

    /// The nodes, ascending.
    pub fn ranks(self) -> impl Iterator<Item = Rank> {
        let mut left = self;
        iter::from_fn(move || {
            let rank = left.least()?;
            left = left.without(Members::of(rank));
            Some(rank)
        })
    }
}

/// A configured node.
#[derive(Clone, Copy, Debug)]
pub struct Configured {
    pub id: u32,
    pub votes: u32,
}

/// The configured nodes, in ascending id.
#[derive(Debug)]
pub struct Settings {
    pub nodes: Vec<Configured>,
}

impl Settings {
    pub fn all(&self) -> Members {
        Members::all(self.nodes.len())
    }

    pub fn id(&self, rank: Rank) -> u32 {
        self.nodes[rank.index()].id
    }

    /// The node of that id.
    pub fn rank(&self, id: u64) -> Option<Rank> {
        let place = self
            .nodes
            .iter()
            .position(|node| u64::from(node.id) == id)?;
        Some(Rank(place as u8))
    }

    /// The votes of these nodes together.
    pub fn votes_among(&self, members: Members) -> u64 {
        let chosen = self
            .nodes
            .iter()
            .zip(0..)
            .filter(|(_, rank)| members.has(Rank(*rank)));
        chosen.map(|(node, _)| u64::from(node.votes)).sum()
    }
}

/// The times of an image, in milliseconds.
#[derive(Clone, Copy, Default, Debug)]
pub struct Timing {
    pub watchdog: u64,
    pub msgwait: u64,
    pub loop_ms: u64,
    pub read_limit: u64,
    pub feed_delay: u64,
}

impl Timing {
    /// Whether a node that misses a reset is down within msgwait.
    pub fn is_safe(&self) -> bool {
        99 * (self.msgwait - 1) >= 101 * (self.read_limit + 1 + self.watchdog + self.feed_delay)
    }
}

#[derive(Clone, Copy, PartialEq, Eq, Debug)]
pub struct View {
    pub id: u64,
    pub members: Members,
}

/// The high byte of the number of a view under which nobody may start.
const NOBODY: u64 = 254;

impl View {
    /// The member that may start: the one that is named, else the least.
    pub fn chosen(self) -> Option<Rank> {
        if self.bars_all() {
            return None;
        }
        self.named().or(self.members.least())
    }

    /// Whether a node that holds has to give up under it: nobody may start, or another member is named.
    pub fn gives_away(self, me: Rank) -> bool {
        self.bars_all() || self.named().is_some_and(|rank| rank != me)
    }

    /// The member that the high byte of the number names, counted from 1.
    fn named(self) -> Option<Rank> {
        let name = self.id >> 56;
        self.members
            .ranks()
            .find(|rank| u64::from(rank.0) + 1 == name)
    }

    fn bars_all(self) -> bool {
        self.id >> 56 == NOBODY
    }
}

#[derive(Clone, Copy, Debug)]
pub struct Slot {
    pub incarnation: u64,
    pub clean: bool,
}

/// What stands in a mailbox.
#[derive(Clone, Copy, Debug)]
pub enum Message {
    Empty,
    Reset,
}

/// What the image says of the cluster.
#[derive(Clone, Copy, Debug)]
pub struct Header {
    pub nodes: usize,
    pub timing: Timing,
}

/// A node asks another one under its view whether that one holds the resource.
#[derive(Clone, Copy, Debug)]
pub struct Ask {
    pub from: Rank,
    pub incarnation: u64,
    pub install: u64,
    pub view: View,
}

/// The answer to an [`Ask`], whose incarnation, install number and view it repeats.
#[derive(Clone, Copy, Debug)]
pub struct Tell {
    pub from: Rank,
    pub incarnation: u64,
    pub install: u64,
    pub view: View,
    pub holds: bool,
}

#[derive(Clone, Copy, Debug)]
pub enum Packet {
    Ask(Ask),
    Tell(Tell),
}

/// What a node asks of the image.
#[derive(Clone, Copy, PartialEq, Eq, Debug)]
pub enum DiskOp {
    ReadHeader,
    ReadSlot(Rank),
    WriteClaim(u64),
    WriteClear,
    ReadMail,
    WriteReset(Rank),
    WriteClose(u64),
}

impl DiskOp {
    pub fn is_write(self) -> bool {
        match self {
            DiskOp::WriteClaim(_)
            | DiskOp::WriteClear
            | DiskOp::WriteReset(_)
            | DiskOp::WriteClose(_) => true,
            DiskOp::ReadHeader | DiskOp::ReadSlot(_) | DiskOp::ReadMail => false,
        }
    }
}

/// What a node is handed. A read that failed gave None, a write that failed false.
#[derive(Clone, Copy, Debug)]
pub enum Entry {
    Begin,
    HeaderRead(Option<Header>),
    SlotRead(Rank, Option<Slot>),
    Claimed(bool),
    Cleared(bool),
    MailRead(Option<Message>),
    ResetWritten(Rank, bool),
    /// Whether it succeeded changes nothing.
    Closed,
    View(View),
    Ask(Ask),
    Tell(Tell),
    Stopped(bool),
    Leave,
    Tick,
}

impl Entry {
    /// Whether it is the answer of a disk operation.
    pub fn is_answer(&self) -> bool {
        match self {
            Entry::HeaderRead(_)
            | Entry::SlotRead(..)
            | Entry::Claimed(_)
            | Entry::Cleared(_)
            | Entry::MailRead(_)
            | Entry::ResetWritten(..)
            | Entry::Closed => true,
            Entry::Begin
            | Entry::View(_)
            | Entry::Ask(_)
            | Entry::Tell(_)
            | Entry::Stopped(_)
            | Entry::Leave
            | Entry::Tick => false,
        }
    }
}

/// Why a boot halts, with its number.
#[derive(Clone, Copy, Debug)]
pub enum BootCause {
    ReadFailed = 1,
    NotImage = 2,
    UnsafeTiming = 3,
    ClaimFailed = 4,
    ClearFailed = 5,
    IncarnationSpent = 6,
}

/// What a node does.
#[derive(Clone, Copy, Debug)]
pub enum Out {
    Stop,
    Start,
    Feed,
    Send(Rank, Packet),
    Disk(DiskOp),
    Disarm,
    HaltReset,
    HaltBoot(BootCause),
}

/// The count of votes of a node.
#[derive(Clone, Copy, Debug)]
pub struct Count {
    pub quorate: bool,
    pub votes: u64,
    pub quorum: u64,
}

/// The first condition that blocks a start.
#[derive(Clone, Copy, Debug)]
pub enum Why {
    Down,
    Holding,
    NoView,
    NotQuorate,
    /// Another node is the one to start, or nobody is.
    NotChosen(Option<Rank>),
    HeldBy(Rank),
    Unheard(Rank),
    /// The ticks that remain of msgwait, or None where no reset was written.
    Unfenced(Rank, Option<u64>),
    Clear,
}

/// One event of a schedule.
#[derive(Debug)]
pub enum Event {
    /// So many milliseconds, and how far each clock that is named advances, in hundredths of one.
    Pass(u64, Vec<(Rank, u64)>),
    Of(Rank, NodeEvent),
}

/// An event of one node.
#[derive(Clone, Copy, Debug)]
pub enum NodeEvent {
    Boot(u64),
    Crash,
    Land,
    Done,
    Fail,
    Late(usize),
    View(View),
    Deliver(u64),
    Device,
    Tick,
    Stopped(bool),
    Leave,
    Feed,
}
