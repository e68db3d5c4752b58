//! One member of the cluster: its boot, its votes, and what it does at each entry. Ticks are milliseconds of
//! its clock.

use crate::fence::Fence;
use crate::heard::Heard;
use crate::model::{
    Ask, BootCause, Count, DiskOp, Entry, Header, Members, Message, Out, Packet, Rank, Settings,
    Slot,
};
use crate::model::{Tell, Timing, View, Why};

#[derive(Clone, Copy, PartialEq, Eq, Debug)]
pub enum Phase {
    Booting,
    Up,
    Leaving,
    Dying,
    Gone,
}

/// What a node does with the resource.
#[derive(Clone, Copy, PartialEq, Eq, Debug)]
enum Resource {
    Free,
    Held,
    Stopping,
    StopFailed { tick: u64 },
}

#[derive(Debug)]
pub struct Node {
    me: Rank,
    phase: Phase,
    /// The times of the header, once it was read.
    timing: Timing,
    incarnation: u64,
    /// The disk operation that is out.
    op: Option<DiskOp>,
    mail_asked: u64,
    expected: u64,
    /// The votes of the view.
    votes: u64,
    heard: Heard,
    fence: Fence,
    resource: Resource,
}

/// The quorum where so many votes are expected.
fn quorum_of(expected: u64) -> u64 {
    expected / 2 + 1
}

/// The count of a node that is off.
pub fn count_off(settings: &Settings) -> Count {
    Count {
        quorate: false,
        votes: 0,
        quorum: quorum_of(settings.votes_among(settings.all())),
    }
}

impl Node {
    pub fn new(settings: &Settings, me: Rank) -> Node {
        Node {
            me,
            phase: Phase::Booting,
            timing: Timing::default(),
            incarnation: 0,
            op: None,
            mail_asked: 0,
            expected: settings.votes_among(settings.all()),
            votes: 0,
            heard: Heard::default(),
            fence: Fence::new(),
            resource: Resource::Free,
        }
    }

    pub fn op(&self) -> Option<DiskOp> {
        self.op
    }

    pub fn is_gone(&self) -> bool {
        self.phase == Phase::Gone
    }

    pub fn holds(&self) -> bool {
        self.resource != Resource::Free
    }

    /// Whether a stop of the resource is unanswered.
    pub fn is_stopping(&self) -> bool {
        self.resource == Resource::Stopping
    }

    /// Takes an entry in and fills in what comes of it. The world hands a node an answer only where that is
    /// due, and an entry for which a node has no use in its phase is a Tick.
    pub fn step(&mut self, settings: &Settings, tick: u64, entry: &Entry, outs: &mut Vec<Out>) {
        outs.clear();
        if entry.is_answer() {
            self.op = None;
        }
        if let Entry::Stopped(ok) = entry {
            self.resource = if *ok {
                Resource::Free
            } else {
                Resource::StopFailed { tick }
            };
        }
        match self.phase {
            Phase::Booting => self.boot(settings, entry, outs),
            Phase::Up | Phase::Leaving => self.live(settings, tick, entry, outs),
            Phase::Dying | Phase::Gone => {}
        }
        // the operation stands last
        if let Some(Out::Disk(op)) = outs.last() {
            self.issued(*op, tick);
        }
    }

    fn issued(&mut self, op: DiskOp, tick: u64) {
        self.op = Some(op);
        self.fence.issued(op);
        if op == DiskOp::ReadMail {
            self.mail_asked = tick;
        }
    }

    // ---- the boot

    fn boot(&mut self, settings: &Settings, entry: &Entry, outs: &mut Vec<Out>) {
        let next = match entry {
            Entry::Begin => return outs.push(Out::Disk(DiskOp::ReadHeader)),
            Entry::HeaderRead(header) => self.header(settings, *header),
            Entry::SlotRead(_, slot) => self.claim(*slot),
            Entry::Claimed(true) => Ok(DiskOp::WriteClear),
            Entry::Claimed(false) => Err(BootCause::ClaimFailed),
            Entry::Cleared(true) => {
                self.phase = Phase::Up;
                Ok(DiskOp::ReadMail)
            }
            Entry::Cleared(false) => Err(BootCause::ClearFailed),
            _ => return,
        };
        match next {
            Ok(op) => outs.extend([Out::Feed, Out::Disk(op)]),
            Err(cause) => {
                self.phase = Phase::Gone;
                outs.push(Out::HaltBoot(cause));
            }
        }
    }

    fn header(&mut self, settings: &Settings, header: Option<Header>) -> Result<DiskOp, BootCause> {
        let header = header.ok_or(BootCause::ReadFailed)?;
        if header.nodes != settings.nodes.len() {
            return Err(BootCause::NotImage);
        }
        if !header.timing.is_safe() {
            return Err(BootCause::UnsafeTiming);
        }
        self.timing = header.timing;
        Ok(DiskOp::ReadSlot(self.me))
    }

    fn claim(&mut self, slot: Option<Slot>) -> Result<DiskOp, BootCause> {
        let slot = slot.ok_or(BootCause::ReadFailed)?;
        self.incarnation = slot
            .incarnation
            .checked_add(1)
            .ok_or(BootCause::IncarnationSpent)?;
        Ok(DiskOp::WriteClaim(self.incarnation))
    }

    // ---- a node that takes part

    fn live(&mut self, settings: &Settings, tick: u64, entry: &Entry, outs: &mut Vec<Out>) {
        let mut feeds = false;
        match entry {
            Entry::MailRead(Some(Message::Reset)) => {
                self.phase = Phase::Dying;
                return outs.push(Out::HaltReset);
            }
            Entry::Closed => {
                self.phase = Phase::Gone;
                return outs.push(Out::Disarm);
            }
            Entry::MailRead(Some(Message::Empty)) => {
                feeds = tick <= self.mail_asked + self.timing.read_limit;
            }
            Entry::View(view) => self.install(settings, tick, *view),
            Entry::Tell(tell) => self.heard.on_tell(self.incarnation, tell),
            Entry::SlotRead(rank, slot) => self.fence.on_slot(*rank, *slot),
            Entry::ResetWritten(rank, ok) => self.fence.on_reset(*rank, tick, *ok),
            Entry::Leave => self.phase = Phase::Leaving,
            Entry::Begin
            | Entry::HeaderRead(_)
            | Entry::Claimed(_)
            | Entry::Cleared(_)
            | Entry::MailRead(None)
            | Entry::Ask(_)
            | Entry::Stopped(_)
            | Entry::Tick => {}
        }
        self.act(settings, tick, entry, feeds, outs);
    }

    fn install(&mut self, settings: &Settings, tick: u64, view: View) {
        self.votes = settings.votes_among(view.members);
        self.expected = self.expected.max(self.votes);
        self.heard.on_view(tick, view);
        self.fence.on_view(view);
    }

    /// Stop, Start, Feed, a Tell, Asks, and a disk operation, in this order.
    fn act(
        &mut self,
        settings: &Settings,
        tick: u64,
        entry: &Entry,
        feeds: bool,
        outs: &mut Vec<Out>,
    ) {
        let count = self.count();
        let op = self.wanted(settings, tick, count);
        if self.gives_stop(tick, count) {
            outs.push(Out::Stop);
            self.resource = Resource::Stopping;
        } else if let Why::Clear = self.why(settings, tick, count) {
            outs.push(Out::Start);
            self.resource = Resource::Held;
        }
        if feeds {
            outs.push(Out::Feed);
        }
        if let Entry::Ask(ask) = entry {
            self.reply(ask, outs);
        }
        if self.phase == Phase::Up && self.heard.asks(tick, self.timing.loop_ms) {
            self.ask(outs);
        }
        outs.extend(op.map(Out::Disk));
    }

    fn gives_stop(&self, tick: u64, count: Count) -> bool {
        let may = match self.resource {
            Resource::Held => true,
            Resource::StopFailed { tick: failed } => failed + self.timing.loop_ms <= tick,
            Resource::Free | Resource::Stopping => false,
        };
        let view = self.heard.view;
        let is_given_away = view.is_some_and(|view| view.gives_away(self.me));
        may && (self.phase == Phase::Leaving || !count.quorate || is_given_away)
    }

    /// Answers another member under the present view.
    fn reply(&self, ask: &Ask, outs: &mut Vec<Out>) {
        if self.heard.view == Some(ask.view) && ask.view.members.has(ask.from) {
            let Ask {
                incarnation,
                install,
                view,
                ..
            } = *ask;
            let tell = Tell {
                from: self.me,
                incarnation,
                install,
                view,
                holds: self.holds(),
            };
            outs.push(Out::Send(ask.from, Packet::Tell(tell)));
        }
    }

    /// Asks the other members that are not free.
    fn ask(&self, outs: &mut Vec<Out>) {
        if let Some(view) = self.heard.view {
            let ask = Ask {
                from: self.me,
                incarnation: self.incarnation,
                install: self.heard.installs,
                view,
            };
            let asked = self.heard.not_free(self.others(view)).ranks();
            outs.extend(asked.map(|rank| Out::Send(rank, Packet::Ask(ask))));
        }
    }

    /// The next disk operation, where none is out.
    fn wanted(&self, settings: &Settings, tick: u64, count: Count) -> Option<DiskOp> {
        if self.op.is_some() {
            return None;
        }
        if self.mail_asked + self.timing.loop_ms <= tick {
            return Some(DiskOp::ReadMail);
        }
        if self.phase == Phase::Leaving {
            return (!self.holds()).then_some(DiskOp::WriteClose(self.incarnation));
        }
        let view = self.heard.view?;
        if count.quorate && view.chosen() == Some(self.me) {
            self.fence.next(settings.all().without(view.members))
        } else {
            None
        }
    }

    // ---- what it says of itself

    fn others(&self, view: View) -> Members {
        view.members.without(Members::of(self.me))
    }

    pub fn count(&self) -> Count {
        let quorum = quorum_of(self.expected);
        Count {
            quorate: self.votes >= quorum,
            votes: self.votes,
            quorum,
        }
    }

    /// The first condition that blocks a start at this tick, by the count of votes.
    pub fn why(&self, settings: &Settings, tick: u64, count: Count) -> Why {
        if self.phase != Phase::Up {
            return Why::Down;
        }
        if self.holds() {
            return Why::Holding;
        }
        let Some(view) = self.heard.view else {
            return Why::NoView;
        };
        if !count.quorate {
            return Why::NotQuorate;
        }
        self.lacks(settings, view, tick)
    }

    /// What of the other nodes blocks a start, where the node is quorate.
    fn lacks(&self, settings: &Settings, view: View, tick: u64) -> Why {
        let others = self.others(view);
        let chosen = view.chosen();
        if chosen != Some(self.me) {
            Why::NotChosen(chosen)
        } else if let Some(rank) = self.heard.holders(others).least() {
            Why::HeldBy(rank)
        } else if let Some(rank) = self.heard.unheard(others).least() {
            Why::Unheard(rank)
        } else {
            let outside = settings.all().without(view.members);
            let unfenced = self.fence.unfenced(outside, self.timing.msgwait, tick);
            unfenced.map_or(Why::Clear, |(rank, left)| Why::Unfenced(rank, left))
        }
    }
}
