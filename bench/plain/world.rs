//! The cluster in true time: its nodes, the image that they share, and the packets. Times are milliseconds;
//! a clock counts hundredths of one.

use crate::model::{
    Count, DiskOp, Entry, Event, Header, Members, Message, NodeEvent, Out, Packet, Rank, Settings,
    Slot,
};
use crate::model::{Timing, Why};
use crate::node::{count_off, Node};

/// The number of the rule that refuses an event.
pub type Rule = u8;

/// A node, running or off, with its sectors of the image.
#[derive(Debug)]
struct Seat {
    on: bool,
    node: Node,
    clock: u64,
    /// When the last feed took effect, and when the last one was decided in this boot.
    fed: u64,
    decided: Option<u64>,
    /// The answer of the operation that is out, once it landed.
    took: Option<Entry>,
    /// The lost writes, oldest first.
    lost: Vec<DiskOp>,
    slot: Slot,
    mailbox: Message,
}

/// A packet, and to whom it was sent.
#[derive(Clone, Copy, Debug)]
struct Sent {
    to: Rank,
    packet: Packet,
}

/// What an event came to. It is handed in to be filled.
#[derive(Debug)]
pub struct Report {
    pub time: u64,
    pub touched: Option<Rank>,
    pub outs: Vec<Out>,
    pub holders: Members,
    pub count: Count,
    pub why: Why,
}

/// What is shown of a running node.
#[derive(Debug)]
pub struct Seen {
    pub fed: u64,
    pub decided: Option<u64>,
    pub out: bool,
    pub landed: bool,
    pub stopping: bool,
}

#[derive(Debug)]
pub struct World {
    settings: Settings,
    timing: Timing,
    time: u64,
    seats: Vec<Seat>,
    packets: Vec<Sent>,
}

/// The rule refuses unless its test holds.
fn unless(holds: bool, rule: Rule) -> Result<(), Rule> {
    if holds {
        Ok(())
    } else {
        Err(rule)
    }
}

/// How far the clock of a node advances in a pass.
fn advance_of(dt: u64, clocks: &[(Rank, u64)], rank: Rank) -> u64 {
    clocks
        .iter()
        .find(|clock| clock.0 == rank)
        .map_or(100 * dt, |clock| clock.1)
}

/// The entry of an operation that failed.
fn failed(op: DiskOp) -> Entry {
    match op {
        DiskOp::ReadHeader => Entry::HeaderRead(None),
        DiskOp::ReadSlot(rank) => Entry::SlotRead(rank, None),
        DiskOp::WriteClaim(_) => Entry::Claimed(false),
        DiskOp::WriteClear => Entry::Cleared(false),
        DiskOp::ReadMail => Entry::MailRead(None),
        DiskOp::WriteReset(rank) => Entry::ResetWritten(rank, false),
        DiskOp::WriteClose(_) => Entry::Closed,
    }
}

impl Seat {
    fn new(settings: &Settings, rank: Rank) -> Seat {
        Seat {
            on: false,
            node: Node::new(settings, rank),
            clock: 0,
            fed: 0,
            decided: None,
            took: None,
            lost: Vec::new(),
            slot: Slot {
                incarnation: 0,
                clean: true,
            },
            mailbox: Message::Empty,
        }
    }

    fn tick(&self) -> u64 {
        self.clock / 100
    }

    /// A new node, at the base of its clock.
    fn boot(&mut self, settings: &Settings, rank: Rank, time: u64, base: u64) {
        self.on = true;
        self.node = Node::new(settings, rank);
        self.clock = base;
        self.fed = time;
        self.decided = None;
        self.took = None;
        self.lost.clear();
    }

    /// The node is handed an entry at the present tick of its clock.
    fn hand(&mut self, settings: &Settings, time: u64, entry: &Entry, outs: &mut Vec<Out>) {
        let tick = self.tick();
        self.node.step(settings, tick, entry, outs);
        self.on = !self.node.is_gone();
        if outs.iter().any(|out| matches!(out, Out::Feed)) {
            self.decided = Some(time);
        }
    }

    /// The operation that is out is given up: a write that did not land is lost.
    fn give_up(&mut self) {
        let landed = self.took.take().is_some();
        self.lost
            .extend(self.node.op().filter(|op| op.is_write() && !landed));
    }

    /// Whether the node lives through a pass of `dt` up to this time: its clock keeps its bounds of one per
    /// cent, and its watchdog, which may be one per cent slow, does not run out.
    fn outlives(&self, dt: u64, advance: u64, time: u64, watchdog: u64) -> bool {
        let keeps_time = 99 * dt <= advance && advance <= 101 * dt;
        !self.on || keeps_time && 99 * (time - self.fed) <= 100 * watchdog
    }
}

impl Report {
    pub fn new() -> Report {
        let count = Count {
            quorate: false,
            votes: 0,
            quorum: 0,
        };
        Report {
            time: 0,
            touched: None,
            outs: Vec::new(),
            holders: Members::default(),
            count,
            why: Why::Down,
        }
    }
}

impl World {
    pub fn new(settings: Settings, timing: Timing) -> World {
        let seats = settings
            .all()
            .ranks()
            .map(|rank| Seat::new(&settings, rank))
            .collect();
        World {
            settings,
            timing,
            time: 0,
            seats,
            packets: Vec::new(),
        }
    }

    pub fn settings(&self) -> &Settings {
        &self.settings
    }

    pub fn time(&self) -> u64 {
        self.time
    }

    pub fn packets(&self) -> u64 {
        self.packets.len() as u64
    }

    /// To whom the packet of that number was sent.
    pub fn receiver(&self, number: u64) -> Option<Rank> {
        self.packet(number).map(|sent| sent.to)
    }

    /// What is shown of a node, where it is running.
    pub fn seen(&self, rank: Rank) -> Option<Seen> {
        let seat = self.seat(rank);
        seat.on.then(|| Seen {
            fed: seat.fed,
            decided: seat.decided,
            out: seat.node.op().is_some(),
            landed: seat.took.is_some(),
            stopping: seat.node.is_stopping(),
        })
    }

    fn seat(&self, rank: Rank) -> &Seat {
        &self.seats[rank.index()]
    }

    fn packet(&self, number: u64) -> Option<Sent> {
        self.packets.get(usize::try_from(number).ok()?).copied()
    }

    // ---- the rules

    /// Whether an event may happen, else the rule that refuses it.
    pub fn allowed(&self, event: &Event) -> Result<(), Rule> {
        match event {
            Event::Pass(dt, clocks) => unless(self.may_pass(*dt, clocks), 1),
            Event::Of(rank, NodeEvent::Boot(_)) => unless(!self.seat(*rank).on, 2),
            Event::Of(rank, NodeEvent::Late(number)) => {
                unless(*number <= self.seat(*rank).lost.len(), 6)
            }
            Event::Of(rank, event) => {
                unless(self.seat(*rank).on, 3)?;
                self.allowed_to(*rank, *event)
            }
        }
    }

    fn may_pass(&self, dt: u64, clocks: &[(Rank, u64)]) -> bool {
        let later = self.time + dt;
        let outlives = |(seat, rank): (&Seat, u8)| {
            seat.outlives(
                dt,
                advance_of(dt, clocks, Rank(rank)),
                later,
                self.timing.watchdog,
            )
        };
        clocks.iter().all(|clock| self.seat(clock.0).on) && self.seats.iter().zip(0..).all(outlives)
    }

    /// The rules of an event of a node that is running.
    fn allowed_to(&self, rank: Rank, event: NodeEvent) -> Result<(), Rule> {
        let seat = self.seat(rank);
        match event {
            NodeEvent::Land => unless(seat.node.op().is_some() && seat.took.is_none(), 4),
            NodeEvent::Done => unless(seat.took.is_some(), 5),
            NodeEvent::Fail => unless(seat.node.op().is_some(), 5),
            NodeEvent::Stopped(_) => unless(seat.node.is_stopping(), 5),
            NodeEvent::View(view) => unless(view.members.has(rank), 7),
            NodeEvent::Deliver(number) => unless(self.receiver(number) == Some(rank), 8),
            NodeEvent::Feed => {
                let delay = self.timing.feed_delay;
                unless(
                    seat.decided
                        .is_some_and(|decided| self.time <= decided + delay),
                    9,
                )
            }
            NodeEvent::Boot(_)
            | NodeEvent::Crash
            | NodeEvent::Late(_)
            | NodeEvent::Device
            | NodeEvent::Tick
            | NodeEvent::Leave => Ok(()),
        }
    }

    // ---- the step

    /// Plays an event, where it may happen, and fills in what it came to.
    pub fn apply(&mut self, event: &Event, report: &mut Report) -> Result<(), Rule> {
        self.allowed(event)?;
        report.outs.clear();
        match event {
            Event::Pass(dt, clocks) => {
                self.pass(*dt, clocks);
                report.touched = None;
            }
            Event::Of(rank, event) => {
                self.happen(*rank, *event, &mut report.outs);
                report.touched = Some(*rank);
            }
        }
        self.report(report);
        Ok(())
    }

    fn pass(&mut self, dt: u64, clocks: &[(Rank, u64)]) {
        self.time += dt;
        for (seat, rank) in self.seats.iter_mut().zip(0..) {
            if seat.on {
                seat.clock += advance_of(dt, clocks, Rank(rank));
            }
        }
    }

    fn happen(&mut self, rank: Rank, event: NodeEvent, outs: &mut Vec<Out>) {
        let time = self.time;
        let seat = &mut self.seats[rank.index()];
        match event {
            NodeEvent::Boot(base) => {
                seat.boot(&self.settings, rank, time, base);
                self.hand(rank, &Entry::Begin, outs);
            }
            NodeEvent::Crash => {
                seat.give_up();
                seat.on = false;
            }
            NodeEvent::Land => self.land(rank),
            NodeEvent::Done => {
                if let Some(answer) = seat.took.take() {
                    self.hand(rank, &answer, outs);
                }
            }
            NodeEvent::Fail => {
                if let Some(op) = seat.node.op() {
                    seat.give_up();
                    self.hand(rank, &failed(op), outs);
                }
            }
            NodeEvent::Late(number) => {
                let op = seat.lost.remove(number - 1);
                self.write(rank, op);
            }
            NodeEvent::Feed => seat.fed = time,
            NodeEvent::View(view) => self.hand(rank, &Entry::View(view), outs),
            NodeEvent::Deliver(number) => self.deliver(rank, number, outs),
            // a device that is not configured changes no votes
            NodeEvent::Device | NodeEvent::Tick => self.hand(rank, &Entry::Tick, outs),
            NodeEvent::Stopped(ok) => self.hand(rank, &Entry::Stopped(ok), outs),
            NodeEvent::Leave => self.hand(rank, &Entry::Leave, outs),
        }
    }

    fn hand(&mut self, rank: Rank, entry: &Entry, outs: &mut Vec<Out>) {
        self.seats[rank.index()].hand(&self.settings, self.time, entry, outs);
        let sent = outs.iter().filter_map(|out| match out {
            Out::Send(to, packet) => Some(Sent {
                to: *to,
                packet: *packet,
            }),
            _ => None,
        });
        self.packets.extend(sent);
    }

    fn deliver(&mut self, rank: Rank, number: u64, outs: &mut Vec<Out>) {
        match self.packet(number).map(|sent| sent.packet) {
            Some(Packet::Ask(ask)) => self.hand(rank, &Entry::Ask(ask), outs),
            Some(Packet::Tell(tell)) => self.hand(rank, &Entry::Tell(tell), outs),
            None => {}
        }
    }

    // ---- the image

    /// The operation that is out lands: a read takes the value of its sector, a write replaces it.
    fn land(&mut self, rank: Rank) {
        if let Some(op) = self.seat(rank).node.op() {
            let answer = self.answer(rank, op);
            self.write(rank, op);
            self.seats[rank.index()].took = Some(answer);
        }
    }

    fn answer(&self, rank: Rank, op: DiskOp) -> Entry {
        match op {
            DiskOp::ReadHeader => Entry::HeaderRead(Some(Header {
                nodes: self.seats.len(),
                timing: self.timing,
            })),
            DiskOp::ReadSlot(other) => Entry::SlotRead(other, Some(self.seat(other).slot)),
            DiskOp::WriteClaim(_) => Entry::Claimed(true),
            DiskOp::WriteClear => Entry::Cleared(true),
            DiskOp::ReadMail => Entry::MailRead(Some(self.seat(rank).mailbox)),
            DiskOp::WriteReset(other) => Entry::ResetWritten(other, true),
            DiskOp::WriteClose(_) => Entry::Closed,
        }
    }

    fn write(&mut self, rank: Rank, op: DiskOp) {
        match op {
            DiskOp::WriteClaim(incarnation) => {
                self.seats[rank.index()].slot = Slot {
                    incarnation,
                    clean: false,
                }
            }
            DiskOp::WriteClose(incarnation) => {
                self.seats[rank.index()].slot = Slot {
                    incarnation,
                    clean: true,
                }
            }
            DiskOp::WriteClear => self.seats[rank.index()].mailbox = Message::Empty,
            DiskOp::WriteReset(other) => self.seats[other.index()].mailbox = Message::Reset,
            DiskOp::ReadHeader | DiskOp::ReadSlot(_) | DiskOp::ReadMail => {}
        }
    }

    // ---- the report

    fn holders(&self) -> Members {
        let holding = self
            .seats
            .iter()
            .zip(0..)
            .filter(|(seat, _)| seat.on && seat.node.holds());
        holding.fold(Members::default(), |holders, (_, rank)| {
            holders.with(Rank(rank))
        })
    }

    fn report(&self, report: &mut Report) {
        report.time = self.time;
        report.holders = self.holders();
        match report.touched.map(|rank| self.seat(rank)) {
            Some(seat) if seat.on => {
                report.count = seat.node.count();
                report.why = seat.node.why(&self.settings, seat.tick(), report.count);
            }
            _ => {
                report.count = count_off(&self.settings);
                report.why = Why::Down;
            }
        }
    }
}
