//! What a node does after an entry, and what comes of the answer of its operation.

use crate::seat::{bit, ranks, Blocked, DiskOp, Phase, Resource, Why};
use crate::text::Writer;
use crate::world::{Message, Said, World};

/// Why a boot ends, as it is written.
#[derive(Clone, Copy)]
enum BootFault {
    Read = 1,
    Claim = 4,
    Clear = 5,
    LastIncarnation = 6,
}

/// How a boot goes on.
enum Boot {
    Next(DiskOp),
    Fails(BootFault),
    Nothing,
}

impl World {
    /// What a node that takes part does after an entry; `ask` is one to be answered.
    #[inline(always)]
    pub fn act(&mut self, me: u8, into: &mut Writer, feeds: bool, ask: Option<Message>) {
        let op = self.next_op(me);
        let begun = into.place();
        let why = self.move_resource(me, into);
        if feeds {
            self.feed(me, into);
        }
        if let Some(ask) = ask {
            self.answer_ask(me, ask, into);
        }
        self.ask(me, into);
        match op {
            Some(op) => self.issue(me, op, into),
            None if into.place() == begun => into.put(b"-"),
            None => into.back(),
        }
        self.show(me, why);
    }

    /// An entry without a use of its own.
    #[inline(always)]
    pub fn tick(&mut self, me: u8, into: &mut Writer) {
        if self.seats[me].takes_part() {
            self.act(me, into, false, None);
        } else {
            into.put(b"-");
        }
    }

    #[inline(always)]
    fn next_op(&self, me: u8) -> Option<DiskOp> {
        let seat = &self.seats[me];
        if seat.op.is_some() {
            return None;
        }
        if seat.mail_asked + self.cluster.loop_ms <= seat.tick {
            return Some(DiskOp::ReadMail);
        }
        if seat.phase == Phase::Leaving {
            return (!seat.holds()).then_some(DiskOp::Close(seat.incarnation));
        }
        seat.fencing(me, self.cluster.all)
    }

    /// Stops or starts the resource, and says what then blocks a start.
    #[inline(always)]
    fn move_resource(&mut self, me: u8, into: &mut Writer) -> Why {
        let seat = &mut self.seats[me];
        let may_stop = match seat.resource {
            Resource::Held => true,
            Resource::Failed => seat.failed_at + self.cluster.loop_ms <= seat.tick,
            Resource::Free | Resource::Stopping => false,
        };
        let is_given_away = seat.view.is_some_and(|view| view.gives_away(me));
        if may_stop && (seat.phase == Phase::Leaving || !seat.count.is_quorate() || is_given_away) {
            seat.resource = Resource::Stopping;
            into.put(b"stop,");
            return self.why(me);
        }
        let why = self.why(me);
        if why.what != Blocked::Clear {
            return why;
        }
        self.seats[me].resource = Resource::Held;
        into.put(b"start,");
        self.note_holder(me);
        Why::of(Blocked::Holding)
    }

    fn feed(&mut self, me: u8, into: &mut Writer) {
        into.put(b"feed,");
        self.seats[me].decided = Some(self.time);
    }

    fn answer_ask(&mut self, me: u8, ask: Message, into: &mut Writer) {
        let seat = &self.seats[me];
        if seat.view != Some(ask.view) || ask.view.members & bit(ask.from) == 0 {
            return;
        }
        let holds = seat.holds();
        into.put(b"tell>");
        into.text(self.cluster.name(ask.from));
        into.put(b",");
        let tell = Message {
            from: me,
            said: Said::Tell { holds },
            ..ask
        };
        self.packets.send(tell, bit(ask.from));
    }

    #[inline(always)]
    fn ask(&mut self, me: u8, into: &mut Writer) {
        let seat = &mut self.seats[me];
        let Some(view) = seat.view else {
            return;
        };
        if seat.phase != Phase::Up || seat.next_ask > seat.tick {
            return;
        }
        seat.next_ask = seat.tick + self.cluster.loop_ms;
        let to = seat.others(me) & !seat.free;
        if to == 0 {
            return;
        }
        if to != seat.asked {
            seat.asked = to;
            seat.asks.clear();
            for rank in ranks(to) {
                seat.asks.put(b"ask>");
                seat.asks.put(self.cluster.name(rank).bytes());
                seat.asks.put(b",");
            }
        }
        into.text(&seat.asks);
        let ask = Message {
            incarnation: seat.incarnation,
            install: seat.installs,
            view,
            from: me,
            said: Said::Ask,
        };
        self.packets.send(ask, to);
    }

    #[inline(always)]
    pub fn issue(&mut self, me: u8, op: DiskOp, into: &mut Writer) {
        let seat = &mut self.seats[me];
        seat.op = Some(op);
        match op {
            DiskOp::ReadHeader => into.put(b"read-header"),
            DiskOp::ReadSlot(rank) => {
                seat.fence.fresh = Some(rank);
                into.put(b"read-slot:");
                into.text(self.cluster.name(rank));
            }
            DiskOp::Claim(incarnation) => {
                into.put(b"claim:");
                into.number(incarnation);
            }
            DiskOp::Clear => into.put(b"clear"),
            DiskOp::ReadMail => {
                seat.mail_asked = seat.tick;
                into.put(b"read-mail");
            }
            DiskOp::Reset(rank) => {
                seat.fence.fresh = Some(rank);
                into.put(b"reset:");
                into.text(self.cluster.name(rank));
            }
            DiskOp::Close(incarnation) => {
                into.put(b"close:");
                into.number(incarnation);
            }
        }
    }

    /// The operation of a node lands.
    #[inline(always)]
    pub fn land(&mut self, me: u8, op: DiskOp) {
        let seat = &mut self.seats[me];
        seat.has_landed = true;
        match op {
            DiskOp::ReadHeader => {}
            DiskOp::ReadSlot(rank) => {
                let slot = self.sectors[rank];
                seat.found.incarnation = slot.incarnation;
                seat.found.is_clean = slot.is_clean;
            }
            DiskOp::ReadMail => seat.found.has_reset = self.sectors[me].has_reset,
            DiskOp::Claim(_) | DiskOp::Clear | DiskOp::Reset(_) | DiskOp::Close(_) => {
                self.write(me, op)
            }
        }
    }

    pub fn write(&mut self, me: u8, op: DiskOp) {
        let own = &mut self.sectors[me];
        match op {
            DiskOp::Claim(incarnation) => {
                own.incarnation = incarnation;
                own.is_clean = false;
            }
            DiskOp::Close(incarnation) => {
                own.incarnation = incarnation;
                own.is_clean = true;
            }
            DiskOp::Clear => own.has_reset = false,
            DiskOp::Reset(rank) => self.sectors[rank].has_reset = true,
            DiskOp::ReadHeader | DiskOp::ReadSlot(_) | DiskOp::ReadMail => {}
        }
    }

    /// The operation that was out is answered.
    #[inline(always)]
    pub fn answered(&mut self, me: u8, op: DiskOp, is_ok: bool, into: &mut Writer) {
        let seat = &mut self.seats[me];
        seat.op = None;
        seat.has_landed = false;
        match seat.phase {
            Phase::Up | Phase::Leaving => self.answered_in_life(me, op, is_ok, into),
            Phase::Booting => self.answered_in_boot(me, op, is_ok, into),
            Phase::Dying | Phase::Gone => into.put(b"-"),
        }
    }

    #[inline(always)]
    fn answered_in_life(&mut self, me: u8, op: DiskOp, is_ok: bool, into: &mut Writer) {
        let seat = &mut self.seats[me];
        let mut feeds = false;
        match op {
            DiskOp::Close(_) => {
                seat.phase = Phase::Gone;
                seat.is_on = false;
                into.put(b"disarm");
                return self.note_holder(me);
            }
            DiskOp::ReadMail if is_ok && seat.found.has_reset => {
                seat.phase = Phase::Dying;
                into.put(b"halt:reset");
                return self.show(me, Why::of(Blocked::Down));
            }
            DiskOp::ReadMail => {
                feeds = is_ok && seat.tick <= seat.mail_asked + self.cluster.read_limit
            }
            DiskOp::ReadSlot(rank) if is_ok && seat.fence.fresh == Some(rank) => {
                seat.fence.seen |= bit(rank);
                seat.fence.clean |= (seat.found.is_clean as u32) << rank;
            }
            DiskOp::Reset(rank) if is_ok && seat.fence.fresh == Some(rank) => {
                seat.fence.written |= bit(rank);
                seat.fence.ticks[rank as usize] = seat.tick;
            }
            DiskOp::ReadHeader
            | DiskOp::ReadSlot(_)
            | DiskOp::Claim(_)
            | DiskOp::Clear
            | DiskOp::Reset(_) => {}
        }
        self.act(me, into, feeds, None);
    }

    fn answered_in_boot(&mut self, me: u8, op: DiskOp, is_ok: bool, into: &mut Writer) {
        match self.boot(me, op, is_ok) {
            Boot::Nothing => return into.put(b"-"),
            Boot::Next(op) => {
                self.feed(me, into);
                self.issue(me, op, into);
            }
            Boot::Fails(fault) => {
                let seat = &mut self.seats[me];
                seat.phase = Phase::Gone;
                seat.is_on = false;
                into.put(b"halt:boot-");
                into.number(fault as u64);
            }
        }
        self.show(me, self.why(me));
    }

    fn boot(&mut self, me: u8, op: DiskOp, is_ok: bool) -> Boot {
        let seat = &mut self.seats[me];
        match op {
            DiskOp::ReadHeader if is_ok => Boot::Next(DiskOp::ReadSlot(me)),
            DiskOp::ReadHeader => Boot::Fails(BootFault::Read),
            DiskOp::ReadSlot(_) if !is_ok => Boot::Fails(BootFault::Read),
            DiskOp::ReadSlot(_) if seat.found.incarnation == u64::MAX => {
                Boot::Fails(BootFault::LastIncarnation)
            }
            DiskOp::ReadSlot(_) => {
                seat.incarnation = seat.found.incarnation + 1;
                Boot::Next(DiskOp::Claim(seat.incarnation))
            }
            DiskOp::Claim(_) if is_ok => Boot::Next(DiskOp::Clear),
            DiskOp::Claim(_) => Boot::Fails(BootFault::Claim),
            DiskOp::Clear if is_ok => {
                seat.phase = Phase::Up;
                Boot::Next(DiskOp::ReadMail)
            }
            DiskOp::Clear => Boot::Fails(BootFault::Clear),
            DiskOp::ReadMail | DiskOp::Reset(_) | DiskOp::Close(_) => Boot::Nothing,
        }
    }
}
