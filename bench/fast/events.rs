//! The events of a schedule: how a line is read, which rule refuses it, and what comes of it.

use crate::seat::{bit, Blocked, DiskOp, Phase, Resource, Seat, View, Why};
use crate::text::{Fault, Reader, Writer};
use crate::world::{Said, World};

/// An event of a node.
enum Event {
    Tick,
    Land,
    Done,
    Fail,
    Feed,
    Late(usize),
    Deliver(u64),
    View(View),
    Boot(u64),
    Crash,
    Device,
    Stopped,
    Unstopped,
    Leave,
}

const LATEST_BOOT: u64 = 1_000_000_000_000_000;
const MOST_LATE: u64 = 200_000;
const LONGEST_PASS: u64 = 1_000_000_000;
const MOST_ADVANCE: u64 = 1_000_000_000_000;

impl World {
    /// Plays a line, and writes its line of the trace.
    pub fn play(&mut self, line: &mut Reader, into: &mut Writer) -> Result<(), Fault> {
        let word = line.word();
        line.pass(word.len());
        if &word == b"pass" {
            return self.pass(line, into);
        }
        let (me, event) = self.read(&word, line)?;
        line.take(b"\n")?;
        self.allow(me, &event)?;
        self.begin_line(into);
        into.text(self.cluster.name(me));
        into.put(b" ");
        self.take(me, event, into);
        self.end_line(me, into);
        Ok(())
    }

    /// The event behind the first four letters of its word.
    #[inline(always)]
    fn read(&self, word: &[u8; 4], line: &mut Reader) -> Result<(u8, Event), Fault> {
        let event = match word {
            b"tick" => Event::Tick,
            b"land" => Event::Land,
            b"done" => Event::Done,
            b"feed" => Event::Feed,
            b"fail" => Event::Fail,
            _ => return self.read_longer(word, line),
        };
        line.take(b" ")?;
        Ok((self.cluster.rank(line)?, event))
    }

    /// One of those that have a longer word, or a word behind the id.
    fn read_longer(&self, word: &[u8; 4], line: &mut Reader) -> Result<(u8, Event), Fault> {
        line.take(rest_of(word)?)?;
        let me = self.cluster.rank(line)?;
        let event = match word {
            b"cras" => Event::Crash,
            b"leav" => Event::Leave,
            b"stop" => Event::Stopped,
            b"unst" => Event::Unstopped,
            _ => self.read_with_word(word, line)?,
        };
        Ok((me, event))
    }

    #[inline(always)]
    fn read_with_word(&self, word: &[u8; 4], line: &mut Reader) -> Result<Event, Fault> {
        line.take(b" ")?;
        Ok(match word {
            b"deli" => Event::Deliver(line.number(0, u64::MAX)?),
            b"view" => Event::View(self.read_view(line)?),
            b"boot" => Event::Boot(line.number(0, LATEST_BOOT)?),
            b"late" => Event::Late(line.number(1, MOST_LATE)? as usize),
            _ => {
                line.take(if line.byte() == b'y' { b"yes" } else { b"no" })?;
                Event::Device
            }
        })
    }

    fn read_view(&self, line: &mut Reader) -> Result<View, Fault> {
        let id = line.number(0, u64::MAX)?;
        line.take(b" ")?;
        let mut members = bit(self.cluster.rank(line)?);
        while line.goes_on(b',') {
            let rank = self.cluster.rank(line)?;
            if members >> rank != 0 {
                return Err(Fault::Line);
            }
            members |= bit(rank);
        }
        Ok(View { id, members })
    }

    /// The rules of the world.
    #[inline(always)]
    fn allow(&self, me: u8, event: &Event) -> Result<(), Fault> {
        let seat = &self.seats[me];
        let (is_allowed, rule) = match event {
            Event::Boot(_) => return refused_unless(!seat.is_on, 2),
            Event::Late(place) => return refused_unless(*place <= seat.lost.len(), 6),
            Event::Land => (seat.op.is_some() && !seat.has_landed, 4),
            Event::Done => (seat.has_landed, 5),
            Event::Fail => (seat.op.is_some(), 5),
            Event::Stopped | Event::Unstopped => (seat.resource == Resource::Stopping, 5),
            Event::View(view) => (view.members & bit(me) != 0, 7),
            Event::Deliver(number) => (self.packets.received(*number, me).is_some(), 8),
            Event::Feed => (
                seat.decided
                    .is_some_and(|at| self.time <= at + self.cluster.feed_delay),
                9,
            ),
            Event::Tick | Event::Crash | Event::Device | Event::Leave => (true, 0),
        };
        refused_unless(seat.is_on, 3)?;
        refused_unless(is_allowed, rule)
    }

    #[inline(always)]
    fn take(&mut self, me: u8, event: Event, into: &mut Writer) {
        let seat = &mut self.seats[me];
        match event {
            Event::Tick | Event::Device => self.tick(me, into),
            Event::Land => {
                into.put(b"-");
                if let Some(op) = seat.op {
                    self.land(me, op);
                }
            }
            Event::Done => self.answer(me, true, into),
            Event::Fail => {
                seat.give_up();
                self.answer(me, false, into);
            }
            Event::Feed => {
                into.put(b"-");
                seat.fed = self.time;
            }
            Event::Late(place) => {
                into.put(b"-");
                let op = seat.lost.remove(place - 1);
                self.write(me, op);
            }
            Event::Deliver(number) => self.hear(me, number, into),
            Event::View(view) => {
                if seat.takes_part() {
                    seat.install(view, self.cluster.votes_among(view.members));
                }
                self.tick(me, into);
            }
            Event::Boot(clock) => self.boot_seat(me, clock, into),
            Event::Crash => {
                into.put(b"-");
                seat.give_up();
                seat.is_on = false;
                self.note_holder(me);
            }
            Event::Stopped => {
                seat.resource = Resource::Free;
                self.note_holder(me);
                self.tick(me, into);
            }
            Event::Unstopped => {
                seat.resource = Resource::Failed;
                seat.failed_at = seat.tick;
                self.tick(me, into);
            }
            Event::Leave => {
                if seat.takes_part() {
                    seat.phase = Phase::Leaving;
                }
                self.tick(me, into);
            }
        }
    }

    #[inline(always)]
    fn answer(&mut self, me: u8, is_ok: bool, into: &mut Writer) {
        if let Some(op) = self.seats[me].op {
            self.answered(me, op, is_ok, into);
        }
    }

    #[inline(always)]
    fn hear(&mut self, me: u8, number: u64, into: &mut Writer) {
        let Some(message) = self.packets.received(number, me) else {
            return;
        };
        let seat = &mut self.seats[me];
        if !seat.takes_part() {
            return into.put(b"-");
        }
        match message.said {
            Said::Ask => self.act(me, into, false, Some(message)),
            Said::Tell { holds } => {
                let is_own =
                    message.incarnation == seat.incarnation && message.install == seat.installs;
                if is_own && seat.view == Some(message.view) {
                    seat.told |= bit(message.from);
                    seat.free |= (!holds as u32) << message.from;
                }
                self.act(me, into, false, None);
            }
        }
    }

    fn boot_seat(&mut self, me: u8, clock: u64, into: &mut Writer) {
        self.seats[me] = Seat {
            is_on: true,
            clock,
            tick: clock / 100,
            fed: self.time,
            ..Seat::new(self.cluster.total)
        };
        self.issue(me, DiskOp::ReadHeader, into);
        self.show(me, Why::of(Blocked::Down));
    }

    /// Time goes by, on each clock that is named by as much as is said there.
    fn pass(&mut self, line: &mut Reader, into: &mut Writer) -> Result<(), Fault> {
        line.take(b" ")?;
        let time = line.number(1, LONGEST_PASS)?;
        let mut advances = [100 * time; 32];
        let mut named = 0u32;
        while line.goes_on(b' ') {
            let rank = self.cluster.rank(line)?;
            line.take(b"=")?;
            if named >> rank != 0 {
                return Err(Fault::Line);
            }
            named |= bit(rank);
            advances[rank as usize] = line.number(0, MOST_ADVANCE)?;
        }
        line.take(b"\n")?;
        let later = self.time + time;
        for (rank, seat) in self.seats.iter().enumerate() {
            let is_named = named >> rank & 1 == 1;
            let is_fed = 99 * (later - seat.fed.min(later)) <= 100 * self.cluster.watchdog;
            let is_near = (99 * time..=101 * time).contains(&advances[rank]);
            refused_unless(
                if seat.is_on {
                    is_fed && is_near
                } else {
                    !is_named
                },
                1,
            )?;
        }
        for (rank, seat) in self
            .seats
            .iter_mut()
            .enumerate()
            .filter(|(_, seat)| seat.is_on)
        {
            seat.clock += advances[rank];
            seat.tick = seat.clock / 100;
            if matches!(
                seat.shown,
                Some(Why {
                    what: Blocked::Unfenced | Blocked::Clear,
                    ..
                })
            ) {
                seat.shown = None;
            }
        }
        self.set_time(later);
        self.begin_line(into);
        self.end_line_of_all(into);
        Ok(())
    }
}

/// What stands behind the first four letters of a word, up to the id.
#[inline(always)]
fn rest_of(word: &[u8; 4]) -> Result<&'static [u8], Fault> {
    Ok(match word {
        b"deli" => b"ver ",
        b"devi" => b"ce ",
        b"cras" => b"h ",
        b"leav" => b"e ",
        b"stop" => b"ped ",
        b"unst" => b"opped ",
        b"view" | b"boot" | b"late" => b" ",
        _ => return Err(Fault::Line),
    })
}

#[inline(always)]
fn refused_unless(is_allowed: bool, rule: u8) -> Result<(), Fault> {
    if is_allowed {
        Ok(())
    } else {
        Err(Fault::Rule(rule))
    }
}
