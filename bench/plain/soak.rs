//! Draws the events of a soak from a seed, plays them, and sums up what they came to.

use crate::model::{
    Configured, DiskOp, Event, Members, NodeEvent, Out, Rank, Settings, Timing, View,
};
use crate::world::{Report, Seen, World};

/// The times of a soak.
pub const TIMING: Timing = Timing {
    watchdog: 5000,
    msgwait: 10000,
    loop_ms: 1000,
    read_limit: 2000,
    feed_delay: 1000,
};

/// The nodes of a soak.
const RANKS: [Rank; 3] = [Rank(0), Rank(1), Rank(2)];

/// What events are drawn from.
pub struct Generator {
    pub state: u64,
}

/// Counts of events, of outputs, and the most nodes that held the resource at once.
#[derive(Default)]
struct Tally {
    boots: u64,
    crashes: u64,
    resets: u64,
    starts: u64,
    stops: u64,
    most_holders: u32,
}

/// The summary of so many events.
pub fn soak(seed: u64, events: u64) -> String {
    let nodes = (1..=3).map(|id| Configured { id, votes: 1 }).collect();
    let mut world = World::new(Settings { nodes }, TIMING);
    let mut generator = Generator { state: seed };
    let mut report = Report::new();
    let mut tally = Tally::default();
    for _ in 0..events {
        let event = generator.next(&world);
        world
            .apply(&event, &mut report)
            .expect("the generator draws what is allowed");
        tally.add(&event, &report);
    }
    let Tally {
        boots,
        crashes,
        resets,
        starts,
        stops,
        most_holders,
    } = tally;
    format!(
        "soak seed {seed} events {events} boots {boots} crashes {crashes} resets {resets} \
         starts {starts} stops {stops} most_holders {most_holders}\n"
    )
}

impl Tally {
    fn add(&mut self, event: &Event, report: &Report) {
        match event {
            Event::Of(_, NodeEvent::Boot(_)) => self.boots += 1,
            Event::Of(_, NodeEvent::Crash) => self.crashes += 1,
            _ => {}
        }
        for out in &report.outs {
            match out {
                Out::Disk(DiskOp::WriteReset(_)) => self.resets += 1,
                Out::Start => self.starts += 1,
                Out::Stop => self.stops += 1,
                _ => {}
            }
        }
        self.most_holders = self.most_holders.max(report.holders.0.count_ones());
    }
}

impl Generator {
    /// The upper 31 bits of the next state.
    fn draw(&mut self) -> u64 {
        self.state = self
            .state
            .wrapping_mul(6_364_136_223_846_793_005)
            .wrapping_add(1_442_695_040_888_963_407);
        self.state >> 33
    }

    /// A candidate, or what happens where it is not allowed: a millisecond, or the crash of a node whose
    /// watchdog is over.
    pub fn next(&mut self, world: &World) -> Event {
        let candidate = self.candidate(world);
        if world.allowed(&candidate).is_ok() {
            return candidate;
        }
        let moment = Event::Pass(1, Vec::new());
        if world.allowed(&moment).is_ok() {
            return moment;
        }
        let is_over = |seen: Seen| 99 * (world.time() + 1 - seen.fed) > 100 * TIMING.watchdog;
        let over = RANKS
            .into_iter()
            .find(|rank| world.seen(*rank).is_some_and(is_over));
        over.map_or(moment, |rank| Event::Of(rank, NodeEvent::Crash))
    }

    fn candidate(&mut self, world: &World) -> Event {
        let choice = self.draw() % 16;
        let rank = Rank((self.draw() % 3) as u8);
        match choice {
            0..10 => Event::Of(rank, self.step(world, rank)),
            10..12 => self.pass(world),
            12 => Event::Of(rank, NodeEvent::View(self.view(rank))),
            13 => self.delivery(world, rank),
            14 => Event::Of(rank, NodeEvent::Device),
            _ => Event::Of(rank, self.incident()),
        }
    }

    /// The next step of a node.
    fn step(&mut self, world: &World, rank: Rank) -> NodeEvent {
        let Some(seen) = world.seen(rank) else {
            return NodeEvent::Boot(self.draw() % 1_000_000);
        };
        let is_feed_due = |decided| seen.fed < decided && world.time() <= decided + 1000;
        if seen.decided.is_some_and(is_feed_due) {
            NodeEvent::Feed
        } else if seen.landed {
            NodeEvent::Done
        } else if seen.out {
            NodeEvent::Land
        } else if seen.stopping {
            NodeEvent::Stopped(true)
        } else {
            NodeEvent::Tick
        }
    }

    /// A pass, with a clock within one per cent for each node that runs.
    fn pass(&mut self, world: &World) -> Event {
        let dt = 1 + self.draw() % 400;
        let running = RANKS.into_iter().filter(|rank| world.seen(*rank).is_some());
        let clocks = running
            .map(|rank| (rank, 99 * dt + self.draw() % (2 * dt + 1)))
            .collect();
        Event::Pass(dt, clocks)
    }

    /// A view of all nodes, of this one, or of some and this one.
    fn view(&mut self, rank: Rank) -> View {
        let members = match self.draw() % 3 {
            0 => Members::all(RANKS.len()),
            1 => Members::of(rank),
            _ => Members((self.draw() % 8) as u32).with(rank),
        };
        View {
            id: u64::from(members.0),
            members,
        }
    }

    /// One of the last eight packets reaches its receiver.
    fn delivery(&mut self, world: &World, rank: Rank) -> Event {
        let count = world.packets();
        if count == 0 {
            return Event::Of(rank, NodeEvent::Tick);
        }
        let number = count - 1 - self.draw() % count.min(8);
        Event::Of(
            world.receiver(number).unwrap_or(rank),
            NodeEvent::Deliver(number),
        )
    }

    fn incident(&mut self) -> NodeEvent {
        match self.draw() % 8 {
            0 => NodeEvent::Crash,
            1 => NodeEvent::Leave,
            2 => NodeEvent::Late(1),
            _ => NodeEvent::Fail,
        }
    }
}
