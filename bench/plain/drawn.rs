//! Schedules to time beside the friendly ones: the events that `soak` draws, and a lively cluster, in which every
//! packet is heard, each pass names the clocks of the nodes that run, and each 40 s a node crashes and boots 15 s
//! later.

use crate::model::{Configured, Event, Members, NodeEvent, Rank, Settings, View};
use crate::soak::{Generator, TIMING};
use crate::world::{Report, World};
use std::fmt::Write;

/// A schedule under way, and the world that it has led to.
struct Drawn {
    world: World,
    report: Report,
    text: String,
    /// How many events are still wanted.
    left: u64,
}

/// A lively cluster.
struct Lively {
    drawn: Drawn,
    ranks: Vec<Rank>,
    up: Members,
    /// The number of the last view.
    view: u64,
    /// How many packets were heard.
    heard: u64,
}

/// So many events of a soak of that seed, as a schedule.
pub fn random(seed: u64, events: u64) -> String {
    let mut drawn = Drawn::new(3, events);
    let mut generator = Generator { state: seed };
    while drawn.left != 0 {
        drawn.add(generator.next(&drawn.world));
    }
    drawn.text
}

/// So many events of a lively cluster, as a schedule.
pub fn lively(nodes: u8, events: u64) -> String {
    let mut lively = Lively {
        drawn: Drawn::new(nodes, events),
        ranks: (0..nodes).map(Rank).collect(),
        up: Members::default(),
        view: 1,
        heard: 0,
    };
    let mut second = 0;
    while lively.drawn.left != 0 {
        lively.pass_second(second);
        second += 1;
    }
    lively.drawn.text
}

impl Drawn {
    fn new(nodes: u8, events: u64) -> Drawn {
        let nodes = (1..=u32::from(nodes)).map(|id| Configured { id, votes: 1 });
        let settings = Settings {
            nodes: nodes.collect(),
        };
        Drawn {
            text: head(&settings),
            world: World::new(settings, TIMING),
            report: Report::new(),
            left: events,
        }
    }

    /// Adds an event where one is wanted and the world allows it, and says whether it did.
    fn add(&mut self, event: Event) -> bool {
        if self.left == 0 || self.world.apply(&event, &mut self.report).is_err() {
            return false;
        }
        add_line(&mut self.text, &event);
        self.left -= 1;
        true
    }

    fn add_of(&mut self, rank: Rank, event: NodeEvent) -> bool {
        self.add(Event::Of(rank, event))
    }

    /// The operation of a node that is out lands and is answered.
    fn answer(&mut self, rank: Rank) {
        if self.add_of(rank, NodeEvent::Land) {
            self.add_of(rank, NodeEvent::Done);
        }
    }
}

impl Lively {
    fn pass_second(&mut self, second: u64) {
        let wanted = self.wanted(second);
        if wanted != self.up {
            self.change(wanted);
        }
        for place in 0..self.ranks.len() {
            self.tick(self.ranks[place]);
        }
        self.hear();
        self.pass();
    }

    /// Who is to run: all, but of each 40 seconds from the 26th on one of them.
    fn wanted(&self, second: u64) -> Members {
        let all = Members::all(self.ranks.len());
        if second % 40 < 25 {
            return all;
        }
        let down = self.ranks[(second / 40) as usize % self.ranks.len()];
        all.without(Members::of(down))
    }

    /// Nodes crash and boot, and those that run then have a view of one another.
    fn change(&mut self, wanted: Members) {
        for &rank in &self.ranks {
            if self.up.has(rank) && !wanted.has(rank) {
                self.drawn.add_of(rank, NodeEvent::Crash);
            }
            let clock = 1000 * u64::from(rank.0);
            if !self.up.has(rank)
                && wanted.has(rank)
                && self.drawn.add_of(rank, NodeEvent::Boot(clock))
            {
                (0..4).for_each(|_| self.drawn.answer(rank));
            }
        }
        self.up = wanted;
        self.view += 1;
        let view = View {
            id: self.view,
            members: wanted,
        };
        for rank in wanted.ranks() {
            self.drawn.add_of(rank, NodeEvent::View(view));
        }
    }

    /// A node that runs ticks, reads its mailbox, and feeds its watchdog.
    fn tick(&mut self, rank: Rank) {
        if self.drawn.world.seen(rank).is_some() {
            self.drawn.add_of(rank, NodeEvent::Tick);
            (0..3).for_each(|_| self.drawn.answer(rank));
            self.drawn.add_of(rank, NodeEvent::Feed);
        }
    }

    /// The packets that were sent are heard.
    fn hear(&mut self) {
        while let Some(to) = self.drawn.world.receiver(self.heard) {
            self.drawn.add_of(to, NodeEvent::Deliver(self.heard));
            self.heard += 1;
        }
    }

    /// A second passes, by a little more or less on each clock.
    fn pass(&mut self) {
        let running = self
            .ranks
            .iter()
            .filter(|rank| self.drawn.world.seen(**rank).is_some());
        let clocks = running
            .map(|rank| (*rank, 100_000 + 300 * u64::from(rank.0) % 1000))
            .collect();
        self.drawn.add(Event::Pass(1000, clocks));
    }
}

/// The settings, and the times of a soak.
fn head(settings: &Settings) -> String {
    let mut text = String::from("nodelist {\n");
    for node in &settings.nodes {
        text += &format!("    node {{\n        nodeid: {}\n    }}\n", node.id);
    }
    text + "}\n----\ntiming 5000 10000 1000 2000 1000\n"
}

fn id(rank: Rank) -> u32 {
    u32::from(rank.0) + 1
}

fn add_line(text: &mut String, event: &Event) {
    match event {
        Event::Pass(time, clocks) => {
            write!(text, "pass {time}").unwrap();
            for (rank, advance) in clocks {
                write!(text, " {}={advance}", id(*rank)).unwrap();
            }
        }
        Event::Of(rank, event) => add_words(text, id(*rank), event),
    }
    text.push('\n');
}

fn add_words(text: &mut String, id: u32, event: &NodeEvent) {
    let (word, more) = words(event);
    write!(text, "{word} {id}{more}").unwrap();
}

/// The word of an event of a node, and what stands behind its id.
fn words(event: &NodeEvent) -> (&'static str, String) {
    match event {
        NodeEvent::Boot(clock) => ("boot", format!(" {clock}")),
        NodeEvent::Crash => ("crash", String::new()),
        NodeEvent::Land => ("land", String::new()),
        NodeEvent::Done => ("done", String::new()),
        NodeEvent::Fail => ("fail", String::new()),
        NodeEvent::Late(place) => ("late", format!(" {place}")),
        NodeEvent::View(view) => ("view", format!(" {} {}", view.id, members(view.members))),
        NodeEvent::Deliver(number) => ("deliver", format!(" {number}")),
        NodeEvent::Device => ("device", " yes".to_string()),
        NodeEvent::Tick => ("tick", String::new()),
        NodeEvent::Stopped(true) => ("stopped", String::new()),
        NodeEvent::Stopped(false) => ("unstopped", String::new()),
        NodeEvent::Leave => ("leave", String::new()),
        NodeEvent::Feed => ("feed", String::new()),
    }
}

fn members(members: Members) -> String {
    let ids: Vec<String> = members.ranks().map(|rank| id(rank).to_string()).collect();
    ids.join(",")
}
