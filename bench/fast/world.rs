//! The cluster, what it keeps of a whole schedule, and the text that it keeps of each node.

use crate::seat::{ranks, Blocked, ByRank, Count, Seat, Sectors, View, Why};
use crate::text::{Counter, Fault, Reader, Text, Writer};

const NOBODY: u8 = 255;
const MOST_NODES: usize = 32;

/// The settings: ids in ascending order, votes, and times.
pub struct Cluster {
    ids: Vec<u64>,
    votes: ByRank<u64>,
    names: ByRank<Text<32>>,
    /// The ranks of small ids.
    small: [u8; 256],
    pub all: u32,
    pub total: u64,
    pub watchdog: u64,
    pub msgwait: u64,
    pub loop_ms: u64,
    pub read_limit: u64,
    pub feed_delay: u64,
}

#[derive(Clone, Copy)]
pub enum Said {
    Ask,
    Tell { holds: bool },
}

/// What several nodes are sent alike: an ask, or an answer to one, which repeats it.
#[derive(Clone, Copy)]
pub struct Message {
    pub incarnation: u64,
    pub install: u64,
    pub view: View,
    pub from: u8,
    pub said: Said,
}

/// All packets that were sent, by their messages and receivers.
#[derive(Default)]
pub struct Packets {
    messages: Vec<Message>,
    sent: Vec<(u32, u8)>,
}

pub struct World {
    pub cluster: Cluster,
    pub seats: ByRank<Seat>,
    pub sectors: ByRank<Sectors>,
    pub packets: Packets,
    pub time: u64,
    number: Counter,
    time_text: Text<32>,
    events: u64,
    holders: u32,
    holders_text: Text<512>,
    /// The end of the line of a node that is off.
    off: Text<128>,
}

impl Cluster {
    pub fn new(nodes: &[(u32, u32)], times: &[u64]) -> Cluster {
        let &[watchdog, msgwait, loop_ms, read_limit, feed_delay] = times else {
            panic!("five times");
        };
        assert!(
            99 * (msgwait - 1) >= 101 * (read_limit + 1 + watchdog + feed_delay),
            "safe times"
        );
        let mut small = [NOBODY; 256];
        for (rank, (id, _)) in nodes.iter().enumerate() {
            if let Some(place) = small.get_mut(*id as usize) {
                *place = rank as u8;
            }
        }
        let ids: Vec<u64> = nodes.iter().map(|(id, _)| u64::from(*id)).collect();
        Cluster {
            total: nodes.iter().map(|(_, votes)| u64::from(*votes)).sum(),
            votes: nodes.iter().map(|(_, votes)| u64::from(*votes)).collect(),
            names: ids.iter().map(|id| Text::of(*id)).collect(),
            ids,
            small,
            all: u32::MAX >> (32 - nodes.len()),
            watchdog,
            msgwait,
            loop_ms,
            read_limit,
            feed_delay,
        }
    }

    pub fn name(&self, rank: u8) -> &Text<32> {
        &self.names[rank]
    }

    pub fn votes_among(&self, members: u32) -> u64 {
        ranks(members).map(|rank| self.votes[rank]).sum()
    }

    /// The rank of the id that stands there.
    #[inline(always)]
    pub fn rank(&self, line: &mut Reader) -> Result<u8, Fault> {
        if let Some(digit) = line.lone_digit() {
            let rank = self.small[digit as usize];
            return if rank == NOBODY {
                Err(Fault::Line)
            } else {
                Ok(rank)
            };
        }
        let id = line.number(1, u64::from(u32::MAX))?;
        let small = self.small.get(id as usize).copied();
        let rank = small.or_else(|| {
            self.ids
                .iter()
                .position(|other| *other == id)
                .map(|rank| rank as u8)
        });
        rank.filter(|rank| *rank != NOBODY).ok_or(Fault::Line)
    }

    /// The end of a line: the votes, and why the node does not start.
    fn write_end(&self, into: &mut Text<128>, count: Count, why: Why) {
        into.clear();
        into.put(if count.is_quorate() {
            b" quorate=yes "
        } else {
            b" quorate=no "
        });
        write_votes(into, count);
        into.put(b" why=");
        match why.what {
            Blocked::Down => into.put(b"down"),
            Blocked::Holding => into.put(b"holding"),
            Blocked::NoView => into.put(b"no-view"),
            Blocked::NotQuorate => {
                into.put(b"not-quorate:");
                write_votes(into, count);
            }
            Blocked::NotChosen => self.write_of(into, b"not-chosen:", why.rank),
            Blocked::NobodyChosen => into.put(b"not-chosen:0"),
            Blocked::HeldBy => self.write_of(into, b"held-by:", why.rank),
            Blocked::Unheard => self.write_of(into, b"unheard:", why.rank),
            Blocked::Unwritten => {
                self.write_of(into, b"unfenced:", why.rank);
                into.put(b":unwritten");
            }
            Blocked::Unfenced => {
                self.write_of(into, b"unfenced:", why.rank);
                into.put(b":");
                into.number(why.left);
            }
            Blocked::Clear => into.put(b"clear"),
        }
        into.put(b"\n");
    }

    fn write_of(&self, into: &mut Text<128>, word: &[u8], rank: u8) {
        into.put(word);
        into.put(self.name(rank).bytes());
    }
}

fn write_votes(into: &mut Text<128>, count: Count) {
    into.number(count.votes);
    into.put(b"/");
    into.number(count.quorum);
}

impl Packets {
    /// Sends a message to each rank of a mask.
    pub fn send(&mut self, message: Message, to: u32) {
        let number = self.messages.len() as u32;
        self.messages.push(message);
        self.sent.reserve(MOST_NODES);
        let room = self.sent.spare_capacity_mut().iter_mut();
        for (place, rank) in room.zip(ranks(to)) {
            place.write((number, rank));
        }
        unsafe {
            self.sent
                .set_len(self.sent.len() + to.count_ones() as usize)
        };
    }

    /// The packet of that number, if it was sent to that rank.
    pub fn received(&self, number: u64, by: u8) -> Option<Message> {
        let (message, to) = *self.sent.get(number as usize)?;
        (to == by).then(|| self.messages[message as usize])
    }
}

impl World {
    pub fn new(cluster: Cluster) -> World {
        let count = Count::of(0, cluster.total);
        let mut off = Text::new();
        cluster.write_end(&mut off, count, Why::of(Blocked::Down));
        let mut world = World {
            seats: cluster
                .ids
                .iter()
                .map(|_| Seat::new(cluster.total))
                .collect(),
            sectors: cluster.ids.iter().map(|_| Sectors::NEW).collect(),
            cluster,
            packets: Packets::default(),
            time: 0,
            number: Counter::new(),
            time_text: Text::new(),
            events: 0,
            holders: 0,
            holders_text: Text::new(),
            off,
        };
        world.set_time(0);
        world.write_holders();
        world
    }

    pub fn events(&self) -> u64 {
        self.events
    }

    pub fn set_time(&mut self, time: u64) {
        self.time = time;
        self.time_text.clear();
        self.time_text.put(b" ");
        self.time_text.number(time);
        self.time_text.put(b" ");
    }

    fn write_holders(&mut self) {
        self.holders_text.clear();
        self.holders_text.put(b" holders=");
        if self.holders == 0 {
            self.holders_text.put(b"-");
        }
        for (place, rank) in ranks(self.holders).enumerate() {
            if place != 0 {
                self.holders_text.put(b"+");
            }
            self.holders_text.put(self.cluster.name(rank).bytes());
        }
    }

    /// Notes whether a node holds.
    #[inline(always)]
    pub fn note_holder(&mut self, rank: u8) {
        let seat = &self.seats[rank];
        let holds = (seat.is_on && seat.holds()) as u32;
        let holders = self.holders & !(1 << rank) | holds << rank;
        if holders != self.holders {
            self.holders = holders;
            self.write_holders();
        }
    }

    /// The condition that blocks a start of a node.
    #[inline(always)]
    pub fn why(&self, rank: u8) -> Why {
        self.seats[rank].why(rank, self.cluster.all, self.cluster.msgwait)
    }

    /// Notes what the end of the line of a node says.
    #[inline(always)]
    pub fn show(&mut self, rank: u8, why: Why) {
        let seat = &mut self.seats[rank];
        if seat.shown != Some(why) {
            seat.shown = Some(why);
            self.cluster.write_end(&mut seat.end, seat.count, why);
        }
    }

    /// The front of a line: the number of the event and the time.
    #[inline(always)]
    pub fn begin_line(&mut self, into: &mut Writer) {
        self.events += 1;
        self.number.count();
        into.counter(&self.number);
        into.text(&self.time_text);
    }

    /// The end of the line of an event that is of no node.
    pub fn end_line_of_all(&self, into: &mut Writer) {
        into.put(b"- -");
        into.text(&self.holders_text);
        into.put(b"\n");
    }

    #[inline(always)]
    pub fn end_line(&mut self, rank: u8, into: &mut Writer) {
        into.text(&self.holders_text);
        if !self.seats[rank].is_on {
            return into.text(&self.off);
        }
        if self.seats[rank].shown.is_none() {
            self.show(rank, self.why(rank));
        }
        into.text(&self.seats[rank].end);
    }
}
