//! The matching of messages between hosts as a plain Rust program: no proofs, std's map with its default hasher.
//! matches EVENTS..
use std::collections::HashMap;
use std::collections::hash_map::Entry;
use std::env::args;
use std::hint::black_box;
use std::time::Instant;

const RUNS: u32 = 5;
const SEED: u64 = 42;

#[derive(Clone, Copy, PartialEq, Eq, Hash)]
struct SegKey {
    saddr: u128,
    daddr: u128,
    seq: u32,
    ack_seq: u32,
    source_port: u16,
    dest_port: u16,
    flags: u16,
}

#[derive(Clone, Copy)]
enum Kind {
    // as large as the events of the kernel that have the names of two threads
    #[allow(dead_code)]
    Switch { states: [i64; 2], comms: [[u8; 16]; 2] },
    Send { key: SegKey },
    Receive { key: SegKey },
}

#[derive(Clone, Copy)]
struct Event {
    time: u64,
    #[allow(dead_code)]
    host: u32,
    #[allow(dead_code)]
    cpu: u32,
    kind: Kind,
}

#[derive(Clone, Copy)]
struct Message {
    sent: u64,
    received: u64,
    from: u32,
    send: u32,
    to: u32,
    receive: u32,
}

struct Messages {
    matched: Vec<Message>,
    ambiguous: u64,
}

#[derive(Clone, Copy)]
struct Placed {
    time: u64,
    host: u32,
    place: u32,
}

#[derive(Clone, Copy)]
enum Hosts {
    None,
    One(Placed),
    Several,
}

impl Hosts {
    fn note(&mut self, placed: Placed) {
        match *self {
            Hosts::None => *self = Hosts::One(placed),
            Hosts::One(first) if first.host != placed.host => *self = Hosts::Several,
            _ => {}
        }
    }
}

struct Ends {
    sent: Hosts,
    received: Hosts,
}

fn matches(hosts: &[Vec<Event>]) -> Messages {
    let mut segments: HashMap<SegKey, Ends> = HashMap::new();
    for (host, events) in hosts.iter().enumerate() {
        for (place, event) in events.iter().enumerate() {
            let placed = Placed { time: event.time, host: host as u32, place: place as u32 };
            match event.kind {
                Kind::Send { key } => ends_of(&mut segments, key).sent.note(placed),
                Kind::Receive { key } => ends_of(&mut segments, key).received.note(placed),
                Kind::Switch { .. } => {}
            }
        }
    }
    let mut matched = Vec::new();
    let mut ambiguous = 0;
    for ends in segments.values() {
        match (ends.sent, ends.received) {
            (Hosts::None, _) | (_, Hosts::None) => {}
            (Hosts::One(send), Hosts::One(receive)) if send.host != receive.host => matched.push(Message {
                sent: send.time,
                received: receive.time,
                from: send.host,
                send: send.place,
                to: receive.host,
                receive: receive.place,
            }),
            _ => ambiguous += 1,
        }
    }
    matched.sort_by_key(|message| (message.from, message.send));
    Messages { matched, ambiguous }
}

fn ends_of(segments: &mut HashMap<SegKey, Ends>, key: SegKey) -> &mut Ends {
    match segments.entry(key) {
        Entry::Occupied(entry) => entry.into_mut(),
        Entry::Vacant(entry) => entry.insert(Ends { sent: Hosts::None, received: Hosts::None }),
    }
}

// The same traffic as the bench of the proved program makes.
fn traffic(segments: u32) -> [Vec<Event>; 2] {
    let (mut random, mut time, mut last) = (SEED, 0u64, key_of(SEED, false));
    let mut hosts = [Vec::new(), Vec::new()];
    for _ in 0..segments {
        random = random.wrapping_mul(6364136223846793005).wrapping_add(1442695040888963407);
        let draw = random >> 32;
        if draw & 15 != 0 {
            last = key_of(random, draw & 16 != 0);
        }
        let from = usize::from(last.saddr == 2);
        let to = if (draw >> 5) & 255 == 0 { from } else { 1 - from };
        time = time.wrapping_add(draw & 1023);
        hosts[from].push(Event { time, host: from as u32, cpu: 0, kind: Kind::Send { key: last } });
        hosts[to].push(Event { time: time.wrapping_add(500), host: to as u32, cpu: 0, kind: Kind::Receive { key: last } });
    }
    hosts
}

fn key_of(random: u64, from_second: bool) -> SegKey {
    SegKey {
        saddr: if from_second { 2 } else { 1 },
        daddr: if from_second { 1 } else { 2 },
        seq: (random >> 32) as u32,
        ack_seq: random as u32,
        source_port: 40000 + ((random >> 20) & 63) as u16,
        dest_port: 80,
        flags: 16,
    }
}

fn main() {
    for events in args().skip(1) {
        let hosts = traffic(events.parse::<u32>().expect("a number of events") / 2);
        let mut fewest = u128::MAX;
        for _ in 0..RUNS {
            let begun = Instant::now();
            let found = black_box(matches(black_box(&hosts)));
            fewest = fewest.min(begun.elapsed().as_nanos());
            drop(found);
        }
        let found = matches(&hosts);
        let places = found.matched.iter().fold(0u64, |sum, m| {
            black_box((m.sent, m.received, m.from, m.to));
            sum.wrapping_mul(31).wrapping_add(u64::from(m.send)).wrapping_add(u64::from(m.receive))
        });
        println!("matches {events} nanoseconds {fewest} messages {} ambiguous {} places {places}", found.matched.len(), found.ambiguous);
    }
}
