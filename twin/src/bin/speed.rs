//! Moves blocks and prints one checksum (docs/SPEED.md).

use std::process::ExitCode;

use twin::block::Reading;
use twin::carrier::{Carrier, Log, Shelf, Slot, TwoWay};
use twin::frame::Frame;
use twin::path::{Entry, Outcome, Path, ReceiverStore, SenderStore};
use twin::refusal::Refusal;
use twin::terms::Terms;

const LIFETIME: u32 = 3;
const BLOCKS: u32 = 1_000_000;
const PATHS: u32 = 25;
const BLOCKS_OF_A_PATH: u32 = 4_096;
const MOST_STEPS: u32 = 8;
const RECORDS: usize = 4_096;
const TICKS: u32 = 1_000;

#[derive(Default)]
struct Checksum(u64);

impl Checksum {
    fn take(&mut self, x: u64) {
        self.0 = self.0.wrapping_mul(31).wrapping_add(x);
    }

    fn take_call(&mut self, answer: Result<Option<u32>, Refusal>) {
        self.take(match answer {
            Ok(Some(number)) => u64::from(number) + 1,
            Ok(None) => 0,
            Err(refusal) => 1_000_000_000 + u64::from(refusal.number()),
        });
    }

    fn take_outcome(&mut self, outcome: Outcome) {
        self.take(match outcome {
            Outcome::Complete => 1,
            Outcome::Unsure { .. } => 2,
        });
    }
}

fn block(i: u32) -> Reading {
    Reading {
        time: i,
        value: i.wrapping_mul(2_654_435_761) as i32,
    }
}

/// A path with its memory, whose every call is taken into a checksum.
struct Line<'a, O, K> {
    path: Path<O, K>,
    kept: SenderStore<'a, Reading>,
    got: ReceiverStore<'a, Reading>,
    book: &'a mut [Reading],
    sum: &'a mut Checksum,
}

impl<O: Carrier, K: Carrier> Line<'_, O, K> {
    fn offer(&mut self, block: Reading) {
        let answer = self.path.offer(&mut self.kept, block);
        self.sum.take_call(answer.map(Some));
    }

    fn seal(&mut self) {
        let answer = self.path.seal(&mut self.kept);
        self.sum.take_call(answer.map(Some));
    }

    fn send(&mut self) {
        let answer = self.path.send(&self.kept);
        self.sum.take_call(answer.map(Some));
    }

    fn resend(&mut self, ahead: u32) {
        let answer = self.path.resend(&self.kept, ahead);
        self.sum.take_call(answer.map(Some));
    }

    fn arrive(&mut self, place: u32) {
        let answer = self.path.arrive(place, &mut self.got);
        self.sum.take_call(answer);
    }

    fn deliver(&mut self) {
        let answer = self.path.deliver(&mut self.got, self.book);
        self.sum.take_call(answer.map(Some));
    }

    fn acknowledge(&mut self) {
        let answer = self.path.acknowledge();
        self.sum.take_call(answer.map(Some));
    }

    fn hear(&mut self, place: u32) {
        let answer = self.path.hear(place);
        self.sum.take_call(answer.map(Some));
    }

    fn lose_outward(&mut self, place: u32) {
        let answer = self.path.lose_outward(place);
        self.sum.take_call(answer.map(|()| None));
    }

    fn lose_back(&mut self, place: u32) {
        let answer = self.path.lose_back(place);
        self.sum.take_call(answer.map(|()| None));
    }

    fn tick(&mut self) {
        let answer = self.path.tick();
        self.sum.take_call(answer.map(|()| None));
    }

    fn end(self) {
        let (_, _, outcome) = self.path.end();
        self.sum.take_outcome(outcome);
    }
}

/// Work to be done over a pair of carriers of any kind.
trait Work {
    fn run<O: Carrier, K: Carrier>(&mut self, out: O, back: K);
}

#[derive(Clone, Copy)]
enum Carriers {
    Shelves,
    Log,
}

impl Carriers {
    fn named(name: &str) -> Option<Carriers> {
        match name {
            "shelves" => Some(Carriers::Shelves),
            "log" => Some(Carriers::Log),
            _ => None,
        }
    }

    /// Does the work over fresh carriers.
    fn lend(self, work: &mut impl Work) {
        match self {
            Carriers::Shelves => {
                let (mut out, mut back) = ([Slot::EMPTY; 16], [Slot::EMPTY; 16]);
                work.run(
                    Shelf::new(&mut out, LIFETIME),
                    Shelf::new(&mut back, LIFETIME),
                );
            }
            Carriers::Log => {
                let mut out = [0; 64];
                let (mut first, mut second) = ([Slot::EMPTY; 2], [Slot::EMPTY; 14]);
                let first = Shelf::new(&mut first, LIFETIME);
                let second = Shelf::new(&mut second, LIFETIME);
                work.run(Log::new(&mut out, LIFETIME), TwoWay::new(first, second));
            }
        }
    }
}

/// A million blocks over one path.
#[derive(Default)]
struct Million {
    sum: Checksum,
}

impl Work for Million {
    fn run<O: Carrier, K: Carrier>(&mut self, out: O, back: K) {
        let terms = Terms::new(8, 8, LIFETIME, 1, 19).expect("the terms keep the rules");
        let (mut kept, mut got) = ([Entry::EndMark; 8], [None; 8]);
        let mut book = vec![Reading::default(); BLOCKS as usize];
        let mut got = ReceiverStore::new(&mut got);
        let mut line = Line {
            path: Path::new(terms, out, back, &mut got),
            kept: SenderStore::new(&mut kept),
            got,
            book: &mut book,
            sum: &mut self.sum,
        };
        for i in 0..BLOCKS {
            line.offer(block(i));
            line.send();
            if i % 8 == 5 {
                line.lose_outward(0);
                line.resend(0);
            }
            (0..3).for_each(|place| line.arrive(place));
            line.deliver();
            line.acknowledge();
            if i % 8 == 2 {
                line.lose_back(0);
            }
            (0..3).for_each(|place| line.hear(place));
            line.tick();
        }
        line.seal();
        line.send();
        (0..3).for_each(|place| line.arrive(place));
        line.deliver();
        line.acknowledge();
        (0..3).for_each(|place| line.hear(place));
        line.end();
        for reading in &book {
            self.sum.take(u64::from(reading.time));
            self.sum.take(u64::from(reading.value as u32));
        }
    }
}

/// One path on which only the calls of the first steps are made.
struct Calls {
    steps: u32,
    kept: Vec<Entry<Reading>>,
    got: Vec<Option<Entry<Reading>>>,
    book: Vec<Reading>,
    sum: Checksum,
}

impl Calls {
    fn new(steps: u32) -> Calls {
        let blocks = BLOCKS_OF_A_PATH as usize;
        Calls {
            steps,
            kept: vec![Entry::EndMark; blocks],
            got: vec![None; blocks],
            book: vec![Reading::default(); blocks],
            sum: Checksum::default(),
        }
    }
}

impl Work for Calls {
    fn run<O: Carrier, K: Carrier>(&mut self, out: O, back: K) {
        let terms = Terms::new(4_096, 4_096, LIFETIME, 1, 8_195).expect("the terms keep the rules");
        let mut got = ReceiverStore::new(&mut self.got);
        let mut line = Line {
            path: Path::new(terms, out, back, &mut got),
            kept: SenderStore::new(&mut self.kept),
            got,
            book: &mut self.book,
            sum: &mut self.sum,
        };
        let steps = self.steps;
        for i in 0..BLOCKS_OF_A_PATH {
            if steps >= 1 {
                line.offer(block(i));
            }
            if steps >= 2 {
                line.tick();
            }
            if steps >= 3 {
                line.send();
            }
            if steps >= 4 {
                line.arrive(0);
            }
            if steps >= 3 {
                line.lose_outward(0);
            }
            if steps >= 8 {
                line.resend(0);
                line.lose_outward(0);
            }
            if steps >= 5 {
                line.deliver();
            }
            if steps >= 6 {
                line.acknowledge();
            }
            if steps >= 7 {
                line.hear(0);
            }
            if steps >= 6 {
                line.lose_back(0);
            }
        }
        line.end();
    }
}

fn million(carriers: Carriers) -> Checksum {
    let mut million = Million::default();
    carriers.lend(&mut million);
    million.sum
}

fn calls(carriers: Carriers, steps: u32) -> Checksum {
    let mut calls = Calls::new(steps);
    for _ in 0..PATHS {
        carriers.lend(&mut calls);
    }
    calls.sum
}

fn ticks(carrier: &str, held: u16) -> Option<Checksum> {
    let lifetime = 65_535;
    let mut slots = vec![Slot::EMPTY; RECORDS];
    match carrier {
        "shelf" => Some(tick_often(Shelf::new(&mut slots, lifetime), held)),
        "log" => {
            let mut words = vec![0; 4 * RECORDS];
            Some(tick_often(Log::new(&mut words, lifetime), held))
        }
        "two_way" => {
            let (first, second) = slots.split_at_mut(RECORDS / 2);
            let both = TwoWay::new(Shelf::new(first, lifetime), Shelf::new(second, lifetime));
            Some(tick_often(both, held))
        }
        _ => None,
    }
}

fn tick_often(mut carrier: impl Carrier, held: u16) -> Checksum {
    let mut sum = Checksum::default();
    for i in 0..held {
        carrier
            .put(Frame::end_mark(i))
            .expect("the carrier has room for all that are held");
    }
    for _ in 0..TICKS {
        carrier.tick();
    }
    sum.take(u64::from(carrier.count()));
    if let Ok((_, age)) = carrier.show(0) {
        sum.take(u64::from(age));
    }
    sum
}

fn checksum(arguments: &[&str]) -> Option<Checksum> {
    match *arguments {
        [name] => Carriers::named(name).map(million),
        ["calls", name, steps] => {
            let steps = steps.parse().ok().filter(|&steps| steps <= MOST_STEPS)?;
            Some(calls(Carriers::named(name)?, steps))
        }
        ["ticks", name, held] => {
            let held = held.parse().ok();
            ticks(name, held.filter(|&held| usize::from(held) <= RECORDS)?)
        }
        _ => None,
    }
}

fn main() -> ExitCode {
    let arguments: Vec<String> = std::env::args().skip(1).collect();
    let arguments: Vec<&str> = arguments.iter().map(String::as_str).collect();
    match checksum(&arguments) {
        Some(sum) => {
            println!("{}", sum.0);
            ExitCode::SUCCESS
        }
        None => {
            eprintln!(
                "usage: speed shelves|log, speed calls shelves|log STEPS, \
                 speed ticks shelf|log|two_way HELD"
            );
            ExitCode::FAILURE
        }
    }
}
