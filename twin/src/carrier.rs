//! Carriers: lines that hold frames for a while (docs/CARRIERS.md).

use crate::frame::{Frame, Words};
use crate::refusal::Refusal;

const LONGEST_LIFETIME: u32 = 65_535;
const MOST_RECORDS: usize = 4_096;
const MOST_CAPACITY: u32 = 65_535;

pub trait Carrier {
    /// Adds a frame of age 0 at some place.
    fn put(&mut self, frame: Frame) -> Result<(), Refusal>;
    fn count(&self) -> u32;
    /// The frame at a place and its age.
    fn show(&self, place: u32) -> Result<(Frame, u32), Refusal>;
    fn strike(&mut self, place: u32) -> Result<(), Refusal>;
    /// Makes every frame older by one and drops those that reach the lifetime.
    fn tick(&mut self);
    fn lifetime(&self) -> u32;
    fn capacity(&self) -> u32;
}

/// A record of a shelf.
#[derive(Clone, Copy, Debug, PartialEq, Eq)]
pub struct Slot {
    frame: Frame,
    age: u32,
}

impl Slot {
    pub const EMPTY: Slot = Slot {
        frame: Frame {
            head: 0,
            words: Words::ZERO,
        },
        age: 0,
    };
}

/// Keeps each frame with its age.
pub struct Shelf<'a> {
    slots: &'a mut [Slot],
    held: usize,
    lifetime: u32,
}

impl<'a> Shelf<'a> {
    pub fn new(slots: &'a mut [Slot], lifetime: u32) -> Shelf<'a> {
        let room = slots.len().min(MOST_RECORDS);
        Shelf {
            slots: &mut slots[..room],
            held: 0,
            lifetime: lifetime.clamp(1, LONGEST_LIFETIME),
        }
    }
}

impl Carrier for Shelf<'_> {
    fn put(&mut self, frame: Frame) -> Result<(), Refusal> {
        let slot = self.slots.get_mut(self.held).ok_or(Refusal::CarrierFull)?;
        *slot = Slot { frame, age: 0 };
        self.held += 1;
        Ok(())
    }

    fn count(&self) -> u32 {
        self.held as u32
    }

    fn show(&self, place: u32) -> Result<(Frame, u32), Refusal> {
        self.slots[..self.held]
            .get(place as usize)
            .map(|slot| (slot.frame, slot.age))
            .ok_or(Refusal::NoSuchPlace)
    }

    fn strike(&mut self, place: u32) -> Result<(), Refusal> {
        let place = place as usize;
        if place >= self.held {
            return Err(Refusal::NoSuchPlace);
        }
        self.slots.copy_within(place + 1..self.held, place);
        self.held -= 1;
        Ok(())
    }

    fn tick(&mut self) {
        let mut kept = 0;
        for place in 0..self.held {
            let mut slot = self.slots[place];
            slot.age += 1;
            if slot.age < self.lifetime {
                self.slots[kept] = slot;
                kept += 1;
            }
        }
        self.held = kept;
    }

    fn lifetime(&self) -> u32 {
        self.lifetime
    }

    fn capacity(&self) -> u32 {
        self.slots.len() as u32
    }
}

const RECORD: usize = 4;

/// Keeps each frame with the tick at which it departed.
pub struct Log<'a> {
    /// Records of four words: the frame's three and its departure.
    words: &'a mut [u32],
    held: usize,
    lifetime: u32,
    now: u32,
}

impl<'a> Log<'a> {
    pub fn new(words: &'a mut [u32], lifetime: u32) -> Log<'a> {
        let room = (words.len() / RECORD).min(MOST_RECORDS);
        Log {
            words: &mut words[..RECORD * room],
            held: 0,
            lifetime: lifetime.clamp(1, LONGEST_LIFETIME),
            now: 0,
        }
    }

    fn age(&self, departure: u32) -> u32 {
        self.now.wrapping_sub(departure)
    }
}

impl Carrier for Log<'_> {
    fn put(&mut self, frame: Frame) -> Result<(), Refusal> {
        let at = RECORD * self.held;
        let record = self
            .words
            .get_mut(at..at + RECORD)
            .ok_or(Refusal::CarrierFull)?;
        record.copy_from_slice(&[frame.head, frame.words.first, frame.words.second, self.now]);
        self.held += 1;
        Ok(())
    }

    fn count(&self) -> u32 {
        self.held as u32
    }

    fn show(&self, place: u32) -> Result<(Frame, u32), Refusal> {
        let place = place as usize;
        if place >= self.held {
            return Err(Refusal::NoSuchPlace);
        }
        let record = &self.words[RECORD * place..][..RECORD];
        let frame = Frame {
            head: record[0],
            words: Words {
                first: record[1],
                second: record[2],
            },
        };
        Ok((frame, self.age(record[3])))
    }

    fn strike(&mut self, place: u32) -> Result<(), Refusal> {
        let place = place as usize;
        if place >= self.held {
            return Err(Refusal::NoSuchPlace);
        }
        self.words
            .copy_within(RECORD * (place + 1)..RECORD * self.held, RECORD * place);
        self.held -= 1;
        Ok(())
    }

    fn tick(&mut self) {
        let mut kept = 0;
        for place in 0..self.held {
            let at = RECORD * place;
            if self.age(self.words[at + 3]) + 1 < self.lifetime {
                if kept != place {
                    self.words.copy_within(at..at + RECORD, RECORD * kept);
                }
                kept += 1;
            }
        }
        self.held = kept;
        self.now = self.now.wrapping_add(1);
    }

    fn lifetime(&self) -> u32 {
        self.lifetime
    }

    fn capacity(&self) -> u32 {
        (self.words.len() / RECORD) as u32
    }
}

/// Two carriers as one: the first's frames, then the second's.
pub struct TwoWay<A, B> {
    first: A,
    second: B,
}

/// Which side of a two-way took a frame.
#[derive(Clone, Copy, Debug, PartialEq, Eq)]
pub enum Way {
    First,
    Second,
}

impl<A: Carrier, B: Carrier> TwoWay<A, B> {
    pub fn new(mut first: A, mut second: B) -> TwoWay<A, B> {
        strike_all(&mut first);
        strike_all(&mut second);
        TwoWay { first, second }
    }

    pub fn put_way(&mut self, frame: Frame) -> Result<Way, Refusal> {
        if self.count() >= self.capacity() {
            return Err(Refusal::CarrierFull);
        }
        if self.first.count() < self.first.capacity() {
            self.first.put(frame)?;
            Ok(Way::First)
        } else {
            self.second.put(frame)?;
            Ok(Way::Second)
        }
    }

    pub fn into_parts(self) -> (A, B) {
        (self.first, self.second)
    }
}

/// Both sides are held by value and begin empty, so striking at each tick what
/// has grown too old keeps their lists within the two-way's bounds.
impl<A: Carrier, B: Carrier> Carrier for TwoWay<A, B> {
    fn put(&mut self, frame: Frame) -> Result<(), Refusal> {
        self.put_way(frame).map(|_| ())
    }

    fn count(&self) -> u32 {
        self.first.count() + self.second.count()
    }

    fn show(&self, place: u32) -> Result<(Frame, u32), Refusal> {
        match place.checked_sub(self.first.count()) {
            None => self.first.show(place),
            Some(place) => self.second.show(place),
        }
    }

    fn strike(&mut self, place: u32) -> Result<(), Refusal> {
        match place.checked_sub(self.first.count()) {
            None => self.first.strike(place),
            Some(place) => self.second.strike(place),
        }
    }

    fn tick(&mut self) {
        let lifetime = self.lifetime();
        self.first.tick();
        self.second.tick();
        if self.first.lifetime() > lifetime {
            strike_old(&mut self.first, lifetime);
        }
        if self.second.lifetime() > lifetime {
            strike_old(&mut self.second, lifetime);
        }
    }

    fn lifetime(&self) -> u32 {
        self.first.lifetime().min(self.second.lifetime())
    }

    fn capacity(&self) -> u32 {
        (self.first.capacity() + self.second.capacity()).min(MOST_CAPACITY)
    }
}

fn strike_all(carrier: &mut impl Carrier) {
    while carrier.strike(0).is_ok() {}
}

fn strike_old(carrier: &mut impl Carrier, lifetime: u32) {
    let mut place = 0;
    while let Ok((_, age)) = carrier.show(place) {
        if age < lifetime {
            place += 1;
        } else if carrier.strike(place).is_err() {
            break;
        }
    }
}

#[cfg(test)]
mod tests {
    use super::*;

    fn list(carrier: &impl Carrier) -> Vec<(u32, u32)> {
        (0..carrier.count())
            .map(|place| carrier.show(place).unwrap())
            .map(|(frame, age)| (frame.head & 0xFFFF, age))
            .collect()
    }

    /// The same short history on any carrier of capacity 3 and lifetime 3.
    fn short_history(mut carrier: impl Carrier) {
        assert_eq!((carrier.capacity(), carrier.lifetime()), (3, 3));
        assert_eq!(carrier.show(0), Err(Refusal::NoSuchPlace));
        assert_eq!(carrier.strike(0), Err(Refusal::NoSuchPlace));
        carrier.put(Frame::end_mark(0)).unwrap();
        carrier.tick();
        carrier.put(Frame::end_mark(1)).unwrap();
        carrier.put(Frame::end_mark(2)).unwrap();
        assert_eq!(carrier.put(Frame::end_mark(3)), Err(Refusal::CarrierFull));
        assert_eq!(list(&carrier), [(0, 1), (1, 0), (2, 0)]);
        carrier.strike(1).unwrap();
        carrier.tick();
        assert_eq!(list(&carrier), [(0, 2), (2, 1)]);
        assert_eq!(carrier.strike(2), Err(Refusal::NoSuchPlace));
        carrier.tick();
        assert_eq!(list(&carrier), [(2, 2)]);
        carrier.tick();
        assert_eq!(carrier.count(), 0);
    }

    #[test]
    fn each_carrier() {
        let (mut a, mut b) = ([Slot::EMPTY; 3], [Slot::EMPTY; 2]);
        let mut words = [9; 15];
        short_history(Shelf::new(&mut a, 3));
        short_history(Log::new(&mut words, 3));
        let shelf = Shelf::new(&mut b, 3);
        short_history(TwoWay::new(shelf, Log::new(&mut words[..4], 3)));
        let shelf = Shelf::new(&mut b, 9);
        short_history(TwoWay::new(shelf, Log::new(&mut words[..4], 3)));
    }

    #[test]
    fn ages_stay_right_where_the_tick_count_comes_round() {
        let mut words = [0; 12];
        let mut log = Log::new(&mut words, 3);
        log.now = u32::MAX;
        short_history(log);
    }

    #[test]
    fn odd_makings() {
        let mut none: [Slot; 0] = [];
        let mut shelf = Shelf::new(&mut none, 0);
        assert_eq!((shelf.capacity(), shelf.lifetime()), (0, 1));
        assert_eq!(shelf.put(Frame::end_mark(0)), Err(Refusal::CarrierFull));
        let mut many = vec![0; 4 * 4_097 + 3];
        let log = Log::new(&mut many, 70_000);
        assert_eq!((log.capacity(), log.lifetime()), (4_096, 65_535));
    }

    #[test]
    fn two_way_fills_the_first_before_the_second() {
        let (mut a, mut b) = ([Slot::EMPTY; 1], [Slot::EMPTY; 2]);
        let mut held = Shelf::new(&mut a, 5);
        held.put(Frame::end_mark(9)).unwrap();
        let mut both = TwoWay::new(held, Shelf::new(&mut b, 4));
        assert_eq!((both.count(), both.capacity(), both.lifetime()), (0, 3, 4));
        assert_eq!(both.put_way(Frame::end_mark(0)), Ok(Way::First));
        assert_eq!(both.put_way(Frame::end_mark(1)), Ok(Way::Second));
        both.strike(0).unwrap();
        assert_eq!(both.put_way(Frame::end_mark(2)), Ok(Way::First));
        assert_eq!(list(&both), [(2, 0), (1, 0)]);
        let (first, second) = both.into_parts();
        assert_eq!((first.count(), second.count()), (1, 1));
    }
}
