//! A path: both ends and both carriers, and every call on them (docs/PATH.md).

use crate::block::Block;
use crate::carrier::Carrier;
use crate::frame::{self, Frame, Window};
use crate::refusal::Refusal;
use crate::store::WindowStore;
use crate::terms::Terms;

pub const MOST_BLOCKS: u32 = 1_000_000;
const MOST_ENTRIES: u32 = MOST_BLOCKS + 1;

/// What is counted by whole numbers: a block, or the mark after the last one.
#[derive(Clone, Copy, Debug, PartialEq, Eq)]
pub enum Entry<B> {
    Block(B),
    EndMark,
}

impl<B: Block> Entry<B> {
    fn frame(&self, cyclic: u16) -> Frame {
        match self {
            Entry::Block(block) => Frame::data(cyclic, block.words()),
            Entry::EndMark => Frame::end_mark(cyclic),
        }
    }
}

pub type SenderStore<'a, B> = WindowStore<'a, Entry<B>>;
pub type ReceiverStore<'a, B> = WindowStore<'a, Option<Entry<B>>>;

/// The sender's numbers, by the names of docs/PATH.md.
#[derive(Clone, Copy, Debug, PartialEq, Eq)]
pub struct Sender {
    /// Entries accepted.
    pub ng: u32,
    /// Entries sent at least once.
    pub ns: u32,
    /// Entries heard of.
    pub na: u32,
    /// Entries past `na` that the receiver has room for.
    pub sw: u32,
    /// Ticks since the last first send, at most the gap.
    pub rest: u32,
    pub sealed: bool,
}

/// The receiver's numbers.
#[derive(Clone, Copy, Debug, PartialEq, Eq)]
pub struct Receiver {
    /// Entries in sequence.
    pub nr: u32,
    /// Entries delivered.
    pub nd: u32,
}

#[derive(Clone, Copy, Debug, PartialEq, Eq)]
pub enum Outcome {
    Complete,
    Unsure { na: u32, ns: u32, ng: u32 },
}

pub struct Path<O, K> {
    terms: Terms,
    /// Why the making was refused; every call then gives this.
    refused: Option<Refusal>,
    out: O,
    back: K,
    sender: Sender,
    receiver: Receiver,
}

impl<O: Carrier, K: Carrier> Path<O, K> {
    /// Whether making a path is refused.
    pub fn check<B>(
        terms: &Terms,
        out: &O,
        back: &K,
        got: &ReceiverStore<B>,
    ) -> Result<(), Refusal> {
        if out.lifetime() > terms.lifetime() || back.lifetime() > terms.lifetime() {
            return Err(Refusal::LifetimeTooLong);
        }
        if out.count() > 0 || back.count() > 0 {
            return Err(Refusal::CarrierNotEmpty);
        }
        if got.len() != terms.receive_window() as usize {
            return Err(Refusal::ReceiverStoreLength);
        }
        if out.capacity() == 0 || back.capacity() == 0 {
            return Err(Refusal::NoCapacity);
        }
        Ok(())
    }

    pub fn new<B: Block>(terms: Terms, out: O, back: K, got: &mut ReceiverStore<B>) -> Path<O, K> {
        let refused = Self::check(&terms, &out, &back, got).err();
        if refused.is_none() {
            got.fill(None);
        }
        Path {
            terms,
            refused,
            out,
            back,
            sender: Sender {
                ng: 0,
                ns: 0,
                na: 0,
                sw: terms.send_window(),
                rest: terms.gap(),
                sealed: false,
            },
            receiver: Receiver { nr: 0, nd: 0 },
        }
    }

    pub fn terms(&self) -> &Terms {
        &self.terms
    }

    pub fn sender(&self) -> &Sender {
        &self.sender
    }

    pub fn receiver(&self) -> &Receiver {
        &self.receiver
    }

    pub fn outward(&self) -> &O {
        &self.out
    }

    pub fn back(&self) -> &K {
        &self.back
    }

    /// Accepts a block and answers its number.
    pub fn offer<B: Block>(&mut self, kept: &mut SenderStore<B>, block: B) -> Result<u32, Refusal> {
        self.can_accept(kept)?;
        if self.sender.ng >= MOST_BLOCKS {
            return Err(Refusal::PathFull);
        }
        Ok(self.accept(kept, Entry::Block(block)))
    }

    /// Accepts the end mark and answers its number.
    pub fn seal<B: Block>(&mut self, kept: &mut SenderStore<B>) -> Result<u32, Refusal> {
        self.can_accept(kept)?;
        self.sender.sealed = true;
        Ok(self.accept(kept, Entry::EndMark))
    }

    /// Sends the next entry for the first time and answers its number.
    pub fn send<B: Block>(&mut self, kept: &SenderStore<B>) -> Result<u32, Refusal> {
        self.is_made()?;
        self.sender_store_fits(kept)?;
        let Sender {
            ng,
            ns,
            na,
            sw,
            rest,
            ..
        } = self.sender;
        if ns == ng {
            return Err(Refusal::NothingToSend);
        }
        if ns >= na + sw {
            return Err(Refusal::WindowClosed);
        }
        if rest < self.terms.gap() {
            return Err(Refusal::TooSoon);
        }
        self.put_entry(kept, ns)?;
        self.sender.ns += 1;
        self.sender.rest = 0;
        Ok(ns)
    }

    /// Sends entry na + `ahead` once more and answers its number.
    pub fn resend<B: Block>(&mut self, kept: &SenderStore<B>, ahead: u32) -> Result<u32, Refusal> {
        self.is_made()?;
        self.sender_store_fits(kept)?;
        if ahead >= self.sender.ns - self.sender.na {
            return Err(Refusal::NotOutstanding);
        }
        let number = self.sender.na + ahead;
        self.put_entry(kept, number)?;
        Ok(number)
    }

    /// Reads a frame of the outward carrier and answers the number that it was
    /// taken under, or `None` where it is ignored.
    pub fn arrive<B: Block>(
        &mut self,
        place: u32,
        got: &mut ReceiverStore<B>,
    ) -> Result<Option<u32>, Refusal> {
        self.is_made()?;
        self.receiver_store_fits(got)?;
        let (frame, _) = self.out.show(place)?;
        let (cyclic, words) = frame::read_at_receiver(&frame, self.terms.numbers())?;
        let entry = match words {
            Some(words) => Entry::Block(B::from_words(words)?),
            None => Entry::EndMark,
        };
        let ahead = self.terms.past(cyclic, self.receiver.nr);
        if ahead >= self.room() {
            return Ok(None);
        }
        let number = self.receiver.nr + ahead;
        *got.get_mut(number) = Some(entry);
        let end = MOST_ENTRIES.min(self.receiver.nd + self.terms.receive_window());
        while self.receiver.nr < end && got.get(self.receiver.nr).is_some() {
            self.receiver.nr += 1;
        }
        Ok(Some(number))
    }

    /// Moves the next entry in sequence into the book and answers its number.
    pub fn deliver<B: Block>(
        &mut self,
        got: &mut ReceiverStore<B>,
        book: &mut [B],
    ) -> Result<u32, Refusal> {
        self.is_made()?;
        self.receiver_store_fits(got)?;
        let Receiver { nr, nd } = self.receiver;
        if nd == nr {
            return Err(Refusal::NothingToDeliver);
        }
        let place = got.get_mut(nd);
        if let Some(Entry::Block(block)) = *place {
            *book.get_mut(nd as usize).ok_or(Refusal::BookFull)? = block;
        }
        *place = None;
        self.receiver.nd += 1;
        Ok(nd)
    }

    /// Tells the sender how far the receiver is, and answers that number.
    pub fn acknowledge(&mut self) -> Result<u32, Refusal> {
        self.is_made()?;
        let nr = self.receiver.nr;
        let window = Window::new(self.room());
        self.back
            .put(Frame::acknowledgement(self.terms.cyclic(nr), window))?;
        Ok(nr)
    }

    /// Reads an acknowledgement and answers how many more entries it tells of.
    pub fn hear(&mut self, place: u32) -> Result<u32, Refusal> {
        self.is_made()?;
        let (frame, _) = self.back.show(place)?;
        let (cyclic, window) = frame::read_at_sender(&frame, self.terms.numbers())?;
        let told = window.room().min(self.terms.send_window());
        let sender = &mut self.sender;
        let rise = self.terms.past(cyclic, sender.na);
        if rise == 0 {
            sender.sw = sender.sw.max(told);
            Ok(0)
        } else if rise <= sender.ns - sender.na {
            sender.na += rise;
            sender.sw = told;
            Ok(rise)
        } else {
            Ok(0)
        }
    }

    pub fn lose_outward(&mut self, place: u32) -> Result<(), Refusal> {
        self.is_made()?;
        self.out.strike(place)
    }

    pub fn lose_back(&mut self, place: u32) -> Result<(), Refusal> {
        self.is_made()?;
        self.back.strike(place)
    }

    pub fn tick(&mut self) -> Result<(), Refusal> {
        self.is_made()?;
        self.out.tick();
        self.back.tick();
        self.sender.rest = self.terms.gap().min(self.sender.rest + 1);
        Ok(())
    }

    /// Goes one round over empty carriers and answers how many entries it
    /// delivered.
    pub fn round<B: Block>(
        &mut self,
        kept: &SenderStore<B>,
        got: &mut ReceiverStore<B>,
        book: &mut [B],
    ) -> Result<u32, Refusal> {
        self.is_made()?;
        self.sender_store_fits(kept)?;
        self.receiver_store_fits(got)?;
        if self.out.count() > 0 || self.back.count() > 0 {
            return Err(Refusal::FrameInTheAir);
        }
        let mut delivered = 0;
        while self.deliver(got, book).is_ok() {
            delivered += 1;
        }
        // The rest goes on whatever each call answers.
        let _ = self.acknowledge();
        let _ = self.hear(0);
        let _ = self.lose_back(0);
        let Sender { ng, ns, na, sw, .. } = self.sender;
        if ns > na {
            let _ = self.resend(kept, 0);
        } else if ns < ng && sw >= 1 {
            for _ in 0..self.terms.gap() {
                self.tick()?;
            }
            let _ = self.send(kept);
        } else {
            return Ok(delivered);
        }
        let _ = self.arrive(0, got);
        let _ = self.lose_outward(0);
        Ok(delivered)
    }

    /// Gives the carriers back, with what can be said of the entries.
    pub fn end(self) -> (O, K, Outcome) {
        let Sender {
            ng, ns, na, sealed, ..
        } = self.sender;
        let outcome = if sealed && na == ng {
            Outcome::Complete
        } else {
            Outcome::Unsure { na, ns, ng }
        };
        (self.out, self.back, outcome)
    }

    fn is_made(&self) -> Result<(), Refusal> {
        self.refused.map_or(Ok(()), Err)
    }

    fn sender_store_fits<T>(&self, kept: &WindowStore<T>) -> Result<(), Refusal> {
        if kept.len() != self.terms.send_window() as usize {
            return Err(Refusal::SenderStoreLength);
        }
        Ok(())
    }

    fn receiver_store_fits<T>(&self, got: &WindowStore<T>) -> Result<(), Refusal> {
        if got.len() != self.terms.receive_window() as usize {
            return Err(Refusal::ReceiverStoreLength);
        }
        Ok(())
    }

    fn can_accept<B>(&self, kept: &SenderStore<B>) -> Result<(), Refusal> {
        self.is_made()?;
        self.sender_store_fits(kept)?;
        if self.sender.ng - self.sender.na == self.terms.send_window() {
            return Err(Refusal::SenderStoreFull);
        }
        if self.sender.sealed {
            return Err(Refusal::AlreadySealed);
        }
        Ok(())
    }

    fn accept<B>(&mut self, kept: &mut SenderStore<B>, entry: Entry<B>) -> u32 {
        let number = self.sender.ng;
        *kept.get_mut(number) = entry;
        self.sender.ng += 1;
        number
    }

    fn put_entry<B: Block>(&mut self, kept: &SenderStore<B>, number: u32) -> Result<(), Refusal> {
        let cyclic = self.terms.cyclic(number);
        self.out.put(kept.get(number).frame(cyclic))
    }

    /// How many entries past nr the receiver has room for.
    fn room(&self) -> u32 {
        self.terms.receive_window() - (self.receiver.nr - self.receiver.nd)
    }
}

#[cfg(test)]
mod tests {
    use super::*;
    use crate::block::{Command, Reading};
    use crate::carrier::{Shelf, Slot};
    use crate::frame::{Cause, Fault};

    const EMPTY: Slot = Slot::EMPTY;

    fn terms() -> Terms {
        Terms::new(2, 2, 3, 2, 6).unwrap()
    }

    #[test]
    fn receiver_reads_at_the_edges() {
        let (mut a, mut b) = ([EMPTY; 8], [EMPTY; 8]);
        let mut places = [None; 2];
        let mut got = ReceiverStore::<Command>::new(&mut places);
        let mut answers = Vec::new();
        for cyclic in [1, 2, 3, 0] {
            let (out, back) = (Shelf::new(&mut a, 3), Shelf::new(&mut b, 3));
            let mut path = Path::new(terms(), out, back, &mut got);
            path.receiver = Receiver { nr: 7, nd: 7 };
            path.out.put(Frame::end_mark(cyclic)).unwrap();
            answers.push(path.arrive(0, &mut got).unwrap());
        }
        assert_eq!(answers, [Some(7), Some(8), None, None]);
    }

    #[test]
    fn sender_reads_at_the_edges() {
        let (mut a, mut b) = ([EMPTY; 8], [EMPTY; 8]);
        let mut places = [None; 2];
        let mut got = ReceiverStore::<Command>::new(&mut places);
        let mut answers = Vec::new();
        for cyclic in [1, 5, 4] {
            let (out, back) = (Shelf::new(&mut a, 3), Shelf::new(&mut b, 3));
            let mut path = Path::new(terms(), out, back, &mut got);
            path.sender = Sender {
                ng: 7,
                ns: 7,
                na: 5,
                sw: 1,
                rest: 0,
                sealed: false,
            };
            let window = Window::new(9);
            path.back
                .put(Frame::acknowledgement(cyclic, window))
                .unwrap();
            let rise = path.hear(0).unwrap();
            answers.push((rise, path.sender.na, path.sender.sw));
        }
        // The window told is cut to SW, and heeded at the rise and at t = 0.
        assert_eq!(answers, [(2, 7, 2), (0, 5, 2), (0, 5, 1)]);
    }

    #[test]
    fn making_is_refused_by_the_smallest_number() {
        let (mut a, mut b) = ([EMPTY; 1], [EMPTY; 0]);
        let (mut two, mut three) = ([None; 2], [Some(Entry::EndMark); 3]);
        let mut check = |life: u32, held: bool, long: bool| {
            let mut out = Shelf::new(&mut a, life);
            if held {
                out.put(Frame::end_mark(0)).unwrap();
            }
            let places: &mut [_] = if long { &mut three } else { &mut two };
            let mut got = ReceiverStore::<Reading>::new(places);
            let mut path = Path::new(terms(), out, Shelf::new(&mut b, 1), &mut got);
            assert!(!long || got.get(0).is_some());
            let refusal = path.tick().unwrap_err();
            // The path gives its own refusal before any other.
            assert_eq!(path.hear(0), Err(refusal));
            assert_eq!(path.arrive(0, &mut got), Err(refusal));
            let outcome = path.end().2;
            assert_eq!(
                outcome,
                Outcome::Unsure {
                    na: 0,
                    ns: 0,
                    ng: 0
                }
            );
            refusal.number()
        };
        assert_eq!(check(4, true, true), 3);
        assert_eq!(check(3, true, true), 4);
        assert_eq!(check(3, false, true), 6);
        assert_eq!(check(3, false, false), 20);
    }

    #[test]
    fn the_smallest_refusal_is_given() {
        let (mut a, mut b) = ([EMPTY; 1], [EMPTY; 1]);
        let (mut sent, mut places) = ([Entry::EndMark; 2], [None; 2]);
        let (mut wrong_sent, mut wrong_places) = ([Entry::EndMark; 3], [None; 1]);
        let mut kept = SenderStore::<Command>::new(&mut sent);
        let mut got = ReceiverStore::<Command>::new(&mut places);
        let mut wrong_kept = SenderStore::<Command>::new(&mut wrong_sent);
        let mut wrong_got = ReceiverStore::<Command>::new(&mut wrong_places);
        let mut no_book: [Command; 0] = [];
        let (out, back) = (Shelf::new(&mut a, 3), Shelf::new(&mut b, 3));
        let mut path = Path::new(terms(), out, back, &mut got);

        assert_eq!(
            path.send(&wrong_kept),
            Err(Refusal::SenderStoreLength) // also 10
        );
        assert_eq!(path.send(&kept), Err(Refusal::NothingToSend));
        assert_eq!(path.resend(&kept, 0), Err(Refusal::NotOutstanding));
        assert_eq!(path.offer(&mut kept, Command::Stop), Ok(0));
        assert_eq!(path.seal(&mut kept), Ok(1));
        assert_eq!(
            path.seal(&mut wrong_kept),
            Err(Refusal::SenderStoreLength) // also 7 and 8
        );
        assert_eq!(path.seal(&mut kept), Err(Refusal::SenderStoreFull)); // also 8
        assert_eq!(
            path.offer(&mut kept, Command::Stop),
            Err(Refusal::SenderStoreFull) // also 8
        );
        assert_eq!(path.send(&kept), Ok(0));
        path.sender.sw = 1;
        assert_eq!(path.send(&kept), Err(Refusal::WindowClosed)); // also 12 and 14
        path.sender.sw = 2;
        assert_eq!(path.send(&kept), Err(Refusal::TooSoon)); // also 14
        path.tick().unwrap();
        path.tick().unwrap();
        assert_eq!(path.send(&kept), Err(Refusal::CarrierFull));
        assert_eq!(path.resend(&kept, 1), Err(Refusal::NotOutstanding)); // also 14
        assert_eq!(path.resend(&kept, 0), Err(Refusal::CarrierFull));
        assert_eq!(
            path.arrive(1, &mut wrong_got),
            Err(Refusal::ReceiverStoreLength) // also 15
        );
        assert_eq!(path.arrive(1, &mut got), Err(Refusal::NoSuchPlace));
        assert_eq!(
            path.deliver(&mut got, &mut no_book),
            Err(Refusal::NothingToDeliver)
        );
        assert_eq!(path.arrive(0, &mut got), Ok(Some(0)));
        assert_eq!(path.deliver(&mut got, &mut no_book), Err(Refusal::BookFull));
        assert_eq!(
            path.round(&wrong_kept, &mut wrong_got, &mut no_book),
            Err(Refusal::SenderStoreLength) // also 6 and 16
        );
        assert_eq!(
            path.round(&kept, &mut wrong_got, &mut no_book),
            Err(Refusal::ReceiverStoreLength) // also 16
        );
        assert_eq!(
            path.round(&kept, &mut got, &mut no_book),
            Err(Refusal::FrameInTheAir)
        );
        assert_eq!(path.acknowledge(), Ok(1));
        assert_eq!(path.acknowledge(), Err(Refusal::CarrierFull));
        assert_eq!(path.hear(0), Ok(1));
        assert_eq!(
            path.offer(&mut kept, Command::Stop),
            Err(Refusal::AlreadySealed)
        );
        assert_eq!(path.hear(1), Err(Refusal::NoSuchPlace));
        path.lose_outward(0).unwrap();
        assert_eq!(path.lose_outward(0), Err(Refusal::NoSuchPlace));
        path.lose_back(0).unwrap();
        assert_eq!(path.lose_back(0), Err(Refusal::NoSuchPlace));
        path.out
            .put(Frame::data(0, crate::frame::Words::ZERO))
            .unwrap();
        assert_eq!(
            path.arrive(0, &mut got),
            Err(Fault::new(Cause::BlockRefused, 1).into())
        );
    }

    #[test]
    fn a_million_blocks_fill_the_path() {
        let (mut a, mut b) = ([EMPTY; 1], [EMPTY; 1]);
        let (mut sent, mut places) = ([Entry::EndMark; 2], [None; 2]);
        let mut kept = SenderStore::<Command>::new(&mut sent);
        let mut got = ReceiverStore::<Command>::new(&mut places);
        let (out, back) = (Shelf::new(&mut a, 3), Shelf::new(&mut b, 3));
        let mut path = Path::new(terms(), out, back, &mut got);
        path.sender.na = MOST_BLOCKS - 1;
        path.sender.ns = MOST_BLOCKS - 1;
        path.sender.ng = MOST_BLOCKS - 1;
        path.receiver.nr = MOST_BLOCKS - 1;
        path.receiver.nd = MOST_BLOCKS - 1;
        assert_eq!(path.offer(&mut kept, Command::Stop), Ok(MOST_BLOCKS - 1));
        assert_eq!(path.offer(&mut kept, Command::Stop), Err(Refusal::PathFull));
        assert_eq!(path.seal(&mut kept), Ok(MOST_BLOCKS));
        assert_eq!(path.send(&kept), Ok(MOST_BLOCKS - 1));
        assert_eq!(path.arrive(0, &mut got), Ok(Some(MOST_BLOCKS - 1)));
        path.lose_outward(0).unwrap();
        path.tick().unwrap();
        path.tick().unwrap();
        assert_eq!(path.send(&kept), Ok(MOST_BLOCKS));
        // Nothing can fill the place past the end mark, so nr stops there.
        *got.get_mut(MOST_ENTRIES) = Some(Entry::EndMark);
        assert_eq!(path.arrive(0, &mut got), Ok(Some(MOST_BLOCKS)));
        assert_eq!(path.receiver.nr, MOST_ENTRIES);
    }

    #[test]
    fn rounds_carry_everything_through() {
        let (mut a, mut b) = ([EMPTY; 1], [EMPTY; 1]);
        let (mut sent, mut places) = ([Entry::EndMark; 2], [None; 2]);
        let mut kept = SenderStore::<Command>::new(&mut sent);
        let mut got = ReceiverStore::<Command>::new(&mut places);
        let mut book = [Command::Stop; 1];
        let (out, back) = (Shelf::new(&mut a, 3), Shelf::new(&mut b, 3));
        let mut path = Path::new(terms(), out, back, &mut got);
        let start = Command::Start { channel: 5 };
        path.offer(&mut kept, start).unwrap();
        path.seal(&mut kept).unwrap();
        assert_eq!(path.round(&kept, &mut got, &mut book), Ok(0));
        assert_eq!(path.round(&kept, &mut got, &mut book), Ok(1));
        assert_eq!(path.round(&kept, &mut got, &mut book), Ok(1));
        assert_eq!(book, [start]);
        assert_eq!(path.end().2, Outcome::Complete);
    }
}
