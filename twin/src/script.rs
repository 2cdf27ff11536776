//! Scripts: calls on one path, written as words (docs/SCRIPT.md).

use std::io::{self, Write};

use crate::block::{Block, Command};
use crate::carrier::{Shelf, Slot};
use crate::frame::Words;
use crate::path::{Entry, Outcome, Path, ReceiverStore, SenderStore};
use crate::refusal::Refusal;
use crate::terms::Terms;

/// The most words that a script has.
pub const LIMIT: usize = 16_384;
/// The words that give the terms.
pub const TERMS: usize = 5;
/// The places in the book of a script's path.
pub const BOOK: usize = 64;
/// The records of each of its shelves.
pub const SHELF: usize = 8;

#[derive(Clone, Copy, Debug, PartialEq, Eq)]
pub enum Call {
    Offer(Command),
    Seal,
    Send,
    Resend(u32),
    Arrive(u32),
    Hear(u32),
    Deliver,
    Acknowledge,
    LoseOutward(u32),
    LoseBack(u32),
    Tick,
    Round,
    End,
}

impl Call {
    pub fn kind(&self) -> u32 {
        match self {
            Call::Offer(_) => 2,
            Call::Seal => 3,
            Call::Send => 4,
            Call::Resend(_) => 5,
            Call::Arrive(_) => 6,
            Call::Hear(_) => 7,
            Call::Deliver => 8,
            Call::Acknowledge => 9,
            Call::LoseOutward(_) => 10,
            Call::LoseBack(_) => 11,
            Call::Tick => 12,
            Call::Round => 13,
            Call::End => 14,
        }
    }

    /// Appends the call as words of a script.
    pub fn write(&self, words: &mut Vec<u32>) {
        let argument = match *self {
            Call::Resend(argument)
            | Call::Arrive(argument)
            | Call::Hear(argument)
            | Call::LoseOutward(argument)
            | Call::LoseBack(argument) => argument,
            _ => 0,
        };
        words.push(self.kind() << 28 | argument);
        if let Call::Offer(command) = self {
            let Words { first, second } = command.words();
            words.extend([first, second]);
        }
    }
}

/// Why a word is bad.
#[derive(Clone, Copy, Debug, PartialEq, Eq)]
pub enum Reason {
    UnknownKind,
    NotATerm,
    LateTerm,
    AfterEnd,
    Argument,
    OfferCut,
    OfferRefused,
    OfferPastLimit,
    Torn,
    PastLimit,
}

#[derive(Clone, Copy, Debug, PartialEq, Eq)]
pub struct Bad {
    pub place: usize,
    pub reason: Reason,
}

/// A script as read, up to its end or its first bad word.
#[derive(Clone, Debug, Default, PartialEq, Eq)]
pub struct Script {
    /// The first five words' arguments, or fewer where there are fewer.
    pub terms: Vec<u32>,
    pub calls: Vec<Call>,
    pub bad: Option<Bad>,
}

impl Script {
    pub fn read(bytes: &[u8]) -> Script {
        let words: Vec<u32> = bytes
            .chunks_exact(4)
            .take(LIMIT)
            .map(|b| u32::from_be_bytes([b[0], b[1], b[2], b[3]]))
            .collect();
        let mut script = Script::default();
        let end = script.read_words(&words);
        script.bad = match end {
            Err(bad) => Some(bad),
            // What is left is part of a word, or lies past the limit.
            Ok(()) if bytes.len() > 4 * words.len() => Some(Bad {
                place: words.len(),
                reason: if words.len() == LIMIT {
                    Reason::PastLimit
                } else {
                    Reason::Torn
                },
            }),
            Ok(()) => None,
        };
        script
    }

    fn read_words(&mut self, words: &[u32]) -> Result<(), Bad> {
        for (place, &word) in words.iter().take(TERMS).enumerate() {
            let (kind, argument) = split(word);
            if kind != 1 {
                return Err(Bad {
                    place,
                    reason: Reason::NotATerm,
                });
            }
            self.terms.push(argument);
        }
        let mut place = TERMS;
        while place < words.len() {
            if self.calls.last() == Some(&Call::End) {
                return Err(Bad {
                    place,
                    reason: Reason::AfterEnd,
                });
            }
            let call = read_call(words, place).map_err(|reason| Bad { place, reason })?;
            place += if let Call::Offer(_) = call { 3 } else { 1 };
            self.calls.push(call);
        }
        Ok(())
    }
}

/// A word's kind and its argument.
fn split(word: u32) -> (u32, u32) {
    (word >> 28, word & 0x0FFF_FFFF)
}

fn read_call(words: &[u32], place: usize) -> Result<Call, Reason> {
    let (kind, argument) = split(words[place]);
    let plain = |call| {
        if argument == 0 {
            Ok(call)
        } else {
            Err(Reason::Argument)
        }
    };
    match kind {
        1 => Err(Reason::LateTerm),
        2 if argument != 0 => Err(Reason::Argument),
        2 => read_offer(words, place),
        3 => plain(Call::Seal),
        4 => plain(Call::Send),
        5 => Ok(Call::Resend(argument)),
        6 => Ok(Call::Arrive(argument)),
        7 => Ok(Call::Hear(argument)),
        8 => plain(Call::Deliver),
        9 => plain(Call::Acknowledge),
        10 => Ok(Call::LoseOutward(argument)),
        11 => Ok(Call::LoseBack(argument)),
        12 => plain(Call::Tick),
        13 => plain(Call::Round),
        14 => plain(Call::End),
        _ => Err(Reason::UnknownKind),
    }
}

fn read_offer(words: &[u32], place: usize) -> Result<Call, Reason> {
    match words.get(place + 1..place + 3) {
        Some(&[first, second]) => Command::from_words(Words { first, second })
            .map(Call::Offer)
            .map_err(|_| Reason::OfferRefused),
        _ if place + 3 > LIMIT => Err(Reason::OfferPastLimit),
        _ => Err(Reason::OfferCut),
    }
}

/// What an accepted call answers.
#[derive(Clone, Copy, Debug, PartialEq, Eq)]
pub enum Answer {
    Number(u32),
    Nothing,
    Ignored,
    Ended(Outcome),
}

/// The memory that a script's path works in.
pub struct Memory {
    outward: [Slot; SHELF],
    back: [Slot; SHELF],
    kept: Vec<Entry<Command>>,
    got: Vec<Option<Entry<Command>>>,
    book: [Command; BOOK],
}

impl Memory {
    pub fn new(terms: &Terms) -> Memory {
        Memory {
            outward: [Slot::EMPTY; SHELF],
            back: [Slot::EMPTY; SHELF],
            kept: vec![Entry::EndMark; terms.send_window() as usize],
            got: vec![None; terms.receive_window() as usize],
            book: [Command::Stop; BOOK],
        }
    }
}

type ScriptPath<'a> = Path<Shelf<'a>, Shelf<'a>>;

/// A script's path with its stores and its book.
pub struct Run<'a> {
    path: ScriptPath<'a>,
    kept: SenderStore<'a, Command>,
    got: ReceiverStore<'a, Command>,
    book: &'a mut [Command],
}

impl<'a> Run<'a> {
    pub fn new(terms: Terms, memory: &'a mut Memory) -> Run<'a> {
        let out = Shelf::new(&mut memory.outward, terms.lifetime());
        let back = Shelf::new(&mut memory.back, terms.lifetime());
        let mut got = ReceiverStore::new(&mut memory.got);
        Run {
            path: Path::new(terms, out, back, &mut got),
            kept: SenderStore::new(&mut memory.kept),
            got,
            book: &mut memory.book,
        }
    }

    pub fn path(&self) -> &ScriptPath<'a> {
        &self.path
    }

    /// Makes a call. The path's end has a call of its own, so `None` is
    /// answered there.
    pub fn make(&mut self, call: &Call) -> Option<Result<Answer, Refusal>> {
        let Run {
            path,
            kept,
            got,
            book,
        } = self;
        let number = Answer::Number;
        let nothing = |()| Answer::Nothing;
        Some(match *call {
            Call::Offer(command) => path.offer(kept, command).map(number),
            Call::Seal => path.seal(kept).map(number),
            Call::Send => path.send(kept).map(number),
            Call::Resend(ahead) => path.resend(kept, ahead).map(number),
            Call::Arrive(place) => path
                .arrive(place, got)
                .map(|taken| taken.map_or(Answer::Ignored, number)),
            Call::Hear(place) => path.hear(place).map(number),
            Call::Deliver => path.deliver(got, book).map(number),
            Call::Acknowledge => path.acknowledge().map(number),
            Call::LoseOutward(place) => path.lose_outward(place).map(nothing),
            Call::LoseBack(place) => path.lose_back(place).map(nothing),
            Call::Tick => path.tick().map(nothing),
            Call::Round => path.round(kept, got, book).map(number),
            Call::End => return None,
        })
    }

    pub fn end(self) -> Outcome {
        self.path.end().2
    }
}

/// Sees each call of a run: the path before it, then its answer and the path
/// after it, which is gone after the end.
pub trait Observer {
    fn before(&mut self, _call: &Call, _run: &Run) {}
    fn after(&mut self, _call: &Call, _answer: &Result<Answer, Refusal>, _run: Option<&Run>) {}
}

/// An observer that looks away.
impl Observer for () {}

/// Runs a script and writes its lines.
pub fn run(bytes: &[u8], out: &mut impl Write) -> io::Result<()> {
    run_observed(bytes, out, &mut ())
}

pub fn run_observed(
    bytes: &[u8],
    out: &mut impl Write,
    observer: &mut impl Observer,
) -> io::Result<()> {
    let script = Script::read(bytes);
    let terms = match script.terms[..] {
        [sw, rw, lifetime, gap, numbers] => Some(Terms::new(sw, rw, lifetime, gap, numbers)),
        _ => None,
    };
    match terms {
        Some(Err(refusal)) => return writeln!(out, "terms {}", refusal.number()),
        Some(Ok(terms)) => run_calls(&script.calls, terms, out, observer)?,
        None => {}
    }
    if let Some(bad) = script.bad {
        writeln!(out, "bad {}", bad.place)?;
    }
    Ok(())
}

fn run_calls(
    calls: &[Call],
    terms: Terms,
    out: &mut impl Write,
    observer: &mut impl Observer,
) -> io::Result<()> {
    let mut memory = Memory::new(&terms);
    let mut run = Run::new(terms, &mut memory);
    for (position, call) in calls.iter().enumerate() {
        observer.before(call, &run);
        let Some(answer) = run.make(call) else {
            let answer = Ok(Answer::Ended(run.end()));
            observer.after(call, &answer, None);
            return write_line(position, call, &answer, out);
        };
        observer.after(call, &answer, Some(&run));
        write_line(position, call, &answer, out)?;
    }
    Ok(())
}

fn write_line(
    position: usize,
    call: &Call,
    answer: &Result<Answer, Refusal>,
    out: &mut impl Write,
) -> io::Result<()> {
    let kind = call.kind();
    match answer {
        Ok(Answer::Number(number)) => writeln!(out, "{position} {kind} 0 {number}"),
        Ok(Answer::Nothing | Answer::Ignored) => writeln!(out, "{position} {kind} 0 -"),
        Ok(Answer::Ended(Outcome::Complete)) => writeln!(out, "{position} {kind} 0 complete"),
        Ok(Answer::Ended(Outcome::Unsure { .. })) => writeln!(out, "{position} {kind} 0 unsure"),
        Err(refusal) => writeln!(out, "{position} {kind} {} -", refusal.number()),
    }
}

/// A script's words as bytes.
pub fn to_bytes(words: &[u32]) -> Vec<u8> {
    words.iter().flat_map(|word| word.to_be_bytes()).collect()
}

#[cfg(test)]
mod tests {
    use super::*;

    const TWO_TWO: [u32; 5] = [
        0x1000_0002,
        0x1000_0002,
        0x1000_0003,
        0x1000_0002,
        0x1000_0006,
    ];

    fn printed(bytes: &[u8]) -> String {
        let mut out = Vec::new();
        run(bytes, &mut out).unwrap();
        String::from_utf8(out).unwrap()
    }

    /// What a script with good terms and these words after them prints.
    fn after_terms(words: &[u32]) -> String {
        printed(&to_bytes(&[&TWO_TWO, words].concat()))
    }

    #[test]
    fn example() {
        let words = [
            0x2000_0000,
            0x4000_0000,
            0x0000_0000,
            0x4000_0000,
            0x4000_0000,
            0x6000_0000,
            0x6000_0000,
            0x8000_0000,
            0x9000_0000,
            0x7000_0000,
            0xE000_0000,
        ];
        assert_eq!(
            after_terms(&words),
            "0 2 0 0\n1 4 0 0\n2 4 10 -\n3 6 0 0\n4 6 0 -\n5 8 0 0\n6 9 0 1\n7 7 0 1\n8 14 0 unsure\n"
        );
    }

    #[test]
    fn terms_and_short_scripts() {
        assert_eq!(printed(&[]), "");
        assert_eq!(printed(&to_bytes(&TWO_TWO[..4])), "");
        assert_eq!(printed(&to_bytes(&TWO_TWO)), "");
        assert_eq!(printed(&[0x10]), "bad 0\n");
        assert_eq!(printed(&to_bytes(&TWO_TWO)[..19]), "bad 4\n");
        let mut terms = TWO_TWO;
        terms[4] -= 1;
        assert_eq!(
            printed(&to_bytes(&[&terms[..], &[0]].concat())),
            "terms 2\n"
        );
        terms[0] = 0x1000_0000;
        assert_eq!(printed(&to_bytes(&terms)), "terms 1\n");
        terms[1] = 0x2000_0000;
        assert_eq!(printed(&to_bytes(&terms)), "bad 1\n");
    }

    #[test]
    fn bad_words() {
        for word in [0, 0xF000_0000, 0x1000_0001, 0x3000_0001, 0x2000_0001] {
            let words = [0xC000_0000, word, 0x4000_0000, 0];
            assert_eq!(after_terms(&words), "0 12 0 -\nbad 6\n");
        }
        assert_eq!(
            after_terms(&[0xE000_0000, 0xC000_0000]),
            "0 14 0 unsure\nbad 6\n"
        );
        let offer = [0x2000_0000, 0x4000_0000];
        assert_eq!(after_terms(&offer), "bad 5\n");
        let mut torn = to_bytes(&[&TWO_TWO[..], &offer].concat());
        torn.extend([0, 0, 0]);
        assert_eq!(printed(&torn), "bad 5\n");
        torn.push(0);
        assert_eq!(printed(&torn), "0 2 0 0\n");
        torn.push(0xC0);
        assert_eq!(printed(&torn), "0 2 0 0\nbad 8\n");
        assert_eq!(after_terms(&[0x2000_0000, 0x4000_0000, 1]), "bad 5\n");
    }

    #[test]
    fn the_limit() {
        let mut words = TWO_TWO.to_vec();
        words.resize(LIMIT, 0xC000_0000);
        let last = |words: &[u32], more: &[u8]| {
            let text = printed(&[&to_bytes(words)[..], more].concat());
            text.lines().last().unwrap().to_string()
        };
        assert_eq!(last(&words, &[]), "16378 12 0 -");
        assert_eq!(last(&words, &[0xC0]), "bad 16384");
        assert_eq!(last(&words, &[0xC0, 0, 0, 0]), "bad 16384");
        let stop = [0x2000_0000, 0x4000_0000, 0];
        for place in [LIMIT - 2, LIMIT - 1] {
            let straddling = [&words[..place], &stop].concat();
            assert_eq!(last(&straddling, &[]), format!("bad {place}"));
        }
        words.truncate(LIMIT - 3);
        words.extend(stop);
        assert_eq!(last(&words, &[]), "16376 2 0 0");
    }
}
