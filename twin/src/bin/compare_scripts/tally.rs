//! Counts what the twin's own runs reached.

use std::collections::HashSet;
use std::fmt;

use twin::carrier::Carrier;
use twin::frame::Content;
use twin::path::{Outcome, Receiver, Sender};
use twin::refusal::Refusal;
use twin::script::{Answer, Bad, Call, Observer, Reason, Run, Script, BOOK, TERMS};
use twin::terms::Terms;

/// The kinds of calls, each with the refusals that a script can reach.
const CALLS: [(usize, &str, &[usize]); 13] = [
    (2, "offer", &[7, 8]),
    (3, "seal", &[7, 8]),
    (4, "send", &[10, 11, 12, 14]),
    (5, "resend", &[13, 14]),
    (6, "arrive", &[15]),
    (7, "hear", &[15]),
    (8, "deliver", &[17, 18]),
    (9, "acknowledge", &[14]),
    (10, "lose outward", &[15]),
    (11, "lose back", &[15]),
    (12, "tick", &[]),
    (13, "round", &[16]),
    (14, "end", &[]),
];
const ARRIVE: usize = 6;

const KINDS: usize = 15;
const REFUSALS: usize = Refusal::LAST as usize + 1;

/// What else a script can reach.
#[derive(Clone, Copy)]
enum Class {
    TermsRefused1,
    TermsRefused2,
    TooFewWords,
    BadKind0,
    BadKindF,
    BadNoTerm,
    BadLateTerm,
    BadAfterEnd,
    BadArgument,
    BadOfferArgument,
    BadOfferCut,
    BadOfferRefused,
    BadOfferPastLimit,
    BadTorn,
    BadTornTerm,
    BadPastLimit,
    EndComplete,
    EndUnsure,
    CameRound,
    ArriveBehind,
    ArriveAhead,
    ArriveStays,
    ArriveByOne,
    ArriveByMore,
    ArriveAgain,
    ArriveEndMark,
    HearRises,
    HearWidens,
    HearNoWider,
    HearBehind,
    HearShuts,
    DeliverPastBook,
    RoundStops,
    RoundResends,
    RoundSends,
    RoundDeliversMore,
    RoundBookFull,
}

/// The names of the classes, in their order.
const CLASSES: [&str; Class::RoundBookFull as usize + 1] = [
    "terms refused by 1",
    "terms refused by 2",
    "fewer than five words",
    "bad: kind 0",
    "bad: kind F",
    "bad: no term among the first five",
    "bad: a term after them",
    "bad: after the end",
    "bad: an argument",
    "bad: an argument of an offer",
    "bad: an offer cut short",
    "bad: an offer of no command",
    "bad: an offer past the limit",
    "bad: a torn word",
    "bad: a torn word among the first five",
    "bad: word 16,384",
    "end: complete",
    "end: unsure",
    "scripts that took an entry of 3 N or above",
    "arrive: ignored, a late frame",
    "arrive: ignored, ahead of the window",
    "arrive: taken, nr stays",
    "arrive: taken, nr rises by one",
    "arrive: taken, nr rises by more",
    "arrive: taken a second time",
    "arrive: taken, the end mark",
    "hear: na rises",
    "hear: no rise, the window grows",
    "hear: no rise, the window stays",
    "hear: a late acknowledgement",
    "hear: the window becomes 0",
    "deliver: the end mark past the book",
    "round: stops",
    "round: resends",
    "round: sends",
    "round: delivers two or more",
    "round: the book is full",
];

#[derive(Default)]
pub struct Tally {
    scripts: u64,
    longest: usize,
    accepted: [u64; KINDS],
    ignored: [u64; KINDS],
    refused: [[u64; REFUSALS]; KINDS],
    classes: Classes,
    current: Current,
}

struct Classes([u64; CLASSES.len()]);

impl Default for Classes {
    fn default() -> Self {
        Classes([0; CLASSES.len()])
    }
}

/// What is kept of the script that is running.
#[derive(Default)]
struct Current {
    came_round: bool,
    taken: HashSet<u32>,
    before: Option<(Sender, Receiver)>,
    shown: Option<Content>,
}

impl Tally {
    pub fn scripts(&self) -> u64 {
        self.scripts
    }

    /// Counts a script by its bytes, before it is run.
    pub fn begin(&mut self, bytes: &[u8]) {
        self.scripts += 1;
        self.longest = self.longest.max(bytes.len().div_ceil(4));
        self.current = Current::default();
        let script = Script::read(bytes);
        if let [sw, rw, lifetime, gap, numbers] = script.terms[..] {
            match Terms::new(sw, rw, lifetime, gap, numbers) {
                Err(Refusal::TermOutOfRange) => return self.hit(Class::TermsRefused1),
                Err(_) => return self.hit(Class::TermsRefused2),
                Ok(_) => {}
            }
        } else if script.bad.is_none() {
            self.hit(Class::TooFewWords);
        }
        if let Some(bad) = script.bad {
            self.hit(class_of_bad(bad, bytes));
        }
    }

    /// The classes that a script can reach and none did.
    pub fn missed(&self) -> Vec<String> {
        let mut missed = Vec::new();
        for (kind, name, refusals) in CALLS {
            if self.accepted[kind] == 0 {
                missed.push(format!("{name} accepted"));
            }
            let none = refusals.iter().filter(|&&r| self.refused[kind][r] == 0);
            missed.extend(none.map(|refusal| format!("{name} refused by {refusal}")));
        }
        if self.ignored[ARRIVE] == 0 {
            missed.push("arrive ignored".to_string());
        }
        let classes = CLASSES.iter().zip(self.classes.0);
        missed.extend(classes.filter(|c| c.1 == 0).map(|c| c.0.to_string()));
        missed
    }

    pub fn add(&mut self, other: &Tally) {
        fn add_all(sums: &mut [u64], others: &[u64]) {
            sums.iter_mut().zip(others).for_each(|(sum, x)| *sum += x);
        }
        self.scripts += other.scripts;
        self.longest = self.longest.max(other.longest);
        add_all(&mut self.accepted, &other.accepted);
        add_all(&mut self.ignored, &other.ignored);
        for (sums, others) in self.refused.iter_mut().zip(&other.refused) {
            add_all(sums, others);
        }
        add_all(&mut self.classes.0, &other.classes.0);
    }

    fn hit(&mut self, class: Class) {
        self.classes.0[class as usize] += 1;
    }

    fn arrived(&mut self, number: Option<u32>, was: (Sender, Receiver), run: &Run) {
        let (sender, receiver) = was;
        let Some(number) = number else {
            let ahead = match self.current.shown {
                Some(Content::Data { cyclic, .. } | Content::EndMark { cyclic }) => {
                    run.path().terms().past(cyclic, receiver.nr)
                }
                _ => return,
            };
            // Only one number before ns can have this cyclic number in the air.
            return self.hit(if receiver.nr + ahead < sender.ns {
                Class::ArriveAhead
            } else {
                Class::ArriveBehind
            });
        };
        self.hit(match run.path().receiver().nr - receiver.nr {
            0 => Class::ArriveStays,
            1 => Class::ArriveByOne,
            _ => Class::ArriveByMore,
        });
        if !self.current.taken.insert(number) {
            self.hit(Class::ArriveAgain);
        }
        if let Some(Content::EndMark { .. }) = self.current.shown {
            self.hit(Class::ArriveEndMark);
        }
    }

    fn heard(&mut self, rise: u32, sender: Sender, run: &Run) {
        let Some(Content::Acknowledgement { cyclic, .. }) = self.current.shown else {
            return;
        };
        let now = run.path().sender();
        self.hit(if rise > 0 {
            Class::HearRises
        } else if run.path().terms().past(cyclic, sender.na) > 0 {
            Class::HearBehind
        } else if now.sw > sender.sw {
            Class::HearWidens
        } else {
            Class::HearNoWider
        });
        if now.sw == 0 && sender.sw > 0 {
            self.hit(Class::HearShuts);
        }
    }

    fn went_round(&mut self, delivered: u32, was: (Sender, Receiver), run: &Run) {
        let (sender, receiver) = was;
        let now = run.path().sender();
        self.hit(if now.ns > sender.ns {
            Class::RoundSends
        } else if now.ns > now.na {
            Class::RoundResends
        } else {
            Class::RoundStops
        });
        if delivered >= 2 {
            self.hit(Class::RoundDeliversMore);
        }
        if run.path().receiver().nd < receiver.nr {
            self.hit(Class::RoundBookFull);
        }
    }
}

fn class_of_bad(bad: Bad, bytes: &[u8]) -> Class {
    let kind = bytes[4 * bad.place] >> 4;
    match bad.reason {
        Reason::UnknownKind if kind == 0 => Class::BadKind0,
        Reason::UnknownKind => Class::BadKindF,
        Reason::NotATerm => Class::BadNoTerm,
        Reason::LateTerm => Class::BadLateTerm,
        Reason::AfterEnd => Class::BadAfterEnd,
        Reason::Argument if kind == 2 => Class::BadOfferArgument,
        Reason::Argument => Class::BadArgument,
        Reason::OfferCut => Class::BadOfferCut,
        Reason::OfferRefused => Class::BadOfferRefused,
        Reason::OfferPastLimit => Class::BadOfferPastLimit,
        Reason::Torn if bad.place < TERMS => Class::BadTornTerm,
        Reason::Torn => Class::BadTorn,
        Reason::PastLimit => Class::BadPastLimit,
    }
}

impl Observer for Tally {
    fn before(&mut self, call: &Call, run: &Run) {
        let path = run.path();
        self.current.before = Some((*path.sender(), *path.receiver()));
        let shown = match *call {
            Call::Arrive(place) => path.outward().show(place),
            Call::Hear(place) => path.back().show(place),
            _ => Err(Refusal::NoSuchPlace),
        };
        self.current.shown = shown.ok().and_then(|(frame, _)| frame.content().ok());
    }

    fn after(&mut self, call: &Call, answer: &Result<Answer, Refusal>, run: Option<&Run>) {
        let kind = call.kind() as usize;
        match *answer {
            Err(refusal) => self.refused[kind][refusal.number() as usize] += 1,
            Ok(Answer::Ignored) => self.ignored[kind] += 1,
            Ok(_) => self.accepted[kind] += 1,
        }
        if let Ok(Answer::Ended(outcome)) = *answer {
            self.hit(match outcome {
                Outcome::Complete => Class::EndComplete,
                Outcome::Unsure { .. } => Class::EndUnsure,
            });
        }
        let (Some(run), Some(was)) = (run, self.current.before) else {
            return;
        };
        match (call, *answer) {
            (Call::Arrive(_), Ok(Answer::Number(number))) => self.arrived(Some(number), was, run),
            (Call::Arrive(_), Ok(Answer::Ignored)) => self.arrived(None, was, run),
            (Call::Hear(_), Ok(Answer::Number(rise))) => self.heard(rise, was.0, run),
            (Call::Round, Ok(Answer::Number(delivered))) => self.went_round(delivered, was, run),
            _ => {}
        }
        let path = run.path();
        // Only the end mark is delivered past the book.
        if was.1.nd as usize <= BOOK && path.receiver().nd as usize > BOOK {
            self.hit(Class::DeliverPastBook);
        }
        if !self.current.came_round && path.receiver().nr > 3 * path.terms().numbers() {
            self.current.came_round = true;
            self.hit(Class::CameRound);
        }
    }
}

impl fmt::Display for Tally {
    fn fmt(&self, f: &mut fmt::Formatter<'_>) -> fmt::Result {
        writeln!(
            f,
            "{:<14}{:>10}{:>10}  refused by",
            "call", "accepted", "ignored"
        )?;
        for (kind, name, _) in CALLS {
            let (accepted, ignored) = (self.accepted[kind], self.ignored[kind]);
            write!(f, "{name:<14}{accepted:>10}{ignored:>10} ")?;
            for (refusal, &times) in self.refused[kind].iter().enumerate() {
                if times > 0 {
                    write!(f, " {refusal}: {times}")?;
                }
            }
            writeln!(f)?;
        }
        for (name, times) in CLASSES.iter().zip(self.classes.0) {
            writeln!(f, "{name:<44}{times:>10}")?;
        }
        writeln!(f, "{:<44}{:>10}", "longest script, in words", self.longest)
    }
}
