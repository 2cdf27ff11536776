//! Random scripts of several kinds.

use twin::block::Command;
use twin::carrier::Carrier;
use twin::random::Random;
use twin::script::{to_bytes, Call, Memory, Run, BOOK, LIMIT, SHELF, TERMS};
use twin::terms::{least_numbers, Terms};

/// One script in so many is about as long as a script can be.
const LONG_EVERY: u64 = 500;
const ARGUMENT: u32 = 0x0FFF_FFFF;

/// Writes the script of a number. The long ones take turns, so that each
/// kind of them comes early.
pub fn write(random: &mut Random, number: u64) -> Vec<u8> {
    if number % LONG_EVERY == LONG_EVERY - 1 {
        return long(random, number / LONG_EVERY);
    }
    match random.weighted(&[2, 3, 10, 16, 2, 6]) {
        0 => to_bytes(&any_words(random)),
        1 => torn(random),
        2 => to_bytes(&plausible(random)),
        3 => to_bytes(&steered(random)),
        4 => to_bytes(&refused_terms(random)),
        _ => bad_word(random),
    }
}

fn any_words(random: &mut Random) -> Vec<u32> {
    let length = random.below(40);
    // Good terms or the kind alone before random words let more be read.
    let mut words = match random.below(4) {
        0 => Vec::new(),
        1 => (0..TERMS)
            .map(|_| 1 << 28 | random.word() & ARGUMENT)
            .collect(),
        _ => small_terms(random).to_vec(),
    };
    words.extend((0..length).map(|_| random.word()));
    words
}

/// A script of any kind, cut at any byte.
fn torn(random: &mut Random) -> Vec<u8> {
    let words = match random.below(4) {
        0 => any_words(random),
        1 => plausible(random),
        _ => steered(random),
    };
    let mut bytes = to_bytes(&words);
    let most = if random.once_in(3) { 24 } else { bytes.len() };
    bytes.truncate(random.below(most as u32 + 1) as usize);
    bytes
}

fn term_words(terms: [u32; TERMS]) -> [u32; TERMS] {
    terms.map(|term| 1 << 28 | term)
}

/// Terms of small windows, with N at the least or just above.
fn small(random: &mut Random) -> [u32; TERMS] {
    let (sw, rw) = (random.between(1, 4), random.between(1, 4));
    let (lifetime, gap) = (random.between(1, 6), random.between(1, 6));
    let least = least_numbers(sw, rw, lifetime, gap).expect("small terms are in range");
    [sw, rw, lifetime, gap, least + random.pick(&[0, 0, 0, 1, 2])]
}

fn small_terms(random: &mut Random) -> [u32; TERMS] {
    term_words(small(random))
}

/// Terms that keep both rules, up to the highest.
fn large(random: &mut Random) -> [u32; TERMS] {
    loop {
        let mut window = || random.pick(&[1, 2, 9, 64, 1_000, 4_095, 4_096]);
        let (sw, rw) = (window(), window());
        let mut ticks = || random.pick(&[1, 2, 7, 100, 8_192, 65_534, 65_535]);
        let (lifetime, gap) = (ticks(), ticks());
        let least = least_numbers(sw, rw, lifetime, gap).expect("the terms are in range");
        let numbers = random.pick(&[least, least + 1, 65_535, 65_536]);
        if least <= numbers && numbers <= 65_536 {
            return [sw, rw, lifetime, gap, numbers];
        }
    }
}

fn command(random: &mut Random) -> Command {
    let channel = random.word() as u16;
    match random.below(4) {
        0 => Command::Stop,
        1 => Command::Start { channel },
        2 => Command::Set {
            channel,
            level: random.below(3),
        },
        _ => Command::Set {
            channel,
            level: random.word(),
        },
    }
}

/// A place, mostly one where a frame may stand.
fn place(random: &mut Random) -> u32 {
    match random.below(20) {
        0 => random.word() & ARGUMENT,
        1 => random.below(10),
        2 => SHELF as u32,
        _ => random.below(3),
    }
}

/// Any call but the end, whatever the state.
fn any_call(random: &mut Random) -> Call {
    match random.below(14) {
        0 | 1 => Call::Offer(command(random)),
        2 if random.once_in(12) => Call::Seal,
        2 | 3 => Call::Send,
        4 => Call::Resend(place(random)),
        5 | 6 => Call::Arrive(place(random)),
        7 => Call::Hear(place(random)),
        8 => Call::Deliver,
        9 => Call::Acknowledge,
        10 if random.once_in(2) => Call::LoseOutward(place(random)),
        10 => Call::LoseBack(place(random)),
        11 | 12 => Call::Tick,
        _ => Call::Round,
    }
}

/// Good terms and calls that do not look at the answers.
fn plausible(random: &mut Random) -> Vec<u32> {
    let is_large = random.once_in(12);
    let terms = if is_large {
        large(random)
    } else {
        small(random)
    };
    let mut words = term_words(terms).to_vec();
    // Rounds with a long gap are slow, so such scripts are short.
    let calls = if is_large { 30 } else { 150 };
    for _ in 0..random.below(calls) {
        any_call(random).write(&mut words);
    }
    if random.once_in(2) {
        Call::End.write(&mut words);
    }
    words
}

/// How eager a steered script is to make each call.
struct Style {
    offer: u32,
    seal: u32,
    send: u32,
    resend: u32,
    arrive: u32,
    hear: u32,
    deliver: u32,
    acknowledge: u32,
    lose: u32,
    tick: u32,
    round: u32,
    /// One call in so many is made whatever the state.
    any: u32,
    /// One turn in so many waits until the air is empty and goes rounds.
    quiet: u32,
    /// One turn in so many fills a carrier.
    flood: u32,
}

impl Style {
    fn new(random: &mut Random) -> Style {
        let mut some = |choices: &[u32]| random.pick(choices);
        Style {
            offer: some(&[4, 8, 8, 16]),
            seal: some(&[0, 0, 0, 8]),
            send: some(&[8, 16, 32]),
            resend: some(&[0, 1, 1, 4]),
            arrive: some(&[4, 8, 16]),
            hear: some(&[1, 4, 8, 16]),
            deliver: some(&[1, 4, 8, 16]),
            acknowledge: some(&[1, 4, 4, 8]),
            lose: some(&[0, 0, 1, 4]),
            tick: some(&[2, 4, 8]),
            round: some(&[0, 1, 8]),
            any: some(&[6, 12, 40]),
            quiet: some(&[10, 40, 1_000]),
            flood: some(&[30, 100, 400]),
        }
    }
}

/// How a steered script pumps blocks through.
struct Pump {
    /// One call in so many is left out.
    leaves_out: u32,
    /// Whether the sender's store is kept full.
    fills: bool,
    /// Whether acknowledgements go out around the send as well.
    tells_early: bool,
}

impl Pump {
    fn new(random: &mut Random) -> Pump {
        Pump {
            leaves_out: random.pick(&[8, 20, 100]),
            fills: random.once_in(2),
            tells_early: random.once_in(3),
        }
    }
}

/// Writes calls and makes them on the twin's own path at once, so that the
/// next can be chosen by the state.
struct Author<'a, 'r> {
    run: Run<'a>,
    words: Vec<u32>,
    random: &'r mut Random,
}

impl Author<'_, '_> {
    fn make(&mut self, call: Call) {
        call.write(&mut self.words);
        // Whatever the answer, the state says what comes next.
        let _ = self.run.make(&call);
    }

    fn in_the_air(&self) -> (u32, u32) {
        let path = self.run.path();
        (path.outward().count(), path.back().count())
    }

    /// A call that is accepted at this moment.
    fn apt_call(&mut self, style: &Style) -> Call {
        let path = self.run.path();
        let (terms, sender, receiver) = (path.terms(), *path.sender(), *path.receiver());
        let (out, back) = self.in_the_air();
        let full = SHELF as u32;
        let accepts = !sender.sealed && sender.ng - sender.na < terms.send_window();
        let sends = sender.ns < sender.ng
            && sender.ns < sender.na + sender.sw
            && sender.rest >= terms.gap()
            && out < full;
        let outstanding = sender.ns - sender.na;
        let when = |apt: bool, weight: u32| if apt { weight } else { 0 };
        let random = &mut *self.random;
        let seals = accepts && random.once_in(40);
        match random.weighted(&[
            style.tick.max(1),
            when(accepts, style.offer),
            when(seals, style.seal),
            when(sends, style.send),
            when(outstanding > 0 && out < full, style.resend),
            when(out > 0, style.arrive),
            when(back > 0, style.hear),
            when(receiver.nd < receiver.nr, style.deliver),
            when(back < full, style.acknowledge),
            when(out > 0, style.lose),
            when(back > 0, style.lose),
            when(out + back == 0, style.round),
        ]) {
            1 => Call::Offer(command(random)),
            2 => Call::Seal,
            3 => Call::Send,
            4 => Call::Resend(random.below(outstanding)),
            5 => Call::Arrive(random.below(out)),
            6 => Call::Hear(random.below(back)),
            7 => Call::Deliver,
            8 => Call::Acknowledge,
            9 => Call::LoseOutward(random.below(out)),
            10 => Call::LoseBack(random.below(back)),
            11 => Call::Round,
            _ => Call::Tick,
        }
    }

    /// Waits until nothing is in the air, sometimes not quite.
    fn wait(&mut self) {
        let lifetime = self.run.path().terms().lifetime();
        let enough = lifetime.saturating_sub(u32::from(self.random.once_in(8)));
        for _ in 0..enough {
            self.make(Call::Tick);
        }
    }

    fn rounds(&mut self, count: u32) {
        for _ in 0..count {
            self.make(Call::Round);
        }
    }

    /// Rounds that carry one block each: the book fills with few words.
    /// Sometimes the end mark comes just when it is full.
    fn fill_book(&mut self) {
        for _ in 0..BOOK as u32 - self.random.pick(&[0, 0, 0, 1]) {
            let block = command(self.random);
            self.make(Call::Offer(block));
            self.make(Call::Round);
        }
        if !self.random.once_in(3) {
            let deliver = self.random.pick(&[Call::Round, Call::Deliver]);
            for call in [Call::Seal, Call::Round, Call::Round, deliver] {
                self.make(call);
            }
        }
    }

    /// Resends or acknowledges until a carrier refuses, then tries to send.
    fn flood(&mut self) {
        let block = command(self.random);
        self.make(Call::Offer(block));
        let outstanding = self.run.path().sender().ns - self.run.path().sender().na;
        for _ in 0..=SHELF {
            if outstanding > 0 && self.random.once_in(16) {
                self.make(Call::Tick);
            }
            let call = if outstanding > 0 {
                Call::Resend(self.random.below(outstanding))
            } else {
                Call::Acknowledge
            };
            self.make(call);
        }
        for _ in 0..self.run.path().terms().gap().min(6) {
            self.make(Call::Tick);
        }
        self.make(Call::Send);
    }

    /// The calls that move one block as fast as the gap allows, now and then
    /// one left out; frames stay in the air and are read again at every place.
    fn pump(&mut self, pump: &Pump) {
        let path = self.run.path();
        let (terms, sender) = (path.terms(), path.sender());
        let wait = terms.gap() - sender.rest;
        let free = terms.send_window() - (sender.ng - sender.na);
        for _ in 0..if pump.fills { free } else { 1 } {
            let block = command(self.random);
            self.perhaps(pump, Call::Offer(block));
        }
        for _ in 0..wait {
            self.make(Call::Tick);
        }
        if pump.tells_early {
            self.perhaps(pump, Call::Acknowledge);
        }
        self.perhaps(pump, Call::Send);
        if pump.tells_early {
            self.perhaps(pump, Call::Acknowledge);
        }
        let (out, _) = self.in_the_air();
        for place in self.places(out) {
            self.perhaps(pump, Call::Arrive(place));
        }
        self.perhaps(pump, Call::Deliver);
        self.perhaps(pump, Call::Acknowledge);
        let (_, back) = self.in_the_air();
        for place in self.places(back) {
            self.perhaps(pump, Call::Hear(place));
        }
    }

    /// One part of the work in any order: time moves only where the next first
    /// send needs it, so that frames grow late while the windows go on.
    fn stride(&mut self) {
        let (out, back) = self.in_the_air();
        let path = self.run.path();
        let (terms, sender, receiver) = (path.terms(), path.sender(), path.receiver());
        let wait = terms.gap() - sender.rest;
        let free = terms.send_window() - (sender.ng - sender.na);
        let due = receiver.nr - receiver.nd;
        match self.random.below(7) {
            0 => {
                for _ in 0..free {
                    let block = command(self.random);
                    self.make(Call::Offer(block));
                }
            }
            1 | 2 => {
                for _ in 0..wait {
                    self.make(Call::Tick);
                }
                self.make(Call::Send);
            }
            3 => {
                for place in self.places(out) {
                    self.make(Call::Arrive(place));
                }
            }
            4 => {
                for _ in 0..due {
                    self.make(Call::Deliver);
                }
            }
            5 => self.make(Call::Acknowledge),
            _ => {
                for place in self.places(back) {
                    self.make(Call::Hear(place));
                }
            }
        }
    }

    fn perhaps(&mut self, pump: &Pump, call: Call) {
        if !self.random.once_in(pump.leaves_out) {
            self.make(call);
        }
    }

    /// Every place of a carrier, upwards or downwards.
    fn places(&mut self, count: u32) -> Vec<u32> {
        if self.random.once_in(2) {
            (0..count).collect()
        } else {
            (0..count).rev().collect()
        }
    }

    /// Seals and goes as many rounds as bring everything through.
    fn complete(&mut self) {
        self.wait();
        let unheard = self.run.path().sender().ng - self.run.path().sender().na;
        self.rounds(unheard + 1);
        self.make(Call::Seal);
        self.rounds(2);
    }

    fn turn(&mut self, style: &Style) {
        if self.random.once_in(style.quiet) {
            self.wait();
            let rounds = self.random.below(6);
            self.rounds(rounds);
        } else if self.random.once_in(style.flood) {
            self.flood();
        } else if self.random.once_in(style.any) {
            let call = any_call(self.random);
            self.make(call);
        } else {
            let call = self.apt_call(style);
            self.make(call);
        }
    }
}

/// Small terms and calls chosen by the state, so that histories go deep.
fn steered(random: &mut Random) -> Vec<u32> {
    let length = match random.below(16) {
        0 => random.between(400, 1_200),
        1..=4 => random.between(150, 400),
        _ => random.between(20, 150),
    };
    steered_to(random, length as usize)
}

/// Likewise, until there are at least so many words.
fn steered_to(random: &mut Random, length: usize) -> Vec<u32> {
    let numbers = small(random);
    let [sw, rw, lifetime, gap, n] = numbers;
    let terms = Terms::new(sw, rw, lifetime, gap, n).expect("small terms keep the rules");
    let mut memory = Memory::new(&terms);
    let style = Style::new(random);
    let pump = Pump::new(random);
    let manner = random.below(8);
    let mut author = Author {
        run: Run::new(terms, &mut memory),
        words: term_words(numbers).to_vec(),
        random,
    };
    if manner == 0 && length > 150 {
        author.fill_book();
    }
    while author.words.len() < length {
        match manner {
            0..=2 => author.turn(&style),
            3 | 4 => author.pump(&pump),
            _ => author.stride(),
        }
    }
    match author.random.below(8) {
        0..=2 => author.complete(),
        3 => author.make(Call::Seal),
        _ => {}
    }
    if !author.random.once_in(4) {
        Call::End.write(&mut author.words);
    }
    author.words
}

/// Terms that one rule or both refuse, at the edges, and calls after them.
fn refused_terms(random: &mut Random) -> Vec<u32> {
    let most = [4_096, 4_096, 65_535, 65_535, 65_536];
    let mut terms = if random.once_in(2) {
        small(random)
    } else {
        large(random)
    };
    if random.once_in(2) {
        for _ in 0..random.between(1, 2) {
            let at = random.below(TERMS as u32) as usize;
            terms[at] = random.pick(&[0, most[at], most[at] + 1, ARGUMENT]);
        }
    } else if random.once_in(6) {
        terms = [4_096, 4_096, 57_344 + random.below(3), 1, 65_536];
    } else {
        let least = least_numbers(terms[0], terms[1], terms[2], terms[3]);
        let least = least.expect("terms that keep the rules are in range");
        terms[4] = random.pick(&[1, least - 1, least - 1, least]);
    }
    let mut words = term_words(terms).to_vec();
    for _ in 0..random.below(6) {
        if random.once_in(4) {
            words.push(random.word());
        } else {
            any_call(random).write(&mut words);
        }
    }
    words
}

/// A good script that goes wrong at one place.
fn bad_word(random: &mut Random) -> Vec<u8> {
    let mut words = if random.once_in(2) {
        plausible(random)
    } else {
        steered(random)
    };
    let at = if random.once_in(6) {
        random.below(TERMS as u32) as usize
    } else {
        random.between(TERMS as u32, words.len() as u32) as usize
    };
    let argument = if random.once_in(2) {
        1 << random.below(28)
    } else {
        random.between(1, ARGUMENT)
    };
    let plain = random.pick(&[2, 2, 3, 4, 8, 9, 12, 13, 14]) << 28;
    match random.below(10) {
        0 => words.insert(
            at,
            random.pick(&[0, 0xF << 28]) | random.pick(&[0, argument]),
        ),
        1 => words.insert(at, 1 << 28 | argument),
        2 => words.insert(at, plain | argument),
        3 => words.insert(at, random.pick(&[0, plain, argument]) | argument >> 8),
        4 => words.insert(at, 14 << 28),
        5 => {
            words.truncate(at);
            words.extend(&[2 << 28, 1 << 30][..random.between(1, 2) as usize]);
        }
        6 => {
            words.truncate(at);
            words.extend([
                2 << 28,
                random.pick(&[0, 1, 2, 3]) << 30 | argument,
                argument,
            ]);
        }
        7 => {
            words.truncate(at);
            let kind = random.between(1, 2) << 30;
            words.extend([2 << 28, kind, random.pick(&[0, 1, 1 << 31])]);
        }
        8 => {
            // A channel where none may be, or bits between.
            words.truncate(at);
            words.extend([2 << 28, 1 << 30 | 1 << random.below(30), 0]);
        }
        _ => {
            if random.once_in(2) {
                words.truncate(at);
            }
            let mut bytes = to_bytes(&words);
            if random.once_in(4) {
                bytes.extend((14u32 << 28).to_be_bytes());
            }
            bytes.extend((0..random.between(1, 3)).map(|_| random.word() as u8));
            return bytes;
        }
    }
    to_bytes(&words)
}

/// A script about as long as the limit.
fn long(random: &mut Random, turn: u64) -> Vec<u8> {
    let mut words = steered_to(random, LIMIT);
    let tick = 12 << 28;
    let offer = [2 << 28, 1 << 30, 0];
    let cut_and_fill = |words: &mut Vec<u32>, length: usize| {
        // An offer that the cut opened is closed by ticks put before it.
        words.truncate(length - 2);
        if words[length - 3] == offer[0] {
            words[length - 3] = tick;
        } else if words[length - 4] == offer[0] {
            words[length - 4] = tick;
            words[length - 3] = tick;
        }
        words.resize(length, tick);
    };
    match turn % 6 {
        0 => {
            let before = LIMIT - random.between(1, 2) as usize;
            cut_and_fill(&mut words, before);
            words.extend(offer);
        }
        1 => {
            cut_and_fill(&mut words, LIMIT);
            words.extend((0..random.between(1, 3)).map(|_| random.pick(&[tick, 0, 14 << 28])));
        }
        2 => cut_and_fill(&mut words, LIMIT),
        3 => {
            cut_and_fill(&mut words, LIMIT);
            let mut bytes = to_bytes(&words);
            bytes.extend((0..random.between(1, 3)).map(|_| random.word() as u8));
            return bytes;
        }
        4 => {
            cut_and_fill(&mut words, LIMIT - 3);
            words.extend(offer);
            if random.once_in(2) {
                words.push(tick);
            }
        }
        _ => {
            let fewer = random.between(0, 3) as usize;
            cut_and_fill(&mut words, LIMIT - 1 - fewer);
            words.push(14 << 28);
            words.extend((0..random.below(3)).map(|_| tick));
        }
    }
    to_bytes(&words)
}
