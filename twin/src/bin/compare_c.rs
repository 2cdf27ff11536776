//! Compares the library's two C functions with the twin's own.
//!
//!     compare_c COUNT SEED

use std::process::ExitCode;

use twin::firmware;
use twin::random::Random;

#[link(name = "wire", kind = "static")]
extern "C" {
    fn transfer_frame_fault(bytes: *const u8, length: usize) -> u8;
    fn transfer_least_numbers(
        send_window: u32,
        receive_window: u32,
        lifetime: u32,
        gap: u32,
    ) -> u32;
}

fn library_frame_fault(bytes: &[u8]) -> u8 {
    let start = if bytes.is_empty() {
        std::ptr::null()
    } else {
        bytes.as_ptr()
    };
    // SAFETY: `start` points to as many readable bytes as are said, and is
    // null only where there are none.
    unsafe { transfer_frame_fault(start, bytes.len()) }
}

fn library_least_numbers([sw, rw, lifetime, gap]: [u32; 4]) -> u32 {
    // SAFETY: the function takes any four numbers.
    unsafe { transfer_least_numbers(sw, rw, lifetime, gap) }
}

/// Bytes near a well formed frame, or of any length.
fn random_bytes(random: &mut Random) -> Vec<u8> {
    let length = if random.once_in(4) {
        random.below(41)
    } else {
        12
    };
    if random.once_in(8) {
        return (0..length).map(|_| random.word() as u8).collect();
    }
    let kind = random.below(4);
    let mut words = [kind << 30 | random.below(1 << 16), 0, 0];
    if kind == 2 {
        words[0] |= random.below(1 << 14) << 16;
    }
    if kind == 1 {
        words[1..].fill_with(|| random.word());
    }
    for _ in 0..random.pick(&[0, 0, 1, 1, 2]) {
        words[random.below(3) as usize] ^= 1 << random.below(32);
    }
    let mut bytes: Vec<u8> = words.iter().flat_map(|word| word.to_be_bytes()).collect();
    bytes.resize(length as usize, 0);
    bytes
}

fn random_terms(random: &mut Random) -> [u32; 4] {
    let mut term = |most: u32| match random.below(16) {
        0 => 1,
        1 => most,
        2 => most - random.below(3),
        3 => 1 + random.below(3),
        4 if random.once_in(4) => 0,
        5 if random.once_in(4) => most + 1,
        6 if random.once_in(4) => u32::MAX - random.below(3),
        7 if random.once_in(4) => random.word(),
        _ => random.between(1, most),
    };
    let mut terms = [term(4_096), term(4_096), term(65_535), term(65_535)];
    // A gap that the lifetime is a multiple of, or nearly.
    if random.once_in(4) && terms[3] > 0 {
        let gap = random.between(1, 300);
        terms[3] = gap;
        terms[2] = (gap * random.between(1, 218)).saturating_add_signed(random.pick(&[-1, 0, 1]));
    } else if random.once_in(4) {
        terms[3] = random.between(1, 2);
    }
    terms
}

struct Class {
    name: &'static str,
    reached: u64,
}

fn main() -> ExitCode {
    let arguments: Vec<String> = std::env::args().skip(1).collect();
    let numbers: Option<Vec<u64>> = arguments.iter().map(|a| a.parse().ok()).collect();
    let Some([count, seed]) = numbers.as_deref() else {
        eprintln!("usage: compare_c COUNT SEED");
        return ExitCode::FAILURE;
    };
    compare(*count, *seed)
}

fn compare(count: u64, seed: u64) -> ExitCode {
    let mut random = Random::new(seed);
    let mut classes = [
        "frame 0",
        "frame 1",
        "frame 2",
        "frame 255",
        "numbers 0",
        "numbers to 65536",
        "numbers above",
    ]
    .map(|name| Class { name, reached: 0 });
    let mut differences = 0;
    for _ in 0..count {
        let bytes = random_bytes(&mut random);
        let (twin, library) = (firmware::frame_fault(&bytes), library_frame_fault(&bytes));
        classes[usize::from(twin).min(3)].reached += 1;
        if twin != library {
            differences += 1;
            println!("frame {bytes:02X?}: twin {twin}, library {library}");
        }
        let terms = random_terms(&mut random);
        let [sw, rw, lifetime, gap] = terms;
        let twin = firmware::least_numbers(sw, rw, lifetime, gap);
        let library = library_least_numbers(terms);
        let class = match twin {
            0 => 4,
            1..=65_536 => 5,
            _ => 6,
        };
        classes[class].reached += 1;
        if twin != library {
            differences += 1;
            println!("terms {terms:?}: twin {twin}, library {library}");
        }
        if differences >= 5 {
            break;
        }
    }
    for class in &classes {
        println!("{:<18}{:>12}", class.name, class.reached);
    }
    let missed = count >= 10_000 && classes.iter().any(|class| class.reached == 0);
    if missed {
        println!("a class was never reached");
    }
    println!("{count} frames and {count} terms, {differences} differences");
    if differences > 0 || missed {
        return ExitCode::FAILURE;
    }
    ExitCode::SUCCESS
}
