//! The five numbers that both ends agree on.

use std::ops::RangeInclusive;

use crate::refusal::Refusal;

const WINDOWS: RangeInclusive<u32> = 1..=4_096;
const TICKS: RangeInclusive<u32> = 1..=65_535;
const NUMBERS: RangeInclusive<u32> = 1..=65_536;

#[derive(Clone, Copy, Debug, PartialEq, Eq)]
pub struct Terms {
    send_window: u32,
    receive_window: u32,
    lifetime: u32,
    gap: u32,
    numbers: u32,
}

impl Terms {
    pub fn new(
        send_window: u32,
        receive_window: u32,
        lifetime: u32,
        gap: u32,
        numbers: u32,
    ) -> Result<Terms, Refusal> {
        let least = least_numbers(send_window, receive_window, lifetime, gap)
            .filter(|_| NUMBERS.contains(&numbers))
            .ok_or(Refusal::TermOutOfRange)?;
        if numbers < least {
            return Err(Refusal::TooFewNumbers);
        }
        Ok(Terms {
            send_window,
            receive_window,
            lifetime,
            gap,
            numbers,
        })
    }

    pub fn send_window(&self) -> u32 {
        self.send_window
    }

    pub fn receive_window(&self) -> u32 {
        self.receive_window
    }

    pub fn lifetime(&self) -> u32 {
        self.lifetime
    }

    pub fn gap(&self) -> u32 {
        self.gap
    }

    pub fn numbers(&self) -> u32 {
        self.numbers
    }

    /// The number that a frame carries for a whole number.
    pub fn cyclic(&self, whole: u32) -> u16 {
        // N is at most 65,536, so the remainder fits.
        (whole % self.numbers) as u16
    }

    /// How far past `base` a cyclic number below N is read.
    pub fn past(&self, cyclic: u16, base: u32) -> u32 {
        let base = base % self.numbers;
        let cyclic = u32::from(cyclic);
        if cyclic >= base {
            cyclic - base
        } else {
            cyclic + self.numbers - base
        }
    }
}

/// SW + RW + K, or `None` where one of the four is out of range.
pub fn least_numbers(
    send_window: u32,
    receive_window: u32,
    lifetime: u32,
    gap: u32,
) -> Option<u32> {
    let in_range = WINDOWS.contains(&send_window)
        && WINDOWS.contains(&receive_window)
        && TICKS.contains(&lifetime)
        && TICKS.contains(&gap);
    in_range.then(|| send_window + receive_window + lifetime.div_ceil(gap))
}

#[cfg(test)]
mod tests {
    use super::*;

    #[test]
    fn edge_table() {
        for (sw, rw, l, gap, least) in [
            (2, 2, 3, 2, 6),
            (1, 1, 1, 1, 3),
            (1, 1, 4, 4, 3),
            (1, 1, 5, 4, 4),
        ] {
            assert_eq!(least_numbers(sw, rw, l, gap), Some(least));
            assert!(Terms::new(sw, rw, l, gap, least).is_ok());
            assert_eq!(
                Terms::new(sw, rw, l, gap, least - 1),
                Err(Refusal::TooFewNumbers)
            );
        }
        assert_eq!(least_numbers(4_096, 4_096, 65_535, 1), Some(73_727));
        assert_eq!(
            Terms::new(4_096, 4_096, 65_535, 1, 65_536),
            Err(Refusal::TooFewNumbers)
        );
    }

    #[test]
    fn out_of_range_comes_first() {
        let good = [1, 1, 1, 1, 3];
        let most = [4_096, 4_096, 65_535, 65_535, 65_536];
        for at in 0..5 {
            for wrong in [0, most[at] + 1, u32::MAX] {
                let mut t = good;
                t[at] = wrong;
                assert_eq!(
                    Terms::new(t[0], t[1], t[2], t[3], t[4]),
                    Err(Refusal::TermOutOfRange)
                );
            }
        }
        // N too small as well: the smaller refusal is given.
        assert_eq!(Terms::new(0, 1, 1, 1, 1), Err(Refusal::TermOutOfRange));
        assert!(Terms::new(4_096, 4_096, 57_344, 1, 65_536).is_ok());
    }
}
