//! Block types: how a block is written as two words.

use crate::frame::{Cause, Fault, Words};

/// A block that is written reads back as itself, and words that are read are
/// the words that would be written again. Only cause 5 is given, at word 1 or 2.
pub trait Block: Copy {
    fn words(&self) -> Words;
    fn from_words(words: Words) -> Result<Self, Fault>;
}

/// A time and a value; every pair of words is one.
#[derive(Clone, Copy, Debug, Default, PartialEq, Eq)]
pub struct Reading {
    pub time: u32,
    pub value: i32,
}

impl Block for Reading {
    fn words(&self) -> Words {
        Words {
            first: self.time,
            second: self.value as u32,
        }
    }

    fn from_words(words: Words) -> Result<Self, Fault> {
        Ok(Reading {
            time: words.first,
            value: words.second as i32,
        })
    }
}

#[derive(Clone, Copy, Debug, PartialEq, Eq)]
pub enum Command {
    Stop,
    Start { channel: u16 },
    Set { channel: u16, level: u32 },
}

impl Block for Command {
    fn words(&self) -> Words {
        let (kind, channel, second) = match *self {
            Command::Stop => (0b01, 0, 0),
            Command::Start { channel } => (0b10, channel, 0),
            Command::Set { channel, level } => (0b11, channel, level),
        };
        Words {
            first: kind << 30 | u32::from(channel),
            second,
        }
    }

    fn from_words(words: Words) -> Result<Self, Fault> {
        let at = |word| Fault::new(Cause::BlockRefused, word);
        let channel = words.first as u16;
        if words.first >> 16 & 0x3FFF != 0 {
            return Err(at(1));
        }
        match words.first >> 30 {
            0b01 if channel != 0 => Err(at(1)),
            0b01 | 0b10 if words.second != 0 => Err(at(2)),
            0b01 => Ok(Command::Stop),
            0b10 => Ok(Command::Start { channel }),
            0b11 => Ok(Command::Set {
                channel,
                level: words.second,
            }),
            _ => Err(at(1)),
        }
    }
}

#[cfg(test)]
mod tests {
    use super::*;

    fn read(first: u32, second: u32) -> Result<Command, u8> {
        let answer = Command::from_words(Words { first, second });
        if let Ok(command) = answer {
            assert_eq!(command.words(), Words { first, second });
        }
        answer.map_err(|fault| {
            assert_eq!(fault.cause.number(), 5);
            fault.word
        })
    }

    #[test]
    fn commands() {
        assert_eq!(read(0x4000_0000, 0), Ok(Command::Stop));
        assert_eq!(read(0x8000_0003, 0), Ok(Command::Start { channel: 3 }));
        let set = Command::Set {
            channel: 65_535,
            level: u32::MAX,
        };
        assert_eq!(read(0xC000_FFFF, u32::MAX), Ok(set));
        for first in [0, 3, 0x4001_0000, 0x4000_0001, 0xA000_0000, 0xC001_0000] {
            assert_eq!(read(first, 0), Err(1));
            assert_eq!(read(first, 1), Err(1));
        }
        assert_eq!(read(0x4000_0000, 1), Err(2));
        assert_eq!(read(0x8000_0003, 1), Err(2));
    }

    #[test]
    fn readings() {
        let words = Words {
            first: 100,
            second: 0xFFFF_FFFB,
        };
        let reading = Reading {
            time: 100,
            value: -5,
        };
        assert_eq!(Reading::from_words(words), Ok(reading));
        assert_eq!(reading.words(), words);
    }
}
