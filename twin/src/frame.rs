//! Frames of three words, what they mean, and how they are malformed.

/// The two words below the head.
#[derive(Clone, Copy, Debug, Default, PartialEq, Eq)]
pub struct Words {
    pub first: u32,
    pub second: u32,
}

impl Words {
    pub const ZERO: Words = Words {
        first: 0,
        second: 0,
    };
}

/// What crosses the air, well formed or not.
#[derive(Clone, Copy, Debug, Default, PartialEq, Eq)]
pub struct Frame {
    pub head: u32,
    pub words: Words,
}

/// How many entries an acknowledgement says there is room for: 14 bits.
#[derive(Clone, Copy, Debug, PartialEq, Eq)]
pub struct Window(u16);

impl Window {
    pub const WIDEST: u32 = (1 << 14) - 1;

    /// The window asked for, or the widest where that is too wide.
    pub fn new(room: u32) -> Window {
        Window(room.min(Self::WIDEST) as u16)
    }

    pub fn room(self) -> u32 {
        u32::from(self.0)
    }
}

/// What a frame without faults of the frame layer says.
#[derive(Clone, Copy, Debug, PartialEq, Eq)]
pub enum Content {
    Data { cyclic: u16, words: Words },
    Acknowledgement { cyclic: u16, window: Window },
    EndMark { cyclic: u16 },
}

#[derive(Clone, Copy, Debug, PartialEq, Eq)]
pub enum Layer {
    Frame,
    End,
    Block,
}

#[derive(Clone, Copy, Debug, PartialEq, Eq)]
pub enum Cause {
    NoKind,
    BitsNotZero,
    WrongKind,
    NumberTooHigh,
    BlockRefused,
}

impl Cause {
    pub fn number(self) -> u8 {
        match self {
            Cause::NoKind => 1,
            Cause::BitsNotZero => 2,
            Cause::WrongKind => 3,
            Cause::NumberTooHigh => 4,
            Cause::BlockRefused => 5,
        }
    }
}

/// Why a frame is malformed, and at which word, the head being word 0.
#[derive(Clone, Copy, Debug, PartialEq, Eq)]
pub struct Fault {
    pub cause: Cause,
    pub word: u8,
}

impl Fault {
    pub fn new(cause: Cause, word: u8) -> Fault {
        Fault { cause, word }
    }

    pub fn layer(self) -> Layer {
        match self.cause {
            Cause::NoKind | Cause::BitsNotZero => Layer::Frame,
            Cause::WrongKind | Cause::NumberTooHigh => Layer::End,
            Cause::BlockRefused => Layer::Block,
        }
    }
}

const DATA: u32 = 0b01;
const ACKNOWLEDGEMENT: u32 = 0b10;
const END_MARK: u32 = 0b11;

fn head(kind: u32, window: u32, cyclic: u16) -> u32 {
    kind << 30 | window << 16 | u32::from(cyclic)
}

impl Frame {
    pub fn data(cyclic: u16, words: Words) -> Frame {
        Frame {
            head: head(DATA, 0, cyclic),
            words,
        }
    }

    pub fn acknowledgement(cyclic: u16, window: Window) -> Frame {
        Frame {
            head: head(ACKNOWLEDGEMENT, window.room(), cyclic),
            words: Words::ZERO,
        }
    }

    pub fn end_mark(cyclic: u16) -> Frame {
        Frame {
            head: head(END_MARK, 0, cyclic),
            words: Words::ZERO,
        }
    }

    pub fn from_bytes(bytes: &[u8; 12]) -> Frame {
        let word = |at: usize| {
            u32::from_be_bytes([bytes[at], bytes[at + 1], bytes[at + 2], bytes[at + 3]])
        };
        Frame {
            head: word(0),
            words: Words {
                first: word(4),
                second: word(8),
            },
        }
    }

    /// Reads the frame by its words alone: causes 1 and 2.
    pub fn content(&self) -> Result<Content, Fault> {
        let cyclic = self.head as u16;
        let middle = self.head >> 16 & Window::WIDEST;
        match self.head >> 30 {
            DATA => {
                self.middle_is_zero()?;
                Ok(Content::Data {
                    cyclic,
                    words: self.words,
                })
            }
            ACKNOWLEDGEMENT => {
                self.words_are_zero()?;
                Ok(Content::Acknowledgement {
                    cyclic,
                    window: Window::new(middle),
                })
            }
            END_MARK => {
                self.middle_is_zero()?;
                self.words_are_zero()?;
                Ok(Content::EndMark { cyclic })
            }
            _ => Err(Fault::new(Cause::NoKind, 0)),
        }
    }

    fn middle_is_zero(&self) -> Result<(), Fault> {
        if self.head >> 16 & Window::WIDEST != 0 {
            return Err(Fault::new(Cause::BitsNotZero, 0));
        }
        Ok(())
    }

    fn words_are_zero(&self) -> Result<(), Fault> {
        if self.words.first != 0 {
            return Err(Fault::new(Cause::BitsNotZero, 1));
        }
        if self.words.second != 0 {
            return Err(Fault::new(Cause::BitsNotZero, 2));
        }
        Ok(())
    }
}

/// Reads a frame as the sender does: the number and window acknowledged.
/// Finds causes 1 to 4.
pub fn read_at_sender(frame: &Frame, numbers: u32) -> Result<(u16, Window), Fault> {
    match frame.content()? {
        Content::Acknowledgement { cyclic, window } => Ok((below(cyclic, numbers)?, window)),
        Content::Data { .. } | Content::EndMark { .. } => Err(Fault::new(Cause::WrongKind, 0)),
    }
}

/// Reads a frame as the receiver does: the number, and the block's words or
/// `None` for the end mark. Finds causes 1 to 4.
pub fn read_at_receiver(frame: &Frame, numbers: u32) -> Result<(u16, Option<Words>), Fault> {
    match frame.content()? {
        Content::Data { cyclic, words } => Ok((below(cyclic, numbers)?, Some(words))),
        Content::EndMark { cyclic } => Ok((below(cyclic, numbers)?, None)),
        Content::Acknowledgement { .. } => Err(Fault::new(Cause::WrongKind, 0)),
    }
}

fn below(cyclic: u16, numbers: u32) -> Result<u16, Fault> {
    if u32::from(cyclic) < numbers {
        Ok(cyclic)
    } else {
        Err(Fault::new(Cause::NumberTooHigh, 0))
    }
}

#[cfg(test)]
mod tests {
    use super::*;
    use crate::block::{Block, Command};

    fn frame(head: u32, first: u32, second: u32) -> Frame {
        Frame {
            head,
            words: Words { first, second },
        }
    }

    #[test]
    fn example_words() {
        assert_eq!(
            Frame::data(1, Command::Stop.words()),
            frame(0x4000_0001, 0x4000_0000, 0)
        );
        assert_eq!(
            Frame::acknowledgement(1, Window::new(2)),
            frame(0x8002_0001, 0, 0)
        );
        assert_eq!(Frame::end_mark(2), frame(0xC000_0002, 0, 0));
        let stop = frame(0x4000_0001, 0x4000_0000, 0);
        assert_eq!(read_at_receiver(&stop, 6), Ok((1, Some(stop.words))));
        assert_eq!(
            read_at_sender(&frame(0x8002_0001, 0, 0), 6),
            Ok((1, Window::new(2)))
        );
        assert_eq!(
            read_at_receiver(&frame(0xC000_0002, 0, 0), 6),
            Ok((2, None))
        );
    }

    #[test]
    fn causes_in_order() {
        let fault = |cause, word| Err(Fault::new(cause, word));
        let receiver = |f: Frame| read_at_receiver(&f, 6).map(|_| ());
        let sender = |f: Frame| read_at_sender(&f, 6).map(|_| ());
        assert_eq!(receiver(frame(0x3FFF_FFFF, 1, 1)), fault(Cause::NoKind, 0));
        let bits = Cause::BitsNotZero;
        assert_eq!(receiver(frame(0x4001_0009, 0, 0)), fault(bits, 0));
        assert_eq!(receiver(frame(0x8000_0009, 1, 1)), fault(bits, 1));
        assert_eq!(receiver(frame(0x8000_0009, 0, 1)), fault(bits, 2));
        assert_eq!(sender(frame(0xE000_0009, 1, 1)), fault(bits, 0));
        assert_eq!(sender(frame(0xC000_0009, 1, 1)), fault(bits, 1));
        assert_eq!(sender(frame(0xC000_0009, 0, 1)), fault(bits, 2));
        let wrong = Cause::WrongKind;
        assert_eq!(receiver(frame(0x8000_0009, 0, 0)), fault(wrong, 0));
        assert_eq!(sender(frame(0x4000_0009, 0, 0)), fault(wrong, 0));
        assert_eq!(sender(frame(0xC000_0009, 0, 0)), fault(wrong, 0));
        let high = Cause::NumberTooHigh;
        assert_eq!(receiver(frame(0x4000_0006, 0, 0)), fault(high, 0));
        assert_eq!(receiver(frame(0xC000_0006, 0, 0)), fault(high, 0));
        assert_eq!(sender(frame(0x8000_0006, 0, 0)), fault(high, 0));
    }

    #[test]
    fn content_reads_what_was_written() {
        for cyclic in [0, 1, 65_535] {
            let words = Words {
                first: 7,
                second: 9,
            };
            assert_eq!(
                Frame::data(cyclic, words).content(),
                Ok(Content::Data { cyclic, words })
            );
            for room in [0, 4_096, 16_383] {
                let window = Window::new(room);
                assert_eq!(
                    Frame::acknowledgement(cyclic, window).content(),
                    Ok(Content::Acknowledgement { cyclic, window })
                );
            }
            assert_eq!(
                Frame::end_mark(cyclic).content(),
                Ok(Content::EndMark { cyclic })
            );
        }
        assert_eq!(Window::new(16_384).room(), 16_383);
    }
}
