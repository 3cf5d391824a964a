//! Commands and responses, read from bytes.

use crate::tokens::is_word_byte;
use std::hint::black_box;

pub type Id = [u8; 32];

#[allow(dead_code)]
pub struct Content {
    pub name: String,
    pub payload: Vec<u8>,
    pub tag: Vec<u8>,
}

#[allow(dead_code)]
pub enum Command {
    Init {
        digest: Id,
        author: Id,
        content: Content,
    },
    Basic {
        priority: u32,
        parent: Id,
        author: Id,
        content: Content,
    },
    Finalize {
        parent: Id,
        author: Id,
        content: Content,
    },
    Merge {
        left: Id,
        right: Id,
    },
}

#[allow(dead_code)]
struct Response {
    graph: Id,
    sample: Vec<Id>,
    from: u32,
    more: bool,
    commands: Vec<Command>,
}

struct Reader<'a>(&'a [u8]);

impl<'a> Reader<'a> {
    fn take(&mut self, size: usize) -> Option<&'a [u8]> {
        let (front, rest) = self.0.split_at_checked(size)?;
        self.0 = rest;
        Some(front)
    }

    fn array<const N: usize>(&mut self) -> Option<[u8; N]> {
        self.take(N)?.try_into().ok()
    }

    fn u8(&mut self) -> Option<u8> {
        Some(u8::from_be_bytes(self.array()?))
    }

    fn u16(&mut self) -> Option<u16> {
        Some(u16::from_be_bytes(self.array()?))
    }

    fn u32(&mut self) -> Option<u32> {
        Some(u32::from_be_bytes(self.array()?))
    }

    /// As many bytes, where they are no more than the limit.
    fn limited(&mut self, size: usize, limit: usize) -> Option<&'a [u8]> {
        if size <= limit { self.take(size) } else { None }
    }

    fn content(&mut self) -> Option<Content> {
        let size = self.u16()?;
        let name = self.limited(size.into(), 64)?;
        if !name.first()?.is_ascii_alphabetic() || !name.iter().all(is_word_byte) {
            return None;
        }
        let name = String::from_utf8(name.to_vec()).ok()?;
        let size = self.u32()?;
        let payload = self.limited(size as usize, 4096)?.to_vec();
        let size = self.u8()?;
        let tag = self.limited(size.into(), 64)?.to_vec();
        Some(Content { name, payload, tag })
    }

    fn command(&mut self) -> Option<Command> {
        let size = self.u32()?;
        let mut all = Reader(self.take(size as usize)?);
        let command = match all.array()? {
            [1, 0] => Command::Init {
                digest: all.array()?,
                author: all.array()?,
                content: all.content()?,
            },
            [1, 1] => Command::Basic {
                priority: all.u32()?,
                parent: all.array()?,
                author: all.array()?,
                content: all.content()?,
            },
            [1, 2] => Command::Finalize {
                parent: all.array()?,
                author: all.array()?,
                content: all.content()?,
            },
            [1, 3] => {
                let (left, right) = (all.array()?, all.array()?);
                if left >= right {
                    return None;
                }
                Command::Merge { left, right }
            }
            _ => return None,
        };
        all.0.is_empty().then_some(command)
    }
}

impl Response {
    fn from_bytes(bytes: &[u8]) -> Option<Response> {
        let mut reader = Reader(bytes);
        if reader.array()? != [1, 2] {
            return None;
        }
        let graph = reader.array()?;
        let count = reader.u8().filter(|count| *count <= 32)?;
        let sample = (0..count)
            .map(|_| reader.array())
            .collect::<Option<Vec<Id>>>()?;
        let from = reader.u32()?;
        let more = match reader.u8()? {
            0 => false,
            1 => true,
            _ => return None,
        };
        let count = reader.u8().filter(|count| *count <= 64)?;
        let commands = (0..count)
            .map(|_| reader.command())
            .collect::<Option<Vec<_>>>()?;
        let is_placed = u64::from(from) + u64::from(count) <= 65_536 && (!more || count > 0);
        (is_placed && reader.0.is_empty()).then_some(Response {
            graph,
            sample,
            from,
            more,
            commands,
        })
    }
}

/// The bytes of a response with 64 basic commands.
fn response(payload: usize) -> Vec<u8> {
    let command = [
        &[1, 1, 0, 0, 0, 1][..],
        &[17; 32],
        &[34; 32],
        &[0, 1, b'a'],
        &(payload as u32).to_be_bytes(),
        &vec![7; payload],
        &[0],
    ]
    .concat();
    let counted = [&(command.len() as u32).to_be_bytes()[..], &command].concat();
    [
        &[1, 2][..],
        &[51; 32],
        &[0, 0, 0, 0, 0, 1, 64],
        &counted.repeat(64),
    ]
    .concat()
}

/// Reads a response with 64 commands of this size so many times.
pub fn read_responses(size: usize, rounds: u32) {
    let bytes = response(size - 78);
    let mut sum = 0;
    for _ in 0..rounds {
        let response = Response::from_bytes(black_box(&bytes));
        sum += black_box(&response)
            .as_ref()
            .map_or(0, |response| response.commands.len());
    }
    println!(
        "read {size}: {} bytes, {rounds} rounds, sum {sum}",
        bytes.len()
    );
}
