//! Requests as bytes, and answers out of bytes, for both kinds of server.

use crate::newest::rank;
use crate::options::{Mix, Options, Place};

/// What a request asks.
#[derive(Clone, Copy, Debug, PartialEq, Eq)]
pub enum Kind {
    Put,
    Get,
    Find,
}

pub const KINDS: [Kind; 3] = [Kind::Put, Kind::Get, Kind::Find];

impl Kind {
    pub fn name(self) -> &'static str {
        match self {
            Kind::Put => "put",
            Kind::Get => "get",
            Kind::Find => "find",
        }
    }
}

/// What an answer says.
#[derive(Clone, Copy, Debug, PartialEq, Eq)]
pub enum Outcome {
    Good,
    /// Refused, or ended, by this number.
    Refused(u8),
    Restart,
    /// A Redis server's error.
    Error,
}

/// So many items have a tag together, which fits what a search may find.
const ITEMS_OF_TAG: usize = 8;

/// Requests that are sent together.
#[derive(Default)]
pub struct Batch {
    pub bytes: Vec<u8>,
    /// What each line asks, and whether it is counted: a read before a put is not.
    pub asked: Vec<(Kind, bool)>,
    /// The place of the first key of each line.
    pub firsts: Vec<usize>,
}

/// Draws requests, and encodes them.
pub struct Requests {
    is_redis: bool,
    mix: Mix,
    items: usize,
    reads_first: bool,
    keys: Vec<String>,
    tags: Vec<String>,
    /// Signs from which values are cut.
    signs: String,
    sizes: (usize, usize),
    state: u64,
}

impl Requests {
    pub fn new(options: &Options, mix: Mix, seed: u64) -> Requests {
        let is_redis = matches!(options.place, Place::Redis(..));
        let has_tags = options.mixes.iter().any(|mix| mix.find > 0);
        let tag = |place: usize| if has_tags { format!("t{}", place / ITEMS_OF_TAG) } else { String::new() };
        Requests {
            is_redis,
            mix,
            items: options.items,
            reads_first: options.reads_first,
            keys: (0..options.keys).map(|place| format!("k{place:02}")).collect(),
            tags: (0..options.keys).map(tag).collect(),
            signs: (0..512u32).map(|place| char::from(b'!' + (place * 37 % 94) as u8)).collect(),
            sizes: options.sizes,
            state: seed.wrapping_mul(0x9e37_79b9_7f4a_7c15) ^ 0x5851_f42d_4c95_7f2d,
        }
    }

    fn below(&mut self, most: usize) -> usize {
        self.state = self.state.wrapping_mul(6364136223846793005).wrapping_add(1442695040888963407);
        ((self.state >> 33) % most.max(1) as u64) as usize
    }

    /// Draws a batch of this many requests.
    pub fn batch(&mut self, size: usize) -> Batch {
        let mut batch = Batch::default();
        for _ in 0..size {
            self.draw(&mut batch);
        }
        batch
    }

    fn draw(&mut self, batch: &mut Batch) {
        let Mix { put, get, find } = self.mix;
        let drawn = self.below((put + get + find) as usize) as u32;
        let first = self.below(self.keys.len());
        let bytes = &mut batch.bytes;
        if drawn < put {
            if self.reads_first {
                self.get(bytes, first);
                batch.asked.push((Kind::Get, false));
                batch.firsts.push(first);
            }
            self.put(bytes, first, self.items);
            batch.asked.push((Kind::Put, true));
        } else if drawn < put + get {
            self.get(bytes, first);
            batch.asked.push((Kind::Get, true));
        } else {
            bytes.extend_from_slice(b"find ");
            bytes.extend_from_slice(self.tags[first].as_bytes());
            bytes.push(b'\n');
            batch.asked.push((Kind::Find, true));
        }
        batch.firsts.push(first);
    }

    /// The requests that write each key once.
    pub fn fill(&mut self) -> Vec<Batch> {
        let mut all = Vec::new();
        for first in (0..self.keys.len()).step_by(16) {
            let mut bytes = Vec::new();
            self.put(&mut bytes, first, 16.min(self.keys.len() - first));
            all.push(Batch { bytes, asked: vec![(Kind::Put, true)], firsts: vec![first] });
        }
        all
    }

    fn put(&mut self, bytes: &mut Vec<u8>, first: usize, items: usize) {
        if self.is_redis {
            word(bytes, b'*', 1 + 2 * items);
            text(bytes, b"MSET");
        } else {
            bytes.extend_from_slice(b"put");
        }
        for place in 0..items {
            let (least, most) = self.sizes;
            let size = least + self.below(most - least + 1);
            let from = self.below(self.signs.len() - 128);
            let place = (first + place) % self.keys.len();
            let (key, tag, value) = (&self.keys[place], &self.tags[place], &self.signs[from..from + size]);
            if self.is_redis {
                text(bytes, key.as_bytes());
                text(bytes, value.as_bytes());
                continue;
            }
            bytes.push(b' ');
            bytes.extend_from_slice(key.as_bytes());
            if !tag.is_empty() {
                bytes.push(b'#');
                bytes.extend_from_slice(tag.as_bytes());
            }
            bytes.push(b'=');
            bytes.extend_from_slice(value.as_bytes());
        }
        if !self.is_redis {
            bytes.push(b'\n');
        }
    }

    fn get(&mut self, bytes: &mut Vec<u8>, first: usize) {
        if self.is_redis {
            word(bytes, b'*', 1 + self.items);
            text(bytes, b"MGET");
        } else {
            bytes.extend_from_slice(b"get");
        }
        for place in 0..self.items {
            let key = &self.keys[(first + place) % self.keys.len()];
            if self.is_redis {
                text(bytes, key.as_bytes());
            } else {
                bytes.push(b' ');
                bytes.extend_from_slice(key.as_bytes());
            }
        }
        if !self.is_redis {
            bytes.push(b'\n');
        }
    }
}

/// The head of an array or a string of Redis.
fn word(bytes: &mut Vec<u8>, sign: u8, number: usize) {
    bytes.push(sign);
    bytes.extend_from_slice(number.to_string().as_bytes());
    bytes.extend_from_slice(b"\r\n");
}

fn text(bytes: &mut Vec<u8>, text: &[u8]) {
    word(bytes, b'$', text.len());
    bytes.extend_from_slice(text);
    bytes.extend_from_slice(b"\r\n");
}

/// Decodes answers, line by line.
#[derive(Default)]
pub struct Answers {
    is_redis: bool,
    /// Elements of an array of Redis that are still to come.
    texts: usize,
    is_text: bool,
    /// The stamp of the last put that is done, as `rank` has it.
    pub stamp: u64,
}

impl Answers {
    pub fn new(options: &Options) -> Answers {
        Answers { is_redis: matches!(options.place, Place::Redis(..)), ..Answers::default() }
    }

    /// The answer to a request of this kind, where it ends with this line; it has no LF. The error is the line that is none.
    pub fn take(&mut self, kind: Kind, line: &[u8]) -> Result<Option<Outcome>, String> {
        if self.is_redis {
            return self.take_redis(kind, line);
        }
        let is_good = match kind {
            Kind::Put => line.starts_with(b"done "),
            Kind::Get => line.starts_with(b"read "),
            Kind::Find => line.starts_with(b"list"),
        };
        if is_good {
            if kind == Kind::Put {
                self.stamp = rank(&line[b"done ".len()..]).ok_or_else(|| stray(kind, line))?;
            }
            return Ok(Some(Outcome::Good));
        }
        if line.starts_with(b"restart ") && kind != Kind::Put {
            return Ok(Some(Outcome::Restart));
        }
        let number = line.strip_prefix(b"refused ").or_else(|| line.strip_prefix(b"ended "));
        let number = number.and_then(|number| std::str::from_utf8(number).ok()?.parse().ok());
        number.map(|number| Some(Outcome::Refused(number))).ok_or_else(|| stray(kind, line))
    }

    fn take_redis(&mut self, kind: Kind, line: &[u8]) -> Result<Option<Outcome>, String> {
        if self.is_text {
            self.is_text = false;
        } else if self.texts > 0 {
            self.is_text = !line.starts_with(b"$-");
        } else if line.starts_with(b"-") {
            return Ok(Some(Outcome::Error));
        } else if kind == Kind::Put {
            return if line.starts_with(b"+OK") { Ok(Some(Outcome::Good)) } else { Err(stray(kind, line)) };
        } else {
            let count = line.strip_prefix(b"*").and_then(|count| std::str::from_utf8(count).ok()?.trim_end().parse().ok());
            self.texts = count.filter(|count| *count > 0).ok_or_else(|| stray(kind, line))?;
            return Ok(None);
        }
        if !self.is_text {
            self.texts -= 1;
        }
        Ok(Some(Outcome::Good).filter(|_| self.texts == 0))
    }
}

fn stray(kind: Kind, line: &[u8]) -> String {
    let begin = String::from_utf8_lossy(&line[..line.len().min(64)]).into_owned();
    format!("{begin:?} is no answer to a {}", kind.name())
}

#[cfg(test)]
mod tests {
    use super::*;

    #[test]
    fn an_answer_ends_with_its_last_line() {
        let lines = |is_redis, kind, text: &str| {
            let mut answers = Answers { is_redis, ..Answers::default() };
            text.split('|').map(|line| answers.take(kind, line.as_bytes()).map_err(|_| ())).collect::<Vec<_>>()
        };
        let good = Ok(Some(Outcome::Good));
        for (is_redis, kind, text, wanted) in [
            (
                false,
                Kind::Put,
                "done 1.1|refused 15|ended 16|read x@0.0",
                vec![good, Ok(Some(Outcome::Refused(15))), Ok(Some(Outcome::Refused(16))), Err(())],
            ),
            (false, Kind::Get, "read x@0.0|restart x 1.1|done 1.1", vec![good, Ok(Some(Outcome::Restart)), Err(())]),
            (false, Kind::Find, "list|list x@1.1#t0=", vec![good, good]),
            (true, Kind::Put, "+OK\r|-ERR no\r|*1\r", vec![good, Ok(Some(Outcome::Error)), Err(())]),
            (true, Kind::Get, "*2\r|$1\r|a\r|$-1\r|*1\r|$0\r|\r", vec![Ok(None), Ok(None), Ok(None), good, Ok(None), Ok(None), good]),
        ] {
            assert_eq!(lines(is_redis, kind, text), wanted, "{text}");
        }
    }
}
