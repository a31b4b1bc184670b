//! The cell lines again in plain Rust, std only: what `bench/cell` compares the proved program with.
//!
//! It answers the same lines as `ramp cell`, and proves nothing. `plain_cell lists SLOTS ITEMS` keeps the versions and the
//! items in plain lists that each call scans, `plain_cell maps SLOTS ITEMS` in the maps and sets of std.
use std::collections::{BTreeMap, BTreeSet, HashMap};
use std::io::{self, Read, Write};

const LINE_LIMIT: usize = 4096;
const MOST_KEYS: usize = 16;
const ROOM: usize = 65536;

#[derive(Clone, Copy, PartialEq, Eq, PartialOrd, Ord, Hash)]
struct Text<const N: usize> {
    bytes: [u8; N],
    len: u8,
}

impl<const N: usize> Text<N> {
    fn read(text: &[u8], least: usize, is_allowed: fn(u8) -> bool) -> Option<Self> {
        if text.len() < least || text.len() > N || !text.iter().all(|&byte| is_allowed(byte)) {
            return None;
        }
        let mut bytes = [0; N];
        bytes[..text.len()].copy_from_slice(text);
        Some(Text { bytes, len: text.len() as u8 })
    }

    fn empty() -> Self {
        Text { bytes: [0; N], len: 0 }
    }

    fn as_bytes(&self) -> &[u8] {
        &self.bytes[..usize::from(self.len)]
    }
}

fn is_name_byte(byte: u8) -> bool {
    matches!(byte, b'a'..=b'z' | b'0'..=b'9' | b'_' | b'.' | b'/' | b'-')
}

fn is_visible_byte(byte: u8) -> bool {
    matches!(byte, b'!'..=b'~')
}

// Both have no byte 0, so the order of the padded bytes is the byte order of the texts.
type Key = Text<32>;
type Tag = Text<16>;
type Value = Text<128>;

fn read_key(text: &[u8]) -> Option<Key> {
    Key::read(text, 1, is_name_byte)
}

#[derive(Clone, Copy, PartialEq, Eq, PartialOrd, Ord, Hash)]
struct Stamp {
    counter: u64,
    client: u16,
}

#[derive(Clone, Copy, PartialEq, Eq)]
struct Record {
    key: Key,
    tag: Tag,
    value: Value,
    stamp: Stamp,
    writes: [Key; MOST_KEYS],
    written: u8,
}

struct Version {
    prepared: Record,
    committed: bool,
}

enum PrepareReply {
    Prepared,
    FullSlots,
    FullItems,
    Clash,
}

const NO_STAMP: Stamp = Stamp { counter: 0, client: 0 };

/// What one tenant holds at one partition.
trait Cell {
    fn prepare(&mut self, version: &Record) -> PrepareReply;
    fn commit(&mut self, stamp: Stamp) -> usize;
    fn floor(&self, key: &Key) -> Stamp;
    fn find(&self, key: &Key, stamp: Stamp) -> Option<&Record>;
    fn latest(&self, key: &Key) -> Option<&Record>;
    /// The keys under a tag that is not empty, ascending.
    fn under(&self, tag: &Tag) -> Vec<Key>;
    fn collect(&mut self, keep: usize) -> usize;
}

struct Entry {
    key: Key,
    floor: Stamp,
    tag: Option<Tag>,
}

/// Plain lists.
struct Lists {
    slots: usize,
    items: usize,
    versions: Vec<Version>,
    entries: Vec<Entry>,
}

impl Lists {
    fn open(slots: usize, items: usize) -> Self {
        Lists { slots, items, versions: Vec::with_capacity(slots), entries: Vec::with_capacity(items) }
    }
}

impl Cell for Lists {
    fn prepare(&mut self, version: &Record) -> PrepareReply {
        let entry = self.entries.iter().find(|entry| entry.key == version.key);
        if entry.is_some_and(|entry| version.stamp < entry.floor) {
            return PrepareReply::Prepared;
        }
        let is_known = entry.is_some();
        if let Some(kept) = self.find(&version.key, version.stamp) {
            return if *kept == *version { PrepareReply::Prepared } else { PrepareReply::Clash };
        }
        if !is_known && self.entries.len() == self.items {
            return PrepareReply::FullItems;
        }
        if self.versions.len() == self.slots {
            return PrepareReply::FullSlots;
        }
        if !is_known {
            self.entries.push(Entry { key: version.key, floor: NO_STAMP, tag: None });
        }
        self.versions.push(Version { prepared: *version, committed: false });
        PrepareReply::Prepared
    }

    fn commit(&mut self, stamp: Stamp) -> usize {
        let mut keys = Vec::new();
        for version in self.versions.iter_mut().filter(|version| version.prepared.stamp == stamp) {
            version.committed = true;
            keys.push(version.prepared.key);
        }
        for key in &keys {
            let tag = self.latest(key).map(|latest| latest.tag).filter(|tag| tag.len > 0);
            if let Some(entry) = self.entries.iter_mut().find(|entry| entry.key == *key) {
                entry.tag = tag;
            }
        }
        keys.len()
    }

    fn floor(&self, key: &Key) -> Stamp {
        self.entries.iter().find(|entry| entry.key == *key).map_or(NO_STAMP, |entry| entry.floor)
    }

    fn find(&self, key: &Key, stamp: Stamp) -> Option<&Record> {
        self.versions.iter().map(|version| &version.prepared).find(|record| record.stamp == stamp && record.key == *key)
    }

    fn latest(&self, key: &Key) -> Option<&Record> {
        self.versions
            .iter()
            .filter(|version| version.committed && version.prepared.key == *key)
            .map(|version| &version.prepared)
            .max_by_key(|record| record.stamp)
    }

    fn under(&self, tag: &Tag) -> Vec<Key> {
        let mut keys: Vec<Key> = self.entries.iter().filter(|entry| entry.tag == Some(*tag)).map(|entry| entry.key).collect();
        keys.sort();
        keys
    }

    fn collect(&mut self, keep: usize) -> usize {
        let mut committed: HashMap<Key, Vec<Stamp>> = HashMap::new();
        for version in self.versions.iter().filter(|version| version.committed) {
            committed.entry(version.prepared.key).or_default().push(version.prepared.stamp);
        }
        let mut floors = HashMap::new();
        for entry in &mut self.entries {
            if let Some(stamps) = committed.get_mut(&entry.key) {
                stamps.sort();
                if stamps.len() >= keep {
                    entry.floor = entry.floor.max(stamps[stamps.len() - keep]);
                }
            }
            floors.insert(entry.key, entry.floor);
        }
        let before = self.versions.len();
        self.versions.retain(|version| version.prepared.stamp >= floors[&version.prepared.key]);
        before - self.versions.len()
    }
}

struct Item {
    floor: Stamp,
    latest: Stamp,
    tag: Tag,
    versions: BTreeMap<Stamp, Version>,
}

/// The maps and sets of std.
struct Maps {
    slots: usize,
    most_items: usize,
    kept: usize,
    items: HashMap<Key, Item>,
    keys_at: HashMap<Stamp, Vec<Key>>,
    tagged: BTreeSet<(Tag, Key)>,
}

impl Maps {
    fn open(slots: usize, items: usize) -> Self {
        Maps {
            slots,
            most_items: items,
            kept: 0,
            items: HashMap::with_capacity(items),
            keys_at: HashMap::new(),
            tagged: BTreeSet::new(),
        }
    }
}

impl Cell for Maps {
    fn prepare(&mut self, version: &Record) -> PrepareReply {
        let item = self.items.get(&version.key);
        if item.is_some_and(|item| version.stamp < item.floor) {
            return PrepareReply::Prepared;
        }
        if let Some(kept) = item.and_then(|item| item.versions.get(&version.stamp)) {
            return if kept.prepared == *version { PrepareReply::Prepared } else { PrepareReply::Clash };
        }
        if item.is_none() && self.items.len() == self.most_items {
            return PrepareReply::FullItems;
        }
        if self.kept == self.slots {
            return PrepareReply::FullSlots;
        }
        let none = Tag::empty();
        let fresh = || Item { floor: NO_STAMP, latest: NO_STAMP, tag: none, versions: BTreeMap::new() };
        let item = self.items.entry(version.key).or_insert_with(fresh);
        item.versions.insert(version.stamp, Version { prepared: *version, committed: false });
        self.keys_at.entry(version.stamp).or_default().push(version.key);
        self.kept += 1;
        PrepareReply::Prepared
    }

    fn commit(&mut self, stamp: Stamp) -> usize {
        let Some(keys) = self.keys_at.get(&stamp) else {
            return 0;
        };
        for key in keys {
            let Some(item) = self.items.get_mut(key) else { continue };
            let Some(version) = item.versions.get_mut(&stamp) else { continue };
            version.committed = true;
            if stamp > item.latest {
                item.latest = stamp;
                if item.tag != version.prepared.tag {
                    self.tagged.remove(&(item.tag, *key));
                    item.tag = version.prepared.tag;
                    if item.tag.len > 0 {
                        self.tagged.insert((item.tag, *key));
                    }
                }
            }
        }
        keys.len()
    }

    fn floor(&self, key: &Key) -> Stamp {
        self.items.get(key).map_or(NO_STAMP, |item| item.floor)
    }

    fn find(&self, key: &Key, stamp: Stamp) -> Option<&Record> {
        self.items.get(key)?.versions.get(&stamp).map(|version| &version.prepared)
    }

    fn latest(&self, key: &Key) -> Option<&Record> {
        let item = self.items.get(key)?;
        item.versions.get(&item.latest).map(|version| &version.prepared)
    }

    fn under(&self, tag: &Tag) -> Vec<Key> {
        let first = Key::empty();
        self.tagged.range((*tag, first)..).take_while(|(of, _)| of == tag).map(|(_, key)| *key).collect()
    }

    fn collect(&mut self, keep: usize) -> usize {
        let mut freed = 0;
        for (key, item) in &mut self.items {
            let kth = item.versions.iter().rev().filter(|(_, version)| version.committed).nth(keep - 1);
            item.floor = kth.map_or(item.floor, |(stamp, _)| item.floor.max(*stamp));
            let left = item.versions.split_off(&item.floor);
            for stamp in std::mem::replace(&mut item.versions, left).into_keys() {
                freed += 1;
                let keys = self.keys_at.get_mut(&stamp).expect("each version has its stamp's place");
                keys.retain(|other| other != key);
                if keys.is_empty() {
                    self.keys_at.remove(&stamp);
                }
            }
        }
        self.kept -= freed;
        freed
    }
}

fn read_number(text: &[u8], most: u64) -> Option<u64> {
    if text.is_empty() || (text[0] == b'0' && text.len() > 1) || !text.iter().all(u8::is_ascii_digit) {
        return None;
    }
    std::str::from_utf8(text).ok()?.parse().ok().filter(|&number| number <= most)
}

fn split_first(text: &[u8], byte: u8) -> Option<(&[u8], &[u8])> {
    let at = text.iter().position(|&b| b == byte)?;
    Some((&text[..at], &text[at + 1..]))
}

fn read_stamp(text: &[u8]) -> Option<Stamp> {
    let (counter, client) = split_first(text, b'.')?;
    let counter = read_number(counter, (1 << 40) - 1)?;
    let client = read_number(client, 65535)? as u16;
    ((counter == 0) == (client == 0)).then_some(Stamp { counter, client })
}

fn read_record(text: &[u8], keys: &[u8]) -> Option<Record> {
    let (head, value) = split_first(text, b'=')?;
    let (key, version) = split_first(head, b'@')?;
    let (stamp, tag) = match split_first(version, b'#') {
        Some((stamp, tag)) => (stamp, Text::read(tag, 1, is_name_byte)?),
        None => (version, Text::read(b"", 0, is_name_byte)?),
    };
    let key = read_key(key)?;
    let mut writes = [key; MOST_KEYS];
    let mut written = 0;
    for part in keys.split(|&byte| byte == b',') {
        let next = read_key(part)?;
        if written == MOST_KEYS || (written > 0 && writes[written - 1].as_bytes() >= next.as_bytes()) {
            return None;
        }
        writes[written] = next;
        written += 1;
    }
    let stamp = read_stamp(stamp)?;
    if stamp.counter == 0 || !writes[..written].contains(&key) {
        return None;
    }
    let filler = writes[0];
    writes[written..].fill(filler);
    let value = Text::read(value, 0, is_visible_byte)?;
    Some(Record { key, tag, value, stamp, writes, written: written as u8 })
}

fn put_stamp(out: &mut Vec<u8>, stamp: Stamp) {
    let _ = write!(out, "{}.{}", stamp.counter, stamp.client);
}

fn put_keys(out: &mut Vec<u8>, keys: &[Key]) {
    for key in keys {
        out.push(b' ');
        out.extend_from_slice(key.as_bytes());
    }
}

fn put_version(out: &mut Vec<u8>, record: &Record) {
    out.extend_from_slice(b"version ");
    out.extend_from_slice(record.key.as_bytes());
    out.push(b'@');
    put_stamp(out, record.stamp);
    if record.tag.len > 0 {
        out.push(b'#');
        out.extend_from_slice(record.tag.as_bytes());
    }
    out.push(b'=');
    out.extend_from_slice(record.value.as_bytes());
    out.extend_from_slice(b" writes ");
    for (place, key) in record.writes[..usize::from(record.written)].iter().enumerate() {
        if place > 0 {
            out.push(b',');
        }
        out.extend_from_slice(key.as_bytes());
    }
    out.push(b'\n');
}

fn answer_prepare(cell: &mut impl Cell, words: &[u8], out: &mut Vec<u8>) -> Option<()> {
    let (record, keys) = split_first(words, b' ')?;
    let record = read_record(record, keys)?;
    out.extend_from_slice(match cell.prepare(&record) {
        PrepareReply::Prepared => b"prepared\n",
        PrepareReply::FullSlots => b"refused 15\n",
        PrepareReply::FullItems => b"refused 16\n",
        PrepareReply::Clash => b"refused 20\n",
    });
    Some(())
}

fn answer_commit(cell: &mut impl Cell, words: &[u8], out: &mut Vec<u8>) -> Option<()> {
    let stamp = read_stamp(words).filter(|stamp| stamp.counter > 0)?;
    let _ = writeln!(out, "committed {}", cell.commit(stamp));
    Some(())
}

fn answer_get(cell: &impl Cell, words: &[u8], out: &mut Vec<u8>) -> Option<()> {
    let (key, stamp) = match split_first(words, b' ') {
        Some((key, stamp)) => (read_key(key)?, Some(read_stamp(stamp)?)),
        None => (read_key(words)?, None),
    };
    let floor = cell.floor(&key);
    let (found, missing) = match stamp {
        Some(stamp) if stamp < floor => {
            out.extend_from_slice(b"collected ");
            put_stamp(out, floor);
            out.push(b'\n');
            return Some(());
        }
        Some(stamp) => (cell.find(&key, stamp), b"refused 21\n".as_slice()),
        None => (cell.latest(&key), b"initial\n".as_slice()),
    };
    match found {
        Some(record) => put_version(out, record),
        None => out.extend_from_slice(missing),
    }
    Some(())
}

fn answer_found(cell: &impl Cell, words: &[u8], out: &mut Vec<u8>) -> Option<()> {
    let tag = Text::read(words, 1, is_name_byte)?;
    let keys = cell.under(&tag);
    let _ = write!(out, "found {}", keys.len());
    put_keys(out, &keys[..keys.len().min(MOST_KEYS)]);
    out.push(b'\n');
    Some(())
}

fn answer_collect(cell: &mut impl Cell, words: &[u8], out: &mut Vec<u8>) -> Option<()> {
    let keep = read_number(words, 255).filter(|&keep| keep > 0)?;
    let _ = writeln!(out, "freed {}", cell.collect(keep as usize));
    Some(())
}

fn answer(cell: &mut impl Cell, line: &[u8], out: &mut Vec<u8>) {
    let (command, words) = split_first(line, b' ').unwrap_or((line, b""));
    let answered = match command {
        b"prepare" => answer_prepare(cell, words, out),
        b"commit" => answer_commit(cell, words, out),
        b"get" => answer_get(cell, words, out),
        b"found" => answer_found(cell, words, out),
        b"collect" => answer_collect(cell, words, out),
        _ => None,
    };
    if answered.is_none() {
        out.extend_from_slice(b"refused 40\n");
    }
}

fn serve(mut cell: impl Cell) -> io::Result<()> {
    let (mut reader, mut writer) = (io::stdin().lock(), io::stdout().lock());
    let mut held: Vec<u8> = Vec::with_capacity(LINE_LIMIT);
    let mut out: Vec<u8> = Vec::with_capacity(ROOM + LINE_LIMIT);
    let mut piece = vec![0; ROOM];
    loop {
        let len = reader.read(&mut piece)?;
        if len == 0 {
            return writer.flush();
        }
        let mut rest = &piece[..len];
        while let Some(at) = rest.iter().position(|&byte| byte == b'\n') {
            if held.is_empty() {
                answer(&mut cell, &rest[..at], &mut out);
            } else {
                held.extend_from_slice(&rest[..at]);
                answer(&mut cell, &held, &mut out);
                held.clear();
            }
            rest = &rest[at + 1..];
            if out.len() > ROOM {
                writer.write_all(&out)?;
                out.clear();
            }
        }
        held.extend_from_slice(rest);
        writer.write_all(&out)?;
        out.clear();
    }
}

fn main() -> io::Result<()> {
    let words: Vec<String> = std::env::args().skip(1).collect();
    let [kind, slots, items] = words.as_slice() else {
        panic!("plain_cell lists|maps SLOTS ITEMS");
    };
    let [slots, items] = [slots, items].map(|number| number.parse().expect("a number"));
    match kind.as_str() {
        "lists" => serve(Lists::open(slots, items)),
        "maps" => serve(Maps::open(slots, items)),
        _ => panic!("plain_cell lists|maps SLOTS ITEMS"),
    }
}
