//! The block: its check, and changes to its tables in place.

use crate::record::{read_u32, read_u64, write_u32, write_u64, Record, Tag, PLAIN, RECORD};
use crate::{DONE, TABLE_FULL};

pub const LENGTH: usize = HEADER + (MEMORY + TAKEN) * RECORD;
pub const SLIP: usize = 16;
const EDITION: u32 = 2;
const HEADER: usize = 80;
/// The most records of memory.
const MEMORY: usize = 128;
/// The most taken records.
pub const TAKEN: usize = 512;
/// The header and the memory table: all that the intake of a report may change.
const FRONT: usize = HEADER + MEMORY * RECORD;
const ZEROS: [u8; TAKEN * RECORD] = [0; TAKEN * RECORD];

#[derive(Clone, Copy, PartialEq, Eq)]
pub enum Which {
    Memory,
    Taken,
}

impl Which {
    fn kind(self) -> u32 {
        match self {
            Which::Memory => 1,
            Which::Taken => 2,
        }
    }

    fn entry(self) -> usize {
        match self {
            Which::Memory => 8,
            Which::Taken => 24,
        }
    }

    fn total(self) -> usize {
        match self {
            Which::Memory => 56,
            Which::Taken => 64,
        }
    }

    fn offset(self) -> usize {
        match self {
            Which::Memory => HEADER,
            Which::Taken => FRONT,
        }
    }

    /// The most records.
    fn capacity(self) -> usize {
        match self {
            Which::Memory => MEMORY,
            Which::Taken => TAKEN,
        }
    }

    /// All bytes of the table.
    fn bytes(self, block: &[u8]) -> &[u8] {
        &block[self.offset()..][..self.capacity() * RECORD]
    }

    fn bytes_mut(self, block: &mut [u8]) -> &mut [u8] {
        &mut block[self.offset()..][..self.capacity() * RECORD]
    }

    fn allows(self, tag: Tag) -> bool {
        match self {
            Which::Memory => tag.is_legal(),
            Which::Taken => tag == PLAIN,
        }
    }
}

pub fn write_fresh(bytes: &mut [u8]) {
    bytes.fill(0);
    write_u32(bytes, 0, EDITION);
    write_u32(bytes, 4, 2);
    for which in [Which::Memory, Which::Taken] {
        let entry = which.entry();
        write_u32(bytes, entry, which.kind());
        write_u32(bytes, entry + 4, which.offset() as u32);
        write_u32(bytes, entry + 12, which.capacity() as u32);
    }
    write_u64(bytes, 40, u64::MAX);
}

/// The bytes of a good block.
pub struct Block<B>(B);

impl<B: AsRef<[u8]>> Block<B> {
    /// The block, if it is good.
    pub fn check(bytes: B) -> Option<Block<B>> {
        let block = bytes.as_ref();
        let good = block.len() == LENGTH
            && read_u32(block, 0) == EDITION
            && read_u32(block, 4) == 2
            && read_u32(block, 48) <= 1
            && read_u32(block, 52) == 0
            && good_table(block, Which::Memory)
            && good_table(block, Which::Taken);
        good.then_some(Block(bytes))
    }

    fn bytes(&self) -> &[u8] {
        self.0.as_ref()
    }

    pub fn limit(&self) -> u64 {
        read_u64(self.bytes(), 40)
    }

    pub fn direction(&self) -> u32 {
        read_u32(self.bytes(), 48)
    }

    pub fn image_end(&self) -> u64 {
        read_u64(self.bytes(), 72)
    }

    fn count(&self, which: Which) -> usize {
        read_u32(self.bytes(), which.entry() + 8) as usize
    }

    fn total(&self, which: Which) -> u64 {
        read_u64(self.bytes(), which.total())
    }

    /// The records of a table in rising order.
    pub fn records(&self, which: Which) -> impl DoubleEndedIterator<Item = Record> + '_ {
        let used = self.count(which) * RECORD;
        self.bytes()[which.offset()..][..used]
            .chunks_exact(RECORD)
            .map(Record::read)
    }

    /// Whether every address of the range is taken. Taken records never touch, so that
    /// one of them has them all.
    pub fn is_taken(&self, base: u64, size: u64) -> bool {
        let end = base.saturating_add(size);
        let mut from_base = self
            .records(Which::Taken)
            .skip_while(|record| record.end() <= base);
        let has = |record: Record| record.base <= base && end <= record.end();
        base == end || from_base.next().is_some_and(has)
    }
}

impl<B: AsRef<[u8]> + AsMut<[u8]>> Block<B> {
    fn bytes_mut(&mut self) -> &mut [u8] {
        self.0.as_mut()
    }

    pub fn set(&mut self, limit: u64, direction: u32) {
        write_u64(self.bytes_mut(), 40, limit);
        write_u32(self.bytes_mut(), 48, direction);
    }

    pub fn set_image_end(&mut self, end: u64) {
        write_u64(self.bytes_mut(), 72, end);
    }

    /// Gives each address of the range the tag that `new_tag` makes of its old
    /// one, where none means not in the table.
    pub fn change(
        &mut self,
        which: Which,
        base: u64,
        size: u64,
        new_tag: impl Fn(Option<Tag>) -> Option<Tag>,
    ) -> u32 {
        let end = base.saturating_add(size);
        if base == end {
            return DONE;
        }
        // The records that the range meets or touches, and what they become.
        let first = self
            .records(which)
            .take_while(|record| record.end() < base)
            .count();
        let mut met = 0;
        let mut old_size = 0;
        let mut new = Vec::new();
        let mut at = base;
        for record in self.records(which).skip(first) {
            if record.base > end {
                break;
            }
            met += 1;
            old_size += record.size;
            let tag = Some(record.tag);
            push(&mut new, record.base, record.end().min(base), tag);
            push(&mut new, at, record.base.min(end), new_tag(None));
            let (from, to) = (record.base.max(base), record.end().min(end));
            push(&mut new, from, to, new_tag(tag));
            push(&mut new, record.base.max(end), record.end(), tag);
            at = at.max(to);
        }
        push(&mut new, at, end, new_tag(None));

        let count = self.count(which);
        let new_count = count - met + new.len();
        if new_count > which.capacity() {
            return TABLE_FULL;
        }
        let new_size: u64 = new.iter().map(|record| record.size).sum();
        let total = self.total(which) - old_size + new_size;
        let table = which.bytes_mut(self.bytes_mut());
        table.copy_within(
            (first + met) * RECORD..count * RECORD,
            (first + new.len()) * RECORD,
        );
        write_records(&mut table[first * RECORD..], &new);
        if new_count < count {
            table[new_count * RECORD..count * RECORD].fill(0);
        }
        self.write_count_and_total(which, new_count, total);
        DONE
    }

    /// Puts a shortest list of at most the old length in the place of a table.
    pub fn replace(&mut self, which: Which, records: &[Record]) {
        let count = self.count(which);
        let total = records.iter().map(|record| record.size).sum();
        let table = which.bytes_mut(self.bytes_mut());
        write_records(table, records);
        table[records.len() * RECORD..count * RECORD].fill(0);
        self.write_count_and_total(which, records.len(), total);
    }

    /// Rounds each memory record inwards; those of which nothing is left go.
    pub fn trim(&mut self, alignment: u64) {
        let trimmed: Vec<Record> = self
            .records(Which::Memory)
            .filter_map(|record| record.trim(alignment))
            .collect();
        self.replace(Which::Memory, &trimmed);
    }

    /// A copy of all bytes before the taken table, to be put back by `restore`.
    pub fn saved(&self) -> [u8; FRONT] {
        self.bytes()[..FRONT].try_into().expect("a good block")
    }

    pub fn restore(&mut self, saved: &[u8; FRONT]) {
        self.bytes_mut()[..FRONT].copy_from_slice(saved);
    }

    /// A copy of all bytes, to be put back by `restore_whole`.
    pub fn saved_whole(&self) -> [u8; LENGTH] {
        self.bytes().try_into().expect("a good block")
    }

    pub fn restore_whole(&mut self, saved: &[u8; LENGTH]) {
        self.bytes_mut().copy_from_slice(saved);
    }

    fn write_count_and_total(&mut self, which: Which, count: usize, total: u64) {
        write_u32(self.bytes_mut(), which.entry() + 8, count as u32);
        write_u64(self.bytes_mut(), which.total(), total);
    }
}

fn good_table(block: &[u8], which: Which) -> bool {
    let entry = which.entry();
    let count = read_u32(block, entry + 8) as usize;
    if read_u32(block, entry) != which.kind()
        || read_u32(block, entry + 4) as usize != which.offset()
        || read_u32(block, entry + 12) as usize != which.capacity()
        || count > which.capacity()
    {
        return false;
    }
    let (used, unused) = which.bytes(block).split_at(count * RECORD);
    let mut total = 0;
    let mut previous: Option<Record> = None;
    for record in used.chunks_exact(RECORD).map(Record::read) {
        if record.size == 0
            || record.base.checked_add(record.size).is_none()
            || !which.allows(record.tag)
        {
            return false;
        }
        if let Some(previous) = previous {
            let end = previous.end();
            if record.base < end || (record.base == end && record.tag == previous.tag) {
                return false;
            }
        }
        total += record.size;
        previous = Some(record);
    }
    total == read_u64(block, which.total()) && *unused == ZEROS[..unused.len()]
}

fn write_records(bytes: &mut [u8], records: &[Record]) {
    for (bytes, record) in bytes.chunks_exact_mut(RECORD).zip(records) {
        record.write(bytes);
    }
}

/// Appends a range, merged with the last one if they touch with equal tags.
/// An empty range or one without a tag is passed over.
fn push(list: &mut Vec<Record>, base: u64, end: u64, tag: Option<Tag>) {
    let Some(tag) = tag else { return };
    if base >= end {
        return;
    }
    match list.last_mut() {
        Some(last) if last.end() == base && last.tag == tag => last.size += end - base,
        _ => list.push(Record {
            base,
            size: end - base,
            tag,
        }),
    }
}
