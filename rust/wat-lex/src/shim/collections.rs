//! Maps.
use crate::shim::alloc::{AllocError, Global};
use crate::shim::string::String;
use crate::shim::vec::Vec;
use core::borrow::Borrow;
use core::ops::{Deref, Range};

/// A key of a map. An integer of 8 of its bytes, a lead, distinguishes most keys without comparing them in full.
pub trait Key: Ord {
    /// Returns the length in bytes of the longest common prefix of two keys.
    fn shared(&self, other: &Self) -> usize;

    /// Returns `true` if two keys have a common prefix of `count` bytes.
    fn agrees(&self, other: &Self, count: usize) -> bool;

    /// Returns the first 8 bytes as a big-endian integer, padded with zeros after the key's end. If `a <= b`, then `a.head() <= b.head()`.
    fn head(&self) -> u64;

    /// Returns the 8 bytes after the first `skip` as a big-endian integer. `head` must be the key's head. If `a <= b` and both agree on the first
    /// `skip` bytes, then the lead of `a` is at most that of `b`.
    fn lead(&self, head: u64, skip: usize) -> u64;

    /// Returns `true` if two keys are equal. They must agree on the first `skip` bytes and on the 8 bytes after these.
    fn is(&self, other: &Self, skip: usize) -> bool;
}

impl Key for [u8] {
    fn shared(&self, other: &[u8]) -> usize {
        self.iter().zip(other).take_while(|(a, b)| a == b).count()
    }

    #[inline]
    fn agrees(&self, other: &[u8], count: usize) -> bool {
        matches!((self.get(..count), other.get(..count)), (Some(a), Some(b)) if a == b)
    }

    #[inline]
    fn head(&self) -> u64 {
        if let Some(bytes) = self.first_chunk() {
            return u64::from_be_bytes(*bytes);
        }
        if let (Some(first), Some(last)) = (self.first_chunk(), self.last_chunk()) {
            let (first, last) = (u32::from_be_bytes(*first), u32::from_be_bytes(*last));
            return u64::from(first) << 32 | u64::from(last) << (64 - 8 * self.len());
        }
        let after = |number, byte: &u8| number >> 8 | u64::from(*byte) << 56;
        self.iter().rev().fold(0, after)
    }

    #[inline]
    fn lead(&self, head: u64, skip: usize) -> u64 {
        let begin = skip.min(self.len().saturating_sub(8));
        let number = match self[begin..].first_chunk() {
            Some(bytes) => u64::from_be_bytes(*bytes),
            None => head,
        };
        match skip - begin {
            before @ 0..8 => number << (8 * before),
            _ => 0,
        }
    }

    #[inline]
    fn is(&self, other: &[u8], skip: usize) -> bool {
        let end = skip + 8;
        self.len() == other.len() && (self.len() <= end || self[end..] == other[end..])
    }
}

/// Implements `Key` for types that are ordered by their bytes.
macro_rules! by_bytes {
    ($($key:ty: $bytes:ident)*) => {$(
        impl Key for $key {
            fn shared(&self, other: &$key) -> usize {
                self.$bytes().shared(other.$bytes())
            }

            #[inline]
            fn agrees(&self, other: &$key, count: usize) -> bool {
                self.$bytes().agrees(other.$bytes(), count)
            }

            #[inline]
            fn head(&self) -> u64 {
                self.$bytes().head()
            }

            #[inline]
            fn lead(&self, head: u64, skip: usize) -> u64 {
                self.$bytes().lead(head, skip)
            }

            #[inline]
            fn is(&self, other: &$key, skip: usize) -> bool {
                self.$bytes().is(other.$bytes(), skip)
            }
        }
    )*};
}

by_bytes! { str: as_bytes &str: as_bytes String: as_bytes Vec<u8>: as_slice &[u8]: deref }

impl Key for u64 {
    fn shared(&self, _: &u64) -> usize {
        0
    }

    fn agrees(&self, _: &u64, count: usize) -> bool {
        count == 0
    }

    fn head(&self) -> u64 {
        *self
    }

    fn lead(&self, head: u64, _: usize) -> u64 {
        head
    }

    fn is(&self, other: &u64, _: usize) -> bool {
        self == other
    }
}

/// The leads of sorted keys, which are searched before the keys.
#[derive(Debug)]
struct Leads {
    /// Length in bytes of the common prefix of all keys.
    skip: usize,
    /// Head of one of the keys.
    head: u64,
    /// The lead of each key, after the common prefix.
    numbers: Vec<u64>,
}

impl Leads {
    const fn new(numbers: Vec<u64>) -> Leads {
        Leads {
            skip: 0,
            head: 0,
            numbers,
        }
    }

    /// Returns the lead of a key with this head. If the key does not have the common prefix, returns its index before or after all keys, by comparing
    /// it with the first key.
    #[inline(always)]
    fn lead<'k, Q: Key + ?Sized + 'k>(
        &self,
        key: &Q,
        head: u64,
        first: impl Fn() -> &'k Q,
    ) -> Result<u64, usize> {
        // Padding of a short key may match bytes of the prefix. All keys are then after the short key, and none has a smaller lead.
        let same = (self.head ^ head).leading_zeros() as usize / 8;
        if same >= self.skip || same == 8 && first().agrees(key, self.skip) {
            return Ok(key.lead(head, self.skip));
        }
        Err(if key < first() { 0 } else { self.numbers.len() })
    }

    /// Records the leads of all keys. `skip` must be the length of their common prefix.
    fn note<'k, K: Key + 'k>(&mut self, skip: usize, keys: impl Iterator<Item = &'k K>) {
        self.skip = skip;
        for (key, number) in keys.zip(self.numbers.iter_mut()) {
            self.head = key.head();
            *number = key.lead(self.head, skip);
        }
    }
}

/// The maximum number of pairs that are searched linearly, without leads.
const FEW: usize = 8;

/// The maximum number of pairs of a part.
const MOST: usize = 512;

/// A run of pairs that are sorted by key.
#[derive(Debug)]
struct Part<K, V> {
    pairs: Vec<(K, V)>,
    /// Leads of the keys, which are empty if there are at most `FEW` pairs.
    leads: Leads,
}

impl<K: Key, V> Part<K, V> {
    const fn new(alloc: Global) -> Part<K, V> {
        Part {
            pairs: Vec::new(alloc),
            leads: Leads::new(Vec::new(alloc)),
        }
    }

    fn first<Q: ?Sized>(&self) -> &Q
    where
        K: Borrow<Q>,
    {
        self.pairs[0].0.borrow()
    }

    /// Returns the index of a key with this head, or the index at which to insert it.
    #[inline(always)]
    fn place<Q: Key + ?Sized>(&self, key: &Q, head: u64) -> Result<usize, usize>
    where
        K: Borrow<Q>,
    {
        if self.has_few() {
            return self.place_of_few(key);
        }
        let lead = self.leads.lead(key, head, || self.first())?;
        let place = self.leads.numbers.partition_point(|number| *number < lead);
        match (self.leads.numbers.get(place), self.pairs.get(place)) {
            (Some(number), Some((k, _))) if *number == lead => {
                if k.borrow().is(key, self.leads.skip) {
                    return Ok(place);
                }
                let same = self.leads.numbers[place..].partition_point(|number| *number == lead);
                self.search(key, place..place + same)
            }
            _ => Err(place),
        }
    }

    /// Returns `true` if the part has at most `FEW` pairs.
    #[inline(always)]
    fn has_few(&self) -> bool {
        self.leads.numbers.is_empty()
    }

    /// Returns the index of a key, or the index at which to insert it, if there are few pairs.
    #[inline(always)]
    fn place_of_few<Q: Key + ?Sized>(&self, key: &Q) -> Result<usize, usize>
    where
        K: Borrow<Q>,
    {
        if self.pairs.is_empty() {
            return Err(0);
        }
        // Equality rejects strings of other lengths at once.
        let found = self.pairs.iter().position(|(k, _)| k.borrow() == key);
        found.map_or_else(|| self.search(key, 0..self.pairs.len()), Ok)
    }

    /// Returns the index of a key, or the index at which to insert it, by a binary search in a range of indices.
    #[inline(never)]
    fn search<Q: Key + ?Sized>(&self, key: &Q, places: Range<usize>) -> Result<usize, usize>
    where
        K: Borrow<Q>,
    {
        let begin = places.start;
        let found = self.pairs[places].binary_search_by(|(k, _)| k.borrow().cmp(key));
        found.map_or_else(|place| Err(begin + place), |place| Ok(begin + place))
    }

    /// Inserts a pair at an index.
    fn insert(&mut self, place: usize, key: K, value: V) -> Result<(), AllocError> {
        self.pairs.reserve(1)?;
        let Leads { skip, numbers, .. } = &mut self.leads;
        let were_few = numbers.is_empty();
        if !were_few {
            numbers.insert(place, key.lead(key.head(), *skip))?;
        } else if self.pairs.len() == FEW {
            numbers.extend_from_slice(&[0; FEW + 1])?;
        }
        self.pairs.insert(place, (key, value))?;
        if were_few && self.pairs.len() > FEW || !self.agrees() {
            self.note();
        }
        Ok(())
    }

    /// Returns `true` if the keys have the recorded common prefix.
    fn agrees(&self) -> bool {
        match self.pairs.as_slice() {
            [(first, _), .., (last, _)] => first.agrees(last, self.leads.skip),
            _ => true,
        }
    }

    /// Records the leads of the keys.
    fn note(&mut self) {
        if let [(first, _), .., (last, _)] = self.pairs.as_slice() {
            let keys = self.pairs.iter().map(|(key, _)| key);
            self.leads.note(first.shared(last), keys);
        }
    }

    /// Keeps the first `kept` pairs and moves the others to a new part.
    fn split(&mut self, kept: usize) -> Result<Part<K, V>, AllocError> {
        let mut after = Part {
            pairs: Vec::with_capacity(Global, MOST)?,
            leads: Leads::new(Vec::with_capacity(Global, MOST)?),
        };
        while self.pairs.len() > kept {
            let Some(pair) = self.pairs.pop() else { break };
            after.pairs.push(pair)?;
        }
        after.pairs.reverse();
        let numbers = &self.leads.numbers[kept..];
        after.leads.numbers.extend_from_slice(numbers)?;
        self.leads.numbers.truncate(kept);
        self.note();
        after.note();
        Ok(after)
    }

    fn remove(&mut self, place: usize) -> V {
        if !self.leads.numbers.is_empty() {
            self.leads.numbers.remove(place);
        }
        self.pairs.remove(place).1
    }
}

/// A map that is sorted by key. Its methods return an error if an allocation fails, and leave the map unchanged then.
// Rust's `BTreeMap` cannot return an allocation failure. Here the pairs are in a sequence of sorted parts; inserting or removing a pair moves those
// after it in its part.
#[derive(Debug)]
pub struct BTreeMap<K, V> {
    first: Part<K, V>,
    /// The parts after `first`, each non-empty.
    more: Vec<Part<K, V>>,
    /// Leads of the first keys of `more`.
    firsts: Leads,
}

impl<K: Key, V> BTreeMap<K, V> {
    /// Creates an empty map, without an allocation.
    pub const fn new(alloc: Global) -> BTreeMap<K, V> {
        BTreeMap {
            first: Part::new(alloc),
            more: Vec::new(alloc),
            firsts: Leads::new(Vec::new(alloc)),
        }
    }

    /// Returns the number of pairs.
    pub fn len(&self) -> usize {
        self.first.pairs.len() + self.more.iter().map(|part| part.pairs.len()).sum::<usize>()
    }

    /// Returns `true` if the map is empty.
    pub fn is_empty(&self) -> bool {
        self.first.pairs.is_empty() && self.more.is_empty()
    }

    /// Returns an iterator over the keys in ascending order.
    pub fn keys(&self) -> impl Iterator<Item = &K> {
        let more = self.more.iter().flat_map(|part| part.pairs.iter());
        self.first.pairs.iter().chain(more).map(|(key, _)| key)
    }

    /// Returns the last of the first `begun` parts of `more`, or `first` if `begun` is 0.
    #[inline]
    fn part(&self, begun: usize) -> &Part<K, V> {
        self.more.get(begun.wrapping_sub(1)).unwrap_or(&self.first)
    }

    fn part_mut(&mut self, begun: usize) -> &mut Part<K, V> {
        let part = self.more.get_mut(begun.wrapping_sub(1));
        part.unwrap_or(&mut self.first)
    }

    /// Returns the number of parts of `more` whose first key is at most `key`. The last of these parts may begin with a greater key that has the same
    /// lead.
    #[inline(always)]
    fn begun<Q: Key + ?Sized>(&self, key: &Q, head: u64) -> usize
    where
        K: Borrow<Q>,
    {
        if self.more.is_empty() {
            return 0;
        }
        let numbers = &self.firsts.numbers;
        match self.firsts.lead(key, head, || self.more[0].first()) {
            Ok(lead) => {
                let begun = numbers.partition_point(|number| *number <= lead);
                if numbers[begun.saturating_sub(2)] == lead {
                    return self.begun_among(key, lead);
                }
                begun
            }
            Err(place) => place,
        }
    }

    /// Returns the number of parts of `more` whose first key is at most `key`, if some first keys have the same lead as `key`.
    #[cold]
    fn begun_among<Q: Key + ?Sized>(&self, key: &Q, lead: u64) -> usize
    where
        K: Borrow<Q>,
    {
        let begin = self.firsts.numbers.partition_point(|number| *number < lead);
        let end = self
            .firsts
            .numbers
            .partition_point(|number| *number <= lead);
        let same = &self.more[begin..end];
        begin + same.partition_point(|part| part.first() <= key)
    }

    /// Returns the position of a key, or the position at which to insert it: the number of parts of `more` up to the key's part, and the index in
    /// that part.
    #[inline(always)]
    fn find<Q: Key + ?Sized>(&self, key: &Q) -> (usize, Result<usize, usize>)
    where
        K: Borrow<Q>,
    {
        // The head of a key is not needed then.
        if self.more.is_empty() && self.first.has_few() {
            return (0, self.first.place_of_few(key));
        }
        let head = key.head();
        let begun = self.begun(key, head);
        match self.part(begun).place(key, head) {
            Ok(place) => (begun, Ok(place)),
            Err(place) => self.miss(key, begun, place),
        }
    }

    /// Returns the position of a key that is not in the part at `begun`, in which it would have the index `place`. If that index is 0, the key may be
    /// in the part before it.
    fn miss<Q: Key + ?Sized>(
        &self,
        key: &Q,
        begun: usize,
        place: usize,
    ) -> (usize, Result<usize, usize>)
    where
        K: Borrow<Q>,
    {
        if begun == 0 || place > 0 {
            return (begun, Err(place));
        }
        (begun - 1, self.part(begun - 1).place(key, key.head()))
    }

    /// Returns the value of a key.
    pub fn get<Q: Key + ?Sized>(&self, key: &Q) -> Option<&V>
    where
        K: Borrow<Q>,
    {
        let (begun, found) = self.find(key);
        Some(&self.part(begun).pairs[found.ok()?].1)
    }

    /// Returns a mutable reference to the value of a key.
    pub fn get_mut<Q: Key + ?Sized>(&mut self, key: &Q) -> Option<&mut V>
    where
        K: Borrow<Q>,
    {
        let (begun, found) = self.find(key);
        Some(&mut self.part_mut(begun).pairs[found.ok()?].1)
    }

    /// Sets the value of a key and returns the previous value.
    pub fn insert(&mut self, key: K, value: V) -> Result<Option<V>, AllocError> {
        let (begun, found) = self.find(&key);
        let part = self.part_mut(begun);
        match found {
            Ok(place) => Ok(Some(core::mem::replace(&mut part.pairs[place].1, value))),
            Err(place) if part.pairs.len() < MOST => {
                part.insert(place, key, value)?;
                Ok(None)
            }
            // If keys are inserted in ascending order, the pairs before this one are more than half of the part's capacity, and are kept. Such
            // insertions leave parts that are three quarters full.
            Err(place) => {
                self.split(begun, place.clamp(MOST / 4, MOST - MOST / 4))?;
                self.insert(key, value)
            }
        }
    }

    /// Keeps the first `kept` pairs of a full part and moves the others to a new part after it.
    fn split(&mut self, begun: usize, kept: usize) -> Result<(), AllocError> {
        self.more.reserve(1)?;
        self.firsts.numbers.reserve(1)?;
        let after = self.part_mut(begun).split(kept)?;
        self.more.insert(begun, after)?;
        self.firsts.numbers.insert(begun, 0)?;
        self.note(begun);
        Ok(())
    }

    /// Records the lead of the first key of a part of `more`.
    fn note(&mut self, place: usize) {
        let skip = match self.more.as_slice() {
            [first, .., last] => first.first::<K>().shared(last.first()),
            _ => 0,
        };
        if skip == self.firsts.skip {
            let key: &K = self.more[place].first();
            self.firsts.numbers[place] = key.lead(key.head(), skip);
        } else {
            self.firsts
                .note(skip, self.more.iter().map(Part::first::<K>));
        }
    }

    /// Removes a key and returns its value.
    pub fn remove<Q: Key + ?Sized>(&mut self, key: &Q) -> Option<V>
    where
        K: Borrow<Q>,
    {
        let (begun, found) = self.find(key);
        let place = found.ok()?;
        let part = self.part_mut(begun);
        let value = part.remove(place);
        let is_empty = part.pairs.is_empty();
        if begun > 0 && is_empty {
            self.more.remove(begun - 1);
            self.firsts.numbers.remove(begun - 1);
        } else if begun > 0 && place == 0 {
            self.note(begun - 1);
        }
        Some(value)
    }
}
