//! What is lent to a call: tables with guard words around them, each with the one rule that says
//! how long it has to be, what an empty word of it is, and how it is printed. What is done with a
//! table whatever its words are (compared, lengthened, emptied, printed) is written here once.

use crate::geometry::Geometry;
use std::any::Any;
use std::fmt::{Display, LowerHex};
use std::ops::{BitXor, Deref, DerefMut, Range, Shl};

/// Guard words on either side of what is lent: as many as the longest row has, so that a write to a
/// row too many shows.
const GUARDS: usize = 64;

pub trait Word:
    Copy
    + PartialEq
    + Display
    + LowerHex
    + Into<u64>
    + From<u8>
    + BitXor<Output = Self>
    + Shl<u32, Output = Self>
    + 'static
{
    const GUARD: Self;
}

impl Word for u32 {
    const GUARD: u32 = 0xa5c3_1e87;
}

impl Word for u64 {
    const GUARD: u64 = 0x5ac3_e178_9d2b_46f0;
}

/// What a word is: one number, or bits that each stand for something.
#[derive(PartialEq)]
pub enum Content {
    Number,
    Bits,
}

/// All that is said of a table.
pub struct Rule<T: 'static> {
    pub name: &'static str,
    /// What stands before the place of one of its words.
    pub word: &'static str,
    /// What its length is a number of.
    pub unit: &'static str,
    pub length: fn(&Geometry) -> usize,
    pub empty: T,
    pub content: Content,
    /// More on where a word lies, of tables of the right length.
    pub place: fn(&Geometry, usize) -> String,
}

impl<T: Word> Rule<T> {
    /// The table of this rule that holds these words.
    pub fn table(&'static self, words: &[T]) -> Table<T> {
        let mut guarded = vec![T::GUARD; words.len() + 2 * GUARDS];
        guarded[GUARDS..GUARDS + words.len()].copy_from_slice(words);
        Table {
            rule: self,
            guarded,
        }
    }
}

/// A table that shows when somebody wrote before or after it. As a slice it is its words alone.
#[derive(Clone)]
pub struct Table<T: 'static> {
    rule: &'static Rule<T>,
    guarded: Vec<T>,
}

impl<T> Deref for Table<T> {
    type Target = [T];

    fn deref(&self) -> &[T] {
        &self.guarded[GUARDS..self.guarded.len() - GUARDS]
    }
}

impl<T> DerefMut for Table<T> {
    fn deref_mut(&mut self) -> &mut [T] {
        let end = self.guarded.len() - GUARDS;
        &mut self.guarded[GUARDS..end]
    }
}

impl<T: Word> Table<T> {
    fn text(&self, word: T) -> String {
        match self.rule.content {
            Content::Number => format!("{word}"),
            Content::Bits => format!("{word:#x}"),
        }
    }
}

/// A table of any words.
pub trait Lent: Any {
    fn name(&self) -> &'static str;
    fn length(&self) -> usize;
    /// The length that a valid geometry asks for.
    fn right_length(&self, g: &Geometry) -> usize;
    fn fits(&self, g: &Geometry) -> bool {
        self.length() == self.right_length(g)
    }
    /// Words that are added are empty.
    fn resize(&mut self, length: usize);
    fn guards_hold(&self) -> Result<(), String>;
    /// Says in which word it first differs from the right one, a table of the same rule.
    fn compare(&self, g: &Geometry, right: &dyn Lent) -> Result<(), String>;
    fn is_empty(&self, run: Range<usize>) -> bool;
    fn empty(&mut self, run: Range<usize>);
    /// The bits of a word that are 1, if its bits stand for something.
    fn bits(&self, word: usize) -> Vec<u32>;
    fn flip(&mut self, word: usize, bit: u32);
    /// Its length in words.
    fn length_text(&self) -> String;
    /// Every word that is not empty.
    fn words_text(&self) -> Vec<String>;
}

impl<T: Word> Lent for Table<T> {
    fn name(&self) -> &'static str {
        self.rule.name
    }

    fn length(&self) -> usize {
        self.len()
    }

    fn right_length(&self, g: &Geometry) -> usize {
        (self.rule.length)(g)
    }

    fn resize(&mut self, length: usize) {
        let mut words = self.to_vec();
        words.resize(length, self.rule.empty);
        *self = self.rule.table(&words);
    }

    fn guards_hold(&self) -> Result<(), String> {
        let (before, rest) = self.guarded.split_at(GUARDS);
        let (_, after) = rest.split_at(rest.len() - GUARDS);
        for (side, guards) in [("before", before), ("after", after)] {
            if guards.iter().any(|&word| word != T::GUARD) {
                let name = self.rule.name;
                return Err(format!("a guard word {side} the {name} was written"));
            }
        }
        Ok(())
    }

    fn compare(&self, g: &Geometry, right: &dyn Lent) -> Result<(), String> {
        let right: &dyn Any = right;
        let right = right.downcast_ref::<Table<T>>();
        let (given, right): (&[T], &[T]) = (self, right.expect("a table of the same rule"));
        assert_eq!(given.len(), right.len(), "a table never changes its length");
        if given == right {
            return Ok(());
        }
        let differs = (0..given.len()).find(|&i| given[i] != right[i]);
        let i = differs.expect("they are not equal");
        let (word, place) = (self.rule.word, (self.rule.place)(g, i));
        let (given, right) = (self.text(given[i]), self.text(right[i]));
        Err(format!("{word} {i}{place} is {given}; right is {right}"))
    }

    fn is_empty(&self, run: Range<usize>) -> bool {
        self[run].iter().all(|&word| word == self.rule.empty)
    }

    fn empty(&mut self, run: Range<usize>) {
        let empty = self.rule.empty;
        self[run].fill(empty);
    }

    fn bits(&self, word: usize) -> Vec<u32> {
        let bits: u64 = self[word].into();
        let is_one = |&bit: &u32| self.rule.content == Content::Bits && bits >> bit & 1 == 1;
        (0..64).filter(is_one).collect()
    }

    fn flip(&mut self, word: usize, bit: u32) {
        self[word] = self[word] ^ (T::from(1) << bit);
    }

    fn length_text(&self) -> String {
        format!("{} of {} {}", self.rule.name, self.len(), self.rule.unit)
    }

    fn words_text(&self) -> Vec<String> {
        let words = self.iter().enumerate();
        let held = words.filter(|(_, &word)| word != self.rule.empty);
        held.map(|(i, &word)| format!("{} {i} is {}", self.rule.word, self.text(word)))
            .collect()
    }
}

/// The tables that are lent to every call of a family.
pub trait AnyTables: Clone {
    fn all(&self) -> Vec<&dyn Lent>;
    fn all_mut(&mut self) -> Vec<&mut dyn Lent>;

    fn fit(&self, g: &Geometry) -> bool {
        self.all().iter().all(|table| table.fits(g))
    }

    fn guards_hold(&self) -> Result<(), String> {
        self.all().iter().try_for_each(|table| table.guards_hold())
    }

    fn compare(&self, g: &Geometry, right: &Self) -> Result<(), String> {
        let mut pairs = self.all().into_iter().zip(right.all());
        pairs.try_for_each(|(given, right)| given.compare(g, right))
    }
}
