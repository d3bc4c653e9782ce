//! Entries, and how one is read from the array that a line is.
use serde::de::{Deserialize, Deserializer, Error, IgnoredAny, SeqAccess, Visitor};
use std::fmt;

pub type Reply = Option<u64>;

#[derive(Clone, Copy)]
pub enum Op {
    Put(u64, u64),
    Take(u64),
    Get(u64),
    /// Puts a value at a key if the key has what is expected: the key, that, the value.
    PutIf(u64, Option<u64>, u64),
}

#[derive(Clone, Copy)]
pub enum Event {
    Began(u64),
    Asked(Op),
    Did(Reply),
    Saved,
    Leave(Option<u64>),
    Undone,
    Returned(u64),
    Committed(u64),
    // The operation is not asked for.
    Busy(#[allow(dead_code)] Op, u64),
    Aborted,
}

pub struct Entry {
    pub caller: u64,
    pub event: Event,
}

impl Op {
    pub fn key(self) -> u64 {
        let (Op::Put(key, _) | Op::Take(key) | Op::Get(key) | Op::PutIf(key, ..)) = self;
        key
    }

    /// Whether the operation was a change, if this is its reply.
    pub fn changes(self, reply: Reply) -> bool {
        match self {
            Op::Put(..) => true,
            Op::Take(_) => reply.is_some(),
            Op::Get(_) => false,
            Op::PutIf(_, expected, _) => reply == expected,
        }
    }

    /// The value of the key after the operation, if this is its reply.
    pub fn leaves(self, reply: Reply) -> Reply {
        match self {
            Op::Put(_, value) => Some(value),
            Op::Take(_) => None,
            Op::PutIf(_, expected, value) if reply == expected => Some(value),
            Op::Get(_) | Op::PutIf(..) => reply,
        }
    }
}

/// The elements of an array.
struct Elements<A>(A);

impl<'de, A: SeqAccess<'de>> Elements<A> {
    fn next<T: Deserialize<'de>>(&mut self) -> Result<T, A::Error> {
        let element = self.0.next_element()?;
        element.ok_or_else(|| Error::custom("an element is missing"))
    }

    fn op(&mut self) -> Result<Op, A::Error> {
        Ok(match self.next::<&str>()? {
            "put" => Op::Put(self.next()?, self.next()?),
            "take" => Op::Take(self.next()?),
            "get" => Op::Get(self.next()?),
            "put_if" => Op::PutIf(self.next()?, self.next()?, self.next()?),
            _ => return Err(Error::custom("no such operation")),
        })
    }

    fn event(&mut self, name: &str) -> Result<Event, A::Error> {
        Ok(match name {
            "began" => Event::Began(self.next()?),
            "asked" => Event::Asked(self.op()?),
            "did" => Event::Did(self.next()?),
            "saved" => Event::Saved,
            "leave" => Event::Leave(self.next()?),
            "undone" => Event::Undone,
            "returned" => Event::Returned(self.next()?),
            "committed" => Event::Committed(self.next()?),
            "busy" => Event::Busy(self.op()?, self.next()?),
            "aborted" => Event::Aborted,
            _ => return Err(Error::custom("no such entry")),
        })
    }
}

struct Pieces;

impl<'de> Visitor<'de> for Pieces {
    type Value = Entry;

    fn expecting(&self, f: &mut fmt::Formatter) -> fmt::Result {
        f.write_str("an array")
    }

    fn visit_seq<A: SeqAccess<'de>>(self, elements: A) -> Result<Entry, A::Error> {
        let mut elements = Elements(elements);
        let name = elements.next::<&str>()?;
        let caller = elements.next()?;
        let event = elements.event(name)?;
        match elements.0.next_element::<IgnoredAny>()? {
            None => Ok(Entry { caller, event }),
            Some(_) => Err(Error::custom("an element too many")),
        }
    }
}

impl<'de> Deserialize<'de> for Entry {
    fn deserialize<D: Deserializer<'de>>(deserializer: D) -> Result<Entry, D::Error> {
        deserializer.deserialize_seq(Pieces)
    }
}
