//! Writes a history with an entry a line, as `judge watch` reads it: 64 callers, each in a transaction of one to eight
//! operations, whose entries are interleaved. Half of the operations are puts. One transaction in 30 saves and goes
//! back. One in ten is given up, and so is each that finds a lock held. It is legal by 4,096 locks, and so by the order
//! of commits too.
//!
//! Usage: entries ENTRIES KEYS
use std::env;
use std::io::{self, BufWriter, Write};

const CALLERS: usize = 64;
const STRIPES: usize = 4096;

/// Random words, by xorshift.
struct Random(u64);

impl Random {
    fn word(&mut self) -> u64 {
        self.0 ^= self.0 << 13;
        self.0 ^= self.0 >> 7;
        self.0 ^= self.0 << 17;
        self.0
    }

    fn below(&mut self, end: u64) -> u64 {
        self.word() % end
    }
}

#[derive(Clone, Copy)]
enum Op {
    Put(usize, u64),
    Take(usize),
    Get(usize),
    PutIf(usize, Option<u64>, u64),
}

impl Op {
    fn key(self) -> usize {
        let (Op::Put(key, _) | Op::Take(key) | Op::Get(key) | Op::PutIf(key, ..)) = self;
        key
    }
}

/// The next stage of a caller.
#[derive(Clone, Copy, Default)]
enum Next {
    #[default]
    Begin,
    Ask,
    Answer(Op),
    BackTo(usize),
    End,
}

#[derive(Default)]
struct Caller {
    next: Next,
    // How many operations are left.
    left: u64,
    // Of each change that stands its key and the value before it.
    changes: Vec<(usize, Option<u64>)>,
    // How many changes stood at its savepoint.
    saved: Option<usize>,
    held: Vec<usize>,
}

struct Store {
    random: Random,
    began: u64,
    committed: u64,
    map: Vec<Option<u64>>,
    holders: Vec<Option<usize>>,
    callers: Vec<Caller>,
}

fn or_null(value: Option<u64>) -> String {
    value.map_or("null".into(), |value| value.to_string())
}

fn text_of(op: Op) -> String {
    match op {
        Op::Put(key, value) => format!(r#""put",{key},{value}"#),
        Op::Take(key) => format!(r#""take",{key}"#),
        Op::Get(key) => format!(r#""get",{key}"#),
        Op::PutIf(key, expected, value) => {
            format!(r#""put_if",{key},{},{value}"#, or_null(expected))
        }
    }
}

impl Store {
    fn draw_op(&mut self) -> Op {
        let key = self.random.below(self.map.len() as u64) as usize;
        let value = self.random.below(1_000_000_000);
        match self.random.below(16) {
            0..8 => Op::Put(key, value),
            8..10 => Op::Take(key),
            10..15 => Op::Get(key),
            _ => Op::PutIf(key, self.map[key].filter(|value| value % 4 > 0), value),
        }
    }

    /// Does an operation. The answer is the value that the key had.
    fn operate(&mut self, caller: usize, op: Op) -> Option<u64> {
        let place = &mut self.map[op.key()];
        let before = *place;
        let after = match op {
            Op::Put(_, value) => Some(value),
            Op::Take(_) => None,
            Op::Get(_) => return before,
            Op::PutIf(_, expected, value) if before == expected => Some(value),
            Op::PutIf(..) => return before,
        };
        *place = after;
        if before.is_some() || after.is_some() {
            self.callers[caller].changes.push((op.key(), before));
        }
        before
    }

    /// Takes the newest change back, if one stands above this many.
    fn take_back(&mut self, caller: usize, kept: usize) -> bool {
        let changes = &mut self.callers[caller].changes;
        if changes.len() <= kept {
            return false;
        }
        if let Some((key, before)) = changes.pop() {
            self.map[key] = before;
        }
        true
    }

    fn close(&mut self, caller: usize) {
        for stripe in self.callers[caller].held.drain(..) {
            self.holders[stripe] = None;
        }
        self.callers[caller] = Caller::default();
    }

    /// Asks for an operation, which is answered next, or finds its lock held.
    fn ask(&mut self, caller: usize) -> String {
        let op = self.draw_op();
        let stripe = op.key() % STRIPES;
        match self.holders[stripe] {
            Some(holder) if holder != caller => {
                self.callers[caller].next = Next::End;
                return format!(r#"["busy",{caller},{},{holder}]"#, text_of(op));
            }
            Some(_) => {}
            None => {
                self.holders[stripe] = Some(caller);
                self.callers[caller].held.push(stripe);
            }
        }
        self.callers[caller].next = Next::Answer(op);
        format!(r#"["asked",{caller},{}]"#, text_of(op))
    }

    /// The next entry of an open transaction.
    fn go_on(&mut self, caller: usize) -> String {
        if self.callers[caller].left > 0 {
            self.callers[caller].left -= 1;
            if self.callers[caller].saved.is_some() || self.random.below(128) > 0 {
                return self.ask(caller);
            }
            self.callers[caller].saved = Some(self.callers[caller].changes.len());
            return format!(r#"["saved",{caller}]"#);
        }
        if let Some(kept) = self.callers[caller].saved.take() {
            self.callers[caller].next = Next::BackTo(kept);
            return format!(r#"["leave",{caller},1]"#);
        }
        if self.random.below(10) == 0 {
            self.callers[caller].next = Next::End;
            return format!(r#"["leave",{caller},null]"#);
        }
        self.committed += 1;
        self.close(caller);
        format!(r#"["committed",{caller},{}]"#, self.committed)
    }

    /// The next entry of a caller.
    fn entry(&mut self, caller: usize) -> String {
        match self.callers[caller].next {
            Next::Begin => {
                self.began += 1;
                self.callers[caller].next = Next::Ask;
                self.callers[caller].left = 1 + self.random.below(8);
                format!(r#"["began",{caller},{}]"#, self.began)
            }
            Next::Ask => self.go_on(caller),
            Next::Answer(op) => {
                let reply = self.operate(caller, op);
                self.callers[caller].next = Next::Ask;
                format!(r#"["did",{caller},{}]"#, or_null(reply))
            }
            Next::BackTo(kept) => {
                if self.take_back(caller, kept) {
                    return format!(r#"["undone",{caller}]"#);
                }
                self.callers[caller].next = Next::Ask;
                format!(r#"["returned",{caller},1]"#)
            }
            Next::End => {
                if self.take_back(caller, 0) {
                    return format!(r#"["undone",{caller}]"#);
                }
                self.close(caller);
                format!(r#"["aborted",{caller}]"#)
            }
        }
    }
}

fn main() -> io::Result<()> {
    let words: Vec<u64> = env::args()
        .skip(1)
        .map(|word| word.parse().unwrap())
        .collect();
    let [entries, keys] = words[..] else {
        panic!("usage: entries ENTRIES KEYS")
    };
    let mut store = Store {
        random: Random(88_172_645_463_325_252),
        began: 0,
        committed: 0,
        map: vec![None; keys as usize],
        holders: vec![None; STRIPES],
        callers: (0..CALLERS).map(|_| Caller::default()).collect(),
    };
    let mut output = BufWriter::with_capacity(1 << 16, io::stdout().lock());
    for _ in 0..entries {
        let caller = store.random.below(CALLERS as u64) as usize;
        writeln!(output, "{}", store.entry(caller))?;
    }
    output.flush()
}
