//! Text by parts, whose bytes go into room that is made once for many of them.
use crate::machine::{Entry, Event, OpKind};
use crate::step::Answer;

/// The longest line or entry: four numbers of 20 digits, two words and the text between them.
const LONGEST: usize = 128;

const PAIRS: &[u8; 200] = b"0001020304050607080910111213141516171819\
2021222324252627282930313233343536373839\
4041424344454647484950515253545556575859\
6061626364656667686970717273747576777879\
8081828384858687888990919293949596979899";

/// A line or an entry while it is made.
struct Line {
    bytes: [u8; LONGEST],
    len: usize,
}

impl Line {
    #[inline(always)]
    fn words(&mut self, words: &[u8]) -> &mut Line {
        self.bytes[self.len..self.len + words.len()].copy_from_slice(words);
        self.len += words.len();
        self
    }

    #[inline]
    fn number(&mut self, number: u64) -> &mut Line {
        if number < 10 {
            self.bytes[self.len] = b'0' + number as u8;
            self.len += 1;
            return self;
        }
        let end = self.len + number.ilog10() as usize + 1;
        let mut place = end;
        let mut rest = number;
        while rest >= 10 {
            let pair = 2 * (rest % 100) as usize;
            rest /= 100;
            place -= 2;
            self.bytes[place..place + 2].copy_from_slice(&PAIRS[pair..pair + 2]);
        }
        if place > self.len {
            self.bytes[place - 1] = b'0' + rest as u8;
        }
        self.len = end;
        self
    }

    /// The elements of an entry's operation.
    fn op(&mut self, entry: &Entry) -> &mut Line {
        let Entry {
            number,
            value,
            expected,
            ..
        } = *entry;
        match entry.kind {
            OpKind::Put => self.words(br#""put","#).number(number).words(b",").number(value),
            OpKind::Take => self.words(br#""take","#).number(number),
            OpKind::Get => self.words(br#""get","#).number(number),
            OpKind::PutIf => {
                let line = self.words(br#""put_if","#).number(number).words(b",");
                line.number(expected).words(b",").number(value)
            }
            OpKind::PutIfNone => {
                let line = self.words(br#""put_if","#).number(number);
                line.words(b",null,").number(value)
            }
        }
    }
}

/// A text that is made from one end to the other, a line or an entry at a time.
pub struct Text {
    text: Vec<u8>,
    line: Line,
}

impl Text {
    /// An empty text with room for this many bytes.
    pub fn with_room(bytes: usize) -> Text {
        Text {
            text: Vec::with_capacity(bytes),
            line: Line {
                bytes: [0; LONGEST],
                len: 0,
            },
        }
    }

    pub fn into_bytes(self) -> Vec<u8> {
        self.text
    }

    fn end_line(&mut self) {
        self.text.extend_from_slice(&self.line.bytes[..self.line.len]);
        self.line.len = 0;
    }

    /// The line of an answer.
    pub fn answer(&mut self, answer: Answer) {
        let line = &mut self.line;
        match answer {
            Answer::Began(txn) => line.words(b"began ").number(txn),
            Answer::Asked => line.words(b"asked"),
            Answer::Busy(holder) => line.words(b"busy ").number(holder),
            Answer::Placed => line.words(b"placed"),
            Answer::Again => line.words(b"again"),
            Answer::Done(None) => line.words(b"done none"),
            Answer::Done(Some(value)) => line.words(b"done ").number(value),
            Answer::Undone => line.words(b"undone"),
            Answer::Returned(level) => line.words(b"returned ").number(level),
            Answer::Aborted => line.words(b"aborted"),
            Answer::Saved(level) => line.words(b"saved ").number(level),
            Answer::Leaving => line.words(b"leaving"),
            Answer::Committed(place) => line.words(b"committed ").number(place),
            Answer::Swept => line.words(b"swept"),
            Answer::Clean => line.words(b"clean"),
            Answer::Ready => line.words(b"ready"),
            Answer::Present => line.words(b"present"),
            Answer::Linked => line.words(b"linked"),
            Answer::Stored => line.words(b"stored"),
            Answer::Moved(size) => line.words(b"moved ").number(size),
            Answer::AtLimit => line.words(b"at limit"),
            Answer::Light => line.words(b"light"),
            Answer::Doubled(size) => line.words(b"doubled ").number(size),
            Answer::Refused(refusal) => line.words(b"refused ").number(refusal as u64),
        }
        .words(b"\n");
        self.end_line();
    }

    pub fn size(&mut self, size: u32, count: u64) {
        let line = self.line.words(b"size ").number(u64::from(size));
        line.words(b" count ").number(count).words(b"\n");
        self.end_line();
    }

    pub fn pair(&mut self, key: u64, value: u64) {
        let line = self.line.number(key).words(b" ");
        line.number(value).words(b"\n");
        self.end_line();
    }

    fn entry(&mut self, entry: &Entry) {
        let (line, number) = (&mut self.line, entry.number);
        let word: &[u8] = match entry.event {
            Event::Began => br#"["began","#,
            Event::Asked => br#"["asked","#,
            Event::Did | Event::DidNone => br#"["did","#,
            Event::Saved => br#"["saved","#,
            Event::Leave | Event::LeaveToEnd => br#"["leave","#,
            Event::Undone => br#"["undone","#,
            Event::Returned => br#"["returned","#,
            Event::Committed => br#"["committed","#,
            Event::Busy => br#"["busy","#,
            Event::Aborted => br#"["aborted","#,
        };
        line.words(word).number(u64::from(entry.caller));
        match entry.event {
            Event::Began | Event::Did | Event::Leave | Event::Returned | Event::Committed => {
                line.words(b",").number(number)
            }
            Event::DidNone | Event::LeaveToEnd => line.words(b",null"),
            Event::Saved | Event::Undone | Event::Aborted => line,
            Event::Asked => line.words(b",").op(entry),
            Event::Busy => {
                let line = line.words(b",").op(entry).words(b",");
                line.number(u64::from(entry.holder))
            }
        }
        .words(b"],");
        self.end_line();
    }

    /// The history as one line of JSON, of this version.
    pub fn history(&mut self, entries: &[Entry], stripes: u32, version: u64) {
        self.text.extend_from_slice(br#"{"entries":["#);
        for entry in entries {
            self.entry(entry);
        }
        if !entries.is_empty() {
            self.text.pop();
        }
        let line = self.line.words(br#"],"stripes":"#);
        let line = line.number(u64::from(stripes)).words(br#","version":"#);
        line.number(version).words(b"}\n");
        self.end_line();
    }
}
