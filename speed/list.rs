//! The list of nodes, which lie in one vector, 32 bytes each, and the steps at cursors. Places that are given back are kept in a
//! separate list.
use crate::split::SortKey;
use crate::tally::Tally;

/// No place.
pub const NONE: u32 = u32::MAX;

#[derive(Clone, Copy, PartialEq, Eq)]
pub enum Kind {
    Dummy,
    Regular,
}

#[derive(Clone, Copy, PartialEq, Eq)]
enum State {
    Vacant,
    /// It is kept for a node that is not linked yet.
    Out,
    Linked,
    Marked,
}

#[derive(Clone, Copy)]
pub struct Node {
    word: u64,
    pub value: u64,
    pub stamp: u64,
    // The node after it, or the next vacant place.
    next: u32,
    is_regular: bool,
    state: State,
}

const _: () = assert!(size_of::<Node>() == 32);

/// A place that is kept for a node which is not linked yet.
#[derive(Clone, Copy)]
pub struct Unfilled(pub u32);

/// A node that is not linked yet.
pub struct Spare {
    place: u32,
    at: SortKey,
    value: u64,
}

pub struct NodeList {
    nodes: Vec<Node>,
    vacant: u32,
    pub head: u32,
    last: u64,
    pub count: u64,
    marks: Tally,
}

impl Unfilled {
    pub fn fill(self, at: SortKey, _: Kind, value: u64) -> Spare {
        let Unfilled(place) = self;
        Spare { place, at, value }
    }
}

impl Node {
    pub fn at(&self) -> SortKey {
        SortKey {
            word: self.word,
            is_regular: self.is_regular,
        }
    }

    pub fn kind(&self) -> Kind {
        if self.is_regular { Kind::Regular } else { Kind::Dummy }
    }

    pub fn key(&self) -> u64 {
        self.word.reverse_bits()
    }

    pub fn is_marked(&self) -> bool {
        self.state == State::Marked
    }

    /// The place after this one, or `NONE`.
    pub fn next(&self) -> u32 {
        self.next
    }
}

impl NodeList {
    /// The list of the dummy of bucket 0, with room for `room` nodes.
    pub fn new(first_stamp: u64, room: usize) -> Self {
        let mut nodes = Vec::with_capacity(room);
        nodes.push(Node {
            word: 0,
            value: 0,
            stamp: first_stamp,
            next: NONE,
            is_regular: false,
            state: State::Linked,
        });
        NodeList {
            nodes,
            vacant: NONE,
            head: 0,
            last: first_stamp,
            count: 0,
            marks: Tally::new(),
        }
    }

    pub fn spare(&mut self) -> Option<Unfilled> {
        if self.last >= u64::MAX - 1 {
            return None;
        }
        self.last += 1;
        let place = self.vacant;
        if place == NONE {
            let place = self.nodes.len() as u32;
            self.nodes.push(Node {
                word: 0,
                value: 0,
                stamp: self.last,
                next: NONE,
                is_regular: false,
                state: State::Out,
            });
            return Some(Unfilled(place));
        }
        let node = &mut self.nodes[place as usize];
        self.vacant = node.next;
        node.stamp = self.last;
        node.state = State::Out;
        Some(Unfilled(place))
    }

    pub fn give_back(&mut self, spare: Unfilled) {
        self.free(spare.0);
    }

    fn free(&mut self, place: u32) {
        let node = &mut self.nodes[place as usize];
        node.state = State::Vacant;
        node.next = self.vacant;
        self.vacant = place;
    }

    pub fn node(&self, place: u32) -> &Node {
        &self.nodes[place as usize]
    }

    pub fn linked_node(&self, place: u32) -> Option<&Node> {
        let node = self.nodes.get(place as usize)?;
        matches!(node.state, State::Linked | State::Marked).then_some(node)
    }

    fn unlink_after(&mut self, pred: u32) {
        let place = self.nodes[pred as usize].next;
        let Node { word, next, .. } = self.nodes[place as usize];
        self.nodes[pred as usize].next = next;
        self.free(place);
        self.marks.take_away(word);
    }
}

// ---- steps at cursors ----

#[derive(Clone, Copy)]
struct Noted {
    place: u32,
    stamp: u64,
}

/// Behind a node, and before another or the end, with the stamps of both.
#[derive(Clone, Copy)]
pub struct Cursor {
    pred_stamp: u64,
    cur_stamp: u64,
    pred: u32,
    cur: u32,
    at: SortKey,
}

const _: () = assert!(size_of::<Option<Cursor>>() == 40);

pub struct Again;

impl Cursor {
    /// The place behind which the cursor is.
    pub fn pred(&self) -> u32 {
        self.pred
    }
}

pub fn seek(list: &mut NodeList, from: u32, at: SortKey) -> Cursor {
    let mut pred = Noted {
        place: from,
        stamp: list.node(from).stamp,
    };
    let mut next = list.node(from).next;
    while next != NONE {
        let node = list.node(next);
        if node.state == State::Marked {
            let behind = node.next;
            list.unlink_after(pred.place);
            next = behind;
        } else if node.at() < at {
            pred = Noted {
                place: next,
                stamp: node.stamp,
            };
            next = node.next;
        } else {
            return Cursor {
                pred_stamp: pred.stamp,
                cur_stamp: node.stamp,
                pred: pred.place,
                cur: next,
                at,
            };
        }
    }
    Cursor {
        pred_stamp: pred.stamp,
        cur_stamp: 0,
        pred: pred.place,
        cur: NONE,
        at,
    }
}

/// The node of what was sought, if it is there and the cursor fits.
pub fn look(list: &NodeList, cursor: &Cursor) -> Result<Option<u32>, Again> {
    let pred = list.node(cursor.pred);
    if pred.stamp != cursor.pred_stamp || pred.state != State::Linked || pred.next != cursor.cur {
        return Err(Again);
    }
    if cursor.cur == NONE {
        return Ok(None);
    }
    let node = list.node(cursor.cur);
    if node.stamp != cursor.cur_stamp || node.state != State::Linked {
        return Err(Again);
    }
    Ok((node.at() == cursor.at).then_some(cursor.cur))
}

// The actions after the answer of `look`.

pub fn link_at(list: &mut NodeList, pred: u32, spare: Spare) -> u32 {
    let place = spare.place;
    let before = &mut list.nodes[pred as usize];
    let next = before.next;
    before.next = place;
    let node = &mut list.nodes[place as usize];
    node.word = spare.at.word;
    node.value = spare.value;
    node.next = next;
    node.is_regular = spare.at.is_regular;
    node.state = State::Linked;
    list.count += u64::from(spare.at.is_regular);
    place
}

pub fn mark_at(list: &mut NodeList, place: u32) -> u64 {
    let node = &mut list.nodes[place as usize];
    node.state = State::Marked;
    list.count -= 1;
    list.marks.add(node.word);
    node.value
}

pub fn swap_at(list: &mut NodeList, place: u32, value: u64) -> u64 {
    std::mem::replace(&mut list.nodes[place as usize].value, value)
}

// The test and the step in one call.

pub fn link(list: &mut NodeList, cursor: Cursor, spare: Spare) -> Result<u32, (Again, Spare)> {
    match look(list, &cursor) {
        Ok(_) => Ok(link_at(list, cursor.pred, spare)),
        Err(again) => Err((again, spare)),
    }
}

pub fn mark(list: &mut NodeList, cursor: Cursor) -> Result<u64, Again> {
    match look(list, &cursor)? {
        Some(place) => Ok(mark_at(list, place)),
        None => unreachable!(),
    }
}

pub fn swap(list: &mut NodeList, cursor: Cursor, value: u64) -> Result<u64, Again> {
    match look(list, &cursor)? {
        Some(place) => Ok(swap_at(list, place, value)),
        None => unreachable!(),
    }
}

/// The first word of the first region in which a node is marked.
pub fn marks_begin(list: &NodeList) -> Option<u64> {
    list.marks.first()
}

/// Unlinks the first marked node, if there is one.
pub fn sweep(list: &mut NodeList) -> bool {
    sweep_from(list, list.head)
}

/// Unlinks the first marked node, if there is one. None is marked up to this node.
pub fn sweep_from(list: &mut NodeList, from: u32) -> bool {
    if list.marks.total() == 0 {
        return false;
    }
    let mut place = from;
    loop {
        let next = list.node(place).next;
        if next == NONE {
            return false;
        }
        if list.node(next).state == State::Marked {
            list.unlink_after(place);
            return true;
        }
        place = next;
    }
}
