//! Document 01's rules, written from its text: which file is refused, with what number and place, and what the calls answer; and document
//! 02's on strides, bit fields, vectors of three bools, the uniform profile, scalars of 64 bits, the two forms of a file, site blocks,
//! cleaning, member orders and members that no struct names; `literal` has those on literals. It decides where Lepugaso and the Rust may
//! differ (the rows of docs/DIFFERENCES.md), and what Lepugaso has to say there.
use std::collections::BTreeSet;

use crate::file::{Entry, Member, Table};
use crate::literal;
use crate::question::{
    self, Answer, Field, Question, Sheets, Shown, with_buffer, with_gaps, with_mask, with_part, with_shown, with_site,
    with_words,
};
use crate::rows::{self, Row};
use crate::types::NOTHING;

const LIMIT: u64 = 4_294_967_295;

/// What 01 says of an entry's type.
#[derive(Clone, Copy)]
pub struct Laid {
    pub size: Option<u64>,
    pub align: Option<u64>,
    /// of an array: from one element to the next
    pub stride: Option<u64>,
    pub open: bool,
    /// the runtime array that it is or ends in
    pub tail: Option<Tail>,
    /// the words of its scalars, those of a runtime array not counted
    pub words: u64,
    pub holds_bool: bool,
}

impl Laid {
    /// "A type has a layout if it has an alignment and is open or has a size."
    pub fn has_layout(&self) -> bool {
        self.align.is_some() && (self.open || self.size.is_some())
    }

    /// The minimum size.
    pub fn least(&self) -> Option<u64> {
        self.stride.filter(|_| self.open).or(self.size)
    }
}

#[derive(Clone, Copy)]
pub struct Tail {
    pub offset: u64,
    pub stride: u64,
    pub element: usize,
}

pub struct Refusal {
    pub number: u32,
    pub place: usize,
    pub row: Row,
}

fn up(a: u64, n: u64) -> u64 {
    n.div_ceil(a) * a
}

/// Kinds 0 to 6, and since E6 13 to 15.
pub fn is_scalar(kind: u8) -> bool {
    matches!(kind, 0..=6 | 13..=15)
}

/// E6: "i64, u64, f64: 8/8"
fn scalar(kind: u8) -> Laid {
    let n = match kind {
        0..=3 => Some(4),
        4 => Some(2),
        13..=15 => Some(8),
        _ => None,
    };
    plain(n, n, 1, kind)
}

/// A type of so many scalars of one kind. E6: "A 64-bit scalar takes two words"
fn plain(size: Option<u64>, align: Option<u64>, scalars: u64, kind: u8) -> Laid {
    let words = if kind < 13 { scalars } else { 2 * scalars };
    Laid { size, align, stride: None, open: false, tail: None, words, holds_bool: kind == 0 }
}

/// Size and alignment of a vector of `n` over the scalar of kind `kind`. E4: "WGSL's alignment table lists bool beside i32 in the vector
/// rows: 12/16." E6: "of 3 size 24 and no alignment"
fn vector(n: u64, kind: u8) -> Laid {
    let size = scalar(kind).size.map(|s| n * s);
    let align = match (n, kind) {
        (3, 0..=3) => Some(16),
        (3, 4) => Some(8),
        (3, _) => None,
        _ => size,
    };
    plain(size, align, n, kind)
}

fn array(count: Option<u64>, element: usize, l: Laid) -> Laid {
    let stride = l.align.zip(l.size).map(|(a, s)| up(a, s));
    Laid {
        size: count.zip(stride).map(|(n, s)| n * s),
        align: l.align,
        stride,
        open: count.is_none(),
        tail: stride.filter(|_| count.is_none()).map(|stride| Tail { offset: 0, stride, element }),
        words: count.unwrap_or(0).saturating_mul(l.words),
        holds_bool: l.holds_bool,
    }
}

/// E1: "for any type with size and alignment, the size rounded up to the alignment; for a runtime array, its element's stride; else absent"
fn own_stride(l: &Laid) -> Option<u64> {
    let runtime = l.stride.filter(|_| l.open);
    runtime.or(l.align.zip(l.size).map(|(a, s)| up(a, s)))
}

/// A member of a struct: its alignment, and where it begins and ends (nowhere if it is a runtime array).
pub struct Placed {
    pub align: u64,
    pub offset: u64,
    pub end: Option<u64>,
}

pub fn members(laid: &[Laid], ms: &[Member]) -> Vec<Placed> {
    let mut placed: Vec<Placed> = Vec::new();
    for m in ms {
        let l = laid[m.ty as usize];
        let align = if m.flags & 2 != 0 { Some(m.align as u64) } else { l.align };
        let size = if m.flags & 1 != 0 { Some(m.size as u64) } else { l.size };
        let align = align.expect("a member has an alignment");
        let before = placed.last().map_or(0, |p| p.end.expect("only the last is open"));
        let offset = up(align, before);
        placed.push(Placed { align, offset, end: size.map(|s| offset + s) });
    }
    placed
}

fn structure(laid: &[Laid], ms: &[Member], placed: &[Placed]) -> Laid {
    let align = placed.iter().map(|p| p.align).max().expect("a member");
    let (last, ty) = (placed.last().expect("a member"), ms.last().expect("a member").ty);
    let of = |m: &Member| laid[m.ty as usize];
    Laid {
        size: last.end.map(|n| up(align, n)),
        align: Some(align),
        stride: None,
        open: last.end.is_none(),
        tail: laid[ty as usize].tail.filter(|_| last.end.is_none()).map(|t| Tail { offset: last.offset, ..t }),
        words: ms.iter().fold(0, |n, m| n.saturating_add(of(m).words)),
        holds_bool: ms.iter().any(|m| of(m).holds_bool),
    }
}

/// Entry `k`, given the ones below it.
pub fn lay(table: &Table, laid: &[Laid], k: usize) -> Result<Laid, Refusal> {
    let e = table.entries[k];
    let refuse = |number, row| Err(Refusal { number, place: k, row });
    if let Some(row) = broken(table, laid, k, &e) {
        return refuse(5, row);
    }
    if e.kind == 12 {
        if let Some(row) = table.members_of(&e).unwrap().iter().find_map(|m| given(table, laid, m)) {
            return refuse(6, row);
        }
    }
    let below = |r: u16| table.entries[r as usize].kind;
    let l = match e.kind {
        0..=6 | 13..=15 => scalar(e.kind),
        7 => vector(e.rows as u64, below(e.reference)),
        8 => {
            let column = vector(e.rows as u64, below(e.reference)).align;
            let size = column.map(|a| e.columns as u64 * a);
            plain(size, column, e.columns as u64 * e.rows as u64, below(e.reference))
        }
        9 => array(Some(e.count as u64), e.reference as usize, laid[e.reference as usize]),
        10 => array(None, e.reference as usize, laid[e.reference as usize]),
        11 => plain(Some(4), Some(4), 1, below(e.reference)),
        _ => {
            let ms = table.members_of(&e).unwrap();
            let placed = members(laid, ms);
            if placed.iter().any(|p| p.offset.max(p.end.unwrap_or(0)) > LIMIT) {
                return refuse(7, Row::TooLarge);
            }
            structure(laid, ms, &placed)
        }
    };
    let numbers = [l.size, l.align, l.stride];
    if numbers.iter().flatten().any(|n| *n > LIMIT) {
        return refuse(7, Row::TooLarge);
    }
    Ok(l)
}

/// The first rule under 5 that an entry or its members break.
fn broken(table: &Table, laid: &[Laid], k: usize, e: &Entry) -> Option<Row> {
    if e.kind > 15 {
        return Some(Row::Unsayable);
    }
    let uses = match e.kind {
        0..=6 | 13..=15 => (false, false, false, false),
        7 => (false, true, true, false),
        8 => (true, true, true, false),
        9 | 12 => (false, false, true, true),
        _ => (false, false, true, false),
    };
    if e.zero3 != 0
        || e.zero6 != 0
        || (!uses.0 && e.columns != 0)
        || (!uses.1 && e.rows != 0)
        || (!uses.2 && e.reference != 0)
        || (!uses.3 && e.count != 0)
    {
        return Some(Row::Unsayable);
    }
    if (7..=11).contains(&e.kind) && e.reference as usize >= k {
        return Some(Row::Unsayable);
    }
    let sides = |n: u8| (2..=4).contains(&n);
    let below = |kinds: &[u8]| kinds.contains(&table.entries[e.reference as usize].kind);
    match e.kind {
        7 if !sides(e.rows) => Some(Row::VectorRows),
        7 if !is_scalar(table.entries[e.reference as usize].kind) => Some(Row::VectorOf),
        8 if !sides(e.columns) || !sides(e.rows) => Some(Row::MatrixSides),
        8 if !below(&[3, 4, 6]) => Some(Row::MatrixOf),
        9 if e.count == 0 => Some(Row::ArrayOfNone),
        9 | 10 if laid[e.reference as usize].open => Some(Row::ElementOpen),
        10 if !has_both(&laid[e.reference as usize]) => Some(Row::ElementAbsent),
        11 if !below(&[1, 2]) => Some(Row::AtomicOf),
        12 => struct_broken(table, laid, k, e),
        _ => None,
    }
}

fn has_both(l: &Laid) -> bool {
    l.size.is_some() && l.align.is_some()
}

fn struct_broken(table: &Table, laid: &[Laid], k: usize, e: &Entry) -> Option<Row> {
    if e.count == 0 {
        return Some(Row::EmptyStruct);
    }
    let Some(ms) = table.members_of(e) else {
        return Some(Row::Unsayable);
    };
    for (i, m) in ms.iter().enumerate() {
        if m.ty as usize >= k
            || m.flags & !3 != 0
            || (m.flags & 1 == 0 && m.size != 0)
            || (m.flags & 2 == 0 && m.align != 0)
        {
            return Some(Row::Unsayable);
        }
        let last_runtime = i + 1 == ms.len() && table.entries[m.ty as usize].kind == 10;
        if !has_both(&laid[m.ty as usize]) && !last_runtime {
            return Some(if laid[m.ty as usize].open { Row::MemberOpen } else { Row::MemberAbsent });
        }
    }
    None
}

/// The sentence on a given size or on a given align that a member breaks.
fn given(table: &Table, laid: &[Laid], m: &Member) -> Option<Row> {
    let l = laid[m.ty as usize];
    if m.flags & 1 != 0 {
        if table.entries[m.ty as usize].kind == 10 {
            return Some(Row::SizeOnRuntime);
        }
        if (m.size as u64) < l.size.unwrap() {
            return Some(Row::SizeBelow);
        }
    }
    if m.flags & 2 != 0 && !(m.align.is_power_of_two() && m.align as u64 % l.align.unwrap() == 0) {
        return Some(Row::GivenAlign);
    }
    None
}

/// A table that 01 accepts, with every entry laid out, and with the numbers that the Rust has of each.
pub struct Good {
    pub table: Table,
    pub laid: Vec<Laid>,
    pub rust: Vec<Laid>,
}

/// Every entry of a file laid out, or the file's refusal by 1 to 7.
pub fn lay_all(bytes: &[u8]) -> Result<Good, Refusal> {
    let table = Table::read(bytes).map_err(|number| Refusal { number, place: 0, row: Row::NoTable })?;
    let mut laid = Vec::new();
    for k in 0..table.entries.len() {
        laid.push(lay(&table, &laid, k)?);
    }
    let rust = rows::numbered(&table, &laid);
    Ok(Good { table, laid, rust })
}

/// The lowest member that is not "named by at least one struct" (E12), of those that the table has, used or not.
pub fn stray(table: &Table) -> Option<usize> {
    let named: BTreeSet<usize> = table.entries.iter().filter(|e| e.kind == 12).flat_map(named_by).collect();
    (0..table.members.len()).find(|m| !named.contains(m))
}

/// The numbers of a struct's members: "reference = first member, count = members"
fn named_by(e: &Entry) -> impl Iterator<Item = usize> {
    (e.reference as usize..).take(e.count as usize)
}

/// A file as 01 sees it: its table, or its refusal; E12's "24, place the lowest such member", comes "after all entries have passed 5 to 7
/// and before E7's 20 and 8".
pub fn check(bytes: &[u8]) -> Result<Good, Refusal> {
    let good = lay_all(bytes)?;
    match stray(&good.table) {
        Some(place) => Err(Refusal { number: 24, place, row: Row::Stray }),
        None => Ok(good),
    }
}

/// E5's "16".
const UNIT: u64 = 16;

/// E8: "at most 64 members"
pub const SETTINGS: u32 = 64;

/// Where a word lies, and in how many bytes.
#[derive(Clone, Copy)]
pub struct Place {
    pub at: u64,
    pub width: u64,
}

/// A type of an entry, or a column of so many rows over the entry of a scalar, which has none.
#[derive(Clone, Copy)]
pub enum Stand {
    Entry(usize),
    Column(u64, usize),
}

/// What a path leads to, at an offset, and which of all words its first one is.
#[derive(Clone, Copy)]
pub struct Target {
    pub stand: Stand,
    pub offset: u64,
    pub word: u64,
}

impl Good {
    pub fn has_layout(&self, e: usize) -> bool {
        self.laid[e].has_layout()
    }

    /// The words of a type, with `n` elements if it is open.
    pub fn words(&self, e: usize, n: u64) -> u64 {
        let one = self.laid[e].tail.map_or(0, |t| self.laid[t.element].words);
        self.laid[e].words.saturating_add(n.saturating_mul(one))
    }

    /// What writing fills: "the size (open: array offset + elements x stride, no padding after)". 0 without a layout.
    pub fn extent(&self, e: usize, n: u64) -> u64 {
        let l = &self.laid[e];
        l.tail.map_or(l.size.unwrap_or(0), |t| t.offset + n * t.stride)
    }

    /// The elements of a type that has so many words; none where it has another number of them.
    pub fn elements(&self, e: usize, words: u64) -> Option<u64> {
        let l = &self.laid[e];
        match l.tail {
            None => (words == l.words).then_some(0),
            Some(t) => {
                let (more, one) = (words.checked_sub(l.words)?, self.laid[t.element].words);
                (more % one == 0).then_some(more / one)
            }
        }
    }

    /// "Its words are its scalars in order of offset", of 64 bits "two words, low first": their places, where the type begins at `at`.
    pub fn places(&self, e: usize, n: u64, at: u64) -> Vec<Place> {
        let x = self.table.entries[e];
        let (l, r) = (&self.laid[e], x.reference as usize);
        let run = |count: u64, of: usize, at: u64| {
            let (size, words) = (self.laid[of].size.unwrap_or(0), self.laid[of].words);
            (0..count * words).map(move |i| Place { at: at + i * (size / words), width: size / words })
        };
        match x.kind {
            0..=6 | 13..=15 => run(1, e, at).collect(),
            7 => run(x.rows as u64, r, at).collect(),
            8 => (0..x.columns as u64).flat_map(|c| run(x.rows as u64, r, at + c * l.align.unwrap_or(0))).collect(),
            9 | 10 => {
                let count = if x.kind == 9 { x.count as u64 } else { n };
                (0..count).flat_map(|i| self.places(r, n, at + i * l.stride.unwrap_or(0))).collect()
            }
            11 => run(1, r, at).collect(),
            _ => {
                let ms = self.table.members_of(&x).expect("members within the table");
                let placed = members(&self.laid, ms);
                ms.iter().zip(&placed).flat_map(|(m, p)| self.places(m.ty as usize, n, at + p.offset)).collect()
            }
        }
    }

    /// 17, 9, for a buffer of so many bytes.
    fn laid_out(&self, e: usize, length: u64) -> Result<(), (u32, u64)> {
        match () {
            _ if length > LIMIT => Err((17, 0)),
            _ if !self.has_layout(e) => Err((9, 0)),
            _ => Ok(()),
        }
    }

    /// 17, 9, 10.
    fn stored(&self, e: usize, length: u64) -> Result<(), (u32, u64)> {
        self.laid_out(e, length)?;
        if self.laid[e].holds_bool { Err((10, 0)) } else { Ok(()) }
    }

    /// How many elements a buffer has of an open type whose array begins at `start`.
    pub fn elements_in(&self, e: usize, start: u64, length: u64) -> u64 {
        self.laid[e].tail.map_or(0, |t| length.saturating_sub(start) / t.stride)
    }

    /// How many parts an index step has to choose from.
    pub fn parts(&self, stand: Stand, n: u64) -> Option<u64> {
        match stand {
            Stand::Column(rows, _) => Some(rows),
            Stand::Entry(e) => {
                let x = self.table.entries[e];
                match x.kind {
                    7 => Some(x.rows as u64),
                    8 => Some(x.columns as u64),
                    9 => Some(x.count as u64),
                    10 => Some(n),
                    _ => None,
                }
            }
        }
    }

    /// How many members a member step has to choose from.
    pub fn member_count(&self, stand: Stand) -> Option<u64> {
        match stand {
            Stand::Entry(e) if self.table.entries[e].kind == 12 => Some(self.table.entries[e].count as u64),
            _ => None,
        }
    }

    /// The part of that index or of that member, with offset and word counted from where the step is taken.
    fn enter(&self, stand: Stand, n: u64, member: bool, number: u64) -> Target {
        let (x, l) = match stand {
            Stand::Column(_, scalar) => {
                let l = &self.laid[scalar];
                let offset = number * l.size.unwrap_or(0);
                return Target { stand: Stand::Entry(scalar), offset, word: number * l.words };
            }
            Stand::Entry(e) => (self.table.entries[e], &self.laid[e]),
        };
        let r = x.reference as usize;
        if member {
            let ms = self.table.members_of(&x).expect("members within the table");
            let before: u64 = ms[..number as usize].iter().map(|m| self.words(m.ty as usize, n)).sum();
            let offset = members(&self.laid, ms)[number as usize].offset;
            return Target { stand: Stand::Entry(ms[number as usize].ty as usize), offset, word: before };
        }
        let (below, stride, words) = match x.kind {
            7 => (Stand::Entry(r), self.laid[r].size, self.laid[r].words),
            8 => (Stand::Column(x.rows as u64, r), l.align, x.rows as u64 * self.laid[r].words),
            _ => (Stand::Entry(r), l.stride, self.words(r, n)),
        };
        Target { stand: below, offset: number * stride.unwrap_or(0), word: number.saturating_mul(words) }
    }

    /// The target of a path, or the first bad step: 11, 12, 13.
    pub fn walk(&self, e: usize, n: u64, path: &[u32]) -> Result<Target, (u32, u64)> {
        let mut t = Target { stand: Stand::Entry(e), offset: 0, word: 0 };
        for (k, step) in path.iter().enumerate() {
            let (member, number) = (step & (1 << 31) != 0, (step & !(1 << 31)) as u64);
            let bad = match (member, self.member_count(t.stand), self.parts(t.stand, n)) {
                (true, Some(count), _) if number < count => None,
                (true, _, _) => Some(11),
                (false, _, Some(count)) if number < count => None,
                (false, _, Some(_)) => Some(12),
                (false, _, None) => Some(13),
            };
            if let Some(refusal) = bad {
                return Err((refusal, k as u64));
            }
            let inner = self.enter(t.stand, n, member, number);
            t = Target { stand: inner.stand, offset: t.offset + inner.offset, word: t.word.saturating_add(inner.word) };
        }
        Ok(t)
    }

    /// "A target has its type's size, whatever size a member gives; a column has rows x scalar size. A target that is open runs to the end
    /// of its last element."
    pub fn span(&self, stand: Stand, n: u64) -> u64 {
        match stand {
            Stand::Entry(e) => self.extent(e, n),
            Stand::Column(rows, scalar) => rows * self.laid[scalar].size.unwrap_or(0),
        }
    }

    /// How many words a target has.
    pub fn count(&self, stand: Stand, n: u64) -> u64 {
        match stand {
            Stand::Entry(e) => self.words(e, n),
            Stand::Column(rows, scalar) => rows * self.laid[scalar].words,
        }
    }

    /// The scalar that a target is: an entry of one, or of an atomic.
    pub fn scalar(&self, stand: Stand) -> Option<usize> {
        match stand {
            Stand::Entry(e) if is_scalar(self.table.entries[e].kind) || self.table.entries[e].kind == 11 => Some(e),
            _ => None,
        }
    }

    /// 15, then the first bad step.
    fn target(&self, e: usize, path: &[u32], length: u64) -> Result<(Target, u64), (u32, u64)> {
        let l = &self.laid[e];
        let n = self.elements_in(e, l.tail.map_or(0, |t| t.offset), length);
        if if l.open { n == 0 } else { length < l.size.unwrap_or(0) } {
            return Err((15, 0));
        }
        Ok((self.walk(e, n, path)?, n))
    }

    /// Viewing: the offset, and the bytes themselves.
    pub fn view(&self, e: usize, path: &[u32], buffer: &[u8]) -> Result<(u64, Vec<u8>), (u32, u64)> {
        self.laid_out(e, buffer.len() as u64)?;
        let (t, n) = self.target(e, path, buffer.len() as u64)?;
        let part = &buffer[t.offset as usize..(t.offset + self.span(t.stand, n)) as usize];
        Ok((t.offset, part.to_vec()))
    }

    /// Setting: then 14, 16. E6: "Setting takes a word list of that length. Refusals: 14 for another length"
    pub fn set(&self, e: usize, path: &[u32], words: &[u32], buffer: &mut [u8]) -> Answer {
        self.stored(e, buffer.len() as u64)?;
        let (t, _) = self.target(e, path, buffer.len() as u64)?;
        let scalar = self.scalar(t.stand).filter(|s| words.len() as u64 == self.laid[*s].words).ok_or((14, 0))?;
        let places = self.places(scalar, 0, t.offset);
        if let Some(k) = bad_word(&places, words) {
            return Err((16, k));
        }
        put(&places, words, buffer);
        Ok(t.offset)
    }

    /// Marks the bytes of every scalar that a path leads to from what begins at `at`.
    fn cover(&self, stand: Stand, n: u64, at: u64, covered: &mut [bool]) {
        if let Some(scalar) = self.scalar(stand) {
            let size = self.laid[scalar].size.expect("a scalar that may be stored");
            return covered[at as usize..][..size as usize].fill(true);
        }
        let members = self.member_count(stand);
        for number in 0..members.or(self.parts(stand, n)).unwrap_or(0) {
            let part = self.enter(stand, n, members.is_some(), number);
            self.cover(part.stand, n, at + part.offset, covered);
        }
    }

    /// Cleaning (E9): then 15. "zeroes, in place, every byte of a storable entry's extent that no scalar path covers"; "For open types the
    /// extent is the array offset plus whole elements." The extent.
    pub fn clean(&self, e: usize, buffer: &mut [u8]) -> Answer {
        self.stored(e, buffer.len() as u64)?;
        let (whole, n) = self.target(e, &[], buffer.len() as u64)?;
        let mut covered = vec![false; self.extent(e, n) as usize];
        self.cover(whole.stand, n, 0, &mut covered);
        for (byte, is_covered) in buffer.iter_mut().zip(&covered) {
            if !is_covered {
                *byte = 0;
            }
        }
        Ok(covered.len() as u64)
    }

    /// The members of a struct (E10): "9 where the entry isn't a struct"
    pub fn ordered(&self, e: usize) -> Result<&[Member], (u32, u64)> {
        let x = self.table.entries[e];
        if x.kind != 12 {
            return Err((9, 0));
        }
        Ok(self.table.members_of(&x).expect("members within the table"))
    }

    /// "the order by falling member alignment, ties as they stood, a runtime array kept last": the place of a member is how many come before
    /// it.
    pub fn planned(&self, ms: &[Member]) -> Vec<u32> {
        let placed = members(&self.laid, ms);
        let is_runtime = |k: usize| self.table.entries[ms[k].ty as usize].kind == 10;
        let is_before = |j: usize, k: usize| match (is_runtime(j), is_runtime(k)) {
            (false, false) if placed[j].align == placed[k].align => j < k,
            (false, false) => placed[j].align > placed[k].align,
            (of_j, _) => !of_j,
        };
        let mut order = vec![0; ms.len()];
        for k in 0..ms.len() {
            order[(0..ms.len()).filter(|j| is_before(*j, k)).count()] = k as u32;
        }
        order
    }

    /// The planner: then "14 where the lent list is shorter than the members". How many there are.
    pub fn plan_order(&self, e: usize, list: &mut [u32]) -> Answer {
        let ms = self.ordered(e)?;
        let front = list.get_mut(..ms.len()).ok_or((14, 0))?;
        front.copy_from_slice(&self.planned(ms));
        Ok(ms.len() as u64)
    }

    /// The checker: then "23 for any order not accepted". "accepted exactly if every member position appears once, a runtime array is still
    /// last, no number passes 01's limit, and the end is smaller (struct size; for open structs, the array's offset)". The new end.
    pub fn check_order(&self, e: usize, order: &[u32]) -> Answer {
        let ms = self.ordered(e)?;
        if !names_all(order, ms.len()) {
            return Err((23, 0));
        }
        // the struct with its members in that order, in place of the entry: 01's rules refuse it, or it has an end
        let moved = Table {
            entries: [&self.table.entries[..e], &[Entry { reference: 0, ..self.table.entries[e] }]].concat(),
            members: order.iter().map(|k| ms[*k as usize]).collect(),
        };
        let end = |l: &Laid| l.tail.map_or(l.size, |t| Some(t.offset)).expect("a struct ends");
        let new = lay(&moved, &self.laid[..e], e).map_err(|_| (23, 0))?;
        if end(&new) < end(&self.laid[e]) { Ok(end(&new)) } else { Err((23, 0)) }
    }

    /// The scalar of a field at a path, its offset and whether it is signed: as for setting, with 14 for what is not one i32 or u32, or
    /// an atomic of one.
    fn integer(&self, e: usize, path: &[u32], length: u64) -> Result<(u64, bool), (u32, u64)> {
        self.stored(e, length)?;
        let (t, _) = self.target(e, path, length)?;
        let Stand::Entry(at) = t.stand else { return Err((14, 0)) };
        let x = self.table.entries[at];
        match if x.kind == 11 { self.table.entries[x.reference as usize].kind } else { x.kind } {
            1 => Ok((t.offset, true)),
            2 => Ok((t.offset, false)),
            _ => Err((14, 0)),
        }
    }

    /// Extraction at a path: the field as a word.
    pub fn extract(&self, e: usize, path: &[u32], field: Field, buffer: &[u8]) -> Answer {
        let (at, signed) = self.integer(e, path, buffer.len() as u64)?;
        Ok(extracted(word_at(buffer, at as usize), field, signed) as u64)
    }

    /// Insertion at a path: the scalar's offset.
    pub fn insert(&self, e: usize, path: &[u32], new: u32, field: Field, buffer: &mut [u8]) -> Answer {
        let (at, _) = self.integer(e, path, buffer.len() as u64)?;
        let word = inserted(word_at(buffer, at as usize), new, field);
        buffer[at as usize..][..4].copy_from_slice(&word.to_le_bytes());
        Ok(at)
    }

    /// An entry and all that it reaches.
    fn reach(&self, e: usize, reached: &mut BTreeSet<usize>) {
        if !reached.insert(e) {
            return;
        }
        let x = self.table.entries[e];
        match x.kind {
            0..=6 | 13..=15 => {}
            12 => {
                let ms = self.table.members_of(&x).expect("members within the table");
                ms.iter().for_each(|m| self.reach(m.ty as usize, reached));
            }
            _ => self.reach(x.reference as usize, reached),
        }
    }

    /// "each member's offset is a multiple of its type's alignment, raised to a multiple of 16 for structs and arrays"; "a member after a
    /// struct member starts at least that struct's size, rounded up to 16, after its start"
    fn struct_is_uniform(&self, ms: &[Member]) -> bool {
        let placed = members(&self.laid, ms);
        let kind = |m: &Member| self.table.entries[m.ty as usize].kind;
        let of = |m: &Member| &self.laid[m.ty as usize];
        let at_multiples = ms.iter().zip(&placed).all(|(m, p)| {
            let align = of(m).align.expect("a member has an alignment");
            p.offset % if [9, 10, 12].contains(&kind(m)) { up(UNIT, align) } else { align } == 0
        });
        let far_apart = (1..ms.len()).all(|k| {
            let before = &ms[k - 1];
            kind(before) != 12
                || placed[k].offset >= placed[k - 1].offset + up(UNIT, of(before).size.expect("only the last is open"))
        });
        at_multiples && far_apart
    }

    /// "an atomic, or a struct or array that breaks one of these rules"
    fn is_broken(&self, e: usize) -> bool {
        let x = self.table.entries[e];
        match x.kind {
            9 | 10 => self.laid[e].stride.is_none_or(|s| s % UNIT != 0),
            11 => true,
            12 => !self.struct_is_uniform(self.table.members_of(&x).expect("members within the table")),
            _ => false,
        }
    }

    /// Whether an entry may live in a uniform buffer: 9, for open types too, 10, 19 with "the lowest broken entry .. among the one asked
    /// and those it reaches".
    fn uniform(&self, e: usize) -> Answer {
        if !self.has_layout(e) || self.laid[e].open {
            return Err((9, 0));
        }
        if self.laid[e].holds_bool {
            return Err((10, 0));
        }
        let mut reached = BTreeSet::new();
        self.reach(e, &mut reached);
        match reached.into_iter().find(|k| self.is_broken(*k)) {
            Some(k) => Err((19, k as u64)),
            None => Ok(0),
        }
    }

    /// The members of a site block's struct (E8), for buffers of at most so many bytes: 17, 9, 10, then "21, not a struct, an open one, more
    /// than 64 members or mask bits beyond them, after 10".
    fn settings(&self, e: usize, mask: u64, length: u64) -> Result<&[Member], (u32, u64)> {
        self.stored(e, length)?;
        let x = self.table.entries[e];
        let beyond = (x.count..SETTINGS).any(|k| has_bit(mask, k));
        if x.kind != 12 || self.laid[e].open || x.count > SETTINGS || beyond {
            return Err((21, 0));
        }
        Ok(self.table.members_of(&x).expect("members within the table"))
    }

    /// The same for these two: then "15 for either buffer". And how many bytes the block has in each.
    fn sheeted(&self, e: usize, mask: u64, sheets: &Sheets) -> Result<(&[Member], usize), (u32, u64)> {
        let lengths = [sheets.factory.len() as u64, sheets.site.len() as u64];
        let ms = self.settings(e, mask, lengths[0].max(lengths[1]))?;
        let size = self.laid[e].size.expect("a struct that is not open");
        if lengths.iter().any(|length| *length < size) {
            return Err((15, 0));
        }
        Ok((ms, size as usize))
    }

    /// The type of member k and where it begins: then "11 for k (place 0)".
    fn setting(&self, e: usize, k: u32, mask: u64, sheets: &Sheets) -> Result<(usize, usize), (u32, u64)> {
        let (ms, _) = self.sheeted(e, mask, sheets)?;
        let m = ms.get(k as usize).ok_or((11, 0))?;
        Ok((m.ty as usize, members(&self.laid, ms)[k as usize].offset as usize))
    }

    /// An inheriting block, E11's "old start": "mask 0; it takes the entry alone", whatever the mask was.
    pub fn site_inheriting(&self, e: usize, mask: &mut u64) -> Answer {
        self.settings(e, 0, 0)?;
        *mask = 0;
        Ok(0)
    }

    /// A fresh block (E11): "the factory's bytes copied into the site buffer and every member's bit set", whatever the mask was. "the fresh
    /// copy gives all that asking for a member gives, up to 15, before anything is copied"
    pub fn site_fresh(&self, e: usize, mask: &mut u64, sheets: &mut Sheets) -> Answer {
        let (ms, size) = self.sheeted(e, 0, sheets)?;
        sheets.site[..size].copy_from_slice(&sheets.factory[..size]);
        *mask = (0..ms.len()).map(|k| 1 << k).sum();
        Ok(0)
    }

    /// "Clearing drops the bit and moves no byte."
    pub fn site_clear(&self, e: usize, k: u32, mask: &mut u64) -> Answer {
        let ms = self.settings(e, *mask, 0)?;
        if k as usize >= ms.len() {
            return Err((11, 0));
        }
        *mask = (0..SETTINGS).filter(|j| *j != k && has_bit(*mask, *j)).map(|j| 1 << j).sum();
        Ok(0)
    }

    /// "Asking for member k hands back its bytes as a part of the site buffer if bit k is set, else of the factory buffer."
    pub fn site_member(&self, e: usize, k: u32, mask: u64, sheets: &Sheets) -> Result<Shown, (u32, u64)> {
        let (ty, at) = self.setting(e, k, mask, sheets)?;
        let on_site = has_bit(mask, k);
        let of = if on_site { &sheets.site } else { &sheets.factory };
        let size = self.laid[ty].size.expect("a member that is not open");
        Ok(Shown { offset: at as u64, part: of[at..at + size as usize].to_vec(), on_site })
    }

    /// Setting on site: the scalar's offset. The member as it shows is set as its type is, "then set's refusals for path and word", and what
    /// that makes of it goes to the site buffer.
    pub fn site_set(
        &self,
        e: usize,
        k: u32,
        path: &[u32],
        words: &[u32],
        mask: &mut u64,
        sheets: &mut Sheets,
    ) -> Answer {
        let (ty, at) = self.setting(e, k, *mask, sheets)?;
        let mut shown = self.site_member(e, k, *mask, sheets)?;
        let within = self.set(ty, path, words, &mut shown.part)?;
        sheets.site[at..at + shown.part.len()].copy_from_slice(&shown.part);
        if !shown.on_site {
            *mask += 1 << k;
        }
        Ok(shown.offset + within)
    }

    /// Writing words: then 14, 15, 16.
    pub fn write(&self, e: usize, words: &[u32], buffer: &mut [u8]) -> Answer {
        self.stored(e, buffer.len() as u64)?;
        let n = self.elements(e, words.len() as u64).filter(|n| !self.laid[e].open || *n > 0).ok_or((14, 0))?;
        let extent = self.extent(e, n);
        if (buffer.len() as u64) < extent {
            return Err((15, 0));
        }
        let places = self.places(e, n, 0);
        if let Some(k) = bad_word(&places, words) {
            return Err((16, k));
        }
        buffer[..extent as usize].fill(0);
        put(&places, words, buffer);
        Ok(extent)
    }

    /// Reading words: then 15, 14. `needed` are the bytes that a type of fixed size needs, `start` is where an open type's array begins.
    pub fn read(&self, e: usize, needed: u64, start: u64, buffer: &[u8], words: &mut [u32]) -> Answer {
        self.stored(e, buffer.len() as u64)?;
        self.read_stored(e, needed, start, buffer, words)
    }

    /// The same of a type that was found storable.
    pub fn read_stored(&self, e: usize, needed: u64, start: u64, buffer: &[u8], words: &mut [u32]) -> Answer {
        let (length, tail) = (buffer.len() as u64, self.laid[e].tail);
        let n = self.elements_in(e, start, length);
        if (tail.is_some() && n == 0) || (tail.is_none() && length < needed) {
            return Err((15, 0));
        }
        let count = self.words(e, n);
        if (words.len() as u64) < count {
            return Err((14, 0));
        }
        let mut places = self.places(e, n, 0);
        for p in &mut places[self.laid[e].words as usize..] {
            p.at = p.at + start - tail.map_or(0, |t| t.offset);
        }
        for (p, w) in places.iter().zip(words) {
            let mut bytes = [0; 4];
            bytes[..p.width as usize].copy_from_slice(&buffer[p.at as usize..(p.at + p.width) as usize]);
            *w = u32::from_le_bytes(bytes);
        }
        Ok(count)
    }
}

/// The first word that its place can't hold: an f16's above 65,535.
pub fn bad_word(places: &[Place], words: &[u32]) -> Option<u64> {
    places.iter().zip(words).position(|(p, w)| p.width == 2 && *w > 65_535).map(|k| k as u64)
}

/// Puts words at their places.
pub fn put(places: &[Place], words: &[u32], buffer: &mut [u8]) {
    for (p, w) in places.iter().zip(words) {
        buffer[p.at as usize..][..p.width as usize].copy_from_slice(&w.to_le_bytes()[..p.width as usize]);
    }
}

/// "every member position appears once"
pub fn names_all(order: &[u32], members: usize) -> bool {
    let mut positions = order.to_vec();
    positions.sort();
    positions.into_iter().eq(0..members as u32)
}

/// "a mask whose bit k says member k was set on site"
pub fn has_bit(mask: u64, k: u32) -> bool {
    (mask >> k) % 2 == 1
}

fn word_at(buffer: &[u8], at: usize) -> u32 {
    u32::from_le_bytes(buffer[at..at + 4].try_into().expect("four bytes"))
}

/// The bits of a word, the lowest first.
fn bits(word: u32) -> [bool; 32] {
    std::array::from_fn(|k| (word >> k) & 1 == 1)
}

/// The word of these bits.
fn word(bits: [bool; 32]) -> u32 {
    bits.iter().rev().fold(0, |n, bit| 2 * n + *bit as u32)
}

/// Which bits of a word are a field's, in order: from bit `offset` on, `count` of them, as far as there are so many.
fn places(field: Field) -> Vec<usize> {
    let (first, end) = (field.offset as u64, field.offset as u64 + field.count as u64);
    (0..32).filter(|k| first <= *k as u64 && (*k as u64) < end).collect()
}

/// "Extraction gives 0 for c = 0, else the c bits from o, and a signed field repeats its top bit above."
fn extracted(e: u32, field: Field, signed: bool) -> u32 {
    let (from, places) = (bits(e), places(field));
    let above = signed && places.last().is_some_and(|top| from[*top]);
    word(std::array::from_fn(|k| places.get(k).map_or(above, |p| from[*p])))
}

/// "Insertion puts the new value's low c bits at those places and changes no other bit."
fn inserted(e: u32, new: u32, field: Field) -> u32 {
    let (mut to, from) = (bits(e), bits(new));
    for (k, p) in places(field).into_iter().enumerate() {
        to[p] = from[k];
    }
    word(to)
}

fn scalar_rank(a: u8, b: u8) -> Option<u32> {
    match (a, b) {
        _ if a == b => Some(0),
        (5, 1) => Some(3),
        (5, 2) => Some(4),
        (5, 6) => Some(5),
        (5, 3) => Some(6),
        (5, 4) => Some(7),
        (6, 3) => Some(1),
        (6, 4) => Some(2),
        _ => None,
    }
}

pub fn rank(t: &Table, a: u32, b: u32) -> Option<u32> {
    let (x, y) = (t.entries[a as usize], t.entries[b as usize]);
    if is_scalar(x.kind) && is_scalar(y.kind) {
        return scalar_rank(x.kind, y.kind);
    }
    if x.kind != y.kind {
        return None;
    }
    let inner = || rank(t, x.reference as u32, y.reference as u32);
    match x.kind {
        12 => (a == b).then_some(0),
        11 => inner().filter(|r| *r == 0),
        _ if (x.columns, x.rows, x.count) == (y.columns, y.rows, y.count) => inner(),
        _ => None,
    }
}

pub fn common(t: &Table, list: &[u32]) -> Option<u32> {
    let two = |a, b| rank(t, a, b).map(|_| b).or_else(|| rank(t, b, a).map(|_| a));
    let (first, rest) = list.split_first()?;
    rest.iter().try_fold(*first, |a, b| two(a, *b))
}

fn told(n: Option<u64>, refusal: u32) -> String {
    n.map_or(format!("refused {refusal} at 0"), |n| n.to_string())
}

/// The answer to a question about the numbers of an entry's type.
pub fn numbers(q: &Question, l: &Laid) -> String {
    let marked = |n: Option<u64>| n.map_or("-".into(), |n| n.to_string());
    match q {
        Question::Size(_) => told(l.size, 9),
        Question::Align(_) => told(l.align, 9),
        Question::MinSize(_) => told(l.least(), 9),
        _ => [l.size, l.align, l.least(), own_stride(l)].map(marked).join(" "),
    }
}

/// What 01 answers, the row that the question falls under, if any, and what the Rust says there, if the row tells.
pub struct Due {
    pub says: String,
    pub row: Option<Row>,
    pub rust: Option<String>,
}

/// What a call with a buffer answers where the file or the entry is refused: what was lent is as it was.
fn unchanged(q: &Question, number: u32, place: u64) -> String {
    match q {
        Question::Write(_, _, buffer) | Question::Set(_, _, _, buffer) | Question::Insert(_, _, _, _, buffer) => {
            with_buffer(Err((number, place)), buffer)
        }
        Question::Read(_, words, _) | Question::PlanOrder(_, words) => with_words(Err((number, place)), words),
        Question::Clean(_, buffer) => with_gaps(Err((number, place)), buffer, buffer),
        Question::SiteInheriting(_, mask) | Question::SiteClear(_, _, mask) => with_mask(Err((number, place)), *mask),
        Question::SiteFresh(_, mask, sheets) | Question::SiteSet(_, _, mask, _, _, sheets) => {
            with_site(Err((number, place)), *mask, &sheets.site)
        }
        _ => format!("refused {number} at {place}"),
    }
}

/// What 02 answers of a field of a word, whatever the file is.
fn of_word(q: &Question) -> Option<u32> {
    match q {
        Question::ExtractU32(word, field) => Some(extracted(*word, *field, false)),
        Question::InsertU32(word, new, field) => Some(inserted(*word, *new, *field)),
        _ => None,
    }
}

/// What 02 answers of a move to form `to`, and what the output holds then (E7). "2 now means neither 1 nor 2 (and a form 1 file given to
/// the move back, or a form 2 file to the move on); 20, a name not 0, after 1 to 7; 15, output too small, after that." E12: "E7's moves
/// read it too"
fn moved(file: &[u8], checked: &Result<Good, Refusal>, to: u16, output: &mut [u8]) -> Answer {
    let Some(form) = file.len().checked_sub(10).map(|trailer| [file[trailer + 8], file[trailer + 9]]) else {
        return Err((1, 0));
    };
    if form != (3 - to).to_le_bytes() {
        return Err((2, 0));
    }
    let table = match checked {
        Ok(good) => &good.table,
        Err(r) => return Err((r.number, r.place as u64)),
    };
    // what is moved on has no names to be lost, and gets none
    if table.members.iter().any(|m| m.name != 0) {
        return Err((20, 0));
    }
    let entries = 12 * table.entries.len() + if to == 2 { 12 } else { 16 } * table.members.len();
    let new = table.write_as(to, &file[..file.len() - 10 - entries]);
    let Some(front) = output.get_mut(..new.len()) else { return Err((15, 0)) };
    front.copy_from_slice(&new);
    Ok(new.len() as u64)
}

pub fn answer(file: &[u8], checked: &Result<Good, Refusal>, nodes: &[u64], q: &Question) -> Due {
    if let Some(word) = of_word(q) {
        return Due { says: word.to_string(), row: Some(Row::BitFields), rust: Some(NOTHING.into()) };
    }
    if let Question::Convert(from, pattern, to) = q {
        let says = question::told(literal::convert(*from, *pattern, *to));
        let (row, rust) = rows::converted(*from, *pattern, *to, &says).unzip();
        return Due { says, row, rust };
    }
    if let Question::Move(to, output) = q {
        let mut output = output.clone();
        let says = with_buffer(moved(file, checked, *to, &mut output), &output);
        return Due { says, row: Some(Row::Forms), rust: Some(NOTHING.into()) };
    }
    let good = match checked {
        Ok(good) => good,
        Err(r) => return Due { says: unchanged(q, r.number, r.place as u64), row: Some(r.row), rust: None },
    };
    let laid = &good.laid;
    if q.entries().iter().any(|e| *e as usize >= laid.len()) {
        return Due { says: unchanged(q, 8, 0), row: Some(Row::NoEntry), rust: None };
    }
    let says = match q {
        Question::Check => laid.len().to_string(),
        Question::Size(e) | Question::Align(e) | Question::MinSize(e) | Question::Layout(e) => {
            numbers(q, &laid[*e as usize])
        }
        Question::Uniform(e) => question::told(good.uniform(*e as usize)),
        Question::Rank(a, b) => told(rank(&good.table, *a, *b).map(u64::from), 18),
        Question::Common(list) => told(common(&good.table, list).map(u64::from), 18),
        Question::Write(e, words, buffer) => {
            let mut buffer = buffer.clone();
            with_buffer(good.write(*e as usize, words, &mut buffer), &buffer)
        }
        Question::Read(e, words, buffer) => {
            let mut words = words.clone();
            let e = *e as usize;
            let start = laid[e].tail.map_or(0, |t| t.offset);
            with_words(good.read(e, laid[e].size.unwrap_or(0), start, buffer, &mut words), &words)
        }
        Question::View(e, path, buffer) => with_part(good.view(*e as usize, path, buffer)),
        Question::Set(e, words, path, buffer) => {
            let mut buffer = buffer.clone();
            with_buffer(good.set(*e as usize, path, words, &mut buffer), &buffer)
        }
        Question::Clean(e, buffer) => {
            let mut after = buffer.clone();
            with_gaps(good.clean(*e as usize, &mut after), buffer, &after)
        }
        Question::PlanOrder(e, list) => {
            let mut list = list.clone();
            with_words(good.plan_order(*e as usize, &mut list), &list)
        }
        Question::CheckOrder(e, order) => question::told(good.check_order(*e as usize, order)),
        Question::Extract(e, field, path, buffer) => question::told(good.extract(*e as usize, path, *field, buffer)),
        Question::Insert(e, new, field, path, buffer) => {
            let mut buffer = buffer.clone();
            with_buffer(good.insert(*e as usize, path, *new, *field, &mut buffer), &buffer)
        }
        Question::SiteInheriting(e, mask) => {
            let mut mask = *mask;
            with_mask(good.site_inheriting(*e as usize, &mut mask), mask)
        }
        Question::SiteFresh(e, mask, sheets) => {
            let (mut mask, mut sheets) = (*mask, sheets.clone());
            with_site(good.site_fresh(*e as usize, &mut mask, &mut sheets), mask, &sheets.site)
        }
        Question::SiteClear(e, k, mask) => {
            let mut mask = *mask;
            with_mask(good.site_clear(*e as usize, *k, &mut mask), mask)
        }
        Question::SiteMember(e, k, mask, sheets) => with_shown(good.site_member(*e as usize, *k, *mask, sheets)),
        Question::SiteSet(e, k, mask, words, path, sheets) => {
            let (mut mask, mut sheets) = (*mask, sheets.clone());
            let answer = good.site_set(*e as usize, *k, path, words, &mut mask, &mut sheets);
            with_site(answer, mask, &sheets.site)
        }
        Question::ExtractU32(..) | Question::InsertU32(..) => unreachable!("answered before"),
        Question::Convert(..) | Question::Move(..) => unreachable!("answered before"),
    };
    let deep = |e: &u32| nodes[*e as usize] > crate::types::MOST;
    let asked_deep = match q {
        Question::Check => nodes.iter().any(|n| *n > crate::types::MOST),
        _ => q.entries().iter().any(deep),
    };
    if asked_deep {
        return Due { says, row: Some(Row::Doubling), rust: None };
    }
    let (row, rust) = rows::departure(good, q, &says).unzip();
    Due { says, row, rust }
}
