//! The rows of docs/DIFFERENCES.md. `model` decides which of them a question falls under, and asks here what the Rust says of numbers and
//! does with a buffer instead; the document's own examples are read here too.
use crate::file::{Member, Table};
use crate::literal;
use crate::model::{self, Good, Laid, Stand, Target, members};
use crate::question::{Answer, Block, Question, parse_bytes, told, with_buffer, with_gaps, with_part, with_words};
use crate::types::{NOTHING, PANICS, put_front};

macro_rules! rows {
    ($($row:ident = $name:literal),* $(,)?) => {
        #[derive(Clone, Copy, PartialEq, Eq, Debug)]
        pub enum Row { $($row),* }

        pub const ALL: &[Row] = &[$(Row::$row),*];

        impl Row {
            /// The row's heading in the document.
            pub fn name(self) -> &'static str {
                match self { $(Row::$row => $name),* }
            }
        }
    };
}

rows! {
    NoTable = "no-table",
    Unsayable = "unsayable",
    VectorRows = "vector-rows",
    VectorOf = "vector-of",
    MatrixSides = "matrix-sides",
    MatrixOf = "matrix-of",
    ArrayOfNone = "array-of-none",
    ElementOpen = "element-open",
    ElementAbsent = "element-absent",
    AtomicOf = "atomic-of",
    EmptyStruct = "empty-struct",
    MemberOpen = "member-open",
    MemberAbsent = "member-absent",
    SizeBelow = "size-below",
    SizeOnRuntime = "size-on-runtime",
    GivenAlign = "given-align",
    TooLarge = "too-large",
    Stray = "stray",
    NoEntry = "no-entry",
    Doubling = "doubling",
    Vec3Bool = "vec3-bool",
    Vec3Of64 = "vec3-64-bit",
    WordCount = "word-count",
    Vast = "vast",
    F16Word = "f16-word",
    NoElement = "no-element",
    UnsharedVector = "unshared-vector",
    StructEnd = "struct-end",
    LastPadding = "last-padding",
    ArrayStart = "array-start",
    ViewBool = "view-bool",
    ViewGaps = "view-gaps",
    SetAtomic = "set-atomic",
    SetGaps = "set-gaps",
    NoScalar = "no-scalar",
    IntToF16 = "int-to-f16",
    NanLiteral = "nan-literal",
    F16LowBits = "f16-low-bits",
    BitFields = "bit-fields",
    Uniform = "uniform",
    Forms = "forms",
    Site = "site",
}

/// The Rust writes into a vector of its own: a longer one is not asked for.
pub const VAST: u64 = 1 << 20;

/// Every entry's numbers as the Rust has them: 01's, but for the alignment of a vec3 of bool, which it has not, and for what is worked out
/// from that.
pub fn numbered(table: &Table, laid: &[Laid]) -> Vec<Laid> {
    let mut rust: Vec<Laid> = Vec::new();
    for (x, l) in table.entries.iter().zip(laid) {
        let sized = |m: &Member| m.flags & 1 != 0 || rust[m.ty as usize].size.is_some();
        let aligned = |m: &Member| m.flags & 2 != 0 || rust[m.ty as usize].align.is_some();
        let (size, align) = match x.kind {
            7 => (true, x.rows != 3 || !l.holds_bool),
            9 | 10 => {
                let element = &rust[x.reference as usize];
                (element.size.is_some() && element.align.is_some(), element.align.is_some())
            }
            12 => {
                let ms = table.members_of(x).expect("members within the table");
                (ms.iter().all(|m| sized(m) && aligned(m)), ms.iter().all(aligned))
            }
            _ => (true, true),
        };
        let known = |n: Option<u64>, is: bool| n.filter(|_| is);
        rust.push(Laid {
            size: known(l.size, size),
            align: known(l.align, align),
            stride: known(l.stride, size),
            ..*l
        });
    }
    rust
}

/// What the Rust makes of a value: its bytes; `None`, which it gives where a type can't be shared; or a panic.
enum Made {
    Bytes(Vec<u8>),
    Nothing,
    Panic,
}

/// So many scalars of an entry's type, one after another.
fn scalars(good: &Good, e: usize, count: u64, words: &mut impl Iterator<Item = u32>) -> Vec<u8> {
    let l = &good.laid[e];
    let width = (l.size.unwrap_or(0) / l.words) as usize;
    words.take((count * l.words) as usize).flat_map(|w| w.to_le_bytes()[..width].to_vec()).collect()
}

/// What the Rust writes for an entry's type, of which there are `n` elements if it is open: no struct's end is padded, but where it is a
/// member of another, a vector or a matrix of what can't be shared panics, and where a number is absent that it needs there is nothing.
fn made(good: &Good, e: usize, n: u64, words: &mut impl Iterator<Item = u32>) -> Made {
    let x = good.table.entries[e];
    let (l, r) = (&good.laid[e], x.reference as usize);
    let unshared = |of: usize| [0, 5, 6].contains(&good.table.entries[of].kind);
    let mut bytes = Vec::new();
    match x.kind {
        0..=6 if unshared(e) => return Made::Nothing,
        7 | 8 if unshared(r) => return Made::Panic,
        0..=6 | 13..=15 => bytes = scalars(good, e, 1, words),
        11 => bytes = scalars(good, r, 1, words),
        7 => bytes = scalars(good, r, x.rows as u64, words),
        8 => {
            for c in 1..=x.columns as usize {
                bytes.extend(scalars(good, r, x.rows as u64, words));
                bytes.resize(c * l.align.expect("a matrix of floats") as usize, 0);
            }
        }
        9 | 10 => {
            let (Some(stride), Some(size)) = (good.rust[e].stride, good.laid[r].size) else { return Made::Nothing };
            for _ in 0..if x.kind == 9 { x.count as u64 } else { n } {
                match made(good, r, n, words) {
                    Made::Bytes(element) => bytes.extend(element),
                    other => return other,
                }
                bytes.resize(bytes.len() + (stride - size) as usize, 0);
            }
        }
        _ => {
            let ms = good.table.members_of(&x).expect("members within the table");
            for (m, p) in ms.iter().zip(members(&good.laid, ms)) {
                let known = &good.rust[m.ty as usize];
                if (m.flags & 1 == 0 && known.least().is_none()) || (m.flags & 2 == 0 && known.align.is_none()) {
                    return Made::Nothing;
                }
                bytes.resize(bytes.len().next_multiple_of(p.align as usize), 0);
                let at = bytes.len();
                match made(good, m.ty as usize, n, words) {
                    Made::Bytes(member) => bytes.extend(member),
                    other => return other,
                }
                let size = p.end.map_or(good.extent(m.ty as usize, n), |end| end - p.offset);
                bytes.resize(bytes.len().max(at + size as usize), 0);
            }
        }
    }
    Made::Bytes(bytes)
}

/// The first row that holds of a write, and what the Rust says of it; the last of them is that it writes other bytes, if it does.
fn written(good: &Good, e: usize, words: &[u32], buffer: &[u8]) -> (Row, String) {
    let l = &good.laid[e];
    let Some(n) = good.elements(e, words.len() as u64) else { return (Row::WordCount, NOTHING.into()) };
    if good.extent(e, n) > VAST {
        return (Row::Vast, NOTHING.into());
    }
    if model::bad_word(&good.places(e, n, 0), words).is_some() {
        return (Row::F16Word, NOTHING.into());
    }
    if l.open && n == 0 {
        return (Row::NoElement, PANICS.into());
    }
    let mut buffer = buffer.to_vec();
    let answer: Answer = match made(good, e, n, &mut words.iter().copied()) {
        Made::Panic => return (Row::UnsharedVector, PANICS.into()),
        Made::Nothing => {
            let refusal = if good.rust[e].has_layout() { 10 } else { 9 };
            return (Row::Vec3Bool, with_buffer(Err((refusal, 0)), &buffer));
        }
        Made::Bytes(bytes) => put_front(&bytes, &mut buffer),
    };
    (if good.has_layout(e) { Row::StructEnd } else { Row::Vec3Of64 }, with_buffer(answer, &buffer))
}

/// How many bytes the Rust needs to read a type of fixed size: up to the end of the last column, element or member.
pub fn reach(good: &Good, e: usize) -> u64 {
    let x = good.table.entries[e];
    let (l, below) = (&good.laid[e], good.laid.get(x.reference as usize));
    let size = l.size.unwrap_or(0);
    let padding = match (x.kind, below) {
        (8, Some(s)) => l.align.unwrap_or(0) - x.rows as u64 * s.size.unwrap_or(0),
        (9, Some(s)) => l.stride.unwrap_or(0) - s.size.unwrap_or(0),
        (12, _) => {
            let placed = members(&good.laid, good.table.members_of(&x).expect("members within the table"));
            placed.last().and_then(|p| p.end).map_or(0, |end| size - end)
        }
        _ => 0,
    };
    size - padding
}

/// Where the Rust begins to read an open type's array: where the member before it ends, whatever its alignment.
pub fn start(good: &Good, e: usize) -> u64 {
    let x = good.table.entries[e];
    if x.kind != 12 {
        return 0;
    }
    let placed = members(&good.laid, good.table.members_of(&x).expect("members within the table"));
    placed.iter().rev().nth(1).and_then(|p| p.end).unwrap_or(0)
}

/// What the Rust writes of a part of a value: of an entry's type as above, of a column its scalars.
fn made_of(good: &Good, stand: Stand, n: u64, words: &[u32]) -> Vec<u8> {
    let mut words = words.iter().copied();
    match stand {
        Stand::Column(rows, scalar) => scalars(good, scalar, rows, &mut words),
        Stand::Entry(e) => match made(good, e, n, &mut words) {
            Made::Bytes(bytes) => bytes,
            _ => unreachable!("what was read can be written"),
        },
    }
}

/// The same as 01 writes it: every struct's end is padded.
fn padded(good: &Good, stand: Stand, n: u64, words: &[u32]) -> Vec<u8> {
    let mut bytes = vec![0; good.span(stand, n) as usize];
    match stand {
        Stand::Column(..) => bytes = made_of(good, stand, n, words),
        Stand::Entry(e) => model::put(&good.places(e, n, 0), words, &mut bytes),
    }
    bytes
}

/// Whether the Rust writes and reads an entry's type though it has no alignment: a vector of three scalars of 64 bits. It needs that
/// number for nothing but what holds the vector.
fn is_vec3_of_64(good: &Good, e: usize) -> bool {
    let x = good.table.entries[e];
    x.kind == 7 && x.rows == 3 && good.table.entries[x.reference as usize].kind >= 13
}

/// What the Rust reads of an entry's type into words; 9 where it has no layout by the Rust's own numbers, but of a vector of three
/// scalars of 64 bits only where the buffer is short.
fn read(good: &Good, e: usize, buffer: &[u8], words: &mut [u32]) -> Answer {
    let (needed, start) = (reach(good, e), start(good, e));
    if is_vec3_of_64(good, e) && buffer.len() as u64 >= needed {
        return good.read_stored(e, needed, start, buffer, words);
    }
    if !good.rust[e].has_layout() {
        return Err((9, 0));
    }
    good.read(e, needed, start, buffer, words)
}

/// A value as the Rust reads it: its words, how many elements it has if it is open, and how far before their place in 01 it read those.
struct Held {
    words: Vec<u32>,
    n: u64,
    early: u64,
}

/// What the Rust reads of an entry's type, if it reads anything; else what its `None` is told as.
fn held(good: &Good, e: usize, buffer: &[u8]) -> Result<Held, (u32, u64)> {
    let l = &good.laid[e];
    let (start, length) = (start(good, e), buffer.len() as u64);
    let n = good.elements_in(e, start, length);
    // More words than bytes are never read.
    let mut words = vec![0; good.words(e, n).min(length) as usize];
    let count = read(good, e, buffer, &mut words)?;
    words.truncate(count as usize);
    Ok(Held { words, n, early: l.tail.map_or(0, |t| t.offset - start) })
}

impl Held {
    /// Whether the Rust has read all or some of a target from another place than 01's: some of its words are those of the array.
    fn is_moved(&self, good: &Good, e: usize, t: &Target) -> bool {
        self.early > 0 && t.word + good.count(t.stand, self.n) > good.laid[e].words
    }

    /// Where the Rust has read a target from.
    fn offset(&self, good: &Good, e: usize, t: &Target) -> u64 {
        if t.word < good.laid[e].words { t.offset } else { t.offset - self.early }
    }
}

/// The row of an entry that the Rust reads where 01 does not, or has no layout of where 01 has one.
fn early(good: &Good, e: usize) -> Row {
    match &good.rust[e] {
        _ if !good.has_layout(e) => Row::Vec3Of64,
        l if !l.has_layout() => Row::Vec3Bool,
        l if l.open => Row::ArrayStart,
        _ => Row::LastPadding,
    }
}

/// The first row that holds of a view, and what the Rust says of it.
fn viewed(good: &Good, e: usize, path: &[u32], buffer: &[u8]) -> (Row, String) {
    let held = match held(good, e, buffer) {
        Err((10, _)) => return (Row::ViewBool, with_part(Err((10, 0)))),
        Err(refusal) => return (early(good, e), with_part(Err(refusal))),
        Ok(held) => held,
    };
    let t = match good.walk(e, held.n, path) {
        Err(bad) => return (early(good, e), with_part(Err(bad))),
        Ok(t) => t,
    };
    let words = &held.words[t.word as usize..];
    let bytes = made_of(good, t.stand, held.n, words);
    let row = match () {
        _ if good.view(e, path, buffer).is_err() || held.is_moved(good, e, &t) => early(good, e),
        _ if bytes != padded(good, t.stand, held.n, words) => Row::StructEnd,
        _ => Row::ViewGaps,
    };
    (row, with_part(Ok((held.offset(good, e, &t), bytes))))
}

/// The first row that holds of a set, and what the Rust says of it.
fn changed(good: &Good, e: usize, path: &[u32], words: &[u32], buffer: &[u8]) -> (Row, String) {
    let refused = |refusal| with_buffer(Err(refusal), buffer);
    let mut held = match held(good, e, buffer) {
        Err(refusal) => return (early(good, e), refused(refusal)),
        Ok(held) => held,
    };
    let t = match good.walk(e, held.n, path) {
        Err(bad) => return (early(good, e), refused(bad)),
        Ok(t) => t,
    };
    let unseen = good.view(e, path, buffer).is_err();
    match good.scalar(t.stand) {
        None => return (early(good, e), refused((14, 0))),
        Some(s) if words.len() as u64 != good.laid[s].words => return (Row::WordCount, NOTHING.into()),
        Some(s) if good.table.entries[s].kind == 11 => {
            return (if unseen { early(good, e) } else { Row::SetAtomic }, refused((14, 0)));
        }
        Some(s) if model::bad_word(&good.places(s, 0, 0), words).is_some() => return (Row::F16Word, NOTHING.into()),
        _ => held.words[t.word as usize..][..words.len()].copy_from_slice(words),
    }
    let bytes = made_of(good, Stand::Entry(e), held.n, &held.words);
    let row = match () {
        _ if unseen || held.early > 0 => early(good, e),
        _ if bytes != padded(good, Stand::Entry(e), held.n, &held.words) => Row::StructEnd,
        _ => Row::SetGaps,
    };
    let mut after = buffer.to_vec();
    let put = put_front(&bytes, &mut after);
    (row, with_buffer(put.map(|_| held.offset(good, e, &t)), &after))
}

/// The row of a cleaning, and what the Rust says of it; none where it writes what it read as 01 does.
fn cleaned(good: &Good, e: usize, buffer: &[u8]) -> Option<(Row, String)> {
    let mut after = buffer.to_vec();
    let unread = good.clean(e, &mut after.clone()).is_err();
    let (row, extent) = match held(good, e, buffer) {
        Err(refusal) => (early(good, e), Err(refusal)),
        Ok(held) => {
            let bytes = made_of(good, Stand::Entry(e), held.n, &held.words);
            let row = match () {
                _ if unread || held.early > 0 => early(good, e),
                _ if bytes != padded(good, Stand::Entry(e), held.n, &held.words) => Row::StructEnd,
                _ => return None,
            };
            (row, put_front(&bytes, &mut after))
        }
    };
    Some((row, with_gaps(extent, buffer, &after)))
}

/// A member's alignment and size as the Rust has them, given or its type's; of a runtime array the size is 0.
fn known(good: &Good, m: &Member) -> Option<(u32, u32)> {
    let l = &good.rust[m.ty as usize];
    let align = if m.flags & 2 != 0 { m.align } else { l.align? as u32 };
    let size = if m.flags & 1 != 0 { m.size } else { l.size.or(l.open.then_some(0))? as u32 };
    Some((align, size))
}

/// Where the Rust has a struct of these members end, if it has all numbers: its sums wrap.
fn end(good: &Good, ms: &[Member]) -> Option<u32> {
    let up = |align: u32, n: u32| n.div_ceil(align).wrapping_mul(align);
    let known = ms.iter().map(|m| known(good, m)).collect::<Option<Vec<(u32, u32)>>>()?;
    let past = known.iter().fold(0, |past, (align, size)| up(*align, past).wrapping_add(*size));
    let is_open = ms.last().is_some_and(|m| good.laid[m.ty as usize].open);
    Some(if is_open { past } else { up(known.iter().map(|(align, _)| *align).max()?, past) })
}

/// The row of a plan, and what the Rust says of it: no order where it lacks an alignment.
fn planned(good: &Good, e: usize, list: &[u32]) -> Option<(Row, String)> {
    let ms = good.ordered(e).ok()?;
    let unknown = ms.iter().any(|m| m.flags & 2 == 0 && good.rust[m.ty as usize].align.is_none());
    unknown.then(|| (Row::Vec3Bool, with_words(Err((9, 0)), list)))
}

/// The row of an order that is checked, and what the Rust says of it: nothing where it lacks a number, and a wrapped end where 01 refuses a
/// number above the limit.
fn reordered(good: &Good, e: usize, order: &[u32]) -> Option<(Row, String)> {
    let ms = good.ordered(e).ok()?;
    let Some(now) = end(good, ms) else { return Some((Row::Vec3Bool, told(Err((9, 0))))) };
    if !model::names_all(order, ms.len()) {
        return None;
    }
    let moved: Vec<Member> = order.iter().map(|k| ms[*k as usize]).collect();
    if moved.last().is_some_and(|m| good.laid[m.ty as usize].open) != good.laid[e].open {
        return None;
    }
    let new = end(good, &moved).filter(|new| *new < now);
    Some((Row::TooLarge, told(new.map(u64::from).ok_or((23, 0)))))
}

/// The row of a question on a table that 01 accepts, of an entry that it has, and what the Rust says of it; none where that is what 01
/// says.
pub fn departure(good: &Good, q: &Question, says: &str) -> Option<(Row, String)> {
    let (row, said) = match q {
        Question::Size(e) | Question::Align(e) | Question::MinSize(e) | Question::Layout(e) => {
            (Row::Vec3Bool, model::numbers(q, &good.rust[*e as usize]))
        }
        Question::Write(e, words, buffer) => written(good, *e as usize, words, buffer),
        Question::Read(e, words, buffer) => {
            let (e, mut words) = (*e as usize, words.clone());
            let answer = read(good, e, buffer, &mut words);
            (early(good, e), with_words(answer, &words))
        }
        Question::View(e, path, buffer) => viewed(good, *e as usize, path, buffer),
        Question::Set(e, words, path, buffer) => changed(good, *e as usize, path, words, buffer),
        Question::Clean(e, buffer) => cleaned(good, *e as usize, buffer)?,
        Question::PlanOrder(e, list) => planned(good, *e as usize, list)?,
        Question::CheckOrder(e, order) => reordered(good, *e as usize, order)?,
        Question::Extract(..) | Question::Insert(..) => (Row::BitFields, NOTHING.into()),
        Question::Uniform(_) => (Row::Uniform, NOTHING.into()),
        Question::SiteInheriting(..) | Question::SiteFresh(..) | Question::SiteClear(..) => (Row::Site, NOTHING.into()),
        Question::SiteMember(..) | Question::SiteSet(..) => (Row::Site, NOTHING.into()),
        _ => return None,
    };
    (said != says).then_some((row, said))
}

/// A NaN of an abstract float as the Rust converts it, quiet: the sign, and of the bits below as many as there are, the highest first. An
/// f32 has 29 bits of mantissa fewer, an f16 42.
fn nan(pattern: u64, to: u32) -> u64 {
    let (infinity, quiet, fewer) = if to == 3 { (0x7f80_0000, 1 << 22, 29) } else { (0x7c00, 1 << 9, 42) };
    let sign = if pattern >> 63 == 1 { infinity + 2 * quiet } else { 0 };
    sign + (infinity | quiet | (pattern & 0x000f_ffff_ffff_ffff) >> fewer)
}

/// The row of a conversion of a literal, and what the Rust says of it; none where that is what 02 says.
pub fn converted(from: u32, pattern: u64, to: u32, says: &str) -> Option<(Row, String)> {
    let (row, said) = match (from, to) {
        _ if !literal::is_kind(from) || !literal::is_kind(to) => (Row::NoScalar, NOTHING.into()),
        (5, 4) => (Row::IntToF16, NOTHING.into()),
        (6, 3 | 4) if literal::is_nan(pattern) => (Row::NanLiteral, nan(pattern, to).to_string()),
        // half does not look at the lowest 32 bits
        (6, 4) => (Row::F16LowBits, told(literal::convert(6, pattern & !0xffff_ffff, 4))),
        _ => return None,
    };
    (said != says).then_some((row, said))
}

/// A row's smallest input, with what the document says of the two sides.
pub struct Example {
    pub name: String,
    pub block: Block,
    pub rust: String,
    pub lepugaso: String,
}

/// The examples of the document: under a heading `### name` an indented block of a file, perhaps a factory buffer, perhaps a buffer (the
/// line of each goes on where the next has a deeper margin), a question and the two answers.
pub fn examples(document: &str) -> Vec<Example> {
    let mut examples = Vec::new();
    let (mut name, mut question, mut rust) = (String::new(), None, String::new());
    // the file, the factory buffer and the buffer, and which of them was begun last
    let (mut held, mut last) = ([vec![], vec![], vec![]], 0);
    for line in document.lines() {
        if let Some(heading) = line.strip_prefix("### ") {
            name = heading.trim_matches('`').into();
        }
        let Some(said) = line.strip_prefix("    ").filter(|_| !name.is_empty()) else { continue };
        if let Some(hex) = said.strip_prefix("file ") {
            (held, last) = ([parse_bytes(hex), vec![], vec![]], 0);
        } else if let Some(hex) = said.strip_prefix("factory") {
            (held[1], last) = (parse_bytes(hex), 1);
        } else if let Some(hex) = said.strip_prefix("buffer") {
            (held[2], last) = (parse_bytes(hex), 2);
        } else if let Some(hex) = said.strip_prefix("  ") {
            held[last].extend(parse_bytes(hex));
        } else if let Some(answer) = said.strip_prefix("Rust: ") {
            rust = answer.into();
        } else if let Some(answer) = said.strip_prefix("Lepugaso: ") {
            let questions = vec![question.take().expect("a question before its answers")];
            examples.push(Example {
                name: name.clone(),
                block: Block { file: held[0].clone(), questions },
                rust: rust.clone(),
                lepugaso: answer.into(),
            });
        } else {
            question = Some(Question::parse(said, &held[2], &held[1]));
        }
    }
    examples
}
