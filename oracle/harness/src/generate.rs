//! The questions: all small tables over a menu, random tables, tables at the limits, damaged copies; and on each of them what can be
//! asked, buffers and words on each side of their edges.
use crate::file::{Entry, Member, Table};
use crate::model::{self, Good, Laid, Stand, Tail};
use crate::question::{Block, Field, Question, Sheets};
use crate::rows;

/// splitmix64: a seed gives the same questions everywhere.
pub struct Random(pub u64);

impl Random {
    fn next(&mut self) -> u64 {
        self.0 = self.0.wrapping_add(0x9e37_79b9_7f4a_7c15);
        let mut z = self.0;
        z = (z ^ (z >> 30)).wrapping_mul(0xbf58_476d_1ce4_e5b9);
        z = (z ^ (z >> 27)).wrapping_mul(0x94d0_49bb_1331_11eb);
        z ^ (z >> 31)
    }

    fn below(&mut self, n: u64) -> u64 {
        self.next() % n
    }

    fn one_in(&mut self, n: u64) -> bool {
        self.below(n) == 0
    }

    fn of<T: Copy>(&mut self, list: &[T]) -> T {
        list[self.below(list.len() as u64) as usize]
    }
}

fn entry(kind: u8, columns: u8, rows: u8, reference: u16, count: u32) -> Entry {
    Entry { kind, columns, rows, reference, count, ..Default::default() }
}

fn member(ty: u16, size: Option<u32>, align: Option<u32>) -> Member {
    let flags = size.is_some() as u16 + 2 * align.is_some() as u16;
    Member { ty, flags, size: size.unwrap_or(0), align: align.unwrap_or(0), name: 0 }
}

/// A new entry over a table, with the members that it brings.
type Choice = (Entry, Vec<Member>);

fn with(t: &Table, (e, ms): &Choice) -> Table {
    let mut t = t.clone();
    t.entries.push(*e);
    t.members.extend(ms);
    t
}

/// A struct of the members that follow those of the table.
fn structure(t: &Table, ms: Vec<Member>) -> Choice {
    (entry(12, 0, 0, t.members.len() as u16, ms.len() as u32), ms)
}

/// The kinds of scalars that have at most 32 bits, and of those that have 64.
const SHORT: [u8; 7] = [0, 1, 2, 3, 4, 5, 6];
const LONG: [u8; 3] = [13, 14, 15];

/// Every choice of the menu for the next entry, with these scalars.
fn menu(t: &Table, kinds: &[u8]) -> Vec<Choice> {
    let k = t.entries.len() as u16;
    let mut list: Vec<Choice> = kinds.iter().map(|kind| scalar(*kind)).collect();
    let given = [(None, None), (Some(20), None), (None, Some(16)), (Some(20), Some(32))];
    for r in 0..k {
        for rows in 2..=4 {
            list.push((entry(7, 0, rows, r, 0), vec![]));
        }
        for (columns, rows) in [(2, 3), (3, 3), (4, 2)] {
            list.push((entry(8, columns, rows, r, 0), vec![]));
        }
        for count in [1, 3] {
            list.push((entry(9, 0, 0, r, count), vec![]));
        }
        list.push((entry(10, 0, 0, r, 0), vec![]));
        list.push((entry(11, 0, 0, r, 0), vec![]));
        for (size, align) in given {
            list.push(structure(t, vec![member(r, size, align)]));
            for s in 0..k {
                list.push(structure(t, vec![member(r, size, None), member(s, None, align)]));
            }
        }
    }
    list
}

/// Every accepted table of at most `most` entries over the menu without scalars of 64 bits.
pub fn small(most: usize) -> Vec<Table> {
    small_over(most, &SHORT)
}

/// Every accepted table of at most `most` entries over the menu with these scalars.
fn small_over(most: usize, kinds: &[u8]) -> Vec<Table> {
    fn grow(t: &Table, laid: &[Laid], most: usize, kinds: &[u8], found: &mut Vec<Table>) {
        if laid.len() == most {
            return;
        }
        for choice in menu(t, kinds) {
            let t = with(t, &choice);
            if let Ok(l) = model::lay(&t, laid, laid.len()) {
                let mut laid = laid.to_vec();
                laid.push(l);
                grow(&t, &laid, most, kinds, found);
                found.push(t);
            }
        }
    }
    let mut found = Vec::new();
    grow(&Table::default(), &[], most, kinds, &mut found);
    found
}

/// Everything that can be asked of a table of few entries.
pub fn everything(t: &Table) -> Vec<Question> {
    let n = t.entries.len() as u32;
    let mut qs = vec![Question::Check, Question::Common(vec![])];
    for a in 0..n {
        qs.extend([Question::Size(a), Question::Align(a), Question::MinSize(a), Question::Layout(a)]);
        qs.push(Question::Uniform(a));
        qs.push(Question::Common(vec![a]));
        for b in 0..n {
            qs.extend([Question::Rank(a, b), Question::Common(vec![a, b])]);
            qs.push(Question::Common(vec![b, n - 1, a]));
        }
    }
    qs
}

/// What a line of questions has room for, and what most questions keep to.
const MOST_WORDS: u64 = 1023;
const MOST_BYTES: u64 = 4096;
const FEW_WORDS: u64 = 60;
const FEW_BYTES: u64 = 300;

/// Bytes none of which is 0, so that a byte that was written to shows.
fn bytes(r: &mut Random, length: u64) -> Vec<u8> {
    (0..length).map(|_| 1 + r.below(255) as u8).collect()
}

/// Any words, none of which is 0.
fn any_words(r: &mut Random, count: u64) -> Vec<u32> {
    let mut word = || {
        let below = if r.one_in(3) { 4_294_967_295 } else { 200 };
        1 + r.below(below) as u32
    };
    (0..count).map(|_| word()).collect()
}

/// Words for an entry with `n` elements, none that an f16 can't have; now and then one that is special to a scalar.
fn fitting_words(r: &mut Random, good: &Good, e: usize, n: u64) -> Vec<u32> {
    let special = [0, 1, 0x7fff, 0x8000, 0x7f80_0001, 0x7fff_ffff, 0x8000_0000, 0xffff_ffff];
    let mut words = any_words(r, good.words(e, n));
    for (w, p) in words.iter_mut().zip(good.places(e, n, 0)) {
        if r.one_in(6) {
            *w = r.of(&special);
        }
        if p.width == 2 {
            *w %= 65_536;
        }
    }
    words
}

/// Writes and reads of entry `e` with `n` elements: each edge of its words and of its bytes, and what it wrote read back.
fn edges(r: &mut Random, good: &Good, e: usize, n: u64) -> Vec<Question> {
    let (count, extent, entry) = (good.words(e, n), good.extent(e, n), e as u32);
    if count > MOST_WORDS - 3 || extent > MOST_BYTES - 12 {
        return vec![
            Question::Write(entry, any_words(r, 2), bytes(r, 9)),
            Question::Read(entry, any_words(r, 2), bytes(r, 9)),
        ];
    }
    let mut qs = Vec::new();
    let more = 1 + r.below(9);
    for length in [extent.saturating_sub(1), extent, extent + 1, extent + 1 + more] {
        let words = fitting_words(r, good, e, n);
        qs.push(Question::Write(entry, words, bytes(r, length)));
    }
    for wrong in [0, good.words(e, 0), count.saturating_sub(1), count + 1] {
        qs.push(Question::Write(entry, any_words(r, wrong), bytes(r, extent)));
    }
    let halves: Vec<usize> = (0..).zip(good.places(e, n, 0)).filter(|(_, p)| p.width == 2).map(|(k, _)| k).collect();
    if let (Some(first), Some(last)) = (halves.first(), halves.last()) {
        for (bad, length) in [(*first, extent), (r.of(&halves), extent + 1), (*last, extent), (*last, extent - 1)] {
            let mut words = fitting_words(r, good, e, n);
            words[bad] = r.of(&[65_536, 65_537, u32::MAX]);
            qs.push(Question::Write(entry, words, bytes(r, length)));
        }
    }
    let reached = if good.laid[e].open { rows::start(good, e) } else { rows::reach(good, e) };
    for length in [extent.saturating_sub(1), extent, extent + 1, extent + more, reached.saturating_sub(1), reached] {
        let room = count + r.below(3);
        qs.push(Question::Read(entry, any_words(r, room), bytes(r, length)));
    }
    for room in [0, count.saturating_sub(1), count, count + 2] {
        qs.push(Question::Read(entry, any_words(r, room), bytes(r, extent)));
    }
    let mut buffer = bytes(r, extent + 3);
    let _ = good.write(e, &fitting_words(r, good, e, n), &mut buffer);
    qs.push(Question::Read(entry, any_words(r, count + 1), buffer));
    qs
}

const MEMBER: u32 = 1 << 31;

/// The kinds of scalars of at most 32 bits that may be stored.
const STORED: [u8; 4] = [1, 2, 3, 4];

/// A good step from where a path stands, if there is any.
fn step(r: &mut Random, good: &Good, stand: Stand, n: u64) -> Option<u32> {
    let one_of = |r: &mut Random, count: u64| {
        let any = r.below(count);
        r.of(&[0, count - 1, any]) as u32
    };
    match (good.member_count(stand), good.parts(stand, n)) {
        (Some(count), _) => Some(MEMBER | one_of(r, count)),
        (_, Some(count)) if count > 0 => Some(one_of(r, count.min(1 << 31))),
        _ => None,
    }
}

/// A good path of at most `most` steps, as long as there is one to take; mostly to a scalar.
fn good_path(r: &mut Random, good: &Good, e: usize, n: u64, most: u64) -> Vec<u32> {
    let mut path = Vec::new();
    while (path.len() as u64) < most && good.laid[e].align.is_some() {
        let stand = good.walk(e, n, &path).expect("a good path").stand;
        match step(r, good, stand, n) {
            Some(s) => path.push(s),
            None => break,
        }
    }
    path
}

/// A step that is bad, or may be: of the right sort with a number on each side of the count, or of any sort.
fn bad_step(r: &mut Random, good: &Good, stand: Stand, n: u64) -> u32 {
    let (members, parts) = (good.member_count(stand), good.parts(stand, n));
    let count = members.or(parts).unwrap_or(0).min(1 << 31) as u32;
    let right = if members.is_some() { MEMBER } else { 0 };
    let flag = if r.one_in(2) { right } else { r.of(&[0, MEMBER]) };
    let after = count.wrapping_add(r.below(300) as u32);
    let number = r.of(&[0, count.wrapping_sub(1), count, count, count.wrapping_add(1), after, 65_536, MEMBER - 1]);
    flag | number & (MEMBER - 1)
}

/// A path that is good, or has a step that may be bad, at its end or before others, good or not; now and then a long one.
fn any_path(r: &mut Random, good: &Good, e: usize, n: u64) -> Vec<u32> {
    let most = r.of(&[0, 1, 2, 3, 300, 300]);
    let mut path = good_path(r, good, e, n, most);
    if r.one_in(2) {
        let at = r.below(path.len() as u64 + 1) as usize;
        let stand = good.walk(e, n, &path[..at]).expect("a good path").stand;
        let step = bad_step(r, good, stand, n);
        if at == path.len() || r.one_in(3) { path.insert(at, step) } else { path[at] = step }
    }
    if r.one_in(8) {
        let more = r.of(&[1, 2, 9, 300]);
        path.extend((0..more).map(|_| r.of(&[0, 0, 1, MEMBER, MEMBER | 1, u32::MAX])));
    }
    path
}

/// As many of two words as the scalar takes that a path leads to; one where it leads to none.
fn words_to_set(good: &Good, e: usize, n: u64, path: &[u32], words: [u32; 2]) -> Vec<u32> {
    let scalar = good.walk(e, n, path).ok().and_then(|t| good.scalar(t.stand));
    words[..scalar.map_or(1, |s| good.laid[s].words as usize)].to_vec()
}

/// Views and sets of entry `e` with `n` elements: the whole, scalars, parts, each sort of bad step at any place, each edge of the bytes.
fn path_edges(r: &mut Random, good: &Good, e: usize, n: u64) -> Vec<Question> {
    let (extent, entry) = (good.extent(e, n), e as u32);
    if extent > MOST_BYTES - 12 || !good.has_layout(e) {
        let path = good_path(r, good, e, n, 2);
        let set = |r: &mut Random, path| Question::Set(entry, vec![1], path, bytes(r, 9));
        return vec![Question::View(entry, path.clone(), bytes(r, 9)), set(r, path)];
    }
    let more = 1 + r.below(9);
    let reached = if good.laid[e].open { rows::start(good, e) } else { rows::reach(good, e) };
    let room = bytes(r, extent + more);
    let mut qs = Vec::new();
    let mut ask = |r: &mut Random, path: Vec<u32>, length: u64| {
        let words = any_words(r, 2);
        let word = r.of(&[words[0], words[1] % 65_536, 65_535, 65_536, u32::MAX]);
        let buffer = &room[..length as usize];
        let set = words_to_set(good, e, n, &path, [word, words[0]]);
        qs.push(Question::View(entry, path.clone(), buffer.to_vec()));
        qs.push(Question::Set(entry, set, path, buffer.to_vec()));
    };
    ask(r, vec![], extent);
    for length in [extent, extent.saturating_sub(1), reached, extent + more] {
        let path = good_path(r, good, e, n, 300);
        ask(r, path, length);
    }
    for _ in 0..6 {
        let path = any_path(r, good, e, n);
        ask(r, path, extent + more);
    }
    qs
}

/// The edges of an entry; of an open one with one element and with some.
fn all_edges(r: &mut Random, good: &Good, e: usize) -> Vec<Question> {
    if good.laid[e].open {
        let some = 2 + r.below(6);
        [1, some].into_iter().flat_map(|n| [edges(r, good, e, n), path_edges(r, good, e, n)].concat()).collect()
    } else {
        [edges(r, good, e, 0), path_edges(r, good, e, 0)].concat()
    }
}

/// A write or a read with perhaps a wrong number of words, a short buffer, and a word that no f16 has; of a small value mostly.
fn faulty(r: &mut Random, good: Option<&Good>, entry: u32) -> Question {
    let (mut words, mut length) = (any_words(r, 3), r.below(20));
    if let Some(good) = good.filter(|g| (entry as usize) < g.laid.len()) {
        let e = entry as usize;
        let n = if good.laid[e].open { r.of(&[0, 1, 1, 2, 3, 7]) } else { 0 };
        let (most_words, most_bytes) = if r.one_in(40) { (MOST_WORDS, MOST_BYTES) } else { (FEW_WORDS, FEW_BYTES) };
        if good.words(e, n) <= most_words {
            words = fitting_words(r, good, e, n);
        }
        if good.extent(e, n) <= most_bytes {
            length = good.extent(e, n);
        }
    }
    if r.one_in(4) {
        let count = r.below(words.len() as u64 + 2) as usize;
        words.resize(count, 7);
    }
    if r.one_in(4) {
        let (less, more) = (r.below(length + 1), (length + r.below(9)).min(MOST_BYTES));
        length = r.of(&[length.saturating_sub(1), less, more]);
    }
    if r.one_in(4) && !words.is_empty() {
        let k = r.below(words.len() as u64) as usize;
        words[k] = r.of(&[65_536, u32::MAX]);
    }
    let buffer = bytes(r, length);
    if r.one_in(2) { Question::Write(entry, words, buffer) } else { Question::Read(entry, words, buffer) }
}

/// A view or a set at a path that may be bad, of a buffer that may be short; of a small value mostly.
fn faulty_path(r: &mut Random, good: Option<&Good>, entry: u32) -> Question {
    let (mut path, mut length) = ((0..r.below(3)).map(|_| r.of(&[0, 1, MEMBER])).collect(), r.below(20));
    let good = good.filter(|g| (entry as usize) < g.laid.len());
    let (e, mut n) = (entry as usize, 0);
    if let Some(good) = good {
        n = if good.laid[e].open { r.of(&[0, 1, 1, 2, 3, 7]) } else { 0 };
        let most = if r.one_in(40) { MOST_BYTES } else { FEW_BYTES };
        if good.extent(e, n) <= most {
            length = good.extent(e, n);
        }
        path = any_path(r, good, e, n);
    }
    if r.one_in(6) {
        let (less, more) = (r.below(length + 1), (length + r.below(9)).min(MOST_BYTES));
        length = r.of(&[length.saturating_sub(1), less, more]);
    }
    let (words, buffer) = (any_words(r, 2), bytes(r, length));
    if r.one_in(2) {
        return Question::View(entry, path, buffer);
    }
    let word = r.of(&[words[0], words[1] % 65_536, words[1] % 65_536, 65_536]);
    let set = good.map_or(vec![word], |good| words_to_set(good, e, n, &path, [word, words[0]]));
    Question::Set(entry, set, path, buffer)
}

/// A table whose entries all pass: questions are made of these, also where it is refused for a member that no struct names.
fn laid_out(t: &Table) -> Option<Good> {
    model::lay_all(&t.write(&[])).ok()
}

/// `n` questions of any sort; now and then an entry that is not there.
pub fn some(r: &mut Random, t: &Table, n: usize) -> Vec<Question> {
    let types = t.entries.len().max(1) as u64;
    let good = laid_out(t);
    let mut qs = Vec::new();
    for _ in 0..n {
        let e = |r: &mut Random| {
            let past = r.of(&[types, types + 1, 255, 256, 65_535, 4_294_967_295]) as u32;
            if r.one_in(40) { past } else { r.below(types) as u32 }
        };
        let top = (types - 1) as u32;
        qs.push(match r.below(16) {
            0 => Question::Check,
            1 => Question::Size(e(r)),
            2 => Question::Align(e(r)),
            3 => Question::MinSize(e(r)),
            4 => Question::Layout(e(r)),
            5 => Question::Layout(top),
            6 | 7 => Question::Rank(e(r), e(r)),
            8 => {
                let many = r.of(&[0, 1, 2, 2, 3, 3, 4, 9]);
                Question::Common((0..many).map(|_| e(r)).collect())
            }
            9 => faulty(r, good.as_ref(), top),
            10 | 11 => {
                let entry = e(r);
                faulty(r, good.as_ref(), entry)
            }
            12 | 13 => faulty_path(r, good.as_ref(), top),
            _ => {
                let entry = e(r);
                faulty_path(r, good.as_ref(), entry)
            }
        });
    }
    qs
}

/// Offsets and counts of fields, on each side of an edge.
const PLACES: [u32; 11] = [0, 1, 4, 11, 12, 20, 31, 32, 33, 1 << 31, u32::MAX];

/// Every field whose offset and count are of these, those of one offset together.
fn all_fields() -> Vec<Field> {
    PLACES.iter().flat_map(|offset| PLACES.iter().map(|count| Field { offset: *offset, count: *count })).collect()
}

/// A field of which each number is one of these, or any within a word.
fn any_field(r: &mut Random) -> Field {
    let mut number = || if r.one_in(2) { r.of(&PLACES) } else { r.below(34) as u32 };
    Field { offset: number(), count: number() }
}

/// Any word; often one whose bits are mostly alike, or with a field of document 02's.
fn packed_word(r: &mut Random) -> u32 {
    let special = [0, 1, 0x7fff_ffff, 0x8000_0000, u32::MAX, 2047, 2048, 4095, 0x0008_0000, !0x0008_0000];
    if r.one_in(2) { r.of(&special) } else { r.next() as u32 }
}

/// Such words one after another.
fn packed_bytes(r: &mut Random, length: u64) -> Vec<u8> {
    (0..length.div_ceil(4)).flat_map(|_| packed_word(r).to_le_bytes()).take(length as usize).collect()
}

/// An extraction and an insertion of a field at a path.
fn both(r: &mut Random, entry: u32, field: Field, path: &[u32], buffer: &[u8]) -> [Question; 2] {
    [
        Question::Extract(entry, field, path.to_vec(), buffer.to_vec()),
        Question::Insert(entry, packed_word(r), field, path.to_vec(), buffer.to_vec()),
    ]
}

/// Every path to a scalar of entry `e` with `n` elements, but of what has many parts the first, the second and the last alone.
fn scalar_paths(good: &Good, e: usize, n: u64, path: &[u32]) -> Vec<Vec<u32>> {
    let stand = good.walk(e, n, path).expect("a good path").stand;
    let steps: Vec<u32> = match (good.member_count(stand), good.parts(stand, n)) {
        (Some(count), _) => (0..count as u32).map(|k| MEMBER | k).collect(),
        (_, Some(count)) if count > 4 => vec![0, 1, count as u32 - 1],
        (_, Some(count)) => (0..count as u32).collect(),
        _ => return vec![path.to_vec()],
    };
    steps.iter().flat_map(|s| scalar_paths(good, e, n, &[path, &[*s]].concat())).collect()
}

/// Fields of entry `e` with `n` elements: these at every path to an i32 or a u32, one at that to another scalar; one of the whole, at paths
/// that may be bad, and on each side of the edge of the bytes.
fn field_edges(r: &mut Random, good: &Good, e: usize, n: u64, fields: &[Field]) -> Vec<Question> {
    let (extent, entry) = (good.extent(e, n), e as u32);
    if extent > MOST_BYTES - 12 || !good.has_layout(e) {
        let (path, field, buffer) = (good_path(r, good, e, n, 2), any_field(r), packed_bytes(r, 9));
        return both(r, entry, field, &path, &buffer).to_vec();
    }
    let more = 1 + r.below(9);
    let room = packed_bytes(r, extent + more);
    let mut qs = Vec::new();
    for path in scalar_paths(good, e, n, &[]) {
        let integer = good.extract(e, &path, fields[0], &room).is_ok();
        for field in &fields[..if integer { fields.len() } else { 1 }] {
            qs.extend(both(r, entry, *field, &path, &room));
        }
    }
    for _ in 0..4 {
        let (path, field) = (any_path(r, good, e, n), any_field(r));
        qs.extend(both(r, entry, field, &path, &room));
    }
    let field = any_field(r);
    qs.extend(both(r, entry, field, &[], &room));
    for length in [extent, extent.saturating_sub(1)] {
        let (path, field) = (good_path(r, good, e, n, 300), any_field(r));
        qs.extend(both(r, entry, field, &path, &room[..length as usize]));
    }
    qs
}

/// An extraction or an insertion at a path that may be bad, of a buffer that may be short; of a small value mostly.
fn faulty_field(r: &mut Random, good: Option<&Good>, entry: u32) -> Question {
    let (field, new) = (any_field(r), packed_word(r));
    let (path, length) = match faulty_path(r, good, entry) {
        Question::View(_, path, buffer) | Question::Set(_, _, path, buffer) => (path, buffer.len() as u64),
        _ => unreachable!("a view or a set"),
    };
    let buffer = packed_bytes(r, length);
    if r.one_in(2) {
        return Question::Extract(entry, field, path, buffer);
    }
    Question::Insert(entry, new, field, path, buffer)
}

/// `n` questions about fields; now and then an entry that is not there, and now and then a field of a word.
fn some_fields(r: &mut Random, t: &Table, n: usize) -> Vec<Question> {
    let types = t.entries.len().max(1) as u64;
    let good = laid_out(t);
    let mut one = || {
        let past = r.of(&[types, 255, 4_294_967_295]) as u32;
        let any = r.below(types) as u32;
        let (field, word) = (any_field(r), packed_word(r));
        match r.below(16) {
            0 => Question::ExtractU32(word, field),
            1 => Question::InsertU32(word, packed_word(r), field),
            2 => faulty_field(r, good.as_ref(), past),
            3..=8 => faulty_field(r, good.as_ref(), types as u32 - 1),
            _ => faulty_field(r, good.as_ref(), any),
        }
    };
    (0..n).map(|_| one()).collect()
}

/// Document 02's fields of 12 bits at some offsets, of an i32 and a u32 that are the whole buffer.
fn worked_fields(signed: u32, unsigned: u32) -> Vec<Question> {
    let mut qs = Vec::new();
    for offset in [0, 4, 20] {
        for word in [4095u32, 2048, 2047] {
            let (field, buffer) = (Field { offset, count: 12 }, (word << offset).to_le_bytes().to_vec());
            qs.extend([signed, unsigned].map(|e| Question::Extract(e, field, vec![], buffer.clone())));
            qs.push(Question::Insert(signed, !word, field, vec![], buffer));
        }
    }
    qs
}

/// Every edge of offset and count: of a word, and of an i32 that is the whole buffer.
fn every_field(r: &mut Random, signed: u32) -> Vec<Question> {
    let mut qs = Vec::new();
    for of_one_offset in all_fields().chunks(PLACES.len()) {
        let word = packed_word(r);
        let new = if r.one_in(2) { !word } else { packed_word(r) };
        for field in of_one_offset {
            qs.extend([Question::ExtractU32(word, *field), Question::InsertU32(word, new, *field)]);
            qs.push(Question::Extract(signed, *field, vec![], word.to_le_bytes().to_vec()));
        }
    }
    qs
}

/// A number for a count: small, or such that `count * stride` comes near 2^32.
fn count(r: &mut Random, laid: Option<&Laid>) -> u32 {
    let stride = laid.and_then(|l| Some(l.size?.div_ceil(l.align?) * l.align?)).unwrap_or(4).max(1);
    let edge = (4_294_967_295 / stride) as i64 + r.below(3) as i64 - 1;
    if r.one_in(12) { edge.clamp(1, 4_294_967_295) as u32 } else { 1 + r.below(9) as u32 }
}

fn random_member(r: &mut Random, laid: &[Laid], ty: u16) -> Member {
    let l = laid[ty as usize];
    let size = l.size.filter(|_| r.one_in(4)).map(|s| {
        let more = if r.one_in(16) { 4_294_967_295 - s - r.below(9).min(4_294_967_295 - s) } else { r.below(40) };
        (s + more) as u32
    });
    let align = l.align.filter(|_| r.one_in(4)).map(|a| {
        let shift = if r.one_in(16) { r.below(32) } else { r.below(6) };
        (a << shift).min(1 << 31) as u32
    });
    member(ty, size, align)
}

/// A choice for the next entry that may or may not be accepted, of these scalars; references are mostly to the last entries.
fn random_choice(r: &mut Random, t: &Table, laid: &[Laid], kinds: &[u8]) -> Choice {
    let k = laid.len() as u64;
    if k == 0 || r.one_in(4) {
        return scalar(r.of(kinds));
    }
    let lower = |r: &mut Random| if r.one_in(2) { r.below(k) } else { k - 1 - r.below(k.min(3)) } as u16;
    let reference = lower(r);
    match r.below(12) {
        0 | 1 => (entry(7, 0, 2 + r.below(3) as u8, reference, 0), vec![]),
        2 => (entry(8, 2 + r.below(3) as u8, 2 + r.below(3) as u8, reference, 0), vec![]),
        3 | 4 => (entry(9, 0, 0, reference, count(r, laid.get(reference as usize))), vec![]),
        5 => (entry(10, 0, 0, reference, 0), vec![]),
        6 => (entry(11, 0, 0, reference, 0), vec![]),
        // a struct that shares members with others
        7 if !t.members.is_empty() => {
            let first = r.below(t.members.len() as u64);
            let most = t.members.len() as u64 - first;
            (entry(12, 0, 0, first as u16, 1 + r.below(most) as u32), vec![])
        }
        _ => {
            let n = 1 + r.below(4);
            let mut ms = (0..n).map(|_| lower(r)).collect::<Vec<_>>();
            // often one that ends in a runtime array
            let last = t.entries.iter().rposition(|e| e.kind == 10).filter(|_| r.one_in(3));
            ms.extend(last.map(|e| e as u16));
            structure(t, ms.into_iter().map(|ty| random_member(r, laid, ty)).collect())
        }
    }
}

/// An accepted table of `types` entries and at most `most` members, without scalars of 64 bits.
pub fn random(r: &mut Random, types: usize, most: usize) -> Table {
    random_over(r, Table::default(), types, most, &SHORT)
}

/// Such a table over the entries of an accepted one, of these scalars.
fn random_over(r: &mut Random, mut t: Table, types: usize, most: usize, kinds: &[u8]) -> Table {
    let mut laid = model::check(&t.write(&[])).map_or(vec![], |good| good.laid);
    while laid.len() < types {
        let choice = random_choice(r, &t, &laid, kinds);
        if t.members.len() + choice.1.len() > most {
            continue;
        }
        let grown = with(&t, &choice);
        if let Ok(l) = model::lay(&grown, &laid, laid.len()) {
            laid.push(l);
            t = grown;
        }
    }
    t
}

/// A file of a table: now and then with bytes before it that no one looks at.
pub fn file(r: &mut Random, t: &Table) -> Vec<u8> {
    let before: Vec<u8> = if r.one_in(8) { (0..r.below(30)).map(|_| r.next() as u8).collect() } else { vec![] };
    t.write(&before)
}

fn scalar(kind: u8) -> Choice {
    (entry(kind, 0, 0, 0, 0), vec![])
}

/// A table of the choices, the members of each struct after those before.
fn table(choices: &[Choice]) -> Table {
    choices.iter().fold(Table::default(), |t, (e, ms)| {
        let e = if e.kind == 12 { structure(&t, ms.clone()).0 } else { *e };
        with(&t, &(e, ms.clone()))
    })
}

/// The values on each side of an edge that 01 gives.
fn worked() -> Vec<Table> {
    let over = |kind, columns, rows, reference, count| (entry(kind, columns, rows, reference, count), vec![]);
    let of = |ms: Vec<Member>| (entry(12, 0, 0, 0, 0), ms);
    let plain = |ty| member(ty, None, None);
    vec![
        table(&[scalar(3), over(7, 0, 3, 0, 0), over(9, 0, 0, 1, 4), over(8, 3, 3, 0, 0)]),
        table(&[scalar(4), over(7, 0, 3, 0, 0), over(8, 2, 3, 0, 0)]),
        table(&[scalar(2), scalar(3), over(7, 0, 3, 1, 0), of(vec![plain(0), plain(2), plain(1)])]),
        table(&[scalar(2), of(vec![member(0, Some(20), None), plain(0)])]),
        table(&[scalar(2), of(vec![plain(0), member(0, None, Some(16))])]),
        table(&[scalar(2), over(9, 0, 0, 0, 1_073_741_823)]),
        table(&[scalar(2), over(9, 0, 0, 0, 1_073_741_824)]),
        table(&[scalar(2), scalar(3), over(7, 0, 4, 1, 0), over(10, 0, 0, 2, 0), of(vec![plain(0), plain(3)])]),
        table(&(0..7).map(scalar).collect::<Vec<_>>()),
        table(&[scalar(3), over(7, 0, 3, 0, 0), of(vec![plain(0), plain(1)])]),
        table(&[scalar(3), over(7, 0, 3, 0, 0), of(vec![plain(1)]), over(9, 0, 0, 2, 2), of(vec![plain(3)])]),
        table(&[scalar(1), scalar(2), over(11, 0, 0, 0, 0), over(11, 0, 0, 1, 0), of(vec![plain(2), plain(3)])]),
        table(&[scalar(4), over(10, 0, 0, 0, 0), of(vec![plain(0), member(1, None, Some(4))])]),
        table(&[scalar(4), of(vec![member(0, None, Some(4))]), over(9, 0, 0, 1, 2), over(10, 0, 0, 1, 0)]),
        table(&[scalar(2), of(vec![member(0, None, Some(1 << 31))]), over(10, 0, 0, 1, 0), of(vec![plain(2)])]),
        table(&[
            scalar(0),
            over(7, 0, 2, 0, 0),
            over(9, 0, 0, 0, 2),
            over(9, 0, 0, 1, 2),
            of(vec![plain(0), plain(1)]),
        ]),
        table(&[scalar(6), over(7, 0, 4, 0, 0), over(8, 2, 2, 0, 0), over(9, 0, 0, 1, 2), over(9, 0, 0, 2, 2)]),
    ]
}

/// An accepted table whose last entry, mostly a small value, has paths of many steps: each entry within the next, the first a scalar of
/// one of these kinds. Now and then as deep as a table can be.
fn nested(r: &mut Random, kinds: &[u8]) -> Table {
    let bottom = r.of(kinds);
    let mut t = with(&Table::default(), &scalar(bottom));
    let depth = if r.one_in(32) { 256 } else { 3 + r.below(20) as usize };
    let most = if r.one_in(32) { MOST_BYTES - 500 } else { FEW_BYTES };
    while t.entries.len() < depth {
        let good = model::check(&t.write(&[])).ok().expect("an accepted table");
        let (k, size) = (t.entries.len() as u16, good.laid[t.entries.len() - 1].size.unwrap_or(0));
        let choice = match r.below(4) {
            _ if k == 1 && bottom < 3 && r.one_in(3) => (entry(11, 0, 0, 0, 0), vec![]),
            _ if k == 1 && r.one_in(2) => (entry(7, 0, 2 + r.below(3) as u8, 0, 0), vec![]),
            _ if k == 1 && [3, 4].contains(&bottom) => {
                (entry(8, 2 + r.below(3) as u8, 2 + r.below(3) as u8, 0, 0), vec![])
            }
            0 => (entry(9, 0, 0, k - 1, if size < most / 4 { 1 + r.below(4) as u32 } else { 1 }), vec![]),
            _ => {
                let mut ms = vec![random_member(r, &good.laid, k - 1)];
                for _ in 0..r.below(3) {
                    let small = r.below(k.min(3) as u64) as u16;
                    ms.insert(r.below(ms.len() as u64 + 1) as usize, random_member(r, &good.laid, small));
                }
                structure(&t, ms)
            }
        };
        let grown = with(&t, &choice);
        match model::lay(&grown, &good.laid, k as usize) {
            Ok(l) if l.size.is_some_and(|s| s <= most) && l.align.is_some() => t = grown,
            // what does not fit is tried again, or left where nothing may fit any more
            _ if size > most / 2 => break,
            _ => {}
        }
    }
    if r.one_in(4) && t.entries.len() < 255 {
        let k = t.entries.len() as u16;
        t = with(&t, &(entry(10, 0, 0, k - 1, 0), vec![]));
        let before = r.below(k as u64) as u16;
        let grown = with(&t, &structure(&t, vec![member(before, None, None), member(k, None, None)]));
        if model::check(&grown.write(&[])).is_ok() {
            t = grown;
        }
    }
    t
}

/// Scalars of every kind, an i32 first and a u32 next, alone and within each other.
fn packed() -> Table {
    let over = |kind, columns, rows, reference, count| (entry(kind, columns, rows, reference, count), vec![]);
    let of = |ms: Vec<Member>| (entry(12, 0, 0, 0, 0), ms);
    let plain = |ty| member(ty, None, None);
    table(&[
        scalar(1),
        scalar(2),
        scalar(3),
        scalar(4),
        scalar(0),
        scalar(5),
        over(11, 0, 0, 0, 0),
        over(11, 0, 0, 1, 0),
        over(7, 0, 3, 0, 0),
        over(8, 2, 2, 3, 0),
        over(9, 0, 0, 1, 2),
        of(vec![
            plain(3),
            plain(0),
            member(1, Some(20), None),
            plain(6),
            plain(7),
            plain(2),
            plain(8),
            plain(9),
            plain(10),
        ]),
        of(vec![plain(0), plain(3)]),
        over(10, 0, 0, 12, 0),
        of(vec![plain(1), plain(13)]),
        of(vec![plain(4), plain(1)]),
    ])
}

/// What may live in a uniform buffer and what may not, on each side of every rule.
fn uniform_edges() -> Vec<Table> {
    let over = |kind, columns, rows, reference, count| (entry(kind, columns, rows, reference, count), vec![]);
    let (array, vector) = (|of| over(9, 0, 0, of, 2), |rows, of| over(7, 0, rows, of, 0));
    let (runtime, atomic) = (|of| over(10, 0, 0, of, 0), |of| over(11, 0, 0, of, 0));
    let of = |ms: Vec<Member>| (entry(12, 0, 0, 0, 0), ms);
    let all = |types: &[u16]| of(types.iter().map(|ty| member(*ty, None, None)).collect());
    let plain = |ty| member(ty, None, None);
    let grown = |base: &[Choice], more: &[Choice]| table(&[base, more].concat());
    // 1 is a struct of 8 bytes, aligned to 4
    let pair = [scalar(3), all(&[0, 0])];
    let around = |ms: Vec<Member>| grown(&pair, &[of(ms)]);
    // 2 is a struct of 16 bytes, aligned to 4; 3 is an array of it, and 4 one of 1
    let four = [pair[0].clone(), pair[1].clone(), all(&[0, 0, 0, 0]), array(2), array(1)];
    let mut list = vec![
        // elements every 4, 8, 16 and 16 bytes, and arrays of arrays
        table(&[scalar(3), vector(2, 0), array(0), array(1), array(2)]),
        table(&[scalar(3), vector(3, 0), vector(4, 0), array(1), array(2), array(3), array(4)]),
        // no matrix breaks a rule, but an array of them does where they have 24 or 8 bytes
        table(&[scalar(3), over(8, 2, 2, 0, 0), over(8, 3, 2, 0, 0), array(1), array(2), all(&[0, 1, 2])]),
        table(&[scalar(4), over(8, 2, 2, 0, 0), over(8, 4, 2, 0, 0), array(1), array(2), all(&[0, 1, 2])]),
        // atomics, alone and within others; the lower of two, whichever comes first; broken ones that are not reached
        table(&[scalar(1), atomic(0), all(&[0, 1]), array(2), all(&[3])]),
        table(&[scalar(2), array(0), atomic(0), all(&[2, 1]), all(&[1, 2])]),
        table(&[scalar(2), atomic(0), array(0), array(1), all(&[0]), all(&[2, 4])]),
        // 9 before 10, and 10 before 19
        table(&[scalar(0), runtime(0), all(&[0, 1]), array(0), vector(2, 0)]),
        table(&[scalar(0), scalar(1), atomic(1), all(&[2, 0]), runtime(2), all(&[2, 4])]),
        table(&[scalar(5), scalar(6), array(0), vector(2, 1), vector(3, 1), array(4)]),
        // an array at 4 and at 16; one that is broken itself
        grown(&four, &[all(&[0, 3]), of(vec![member(0, Some(16), None), plain(3)]), all(&[3, 0])]),
        grown(&four, &[all(&[0, 4]), all(&[4, 2]), all(&[2, 1])]),
        // a broken struct within others that are not, and within one that is
        grown(&pair, &[all(&[1, 0]), all(&[2]), over(9, 0, 0, 3, 4), all(&[4]), all(&[0, 5])]),
        grown(&pair, &[all(&[0, 0, 0, 0, 1]), all(&[2, 1]), all(&[1, 3]), array(3)]),
        around(vec![plain(1)]),
        around(vec![plain(1), plain(1)]),
    ];
    // a struct at 0 and one at 16, of a size that puts what follows before, at and behind the next multiple; a struct that follows
    for size in [8, 12, 15, 16, 17, 20, 24, 31, 32] {
        list.push(around(vec![member(1, Some(size), None), plain(0)]));
        list.push(around(vec![plain(0), member(1, Some(size), Some(16)), plain(0)]));
        list.push(around(vec![member(0, Some(size), None), plain(1)]));
    }
    for align in [4, 8, 16, 32] {
        list.push(around(vec![plain(0), member(1, None, Some(align))]));
        list.push(around(vec![plain(1), member(0, None, Some(align))]));
        list.push(around(vec![plain(1), member(1, None, Some(align)), member(0, None, Some(align))]));
    }
    // 256 entries within each other, of which the last is broken; the lowest that it reaches is, too
    for low in [scalar(3), atomic(0)] {
        let mut choices = vec![scalar(2), low, all(&[0, 0, 0, 0])];
        choices.extend((2..254).map(|k| if k % 2 == 0 { over(9, 0, 0, k, 1) } else { all(&[k]) }));
        choices.push(all(&[1, 254]));
        list.push(table(&choices));
    }
    list
}

/// Vectors of three bools: alone, as elements and as members, within structs of structs; and what they are refused as.
fn bool_edges() -> Vec<Table> {
    let over = |kind, reference, count| (entry(kind, 0, 0, reference, count), vec![]);
    let (array, runtime) = (|of, count| over(9, of, count), |of| over(10, of, 0));
    let of = |ms: Vec<Member>| (entry(12, 0, 0, 0, 0), ms);
    let all = |types: &[u16]| of(types.iter().map(|ty| member(*ty, None, None)).collect());
    let plain = |ty| member(ty, None, None);
    // 0 is bool, 1 a vec3 of it
    let after = |more: &[Choice]| table(&[&[scalar(0), (entry(7, 0, 3, 0, 0), vec![])], more].concat());
    vec![
        after(&[array(1, 4), all(&[1, 0]), all(&[0, 1])]),
        after(&[runtime(1), all(&[2]), all(&[1, 2])]),
        after(&[all(&[1, 0]), array(2, 2), all(&[0, 2, 3])]),
        after(&[all(&[1, 0]), runtime(2), all(&[1, 3])]),
        after(&[array(1, 2), array(2, 2), all(&[3, 1])]),
        // among others; 2 is i32 in the first, f16 in the second
        after(&[scalar(1), over(11, 2, 0), all(&[3, 1, 2])]),
        after(&[scalar(4), all(&[2, 1, 2]), array(3, 2)]),
        after(&[(entry(7, 0, 2, 0, 0), vec![]), all(&[2, 1]), all(&[1, 2])]),
        // a given align, with which the Rust too has one, and a given size
        after(&[of(vec![member(1, None, Some(16))]), of(vec![member(1, None, Some(32)), plain(0)]), array(2, 3)]),
        after(&[of(vec![member(1, Some(12), None)]), of(vec![member(1, Some(20), None), plain(0)])]),
        after(&[of(vec![member(1, Some(20), Some(16)), plain(1)]), of(vec![plain(0), member(1, Some(12), Some(16))])]),
        after(&[array(1, 2), of(vec![member(2, None, Some(16))]), of(vec![member(2, Some(32), Some(16))])]),
        after(&[runtime(1), of(vec![member(2, None, Some(16))]), of(vec![plain(0), member(2, None, Some(32))])]),
        // one that is no multiple of 16, a size below 12; the largest array, and the next
        after(&[of(vec![member(1, None, Some(8))])]),
        after(&[of(vec![member(1, Some(11), None)])]),
        after(&[array(1, 268_435_455)]),
        after(&[array(1, 268_435_456)]),
        // an atomic of it, a vector of it, an array of runtime arrays of it, one that is not last
        after(&[over(11, 1, 0)]),
        after(&[(entry(7, 0, 2, 1, 0), vec![])]),
        after(&[runtime(1), array(2, 2)]),
        after(&[runtime(1), all(&[2, 1])]),
        // an abstract int beside it
        after(&[scalar(5), (entry(7, 0, 3, 2, 0), vec![]), array(3, 2)]),
    ]
}

/// Every scalar, and vectors and arrays of abstract ones beside those of 64 bits: what ranks to what.
fn long_ranks() -> Vec<Table> {
    let over = |kind, rows, reference, count| (entry(kind, 0, rows, reference, count), vec![]);
    let (vector, array, runtime) = (|rows, of| over(7, rows, of, 0), |of| over(9, 0, of, 2), |of| over(10, 0, of, 0));
    vec![
        table(&[LONG.map(scalar).to_vec(), SHORT.map(scalar).to_vec()].concat()),
        table(&[scalar(13), scalar(5), vector(2, 0), vector(2, 1), vector(3, 0), vector(3, 1), array(2), array(3)]),
        table(&[scalar(15), scalar(15), vector(4, 0), vector(4, 1), runtime(2), runtime(3)]),
    ]
}

/// Scalars of 64 bits: alone, in vectors, arrays and structs, beside others; and what they are refused in.
fn long_edges() -> Vec<Table> {
    let over = |kind, reference, count| (entry(kind, 0, 0, reference, count), vec![]);
    let (array, runtime, atomic) = (|of, count| over(9, of, count), |of| over(10, of, 0), |of| over(11, of, 0));
    let vector = |rows, of| (entry(7, 0, rows, of, 0), vec![]);
    let of = |ms: Vec<Member>| (entry(12, 0, 0, 0, 0), ms);
    let all = |types: &[u16]| of(types.iter().map(|ty| member(*ty, None, None)).collect());
    let (sized, aligned) = (|ty, n| member(ty, Some(n), None), |ty, n| member(ty, None, Some(n)));
    // 0 is i64, 1 f16, 2 u32
    let after = |more: &[Choice]| table(&[&[scalar(13), scalar(4), scalar(2)], more].concat());
    let mut list = vec![
        // an f16 after an i64, before it and between two
        after(&[all(&[0, 1]), all(&[1, 0]), all(&[0, 1, 0, 1]), array(5, 2)]),
        after(&[all(&[2, 0]), all(&[0, 2]), array(3, 2), array(4, 3)]),
        after(&[vector(2, 0), vector(4, 0), all(&[1, 3, 2, 4, 0])]),
        after(&[array(0, 3), array(3, 2), all(&[1, 3]), all(&[2, 4, 1])]),
        // runtime arrays
        after(&[runtime(0), all(&[3]), all(&[2, 3]), all(&[1, 0, 3])]),
        after(&[all(&[0, 1]), runtime(3), all(&[2, 4])]),
        after(&[all(&[1, 0]), runtime(3), runtime(1), all(&[0, 5])]),
        after(&[vector(2, 0), runtime(3), all(&[0, 4]), of(vec![member(2, None, None), aligned(4, 32)])]),
        // given sizes and aligns, on each side of an edge
        after(&[of(vec![sized(0, 8), member(2, None, None)]), of(vec![sized(0, 9), member(1, None, None)])]),
        after(&[of(vec![sized(0, 12), member(2, None, None)]), of(vec![member(2, None, None), aligned(0, 16)])]),
        after(&[of(vec![sized(0, 7)])]),
        after(&[of(vec![aligned(0, 4)])]),
        after(&[of(vec![aligned(0, 8), aligned(2, 8)])]),
        // the largest array, and the next
        after(&[array(0, 536_870_911)]),
        after(&[array(0, 536_870_912)]),
        after(&[vector(4, 0), array(3, 134_217_727)]),
        after(&[vector(4, 0), array(3, 134_217_728)]),
        // in a uniform buffer: elements every 8, 16 and 32 bytes
        after(&[array(0, 2), vector(2, 0), array(4, 2), vector(4, 0), array(6, 2), all(&[0, 5, 7]), all(&[0, 3])]),
        // a vector of three, and arrays of it; no member, no runtime array's element
        after(&[vector(3, 0), array(3, 1), array(4, 2)]),
        table(&[scalar(14), vector(3, 0), array(1, 2)]),
        table(&[scalar(15), vector(3, 0), vector(4, 0)]),
        after(&[vector(3, 0), all(&[3])]),
        after(&[vector(3, 0), of(vec![member(3, Some(24), Some(32))])]),
        after(&[vector(3, 0), array(3, 2), of(vec![member(4, Some(64), Some(32)), member(2, None, None)])]),
        after(&[vector(3, 0), runtime(3)]),
        after(&[vector(3, 0), array(3, 2), runtime(4)]),
        // no atomic, no matrix, no vector of vectors, no array of runtime arrays
        after(&[atomic(0)]),
        table(&[scalar(14), atomic(0)]),
        after(&[(entry(8, 2, 2, 0, 0), vec![])]),
        table(&[scalar(15), (entry(8, 2, 2, 0, 0), vec![])]),
        table(&[scalar(15), (entry(8, 4, 3, 0, 0), vec![])]),
        after(&[vector(2, 0), vector(2, 3)]),
        after(&[vector(1, 0)]),
        after(&[vector(5, 0)]),
        after(&[runtime(0), array(3, 2)]),
        after(&[array(0, 0)]),
    ];
    // kinds that are none, and fields that such a scalar does not use
    list.extend([16, 17, 127, 128, 255].map(|kind| table(&[scalar(kind)])));
    for kind in LONG {
        let unused = [entry(kind, 1, 0, 0, 0), entry(kind, 0, 2, 0, 0), entry(kind, 0, 0, 0, 1)];
        list.extend(unused.map(|e| table(&[(e, vec![])])));
        list.push(table(&[scalar(2), (entry(kind, 0, 0, 1, 0), vec![])]));
    }
    list
}

/// Values of 64 bits that are special to an integer or to a float, low word first: as words, as bytes, and set.
fn long_values(e: u32) -> Vec<Question> {
    let special = [
        [0, 0],
        [1, 0],
        [0, 1],
        [u32::MAX, u32::MAX],
        [0, 0x8000_0000],
        [u32::MAX, 0x7fff_ffff],
        [0x8000_0000, 0],
        // a float's least, an infinite one, NaNs of both sorts
        [1, 0x8000_0000],
        [0, 0x7ff0_0000],
        [1, 0x7ff0_0000],
        [0xdead_beef, 0xfff7_ffff],
        [0, 0xfff8_0000],
    ];
    let room = vec![0xa5; 9];
    let mut qs: Vec<Question> = special.map(|words| Question::Write(e, words.to_vec(), room.clone())).to_vec();
    qs.extend(special.map(|words| Question::Set(e, words.to_vec(), vec![], room.clone())));
    qs.extend(special.map(|words| Question::Read(e, vec![7; 3], words.map(u32::to_le_bytes).concat())));
    qs
}

/// Writes and reads of entry `e` with `n` elements, of a word fewer and more and of a byte fewer, and of a word that no f16 has; views and
/// sets by 0 to 3 words at some of its scalars and of the whole. Of a small value alone.
fn counted(r: &mut Random, good: &Good, e: usize, n: u64) -> Vec<Question> {
    let (count, extent, entry) = (good.words(e, n), good.extent(e, n), e as u32);
    if count > FEW_WORDS || extent > FEW_BYTES {
        return vec![];
    }
    let room = bytes(r, extent);
    let words: Vec<u32> = (1..=count as u32 + 1).collect();
    let half = good.places(e, n, 0).iter().rposition(|p| p.width == 2);
    let mut qs = Vec::new();
    for count in [count - 1, count, count + 1].map(|n| n as usize) {
        qs.push(Question::Write(entry, words[..count].to_vec(), room.clone()));
        qs.push(Question::Read(entry, vec![9; count], room.clone()));
    }
    if let Some(half) = half {
        let mut words = words[..count as usize].to_vec();
        words[half] = 65_536;
        qs.push(Question::Write(entry, words, room.clone()));
    }
    let mut paths = scalar_paths(good, e, n, &[]);
    while paths.len() > 3 {
        paths.remove(r.below(paths.len() as u64) as usize);
    }
    if !paths.contains(&vec![]) {
        paths.push(vec![]);
    }
    for path in paths {
        qs.push(Question::View(entry, path.clone(), room.clone()));
        for count in 0..4 {
            qs.push(Question::Set(entry, words[..count.min(words.len())].to_vec(), path.clone(), room.clone()));
        }
    }
    qs.push(Question::Write(entry, words[..count as usize].to_vec(), room[1..].to_vec()));
    qs.push(Question::Read(entry, vec![9; count as usize], room[1..].to_vec()));
    qs
}

/// What is asked of a vector of three scalars of 64 bits and of arrays of it, which have no layout: of the words and bytes that one would
/// have, and of fewer and more.
fn without_layout(r: &mut Random, good: &Good, e: usize) -> Vec<Question> {
    let (count, size, entry) = (good.words(e, 0), good.extent(e, 0), e as u32);
    let room = bytes(r, if size == 0 { 96 } else { size + 3 });
    if size == 0 {
        let all = [1, 2].map(|n| Question::Set(entry, vec![7; n], vec![0, 1], room.clone()));
        let viewed = [vec![], vec![0], vec![0, 2]].map(|path| Question::View(entry, path, room.clone()));
        let words =
            [Question::Write(entry, any_words(r, count), room.clone()), Question::Read(entry, vec![7; 24], room)];
        return [all.to_vec(), viewed.to_vec(), words.to_vec()].concat();
    }
    let mut qs = Vec::new();
    for length in [size - 1, size, size + 3].map(|n| n as usize) {
        let buffer = &room[..length];
        qs.push(Question::Write(entry, any_words(r, count), buffer.to_vec()));
        qs.push(Question::Read(entry, any_words(r, count), buffer.to_vec()));
        for path in [vec![], vec![0], vec![2], vec![3], vec![MEMBER], vec![1, 0]] {
            qs.push(Question::View(entry, path.clone(), buffer.to_vec()));
            qs.extend([1, 2].map(|n| Question::Set(entry, vec![7; n], path.clone(), buffer.to_vec())));
        }
    }
    for wrong in [0, count.saturating_sub(1), count + 1] {
        qs.push(Question::Write(entry, any_words(r, wrong), room.clone()));
        qs.push(Question::Read(entry, any_words(r, wrong), room.clone()));
    }
    qs
}

/// The same questions, but of the sets one of three with another number of words.
fn recounted(r: &mut Random, questions: Vec<Question>) -> Vec<Question> {
    let mut again = |q| match q {
        Question::Set(e, _, path, buffer) if r.one_in(3) => {
            let count = r.below(4);
            Question::Set(e, any_words(r, count), path, buffer)
        }
        q => q,
    };
    questions.into_iter().map(&mut again).collect()
}

/// A member near a rule of the uniform profile: its size or its align given so that it, or the one after it, stands right, or just not.
fn uniform_member(r: &mut Random, laid: &[Laid], ty: u16) -> Member {
    let l = laid[ty as usize];
    let size = l.size.filter(|_| r.one_in(3)).map(|s| {
        let whole = s.next_multiple_of(16);
        r.of(&[whole, whole, whole + 16, whole - 1, whole - 4, s, s + 4, s + 8]).max(s) as u32
    });
    let align = l.align.filter(|_| r.one_in(3)).map(|a| r.of(&[16, 16, 8, 32, 4]).max(a) as u32);
    member(ty, size, align)
}

/// An accepted table of values that are mostly small, structs and arrays of each other, most of which come near the rules of the uniform
/// profile.
fn uniform_table(r: &mut Random, types: usize) -> Table {
    let bottom = r.of(&[1, 2, 3, 3, 3, 4]);
    let (mut t, mut laid) = (Table::default(), Vec::new());
    while laid.len() < types {
        let k = laid.len() as u64;
        let lower = |r: &mut Random| if r.one_in(3) { r.below(k) } else { k - 1 - r.below(k.min(4)) } as u16;
        let choice = match r.below(24) {
            _ if k == 0 => scalar(bottom),
            0 => scalar(r.below(7) as u8),
            1 | 2 => (entry(7, 0, 2 + r.below(3) as u8, 0, 0), vec![]),
            3 | 4 => (entry(8, 2 + r.below(3) as u8, 2 + r.below(3) as u8, 0, 0), vec![]),
            5 => (entry(11, 0, 0, 0, 0), vec![]),
            6 if r.one_in(4) => (entry(10, 0, 0, lower(r), 0), vec![]),
            6..=10 => (entry(9, 0, 0, lower(r), 1 + r.below(3) as u32), vec![]),
            _ => {
                let n = 1 + r.below(4);
                let ms = (0..n).map(|_| lower(r)).collect::<Vec<_>>();
                structure(&t, ms.into_iter().map(|ty| uniform_member(r, &laid, ty)).collect())
            }
        };
        let grown = with(&t, &choice);
        if let Ok(l) = model::lay(&grown, &laid, laid.len()) {
            laid.push(l);
            t = grown;
        }
    }
    t
}

/// Of every entry of a table whether it may live in a uniform buffer, or of each fifteenth where there are many; and of one that is not
/// there.
fn uniform_of_all(t: &Table) -> Vec<Question> {
    let types = t.entries.len() as u32;
    let step = if types > 60 { 15 } else { 1 };
    (0..types).step_by(step).chain([types]).map(Question::Uniform).collect()
}

/// Values of many words.
fn long() -> Vec<Table> {
    let over = |kind, columns, rows, reference, count| (entry(kind, columns, rows, reference, count), vec![]);
    let of = |ms: Vec<Member>| (entry(12, 0, 0, 0, 0), ms);
    let plain = |ty| member(ty, None, None);
    vec![
        table(&[scalar(2), over(9, 0, 0, 0, 1000)]),
        table(&[scalar(4), over(9, 0, 0, 0, 1000)]),
        table(&[scalar(3), over(7, 0, 4, 0, 0), over(9, 0, 0, 1, 250)]),
        table(&[scalar(4), over(7, 0, 3, 0, 0), over(9, 0, 0, 1, 300)]),
        table(&[scalar(3), over(8, 3, 3, 0, 0), over(9, 0, 0, 1, 80)]),
        table(&[
            scalar(2),
            scalar(3),
            over(7, 0, 3, 1, 0),
            of(vec![plain(0), plain(2), plain(1)]),
            over(9, 0, 0, 3, 120),
        ]),
        table(&[
            scalar(4),
            over(8, 4, 3, 0, 0),
            of(vec![plain(0), plain(1)]),
            over(9, 0, 0, 2, 9),
            over(9, 0, 0, 3, 8),
        ]),
    ]
}

/// Values of many words, two of each scalar.
fn long_ones() -> Vec<Table> {
    let over = |kind, rows, reference, count| (entry(kind, 0, rows, reference, count), vec![]);
    let of = |types: &[u16]| (entry(12, 0, 0, 0, 0), types.iter().map(|ty| member(*ty, None, None)).collect());
    vec![
        table(&[scalar(13), over(9, 0, 0, 500)]),
        table(&[scalar(15), over(7, 4, 0, 0), over(9, 0, 1, 120)]),
        table(&[scalar(14), scalar(4), of(&[1, 0, 1]), over(9, 0, 2, 160)]),
        table(&[
            scalar(13),
            scalar(2),
            over(7, 2, 0, 0),
            of(&[1, 2]),
            over(9, 0, 3, 100),
            over(10, 0, 0, 0),
            of(&[4, 5]),
        ]),
    ]
}

/// Trailers on each side of an edge: types, members, form, length. Those of the most types and members, and of one more, have their entries
/// before them, or stand alone.
fn trailers(whole: bool) -> Vec<Vec<u8>> {
    let f32s = |n| table(&vec![scalar(3); n]);
    let with_members = |n| table(&[scalar(3), (entry(12, 0, 0, 0, 0), vec![Member::default(); n])]);
    let many = |t: Table| {
        let file = t.write(&[]);
        file[if whole { 0 } else { file.len() - 10 }..].to_vec()
    };
    let good = f32s(1).write(&[]);
    let changed = |at: usize, n: u8| {
        let mut b = good.clone();
        b[at] = n;
        b
    };
    let mut list: Vec<Vec<u8>> = [0, 1].map(|n| f32s(n).write(&[])).to_vec();
    list.extend([256, 257].map(|n| many(f32s(n))));
    list.extend([1024, 1025].map(|n| many(with_members(n))));
    list.extend([
        changed(20, 0),
        changed(20, 2),
        changed(16, 1),
        changed(17, 1),
        good[..9].to_vec(),
        good[..21].to_vec(),
    ]);
    list.push([&[0], good.as_slice()].concat());
    list
}

/// Tables at the limits: 256 entries, 1,024 members, and structs that each hold the last twice.
fn at_limits() -> Vec<Table> {
    let mut arrays = with(&Table::default(), &scalar(3));
    for k in 1..256 {
        arrays = with(&arrays, &(entry(9, 0, 0, k - 1, 1), vec![]));
    }
    let mut structs = with(&Table::default(), &scalar(4));
    for k in 1..256 {
        let ms = vec![member(0, None, None), member(k - 1, None, Some(1 << (k % 16)).filter(|a| *a > 8))];
        let grown = with(&structs, &structure(&structs, ms));
        structs = if model::check(&grown.write(&[])).is_ok() { grown } else { with(&structs, &scalar(1)) };
    }
    let wide = with(&Table::default(), &scalar(4));
    let wide = with(&wide, &(entry(7, 0, 3, 0, 0), vec![]));
    let ms = (0..1024).map(|i| member((i % 2) as u16, None, None)).collect();
    let wide = with(&wide, &structure(&wide, ms));
    let mut doubling = with(&Table::default(), &scalar(1));
    for k in 1..20 {
        let twice = vec![member(k - 1, None, None), member(k - 1, None, None)];
        doubling = with(&doubling, &structure(&doubling, twice));
    }
    vec![arrays, structs, wide, doubling]
}

/// Numbers that are 01's own edges, and the ones around them.
fn edge(r: &mut Random) -> u32 {
    r.of(&[
        0,
        1,
        2,
        3,
        4,
        5,
        6,
        7,
        8,
        12,
        13,
        16,
        255,
        256,
        257,
        1024,
        1025,
        65_535,
        1 << 30,
        1 << 31,
        u32::MAX - 1,
        u32::MAX,
    ])
}

/// A copy of a table with one to three of its fields changed.
pub fn damaged_table(r: &mut Random, t: &Table) -> Table {
    let mut t = t.clone();
    for _ in 0..1 + r.below(3) {
        let n = edge(r);
        if !t.members.is_empty() && r.one_in(2) {
            let i = r.below(t.members.len() as u64) as usize;
            let m = &mut t.members[i];
            match r.below(7) {
                0 => m.ty = n as u16,
                1 => m.flags = n as u16,
                2 => m.size = n,
                3 => m.align = n,
                4 => (m.flags, m.size) = (m.flags | 1, n),
                5 => (m.flags, m.align) = (m.flags | 2, n),
                _ => m.ty = r.below(t.entries.len() as u64) as u16,
            }
        } else {
            let i = r.below(t.entries.len() as u64) as usize;
            let types = t.entries.len() as u64;
            let e = &mut t.entries[i];
            match r.below(9) {
                0 => e.kind = r.of(&[0, 1, 2, 3, 4, 5, 6, 7, 8, 9, 10, 11, 12, 13, 14, 15, 16, 255]),
                1 => e.columns = n as u8,
                2 => e.rows = n as u8,
                3 => e.zero3 = n as u8,
                4 => e.reference = n as u16,
                5 => e.zero6 = n as u16,
                6 => e.count = n,
                7 => e.reference = r.below(types) as u16,
                _ => e.kind = 7 + r.below(6) as u8,
            }
        }
    }
    t
}

/// A copy of a file with some of its bytes changed, cut off or added.
pub fn damaged_file(r: &mut Random, file: &[u8]) -> Vec<u8> {
    let mut b = file.to_vec();
    match r.below(5) {
        0 => b.truncate(r.below(b.len() as u64) as usize),
        1 => b.extend((0..1 + r.below(13)).map(|_| 0)),
        // the trailer
        2 | 3 => {
            let at = b.len() - 1 - r.below(10) as usize;
            b[at] = edge(r) as u8;
        }
        _ => {
            let at = r.below(b.len() as u64) as usize;
            b[at] = r.next() as u8;
        }
    }
    b
}

/// How much of each sort.
pub struct Plan {
    /// all tables over the menu of at most so many entries
    pub small: usize,
    /// of those tables, in which the last entry's edges are asked about: one of so many
    pub edges: u64,
    /// tables of values of many words
    pub long: usize,
    /// tables of values with long paths
    pub nested: usize,
    pub random: usize,
    /// questions on each table at the limits
    pub limits: usize,
    /// random tables of 256 entries
    pub large: usize,
    /// pairs of a damaged table and a damaged file
    pub damaged: usize,
    /// how often every edge of offset and count is asked about, and each site block made by hand is followed from its starts on; and how
    /// many of those fields are asked about at each path to an i32 or a u32
    pub rounds: usize,
    pub fields: usize,
    /// tables of values with long paths, random and damaged ones, on which fields are asked about
    pub packed: usize,
    /// tables near the rules of the uniform profile; for each eight a nested one, a random one and two damaged ones
    pub uniforms: usize,
    /// of the entries over a vec3 of bool, whose edges are asked about: one of so many
    pub bool_edges: u64,
    /// random tables over a vec3 of bool; for each four a damaged one
    pub bools: usize,
    /// all tables of at most so many entries over the menu with an i64, in each the edges of its last entry
    pub long_small: usize,
    /// of the entries with scalars of 64 bits, whose edges are asked about, and of which with a word fewer and more: one of so many
    pub long_edges: u64,
    pub long_counts: u64,
    /// random tables with scalars of 64 bits; for each four a nested one and a damaged one
    pub longs: usize,
    /// random tables in both forms; for each four a nested one and damaged ones
    pub forms: usize,
    /// the longest file that is moved
    pub outputs: u64,
    /// of what is asked about the members of site blocks made by hand: one of so many
    pub site_edges: u64,
    /// random tables on which site blocks are asked about; for each four two damaged ones, for each eight a nested one and a struct of many
    /// members
    pub sites: usize,
    /// questions on each of them, and the longest buffers there
    pub site_asked: usize,
    pub site_bytes: u64,
    /// fresh blocks on each of them, and how many sets and clears follow each start of one
    pub site_fresh: usize,
    pub site_steps: usize,
    /// of the buffers with gaps of entries made by hand: one of so many
    pub clean_edges: u64,
    /// all tables of at most so many entries over the menu, without and with an i64, in each the gaps of its last entry
    pub clean_small: usize,
    /// random tables of which entries are cleaned; for each four two damaged ones, for each eight a nested one and one near the rules of the
    /// uniform profile
    pub cleans: usize,
    /// questions on each of them
    pub clean_asked: usize,
    /// of the orders and lists of structs made by hand: one of so many; and all orders of structs of at most so many members
    pub order_edges: u64,
    pub order_all: usize,
    /// all tables of at most so many entries over the menu, without and with an i64, in each the orders of its last entry
    pub order_small: usize,
    /// tables whose last entry is a struct of mixed members, of which orders are asked about; for each four two damaged ones, for each eight
    /// a random one and one with a struct of many members
    pub orders: usize,
    /// questions on each of them
    pub order_asked: usize,
    /// of what is asked about tables made by hand, most of which have a member that no struct names: one of so many
    pub stray_edges: u64,
    /// all tables of at most so many structs over at most one member more
    pub stray_small: usize,
    /// random tables in most of which a member was left over, beside as many of 256 entries as above; for each four two damaged ones
    pub strays: usize,
    /// questions of any sort on each of them; and a fourth of that many on fields, cleaning, orders and site blocks each
    pub stray_asked: usize,
    /// patterns with which each pair of kinds is converted
    pub literal_patterns: usize,
    /// of the literals at an edge with the other sign and to other kinds: one of so many
    pub literal_edges: u64,
    /// any literals, mostly near an edge or a tie
    pub literals: usize,
}

pub fn blocks(seed: u64, plan: &Plan, mut each: impl FnMut(Block)) {
    let mut r = Random(seed);
    for t in worked() {
        let mut questions = everything(&t);
        if let Ok(good) = model::check(&t.write(&[])) {
            questions.extend((0..t.entries.len()).flat_map(|e| all_edges(&mut r, &good, e)));
        }
        each(Block { file: t.write(&[]), questions });
    }
    for t in long().into_iter().take(plan.long) {
        let good = model::check(&t.write(&[])).ok().expect("an accepted table");
        let questions = all_edges(&mut r, &good, t.entries.len() - 1);
        each(Block { file: t.write(&[]), questions });
    }
    for _ in 0..plan.nested {
        let t = nested(&mut r, &STORED);
        let good = model::check(&t.write(&[])).ok().expect("an accepted table");
        let e = t.entries.len() - 1;
        let n = if good.laid[e].open { 1 + r.below(3) } else { 0 };
        let questions = path_edges(&mut r, &good, e, n);
        each(Block { file: t.write(&[]), questions });
    }
    for file in trailers(plan.large > 0) {
        let mut questions = vec![Question::Check, Question::Size(0), Question::Uniform(0)];
        questions.extend([Question::Write(0, vec![1], vec![2; 5]), Question::Read(0, vec![1, 2], vec![3; 5])]);
        questions.extend([Question::View(0, vec![], vec![4; 5]), Question::Set(0, vec![1], vec![], vec![5; 5])]);
        each(Block { file, questions });
    }
    for t in small(plan.small) {
        let mut questions = everything(&t);
        if r.one_in(plan.edges) {
            let good = model::check(&t.write(&[])).ok().expect("an accepted table");
            questions.extend(all_edges(&mut r, &good, t.entries.len() - 1));
        }
        each(Block { file: t.write(&[]), questions });
    }
    for i in 0..plan.random {
        let types = 1 + r.below(if i % 16 == 0 { 40 } else { 9 }) as usize;
        let t = random(&mut r, types, 60);
        each(Block { file: file(&mut r, &t), questions: some(&mut r, &t, 21) });
    }
    for t in at_limits() {
        let questions = [some(&mut r, &t, plan.limits), uniform_of_all(&t)].concat();
        each(Block { file: t.write(&[]), questions });
    }
    for _ in 0..plan.large {
        let t = random(&mut r, 256, 1024);
        each(Block { file: file(&mut r, &t), questions: some(&mut r, &t, 20) });
    }
    for _ in 0..plan.damaged {
        let types = 1 + r.below(7) as usize;
        let t = random(&mut r, types, 12);
        let d = damaged_table(&mut r, &t);
        each(Block { file: file(&mut r, &d), questions: some(&mut r, &d, 4) });
        let b = file(&mut r, &t);
        each(Block { file: damaged_file(&mut r, &b), questions: some(&mut r, &t, 3) });
    }
}

/// The questions about fields. They have random numbers of their own, so that those above are the same with and without them.
pub fn field_blocks(seed: u64, plan: &Plan, mut each: impl FnMut(Block)) {
    let mut r = Random(!seed);
    let t = packed();
    let good = model::check(&t.write(&[])).ok().expect("an accepted table");
    let mut questions = worked_fields(0, 1);
    questions.extend((0..plan.rounds).flat_map(|_| every_field(&mut r, 0)));
    each(Block { file: t.write(&[]), questions });
    for e in 0..t.entries.len() {
        let mut fields = all_fields();
        while fields.len() > plan.fields {
            fields.remove(r.below(fields.len() as u64) as usize);
        }
        let n = if good.laid[e].open { 2 } else { 0 };
        each(Block { file: t.write(&[]), questions: field_edges(&mut r, &good, e, n, &fields) });
    }
    for _ in 0..plan.packed {
        let t = nested(&mut r, &STORED);
        let good = model::check(&t.write(&[])).ok().expect("an accepted table");
        let e = t.entries.len() - 1;
        let n = if good.laid[e].open { 1 + r.below(3) } else { 0 };
        let fields = [any_field(&mut r)];
        each(Block { file: t.write(&[]), questions: field_edges(&mut r, &good, e, n, &fields) });
        let types = 1 + r.below(9) as usize;
        let t = random(&mut r, types, 60);
        each(Block { file: file(&mut r, &t), questions: some_fields(&mut r, &t, 21) });
        let d = damaged_table(&mut r, &t);
        each(Block { file: file(&mut r, &d), questions: some_fields(&mut r, &d, 3) });
        let b = file(&mut r, &t);
        each(Block { file: damaged_file(&mut r, &b), questions: some_fields(&mut r, &t, 2) });
    }
}

/// The questions about uniform buffers that those above do not ask. They have random numbers of their own too.
pub fn uniform_blocks(seed: u64, plan: &Plan, mut each: impl FnMut(Block)) {
    let mut r = Random(seed.rotate_left(32));
    let mut ask = |file: Vec<u8>, t: &Table| each(Block { file, questions: uniform_of_all(t) });
    for t in uniform_edges() {
        ask(t.write(&[]), &t);
    }
    for i in 0..plan.uniforms {
        let types = 4 + r.below(9) as usize;
        let t = uniform_table(&mut r, types);
        ask(file(&mut r, &t), &t);
        if i % 8 == 0 {
            let n = nested(&mut r, &STORED);
            ask(n.write(&[]), &n);
            let any = random(&mut r, types, 60);
            ask(file(&mut r, &any), &any);
            let d = damaged_table(&mut r, &t);
            ask(file(&mut r, &d), &d);
            let b = file(&mut r, &t);
            ask(damaged_file(&mut r, &b), &t);
        }
    }
}

/// The questions about vectors of three bools that those above do not ask. They have random numbers of their own too.
pub fn bool_blocks(seed: u64, plan: &Plan, mut each: impl FnMut(Block)) {
    let mut r = Random(!seed.rotate_left(32));
    for t in bool_edges() {
        let (mut questions, buffer) = (vec![Question::Check], bytes(&mut r, 80));
        for e in 1..t.entries.len() as u32 {
            questions.extend([Question::Size(e), Question::Align(e), Question::MinSize(e), Question::Layout(e)]);
            questions.extend([Question::Uniform(e), Question::Rank(e, 1)]);
            for path in [vec![], vec![1], vec![MEMBER], vec![MEMBER, 2], vec![1, 2]] {
                questions.push(Question::View(e, path, buffer.clone()));
            }
            questions.extend([1, 3, 4, 6].map(|n| Question::Write(e, vec![1; n], buffer.clone())));
            questions.push(Question::Read(e, vec![7; 12], buffer.clone()));
            questions.push(Question::Set(e, vec![1], vec![2], buffer.clone()));
        }
        if let Ok(good) = model::check(&t.write(&[])) {
            for e in 1..t.entries.len() {
                if r.one_in(plan.bool_edges) {
                    questions.extend(all_edges(&mut r, &good, e));
                    let (n, field) = (if good.laid[e].open { 2 } else { 0 }, any_field(&mut r));
                    questions.extend(field_edges(&mut r, &good, e, n, &[field]));
                }
            }
        }
        each(Block { file: t.write(&[]), questions });
    }
    let base = table(&[scalar(0), (entry(7, 0, 3, 0, 0), vec![])]);
    for i in 0..plan.bools {
        let types = 3 + r.below(8) as usize;
        let t = random_over(&mut r, base.clone(), types, 60, &SHORT);
        let questions = [some(&mut r, &t, 21), some_fields(&mut r, &t, 3), uniform_of_all(&t)].concat();
        each(Block { file: file(&mut r, &t), questions });
        if i % 4 == 0 {
            let d = damaged_table(&mut r, &t);
            each(Block { file: file(&mut r, &d), questions: some(&mut r, &d, 4) });
        }
    }
}

/// The questions about scalars of 64 bits that those above do not ask. They have random numbers of their own too.
pub fn long_blocks(seed: u64, plan: &Plan, mut each: impl FnMut(Block)) {
    let mut r = Random(seed.rotate_left(48));
    let is_long = |t: &Table| t.entries.iter().any(|e| LONG.contains(&e.kind));
    for (i, t) in long_ranks().into_iter().enumerate() {
        let values = if i == 0 { (0..3).flat_map(long_values).collect() } else { vec![] };
        each(Block { file: t.write(&[]), questions: [everything(&t), values].concat() });
    }
    for t in long_edges() {
        let mut questions = vec![Question::Check];
        // of the entries that they all begin with nothing more is asked
        let base = if t.entries.len() > 3 { 3 } else { 0 };
        for e in base..t.entries.len() {
            let entry = e as u32;
            questions.extend([Question::Layout(entry), Question::Size(entry), Question::Align(entry)]);
            questions.extend([Question::MinSize(entry), Question::Uniform(entry), Question::Rank(entry, 0)]);
            let Ok(good) = model::check(&t.write(&[])) else {
                questions.push(Question::Write(entry, vec![1, 2], vec![3; 9]));
                questions.push(Question::Read(entry, vec![1, 2], vec![3; 9]));
                questions.push(Question::View(entry, vec![], vec![3; 9]));
                questions.extend([1, 2].map(|n| Question::Set(entry, vec![1; n], vec![], vec![3; 9])));
                continue;
            };
            let n = if good.laid[e].open { 2 } else { 0 };
            if !good.has_layout(e) {
                questions.extend(without_layout(&mut r, &good, e));
            } else if r.one_in(plan.long_edges) {
                let field = any_field(&mut r);
                questions.extend(all_edges(&mut r, &good, e));
                questions.extend(field_edges(&mut r, &good, e, n, &[field]));
            }
            if good.has_layout(e) && r.one_in(plan.long_counts) {
                questions.extend(counted(&mut r, &good, e, n));
            }
        }
        each(Block { file: t.write(&[]), questions });
    }
    for t in long_ones().into_iter().take(plan.long) {
        let good = model::check(&t.write(&[])).ok().expect("an accepted table");
        let questions = all_edges(&mut r, &good, t.entries.len() - 1);
        each(Block { file: t.write(&[]), questions });
    }
    for t in small_over(plan.long_small, &[2, 4, 5, 13]).into_iter().filter(is_long) {
        let good = model::check(&t.write(&[])).ok().expect("an accepted table");
        let edges = all_edges(&mut r, &good, t.entries.len() - 1);
        each(Block { file: t.write(&[]), questions: [everything(&t), recounted(&mut r, edges)].concat() });
    }
    let kinds = [13, 13, 14, 15, 15, 0, 1, 2, 3, 4, 4, 5, 6];
    for i in 0..plan.longs {
        let types = 2 + r.below(8) as usize;
        let base = table(&[scalar(r.of(&LONG))]);
        let t = random_over(&mut r, base, types, 60, &kinds);
        let asked = some(&mut r, &t, 21);
        let questions = [recounted(&mut r, asked), some_fields(&mut r, &t, 3), uniform_of_all(&t)].concat();
        each(Block { file: file(&mut r, &t), questions });
        if i % 4 == 3 {
            let n = nested(&mut r, &LONG);
            let good = model::check(&n.write(&[])).ok().expect("an accepted table");
            let e = n.entries.len() - 1;
            let elements = if good.laid[e].open { 1 + r.below(3) } else { 0 };
            let asked = [path_edges(&mut r, &good, e, elements), some_fields(&mut r, &n, 6)].concat();
            each(Block { file: n.write(&[]), questions: recounted(&mut r, asked) });
            let d = damaged_table(&mut r, &t);
            let asked = some(&mut r, &d, 4);
            each(Block { file: file(&mut r, &d), questions: recounted(&mut r, asked) });
        }
    }
}

/// The length of the file in the form that a move makes, by the length of the given one.
fn moved_length(file: &[u8], t: &Table, to: u16) -> u64 {
    let names = 4 * t.members.len() as u64;
    if to == 2 { file.len() as u64 + names } else { (file.len() as u64).saturating_sub(names) }
}

/// Moves of a file to this form: into an output that is empty, a byte short, exact and longer; where it has more than `most` bytes into a
/// short one alone.
fn moves(r: &mut Random, file: &[u8], t: &Table, to: u16, most: u64) -> Vec<Question> {
    let length = moved_length(file, t, to);
    if length > most {
        return vec![Question::Move(to, bytes(r, 9))];
    }
    let more = 1 + r.below(8);
    [0, length.saturating_sub(1), length, length + more].map(|n| Question::Move(to, bytes(r, n))).to_vec()
}

/// The names of a table's members: none, one of them, or any.
fn named(r: &mut Random, t: &Table) -> Table {
    let mut t = t.clone();
    let name = |r: &mut Random| r.of(&[1, 255, 256, 65_536, 1 << 24, u32::MAX]);
    match (r.below(3), t.members.len() as u64) {
        (0, _) | (_, 0) => {}
        (1, n) => {
            let (at, any) = (r.of(&[0, n - 1]) as usize, r.below(n) as usize);
            t.members[r.of(&[at, any])].name = name(r);
        }
        _ => t.members.iter_mut().for_each(|m| m.name = if r.one_in(3) { 0 } else { name(r) }),
    }
    t
}

/// A table with a member that no struct names.
fn with_stray(t: &Table) -> Table {
    Table { members: [t.members.as_slice(), &[Member::default()]].concat(), ..t.clone() }
}

/// Files on each side of the edges of the two forms, and the table that each is meant to be of.
fn form_edges() -> Vec<(Vec<u8>, Table)> {
    let bare = table(&[scalar(2)]);
    let pair = table(&[scalar(2), (entry(12, 0, 0, 0, 0), vec![member(0, None, None), member(0, Some(8), Some(8))])]);
    let stray = with_stray(&pair);
    let name_of = |t: &Table, at: usize, name: u32| {
        let mut t = t.clone();
        t.members[at].name = name;
        t
    };
    let mut list = Vec::new();
    // neither form, and both bytes of the form count
    for form in [0, 1, 2, 3, 257, 258, 65_535] {
        list.push((bare.write_as(form, &[]), bare.clone()));
    }
    // no types; a length that the other form would have
    for form in [1, 2] {
        list.push((Table::default().write_as(form, &[]), Table::default()));
        let mut other = pair.write_as(3 - form, &[]);
        let at = other.len() - 2;
        other[at] = form as u8;
        list.push((other, pair.clone()));
        list.push((pair.write_as(form, &[])[1..].to_vec(), pair.clone()));
        list.push((pair.write_as(form, &[9; 5]), pair.clone()));
        list.push((stray.write_as(form, &[]), stray.clone()));
        // a bad entry beside a member that no struct names
        let bad = table(&[scalar(2), (entry(16, 0, 0, 0, 0), vec![])]);
        list.push((name_of(&with_stray(&bad), 0, 1).write_as(form, &[]), with_stray(&bad)));
    }
    for t in [name_of(&pair, 0, 1), name_of(&pair, 1, 1 << 24), name_of(&stray, 2, 1)] {
        list.push((t.write_as(2, &[7; 3]), t));
    }
    // short files, in which a form stands where the trailer would have it
    list.extend([0, 1, 8, 9].map(|n| ([0, 0, 0, 0, 0, 0, 0, 2, 0][9 - n..].to_vec(), bare.clone())));
    list
}

/// The questions about form 2 and the moves between the two. They have random numbers of their own too.
pub fn form_blocks(seed: u64, plan: &Plan, mut each: impl FnMut(Block)) {
    let mut r = Random(!seed.rotate_left(48));
    for (file, t) in form_edges() {
        let mut questions = vec![Question::Check, Question::Size(0), Question::Layout(1), Question::Rank(0, 1)];
        questions.push(Question::View(1, vec![MEMBER | 1], vec![4; 16]));
        questions
            .extend([moves(&mut r, &file, &t, 1, plan.outputs), moves(&mut r, &file, &t, 2, plan.outputs)].concat());
        each(Block { file, questions });
    }
    // as many types and members as there can be, and one more
    let many = |n| table(&vec![scalar(3); n]);
    let members = |n| Table { members: vec![Member::default(); n], ..many(1) };
    let limits = [at_limits(), vec![many(256), many(257), members(1024), members(1025)]].concat();
    for t in limits.into_iter().take(plan.large) {
        let t = named(&mut r, &t);
        let asked = [some(&mut r, &t, plan.limits), uniform_of_all(&t)].concat();
        each(Block { file: t.write_as(2, &[]), questions: [asked, vec![Question::Move(1, vec![1; 9])]].concat() });
    }
    for i in 0..plan.forms {
        let types = 1 + r.below(9) as usize;
        let t = random(&mut r, types, if i % 4 == 0 { 60 } else { 8 });
        let t = if r.one_in(4) { with_stray(&t) } else { t };
        let before: Vec<u8> = if r.one_in(3) { (0..r.below(30)).map(|_| r.next() as u8).collect() } else { vec![] };
        let (plain, new) = (t.write(&before), named(&mut r, &t).write_as(2, &before));
        let asked = [some(&mut r, &t, 8), some_fields(&mut r, &t, 2), uniform_of_all(&t)].concat();
        let back = moves(&mut r, &new, &t, 1, plan.outputs);
        let wrong = Question::Move(2, vec![3; 7]);
        each(Block { file: new.clone(), questions: [asked, back, vec![wrong]].concat() });
        let (on, wrong) = (moves(&mut r, &plain, &t, 2, plan.outputs), Question::Move(1, vec![3; 7]));
        each(Block { file: plain, questions: [on, vec![wrong]].concat() });
        if i % 4 == 0 {
            let d = damaged_table(&mut r, &t);
            let file = named(&mut r, &d).write_as(2, &before);
            let asked = [some(&mut r, &d, 3), moves(&mut r, &file, &d, 1, plan.outputs)].concat();
            each(Block { file, questions: asked });
            let file = damaged_file(&mut r, &new);
            let asked =
                [some(&mut r, &t, 3), moves(&mut r, &new, &t, 1, plan.outputs), vec![Question::Move(2, vec![3; 7])]]
                    .concat();
            each(Block { file, questions: asked });
            let n = nested(&mut r, &STORED);
            let good = model::check(&n.write(&[])).ok().expect("an accepted table");
            let e = n.entries.len() - 1;
            let elements = if good.laid[e].open { 1 + r.below(3) } else { 0 };
            let file = named(&mut r, &n).write_as(2, &[]);
            each(Block { file, questions: path_edges(&mut r, &good, e, elements) });
        }
    }
}

/// The mask of all members of a struct of so many.
fn full(count: u32) -> u64 {
    u64::MAX.checked_shr(64 - count.min(64)).unwrap_or(0)
}

/// Masks of a struct of so many members: none of them, member k alone, all, all but it, any.
fn masks(r: &mut Random, count: u32, k: u32) -> [u64; 5] {
    let (all, one) = (full(count), 1 << (k % 64));
    [0, one & all, all, all & !one, r.next() & all]
}

/// Members that a struct of so many has not: those after its last, and those that a number of fewer bits, or a step, would have.
fn strangers(count: u32) -> [u32; 5] {
    [count, count.max(64), MEMBER, MEMBER | 1, u32::MAX]
}

/// Asking for member k, setting in it, and clearing it.
fn of_setting(e: u32, k: u32, mask: u64, words: Vec<u32>, path: Vec<u32>, sheets: &Sheets) -> [Question; 3] {
    [
        Question::SiteMember(e, k, mask, sheets.clone()),
        Question::SiteSet(e, k, mask, words, path, sheets.clone()),
        Question::SiteClear(e, k, mask),
    ]
}

/// Words for the scalar that a path leads to from an entry's type, as many as it takes; now and then one that no f16 has.
fn site_words(r: &mut Random, good: &Good, ty: usize, path: &[u32]) -> Vec<u32> {
    let words = any_words(r, 2);
    let word = r.of(&[words[0], words[1] % 65_536, words[1] % 65_536, 65_535, 65_536]);
    words_to_set(good, ty, 0, path, [word, words[0]])
}

/// The types of a struct's members; none of what is not a struct.
fn member_types(good: &Good, e: usize) -> Vec<usize> {
    let x = good.table.entries[e];
    let ms = if x.kind == 12 { good.table.members_of(&x).expect("members within the table") } else { &[] };
    ms.iter().map(|m| m.ty as usize).collect()
}

/// Of three questions the one at a place, and of the others one of so many.
fn thinned(r: &mut Random, one_of: u64, at: usize, qs: [Question; 3]) -> Vec<Question> {
    qs.into_iter().enumerate().filter(|(i, _)| *i == at % 3 || r.one_in(one_of)).map(|(_, q)| q).collect()
}

/// The site block of a struct: its members, of many those at the ends of the mask's halves, under each sort of mask; every scalar in them,
/// by words of every number; paths that may be bad; members that are not there; masks that go beyond; each edge of both buffers. Of most of
/// these one of so many.
fn site_edges(r: &mut Random, good: &Good, e: usize, one_of: u64) -> Vec<Question> {
    let (entry, size, types) = (e as u32, good.extent(e, 0), member_types(good, e));
    let (count, last) = (types.len() as u32, types.len() as u32 - 1);
    let (more, beside) = (1 + r.below(5), r.below(5));
    let room = Sheets { factory: bytes(r, size + beside), site: bytes(r, size + more) };
    let mut qs = thinned(r, one_of, 0, [u64::MAX, full(count), 0].map(|mask| Question::SiteInheriting(entry, mask)));
    for k in (0..count).filter(|k| count < 16 || [0, 1, 31, 32, 33, 62, 63].contains(k)) {
        let ty = types[k as usize];
        for (i, mask) in masks(r, count, k).into_iter().enumerate() {
            let path = good_path(r, good, ty, 0, 300);
            let words = site_words(r, good, ty, &path);
            let asked = of_setting(entry, k, mask, words, path, &room);
            // of few members a scalar of each is set
            if count < 16 && i == k as usize % 5 {
                qs.extend(thinned(r, one_of, 1, asked));
            } else if r.one_in(one_of) {
                qs.extend(asked);
            }
        }
        for path in scalar_paths(good, ty, 0, &[]) {
            for n in 0..4 {
                let (mask, words) = (masks(r, count, k)[r.below(5) as usize], any_words(r, n));
                if r.one_in(one_of) {
                    qs.push(Question::SiteSet(entry, k, mask, words, path.clone(), room.clone()));
                }
            }
        }
        for _ in 0..6 {
            let (mask, path) = (masks(r, count, k)[r.below(5) as usize], any_path(r, good, ty, 0));
            let words = site_words(r, good, ty, &path);
            if r.one_in(one_of) {
                qs.push(Question::SiteSet(entry, k, mask, words, path, room.clone()));
            }
        }
    }
    let path = good_path(r, good, types[last as usize], 0, 300);
    let words = words_to_set(good, types[last as usize], 0, &path, [9, 8]);
    for (i, mask) in masks(r, count, last).into_iter().enumerate() {
        let asked = of_setting(entry, last, mask, words.clone(), path.clone(), &room);
        qs.extend(thinned(r, one_of, e + i, asked));
    }
    // 11 for the member comes before what is wrong with the path and the words
    for (i, k) in strangers(count).into_iter().enumerate() {
        let asked = of_setting(entry, k, 1, vec![], vec![9], &room);
        qs.extend(thinned(r, one_of, e + i, asked));
    }
    // 21 comes before 15, and that before 11
    let beyond: Vec<u32> = [count, 63].into_iter().filter(|bit| (count..64).contains(bit)).collect();
    for (i, bit) in beyond.iter().enumerate() {
        let asked = of_setting(entry, 0, 1 << bit, vec![7], vec![], &room);
        qs.extend(thinned(r, one_of, e + i, asked));
    }
    for (i, bit) in beyond.iter().enumerate() {
        let sheets = Sheets { site: vec![], ..room.clone() };
        let asked = of_setting(entry, count, 1 << bit, vec![7], vec![], &sheets);
        qs.extend(thinned(r, one_of, e + i, asked));
    }
    if count < 16 || r.one_in(one_of) {
        let short = size - 1;
        for (i, (factory, site)) in
            [(size, 0), (size, short), (size, size), (short, size), (0, size)].into_iter().enumerate()
        {
            let of = |sheet: &[u8], length: u64| sheet[..length as usize].to_vec();
            let sheets = Sheets { factory: of(&room.factory, factory), site: of(&room.site, site) };
            let mask = r.of(&[0, full(count)]);
            let asked = of_setting(entry, last, mask, words.clone(), path.clone(), &sheets);
            qs.extend(thinned(r, one_of, i % 2, asked));
            let asked = of_setting(entry, count, mask, vec![], vec![9], &sheets);
            qs.extend(thinned(r, one_of, i % 2 + 1, asked));
        }
    }
    qs
}

/// An inheriting block of an entry, whatever it is, and of the others one, or all.
fn site_of_any(r: &mut Random, e: u32, mask: u64, sheets: &Sheets, one_of: u64) -> Vec<Question> {
    let asked = of_setting(e, 0, mask, vec![7], vec![], sheets);
    [vec![Question::SiteInheriting(e, mask)], thinned(r, one_of, e as usize, asked)].concat()
}

/// Fresh blocks of a struct, in buffers of each length at an edge and under each sort of mask. Of the lengths of a large struct one pair of
/// so many and the first ones, of the masks one of so many and one in any case.
fn fresh_edges(r: &mut Random, good: &Good, e: usize, one_of: u64) -> Vec<Question> {
    let (count, size) = (good.table.entries[e].count, good.extent(e, 0));
    let (short, beside, more) = (size - 1, size + 1 + r.below(5), size + 1 + r.below(5));
    let room = Sheets { factory: bytes(r, beside), site: bytes(r, more) };
    let masks = [u64::MAX, 0, 1 << (count % 64), full(count), 1 << 63, r.next()];
    // each pair has a buffer of the one before
    let lengths = [
        (short, more),
        (beside, more),
        (beside, short),
        (beside, size),
        (size, size),
        (size, 0),
        (0, 0),
        (0, size),
        (short, size),
        (short, short),
    ];
    let mut qs = Vec::new();
    for (i, (factory, site)) in lengths.into_iter().enumerate() {
        let of = |sheet: &[u8], length: u64| sheet[..length as usize].to_vec();
        let sheets = Sheets { factory: of(&room.factory, factory), site: of(&room.site, site) };
        if size < 16 || i < 3 || r.one_in(one_of) {
            let asked = masks.map(|mask| Question::SiteFresh(e as u32, mask, sheets.clone())).into_iter().enumerate();
            qs.extend(asked.filter(|(j, _)| *j == i % masks.len() || r.one_in(one_of)).map(|(_, q)| q));
        }
    }
    qs
}

/// A block from either of its starts on: the same sets and clears, mostly by turns, of its last member and of another, each from the mask
/// and the site buffer that the one before left; before one of them the factory sheet changes; after each a member is asked for.
fn histories(r: &mut Random, good: &Good, e: usize, start: &Sheets, steps: usize) -> Vec<Question> {
    let (entry, types) = (e as u32, member_types(good, e));
    let last = types.len() as u32 - 1;
    let other = r.below(last.max(1) as u64) as u32;
    let mut step = |i: usize| {
        let (k, asked) = (r.of(&[last, last, other]), r.of(&[last, other]));
        let ty = types[k as usize];
        let path = if r.one_in(8) { any_path(r, good, ty, 0) } else { good_path(r, good, ty, 0, 300) };
        let words = match good.walk(ty, 0, &path).ok().and_then(|t| good.scalar(t.stand)) {
            Some(scalar) if !r.one_in(8) => fitting_words(r, good, scalar, 0),
            _ => site_words(r, good, ty, &path),
        };
        (k, asked, Some((words, path)).filter(|_| (i % 2 == 0) != r.one_in(4)))
    };
    let changes: Vec<_> = (0..steps).map(&mut step).collect();
    let (sheet, changes_at) = (bytes(r, start.factory.len() as u64), r.below(steps.max(1) as u64) as usize);
    let old = r.of(&[0, full(types.len() as u32), u64::MAX]);
    let mut qs = Vec::new();
    for inherits in [false, true] {
        let (mut mask, mut sheets) = (old, start.clone());
        let started = if inherits {
            qs.push(Question::SiteInheriting(entry, mask));
            good.site_inheriting(e, &mut mask)
        } else {
            qs.push(Question::SiteFresh(entry, mask, sheets.clone()));
            good.site_fresh(e, &mut mask, &mut sheets)
        };
        started.expect("a struct that is fit for a block");
        for (i, (k, asked, set)) in changes.iter().enumerate() {
            if i == changes_at {
                sheets.factory = sheet.clone();
                qs.push(Question::SiteMember(entry, *asked, mask, sheets.clone()));
            }
            // what is refused leaves all as it was
            let _ = match set {
                Some((words, path)) => {
                    qs.push(Question::SiteSet(entry, *k, mask, words.clone(), path.clone(), sheets.clone()));
                    good.site_set(e, *k, path, words, &mut mask, &mut sheets)
                }
                None => {
                    qs.push(Question::SiteClear(entry, *k, mask));
                    good.site_clear(e, *k, &mut mask)
                }
            };
            qs.push(Question::SiteMember(entry, if i % 2 == 0 { *k } else { *asked }, mask, sheets.clone()));
        }
    }
    qs
}

/// Structs of 1, 2, 63, 64 and 65 members.
fn site_counts() -> Table {
    let structs = [1, 2, 63, 64, 65].map(|n| entry(12, 0, 0, 0, n));
    Table { entries: [vec![entry(4, 0, 0, 0, 0)], structs.to_vec()].concat(), members: vec![Member::default(); 65] }
}

/// A struct with members of every sort, and what is fit for no site block: no struct, what has no layout, an open struct, with and without a
/// bool, a struct with a bool.
fn site_sorts() -> Table {
    let over = |kind, columns, rows, reference, count| (entry(kind, columns, rows, reference, count), vec![]);
    let of = |ms: Vec<Member>| (entry(12, 0, 0, 0, 0), ms);
    let plain = |ty| member(ty, None, None);
    table(&[
        scalar(3),
        scalar(4),
        scalar(2),
        scalar(13),
        over(7, 0, 3, 0, 0),
        over(8, 2, 3, 1, 0),
        over(11, 0, 0, 2, 0),
        of(vec![plain(1), plain(2)]),
        over(9, 0, 0, 7, 2),
        of(vec![
            plain(0),
            member(1, Some(5), None),
            plain(4),
            plain(2),
            plain(5),
            plain(3),
            plain(6),
            member(7, Some(9), None),
            plain(8),
            member(1, None, Some(8)),
        ]),
        scalar(0),
        scalar(5),
        over(7, 0, 3, 3, 0),
        over(10, 0, 0, 2, 0),
        of(vec![plain(2), plain(13)]),
        of(vec![plain(10), plain(13)]),
        of(vec![plain(2), plain(10)]),
    ])
}

/// An accepted table whose last entry is a struct of `n` members, none of more than 32 bytes.
fn wide(r: &mut Random, n: u64, kinds: &[u8]) -> Table {
    let (base, types) = (table(&[scalar(r.of(&STORED))]), 2 + r.below(6) as usize);
    let t = random_over(r, base, types, 12, kinds);
    let good = model::check(&t.write(&[])).ok().expect("an accepted table");
    let bools = r.one_in(16);
    let is_small = |l: &Laid| l.size.is_some_and(|s| s <= 32) && l.align.is_some_and(|a| a <= 32);
    let fit = |ty: &usize| is_small(&good.laid[*ty]) && (bools || !good.laid[*ty].holds_bool);
    let fit: Vec<usize> = (0..types).filter(fit).collect();
    let mut one = || {
        let ty = r.of(&fit);
        let size = good.laid[ty].size.filter(|_| r.one_in(8)).map(|s| s as u32 + r.below(9) as u32);
        member(ty as u16, size, None)
    };
    let ms = (0..n).map(|_| one()).collect();
    with(&t, &structure(&t, ms))
}

/// The start of these buffers, as long as the entry, or so long where it has no size or a larger one; either may be short, or longer.
fn some_sheets(r: &mut Random, good: Option<&Good>, entry: u32, size: u64, room: &Sheets) -> Sheets {
    let most = room.site.len() as u64;
    let size = good.map(|good| good.extent(entry as usize, 0)).filter(|extent| *extent <= most).unwrap_or(size);
    let mut start = |sheet: &[u8]| {
        let (less, more) = (r.below(size + 1), (size + r.below(9)).min(most));
        let length = if r.one_in(8) { r.of(&[size.saturating_sub(1), less, more, more]) } else { size };
        sheet[..length as usize].to_vec()
    };
    Sheets { factory: start(&room.factory), site: start(&room.site) }
}

/// A question about a site block of an entry that may be fit for none: of a member that may not be there, under a mask that may go beyond,
/// at a path and with words that may be bad, with the start of these buffers, which may be short.
fn faulty_site(r: &mut Random, good: Option<&Good>, entry: u32, room: &Sheets) -> Question {
    let good = good.filter(|g| (entry as usize) < g.laid.len());
    let types = good.map_or(vec![], |good| member_types(good, entry as usize));
    let count = types.len() as u32;
    let k = if count == 0 || r.one_in(8) { r.of(&strangers(count)) } else { r.below(count as u64) as u32 };
    let (within, beyond) = (masks(r, count, k), [1u64.checked_shl(count).unwrap_or(1), 1 << 63, r.next()]);
    let mask = if r.one_in(12) { r.of(&beyond) } else { r.of(&within) };
    let (mut path, mut words, size) = (vec![], any_words(r, 1), r.below(20));
    if let (Some(good), Some(ty)) = (good, types.get(k as usize)) {
        path = if r.one_in(2) { any_path(r, good, *ty, 0) } else { good_path(r, good, *ty, 0, 300) };
        words = site_words(r, good, *ty, &path);
    }
    if r.one_in(8) {
        words.resize(r.below(4) as usize, 7);
    }
    let sheets = some_sheets(r, good, entry, size, room);
    match r.below(8) {
        0 => Question::SiteInheriting(entry, mask),
        1 => Question::SiteClear(entry, k, mask),
        2 | 3 => Question::SiteMember(entry, k, mask, sheets),
        _ => Question::SiteSet(entry, k, mask, words, path, sheets),
    }
}

/// A fresh block of an entry that may be fit for none, under a mask that may go beyond, with the start of these buffers, which may be
/// short.
fn faulty_fresh(r: &mut Random, good: Option<&Good>, entry: u32, room: &Sheets) -> Question {
    let good = good.filter(|g| (entry as usize) < g.laid.len());
    let count = good.map_or(0, |good| member_types(good, entry as usize).len()) as u32;
    let (any, size) = (r.next(), r.below(20));
    let mask = r.of(&[0, full(count), any & full(count), any, u64::MAX]);
    let sheets = some_sheets(r, good, entry, size, room);
    Question::SiteFresh(entry, mask, sheets)
}

/// The entries of a table that are fit for a site block; none where it is refused.
fn fit_for_site(good: Option<&Good>) -> Vec<u32> {
    let is_fit = |good: &Good, e: u32| good.site_inheriting(e as usize, &mut 0).is_ok();
    good.map_or(vec![], |good| (0..good.laid.len() as u32).filter(|e| is_fit(good, *e)).collect())
}

/// Mostly an entry that is fit for a site block; now and then one that is not there.
fn some_entry(r: &mut Random, types: u64, fit: &[u32]) -> u32 {
    let (past, any) = (r.of(&[types, 255, 4_294_967_295]) as u32, r.below(types) as u32);
    match r.below(16) {
        0 => past,
        1..=3 => any,
        _ if fit.is_empty() => any,
        _ => r.of(fit),
    }
}

/// `n` questions about site blocks in at most so many bytes, mostly of structs that are fit for one; now and then an entry that is not
/// there.
fn some_sites(r: &mut Random, t: &Table, n: usize, most: u64) -> Vec<Question> {
    let types = t.entries.len().max(1) as u64;
    let good = laid_out(t);
    let fit = fit_for_site(good.as_ref());
    let room = Sheets { factory: bytes(r, most), site: bytes(r, most) };
    let mut one = || {
        let entry = some_entry(r, types, &fit);
        faulty_site(r, good.as_ref(), entry, &room)
    };
    (0..n).map(|_| one()).collect()
}

/// `n` fresh blocks in the same way; and of an entry that is fit for one so many sets and clears after either start.
fn some_starts(r: &mut Random, t: &Table, n: usize, steps: usize, most: u64) -> Vec<Question> {
    let types = t.entries.len().max(1) as u64;
    let good = laid_out(t);
    let mut fit = fit_for_site(good.as_ref());
    let room = Sheets { factory: bytes(r, most), site: bytes(r, most) };
    let mut one = || {
        let entry = some_entry(r, types, &fit);
        faulty_fresh(r, good.as_ref(), entry, &room)
    };
    let mut qs: Vec<Question> = (0..n).map(|_| one()).collect();
    let Some(good) = good else { return qs };
    fit.retain(|e| good.extent(*e as usize, 0) <= most);
    if !fit.is_empty() {
        let e = r.of(&fit) as usize;
        let mut length = || (good.extent(e, 0) + r.of(&[0, 1, 3])).min(most) as usize;
        let start = Sheets { factory: room.factory[..length()].to_vec(), site: room.site[..length()].to_vec() };
        qs.extend(histories(r, &good, e, &start, steps));
    }
    qs
}

/// The questions about site blocks. They have random numbers of their own too, and those about their starts others, so that the rest are
/// the same with and without them.
pub fn site_blocks(seed: u64, plan: &Plan, mut each: impl FnMut(Block)) {
    let (mut r, mut s) = (Random(seed.rotate_left(16)), Random(seed.rotate_left(24)));
    let sheets = |r: &mut Random, length| Sheets { factory: bytes(r, length), site: bytes(r, length) };
    let none = Sheets { factory: vec![], site: vec![] };
    for t in [site_counts(), site_sorts()] {
        let good = model::check(&t.write(&[])).ok().expect("an accepted table");
        let (mut questions, room) = (vec![], sheets(&mut r, 16));
        // one more than there are
        let all = 0..=t.entries.len() as u32;
        for e in all.clone() {
            questions.extend(site_of_any(&mut r, e, 1, &room, plan.site_edges));
        }
        // the same of fresh ones; with no byte in either buffer, what comes before 15
        for sheets in [&room, &none] {
            let mask = |e: u32| [u64::MAX, 1, 0][e as usize % 3];
            questions.extend(all.clone().map(|e| Question::SiteFresh(e, mask(e), sheets.clone())));
        }
        for e in fit_for_site(Some(&good)) {
            questions.extend(site_edges(&mut r, &good, e as usize, plan.site_edges));
        }
        for e in fit_for_site(Some(&good)) {
            let e = e as usize;
            questions.extend(fresh_edges(&mut s, &good, e, plan.site_edges));
            // of those with many members the largest
            let (size, count) = (good.extent(e, 0), good.table.entries[e].count);
            if count < 16 || count == model::SETTINGS || s.one_in(plan.site_edges) {
                for _ in 0..plan.rounds {
                    let start = sheets(&mut s, size);
                    questions.extend(histories(&mut s, &good, e, &start, plan.site_steps));
                }
            }
        }
        each(Block { file: t.write(&[]), questions });
    }
    // no table, and a bad entry
    for file in [vec![0], table(&[scalar(2), scalar(16)]).write(&[])] {
        let (room, mask) = (sheets(&mut r, 5), 1 << 32 | 5);
        let fresh = [&room, &none].map(|sheets| Question::SiteFresh(0, mask, sheets.clone()));
        each(Block { file, questions: [site_of_any(&mut r, 0, mask, &room, 1), fresh.to_vec()].concat() });
    }
    let mut ask = |file: Vec<u8>, t: &Table, n: usize, steps: usize, most: u64, r: &mut Random| {
        let asked = some_sites(r, t, n, most);
        each(Block { file, questions: [asked, some_starts(&mut s, t, plan.site_fresh, steps, most)].concat() });
    };
    let (n, steps, kinds) = (plan.site_asked, plan.site_steps, [0, 1, 2, 3, 3, 4, 4, 5, 13, 14, 15]);
    for i in 0..plan.sites {
        let (base, types) = (table(&[scalar(r.of(&kinds))]), 3 + r.below(7) as usize);
        let t = random_over(&mut r, base, types, if i % 8 == 7 { 60 } else { 12 }, &kinds);
        let form = if r.one_in(4) { 2 } else { 1 };
        let most = if r.one_in(40) { plan.site_bytes } else { plan.site_bytes.min(FEW_BYTES) };
        ask(named(&mut r, &t).write_as(form, &[]), &t, n, steps, most, &mut r);
        if i % 4 == 3 {
            let d = damaged_table(&mut r, &t);
            ask(file(&mut r, &d), &d, n.min(4), 1, most, &mut r);
            let b = file(&mut r, &t);
            ask(damaged_file(&mut r, &b), &t, n.min(3), 1, most, &mut r);
        }
        if i % 8 == 7 {
            let deep = nested(&mut r, &[STORED.as_slice(), &LONG].concat());
            ask(deep.write(&[]), &deep, n, steps, most, &mut r);
            let many = 1 + r.below(66);
            let w = wide(&mut r, many, &kinds);
            ask(w.write(&[]), &w, n, steps, plan.site_bytes, &mut r);
        }
    }
}

/// Entries with gaps of every sort: after a vec3, a column and an element, before a member, after it where its size is given, and at the end
/// of a struct; of structs alone, in arrays, small and not, and within each other; before a runtime array and in its elements. Entries with
/// none. And what can't be cleaned: what has no layout, what holds a bool.
fn gap_sorts() -> Table {
    let over = |kind, columns, rows, reference, count| (entry(kind, columns, rows, reference, count), vec![]);
    let (array, runtime) = (|of, count| over(9, 0, 0, of, count), |of| over(10, 0, 0, of, 0));
    let of = |ms: Vec<Member>| (entry(12, 0, 0, 0, 0), ms);
    let plain = |ty| member(ty, None, None);
    let all = |types: &[u16]| of(types.iter().map(|ty| plain(*ty)).collect());
    table(&[
        // f32, f16, u32, i64
        scalar(3),
        scalar(4),
        scalar(2),
        scalar(13),
        // 4 to 8: vectors and matrices of three rows; a matrix without gaps
        over(7, 0, 3, 0, 0),
        over(7, 0, 3, 1, 0),
        over(8, 3, 3, 0, 0),
        over(8, 2, 3, 1, 0),
        over(8, 2, 2, 0, 0),
        // 9 to 11: arrays of them
        array(4, 2),
        array(5, 3),
        array(6, 2),
        over(11, 0, 0, 2, 0),
        // 13 to 17: structs of which the end, or what comes before a member, is a gap, of 2 or of 4 bytes, and arrays of them
        all(&[2, 4, 0]),
        all(&[1, 2, 1]),
        array(14, 3),
        all(&[0, 3, 12]),
        array(16, 3),
        // 18 to 21: sizes and aligns given; within each other
        of(vec![member(0, Some(7), None), member(1, Some(9), None), member(2, None, Some(32)), plain(12)]),
        array(18, 2),
        of(vec![plain(1), plain(14), plain(1), plain(9), plain(7), member(16, Some(30), None), plain(1)]),
        array(15, 2),
        // 22 and 23: a struct that is mostly its end
        of(vec![member(0, None, Some(32))]),
        array(22, 2),
        // 24 to 31: runtime arrays, and structs that end in one, with a gap before it or without
        runtime(4),
        runtime(14),
        runtime(16),
        runtime(1),
        all(&[2, 24]),
        of(vec![plain(1), member(27, None, Some(8))]),
        all(&[3, 1, 25]),
        all(&[14, 26]),
        // 32 and on: bool, an abstract scalar, a vec3 of i64, what holds them, open and not; an array that is too long
        scalar(0),
        scalar(5),
        over(7, 0, 3, 3, 0),
        over(7, 0, 3, 32, 0),
        all(&[2, 32]),
        runtime(32),
        all(&[1, 37]),
        array(0, 1 << 29),
    ])
}

/// Some of a list: one of so many, and one in any case.
fn some_of(r: &mut Random, one_of: u64, list: Vec<Question>) -> Vec<Question> {
    let kept = r.below(list.len() as u64) as usize;
    list.into_iter().enumerate().filter(|(i, _)| *i == kept || r.one_in(one_of)).map(|(_, q)| q).collect()
}

/// A buffer of which some bytes, one of so many, became 0.
fn with_zeros(r: &mut Random, buffer: &[u8], one_of: u64) -> Vec<u8> {
    buffer.iter().map(|b| if r.one_in(one_of) { 0 } else { *b }).collect()
}

/// The same buffer with the gaps of entry `e` clean, as far as it can be cleaned, and where the gaps are.
fn without_gaps(good: &Good, e: usize, buffer: &[u8]) -> (Vec<u8>, Vec<usize>) {
    let (mut clean, mut marked) = (buffer.to_vec(), vec![1; buffer.len()]);
    let _ = (good.clean(e, &mut clean), good.clean(e, &mut marked));
    (clean, (0..buffer.len()).filter(|k| marked[*k] == 0).collect())
}

/// Buffers of entry `e` with `n` elements, which are cleaned: rubbish of each length at an edge; no rubbish in the gaps, and rubbish in the
/// first byte of them, the last, any and all but the first alone; zeros here and there, and nothing else. Of these one of so many.
fn gap_edges(r: &mut Random, good: &Good, e: usize, n: u64, one_of: u64) -> Vec<Question> {
    let (entry, extent) = (e as u32, good.extent(e, n));
    let ask = |buffer: &[u8]| Question::Clean(entry, buffer.to_vec());
    if extent > MOST_BYTES - 12 || !good.has_layout(e) || good.laid[e].holds_bool {
        let room = bytes(r, 24);
        return some_of(r, one_of, [0, 9, 24].map(|length| ask(&room[..length])).to_vec());
    }
    let mut lengths = vec![extent - 1, extent, extent + 1, extent + 2 + r.below(9)];
    // an element fewer, and one more and almost
    if let Some(Tail { stride, .. }) = good.laid[e].tail.filter(|t| extent + t.stride <= MOST_BYTES) {
        lengths.extend([extent - stride, extent + stride - 1, extent + stride]);
    }
    let room = bytes(r, *lengths.iter().max().expect("a length"));
    let mut qs: Vec<Question> = lengths.into_iter().map(|length| ask(&room[..length as usize])).collect();
    let room = &room[..r.of(&[extent, extent, extent + 1]) as usize];
    let (clean, gaps) = without_gaps(good, e, room);
    qs.extend([ask(&clean), ask(&vec![0; room.len()]), ask(&with_zeros(r, room, 2)), ask(&with_zeros(r, room, 8))]);
    if let (Some(first), Some(last)) = (gaps.first(), gaps.last()) {
        for at in [*first, *last, r.of(&gaps)] {
            let mut one = clean.clone();
            one[at] = room[at];
            qs.push(ask(&one));
        }
        let mut others = room.to_vec();
        others[*first] = 0;
        qs.push(ask(&others));
    }
    some_of(r, one_of, qs)
}

/// The same of an open entry with one element and with some, of another once.
fn all_gap_edges(r: &mut Random, good: &Good, e: usize, one_of: u64) -> Vec<Question> {
    let counts = if good.laid[e].open { vec![1, 2 + r.below(4)] } else { vec![0] };
    counts.into_iter().flat_map(|n| gap_edges(r, good, e, n, one_of)).collect()
}

/// A cleaning of an entry that may not be fit for it: of rubbish, of rubbish and zeros, of a clean buffer or of one with rubbish in one of
/// its bytes; the buffer may be short, or longer. Of a small value mostly.
fn faulty_clean(r: &mut Random, good: Option<&Good>, entry: u32) -> Question {
    let (e, mut length) = (entry as usize, r.below(20));
    let good = good.filter(|g| e < g.laid.len());
    if let Some(good) = good {
        let n = if good.laid[e].open { r.of(&[0, 1, 1, 2, 3, 7]) } else { 0 };
        let most = if r.one_in(40) { MOST_BYTES } else { FEW_BYTES };
        if good.extent(e, n) <= most {
            length = good.extent(e, n);
        }
    }
    if r.one_in(3) {
        let (less, more) = (r.below(length + 1), (length + r.below(20)).min(MOST_BYTES));
        length = r.of(&[length.saturating_sub(1), less, more, more]);
    }
    let rubbish = bytes(r, length);
    let clean = good.map_or(rubbish.clone(), |good| without_gaps(good, e, &rubbish).0);
    let buffer = match r.below(8) {
        0 => clean,
        1 | 2 if length > 0 => {
            let (mut one, at) = (clean, r.below(length) as usize);
            one[at] = 255 - one[at];
            one
        }
        3 => with_zeros(r, &rubbish, 2),
        4 => with_zeros(r, &rubbish, 8),
        _ => rubbish,
    };
    Question::Clean(entry, buffer)
}

/// `n` cleanings, mostly of entries that are fit for it and not scalars; now and then an entry that is not there.
fn some_cleans(r: &mut Random, t: &Table, n: usize) -> Vec<Question> {
    let types = t.entries.len().max(1) as u64;
    let good = laid_out(t);
    let is_fit = |e: &u32| {
        let (kind, good) = (t.entries[*e as usize].kind, good.as_ref()?);
        let l = good.laid[*e as usize];
        (l.has_layout() && !l.holds_bool && !model::is_scalar(kind)).then_some(())
    };
    let fit: Vec<u32> = (0..t.entries.len() as u32).filter(|e| is_fit(e).is_some()).collect();
    let mut one = || {
        let (past, any) = (r.of(&[types, 255, 4_294_967_295]) as u32, r.below(types) as u32);
        let entry = match r.below(32) {
            0 => past,
            1..=6 => any,
            _ if fit.is_empty() => any,
            7..=16 => *fit.last().expect("one that is fit"),
            _ => r.of(&fit),
        };
        faulty_clean(r, good.as_ref(), entry)
    };
    (0..n).map(|_| one()).collect()
}

/// The questions about cleaning. They have random numbers of their own too.
pub fn clean_blocks(seed: u64, plan: &Plan, mut each: impl FnMut(Block)) {
    let mut r = Random(!seed.rotate_left(16));
    let t = gap_sorts();
    let good = model::check(&t.write(&[])).ok().expect("an accepted table");
    let mut questions: Vec<Question> =
        (0..t.entries.len()).flat_map(|e| all_gap_edges(&mut r, &good, e, plan.clean_edges)).collect();
    // one buffer for all of them; and one entry more than there are
    let (room, types) = (bytes(&mut r, 128), t.entries.len() as u32);
    questions.extend([types, 255, u32::MAX].map(|e| Question::Clean(e, vec![])));
    questions.extend((0..=types).map(|e| Question::Clean(e, room.clone())));
    each(Block { file: t.write(&[]), questions });
    // no table, and a bad entry
    for file in [vec![0], table(&[scalar(2), scalar(16)]).write(&[])] {
        each(Block { file, questions: [0, 9].map(|n| Question::Clean(0, vec![7; n])).to_vec() });
    }
    for t in [long(), long_ones()].concat().into_iter().take(2 * plan.long) {
        let good = model::check(&t.write(&[])).ok().expect("an accepted table");
        let questions = all_gap_edges(&mut r, &good, t.entries.len() - 1, 1);
        each(Block { file: t.write(&[]), questions });
    }
    for kinds in [SHORT.as_slice(), &[2, 4, 5, 13]] {
        for t in small_over(plan.clean_small, kinds) {
            let good = model::check(&t.write(&[])).ok().expect("an accepted table");
            let questions = all_gap_edges(&mut r, &good, t.entries.len() - 1, 1);
            each(Block { file: t.write(&[]), questions });
        }
    }
    for t in at_limits().into_iter().take(plan.large) {
        each(Block { file: t.write(&[]), questions: some_cleans(&mut r, &t, plan.limits) });
    }
    let (n, kinds) = (plan.clean_asked, [0, 1, 2, 3, 3, 4, 4, 4, 5, 13, 14, 15]);
    for i in 0..plan.cleans {
        let (base, types) = (table(&[scalar(r.of(&kinds))]), 3 + r.below(8) as usize);
        let t = random_over(&mut r, base, types, if i % 8 == 7 { 60 } else { 12 }, &kinds);
        let form = if r.one_in(4) { 2 } else { 1 };
        each(Block { file: named(&mut r, &t).write_as(form, &[]), questions: some_cleans(&mut r, &t, n) });
        if i % 4 == 3 {
            let d = damaged_table(&mut r, &t);
            each(Block { file: file(&mut r, &d), questions: some_cleans(&mut r, &d, n.min(4)) });
            let b = file(&mut r, &t);
            each(Block { file: damaged_file(&mut r, &b), questions: some_cleans(&mut r, &t, n.min(3)) });
        }
        if i % 8 == 7 {
            let deep = nested(&mut r, &[STORED.as_slice(), &LONG].concat());
            each(Block { file: deep.write(&[]), questions: some_cleans(&mut r, &deep, n) });
            let types = 4 + r.below(8) as usize;
            let near = uniform_table(&mut r, types);
            each(Block { file: near.write(&[]), questions: some_cleans(&mut r, &near, n) });
        }
    }
}

/// Structs whose members stand better in another order, and others: with gaps before members and at the end; with sizes and aligns given;
/// whose planned order is worse, equal or better; of one member, of equal ones, of structs, with bools; open ones, the array's align given
/// or not; ends and aligns near 2^32. And what is no struct.
fn order_sorts() -> Table {
    let over = |kind, columns, rows, reference, count| (entry(kind, columns, rows, reference, count), vec![]);
    let of = |ms: Vec<Member>| (entry(12, 0, 0, 0, 0), ms);
    let plain = |ty| member(ty, None, None);
    let all = |types: &[u16]| of(types.iter().map(|ty| plain(*ty)).collect());
    let sized = |ty, size| member(ty, Some(size), None);
    let aligned = |ty, align| member(ty, None, Some(align));
    table(&[
        // u32, f32, f16, bool, i64
        scalar(2),
        scalar(3),
        scalar(4),
        scalar(0),
        scalar(13),
        // 5 to 8: vectors of f32, u32 and bool
        over(7, 0, 3, 1, 0),
        over(7, 0, 4, 0, 0),
        over(7, 0, 2, 0, 0),
        over(7, 0, 3, 3, 0),
        // 9 to 12: runtime arrays of u32 and of a vector; an array; a matrix
        over(10, 0, 0, 0, 0),
        over(10, 0, 0, 6, 0),
        over(9, 0, 0, 2, 3),
        over(8, 2, 2, 2, 0),
        // 13 to 15: 32 bytes and 48 as planned; 48 and 32; 12 and 8
        all(&[5, 1, 5, 1]),
        all(&[0, 6, 0]),
        all(&[2, 0, 2]),
        // 16 to 20: open ones; the array alone
        all(&[0, 7, 0, 9]),
        of(vec![plain(0), plain(7), plain(0), aligned(9, 64)]),
        all(&[2, 4, 2, 0, 10]),
        all(&[2, 9]),
        all(&[9]),
        // 21 to 24: one member; equal members; structs within; many alignments
        all(&[6]),
        all(&[2, 2, 2]),
        all(&[2, 15, 4, 15, 2]),
        all(&[2, 0, 2, 4, 2, 6, 11, 12, 2, 1]),
        // 25 to 28: sizes and aligns given
        of(vec![sized(2, 3), plain(0), sized(2, 5), plain(4)]),
        of(vec![plain(0), aligned(2, 32), plain(0), aligned(0, 8)]),
        of(vec![plain(2), aligned(0, 16), member(2, Some(30), Some(8)), plain(4), sized(0, 4)]),
        of(vec![plain(2), aligned(2, 4), plain(0), plain(2)]),
        // 29 to 31: bools, and vectors of three, which the Rust aligns only where it is given
        all(&[3, 7, 3]),
        all(&[3, 8, 3, 8]),
        of(vec![plain(3), aligned(8, 16), plain(3)]),
        // 32 and on: near 2^32, closed and open; what passes it in another order; a gap of nearly 2^31 bytes
        of(vec![sized(0, 4_294_967_280), plain(1)]),
        of(vec![plain(2), sized(0, 4_294_967_264), plain(7), plain(2)]),
        of(vec![plain(2), sized(0, 4_294_967_264), plain(7), plain(2), plain(9)]),
        of(vec![plain(2), sized(0, 4_294_967_264), plain(2), plain(7), plain(10)]),
        of(vec![aligned(0, 1 << 31), plain(0)]),
        of(vec![aligned(0, 1 << 31), plain(0), aligned(9, 1 << 31)]),
        of(vec![plain(2), aligned(0, 1 << 30), plain(2)]),
        of(vec![plain(2), aligned(0, 1 << 31), plain(9)]),
    ])
}

/// The orders of so many members, all of them.
fn all_orders(n: u32) -> Vec<Vec<u32>> {
    (0..n).fold(vec![vec![]], |orders, k| {
        let put = |order: &Vec<u32>, at: usize| [&order[..at], &[k], &order[at..]].concat();
        orders.iter().flat_map(|order| (0..=order.len()).map(|at| put(order, at)).collect::<Vec<_>>()).collect()
    })
}

/// Any order of these positions.
fn any_order(r: &mut Random, positions: &[u32]) -> Vec<u32> {
    let mut order: Vec<u32> = Vec::new();
    for k in positions {
        order.insert(r.below(order.len() as u64 + 1) as usize, *k);
    }
    order
}

/// Any order of a struct's members, which mostly leaves a runtime array the last.
fn any_order_of(r: &mut Random, good: &Good, e: usize, n: u32) -> Vec<u32> {
    let kept = if good.laid[e].open && !r.one_in(8) { n - 1 } else { n };
    let positions: Vec<u32> = (0..n).collect();
    [any_order(r, &positions[..kept as usize]), positions[kept as usize..].to_vec()].concat()
}

/// Numbers that are no position of so many members.
fn no_positions(n: u32) -> [u32; 6] {
    [n, n + 1, 1024, 65_536, 1 << 31, u32::MAX]
}

/// An order with something wrong: a position twice, a number that is none, one too few or too many, or none at all.
fn bad_order(r: &mut Random, order: &[u32]) -> Vec<u32> {
    let (mut bad, n) = (order.to_vec(), order.len() as u64);
    if n == 0 {
        return vec![0];
    }
    let (at, other) = (r.below(n) as usize, r.below(n) as usize);
    match r.below(8) {
        0 => bad[at] = r.of(&no_positions(n as u32)),
        1 | 2 if n > 1 => bad[at] = bad[(at + 1 + r.below(n - 1) as usize) % n as usize],
        3 => drop(bad.remove(at)),
        4 => bad.insert(at, order[other]),
        5 => bad.push(n as u32),
        6 => bad.truncate(other),
        _ => bad[at] = bad[at].wrapping_sub(1 + r.below(2) as u32),
    }
    bad
}

/// Orders and lists of a struct: the planned order, those next to it, as it stands, from the end on; all of at most so many members, else
/// some; a runtime array that is not the last; each sort of bad order; lists of each length at an edge. Of these one of so many, and in any
/// case a plan, its own order and one that is better.
fn order_edges(r: &mut Random, good: &Good, e: usize, all_of: usize, one_of: u64) -> Vec<Question> {
    let (entry, n) = (e as u32, good.table.entries[e].count);
    let ms = good.ordered(e).expect("a struct");
    let (planned, stands): (Vec<u32>, Vec<u32>) = (good.planned(ms), (0..n).collect());
    let mut orders: Vec<Vec<u32>> = vec![];
    if n as usize <= all_of {
        orders.extend(all_orders(n));
    } else {
        orders.extend([stands.clone(), stands.iter().rev().copied().collect()]);
        orders.extend((0..8).map(|_| any_order_of(r, good, e, n)));
        for k in 1..n.min(6) as usize {
            let mut next = planned.clone();
            next.swap(k - 1, k);
            orders.push(next);
        }
    }
    let better: Vec<Vec<u32>> = orders.iter().filter(|order| good.check_order(e, order).is_ok()).cloned().collect();
    let chosen = better.last().unwrap_or(&stands).clone();
    let from = [&planned, &chosen];
    for (i, stranger) in no_positions(n).into_iter().enumerate() {
        let mut bad = from[i % 2].clone();
        bad[i % n as usize] = stranger;
        orders.push(bad);
    }
    for good in from {
        let twice = [&good[..n as usize - 1], &[good[0]]].concat();
        orders.extend([twice, good[1..].to_vec(), good[..n as usize - 1].to_vec()]);
        orders.extend([n, good[0]].map(|more| [good.as_slice(), &[more]].concat()));
    }
    orders.extend([vec![], vec![0; n as usize], vec![0; 2 * n as usize]]);
    orders.retain(|order| order.len() as u64 <= MOST_WORDS);
    let checks = orders.into_iter().map(|order| Question::CheckOrder(entry, order)).collect();
    let lengths = [0, n as u64 - 1, n as u64, n as u64 + 1, n as u64 + 2 + r.below(5)];
    let lengths = lengths.into_iter().filter(|length| *length <= MOST_WORDS);
    let plans = lengths.map(|length| Question::PlanOrder(entry, any_words(r, length))).collect();
    let (plans, checks) = (some_of(r, one_of, plans), some_of(r, one_of, checks));
    let mut kept = vec![];
    if (n as u64) < MOST_WORDS {
        kept.push(Question::PlanOrder(entry, any_words(r, n as u64 + 1)));
        kept.extend([planned, chosen].map(|order| Question::CheckOrder(entry, order)));
    }
    [kept, plans, checks].concat()
}

/// What is asked of any entry: lists and orders of none, one and two.
fn orders_of_any(e: u32) -> Vec<Question> {
    let list = [9, 8];
    let asked =
        |n: usize| [Question::PlanOrder(e, list[..n].to_vec()), Question::CheckOrder(e, (0..n as u32).collect())];
    (0..=2).flat_map(asked).collect()
}

/// An accepted table whose last entry is a struct of mixed members, at most so many; of four one ends in a runtime array, and of eight one
/// comes near 2^32.
fn mixed(r: &mut Random, most: u64, kinds: &[u8]) -> Table {
    let base = table(&[scalar(r.of(&[1, 2, 3])), scalar(4), (entry(7, 0, 2 + r.below(3) as u8, 0, 0), vec![])]);
    let types = 4 + r.below(6) as usize;
    let mut t = random_over(r, base, types, 12, kinds);
    let is_open = r.one_in(4);
    if is_open {
        t = with(&t, &(entry(10, 0, 0, r.below(3) as u16, 0), vec![]));
    }
    let good = model::check(&t.write(&[])).ok().expect("an accepted table");
    let is_fit = |ty: &u16| good.laid[*ty as usize].size.is_some() && good.laid[*ty as usize].align.is_some();
    let fit: Vec<u16> = (0..types as u16).filter(is_fit).collect();
    loop {
        let n = 1 + r.below(most);
        let mut ms: Vec<Member> = Vec::new();
        for _ in 0..n {
            let ty = if r.one_in(3) { r.of(&[0, 1, 1, 2]) } else { r.of(&fit) };
            ms.push(random_member(r, &good.laid, ty));
        }
        if is_open {
            ms.push(random_member(r, &good.laid, types as u16));
        }
        let grown = with(&t, &structure(&t, ms.clone()));
        let Ok(laid) = model::lay(&grown, &good.laid, good.laid.len()) else { continue };
        let end = laid.tail.map_or(laid.size, |tail| Some(tail.offset)).expect("a struct ends");
        let at = r.below(n) as usize;
        let size = good.laid[ms[at].ty as usize].size.expect("a member that is not open").max(ms[at].size as u64);
        let more = (size + 4_294_967_296 - end).checked_sub(1 + r.below(64)).filter(|more| *more < 1 << 32);
        if let Some(more) = more.filter(|_| r.one_in(8)) {
            ms[at] = Member { flags: ms[at].flags | 1, size: more as u32, ..ms[at] };
            let near = with(&t, &structure(&t, ms));
            if model::check(&near.write(&[])).is_ok() {
                return near;
            }
        }
        return grown;
    }
}

/// A plan or an order of an entry that may be no struct: the planned order, one next to it or any, which may be bad; a list that may be
/// short.
fn faulty_order(r: &mut Random, good: Option<&Good>, entry: u32) -> Question {
    let e = entry as usize;
    let good = good.filter(|g| e < g.laid.len());
    let Some((good, ms)) = good.and_then(|good| Some((good, good.ordered(e).ok()?))) else {
        let list: Vec<u32> = (0..r.below(4) as u32).collect();
        return if r.one_in(2) { Question::PlanOrder(entry, list) } else { Question::CheckOrder(entry, list) };
    };
    let n = ms.len() as u64;
    if r.one_in(4) {
        let (less, more) = (r.below(n + 1), n + r.below(9));
        let length = r.of(&[n, n, n, n + 1, n - 1, less, more]).min(MOST_WORDS);
        return Question::PlanOrder(entry, any_words(r, length));
    }
    let mut order = match r.below(4) {
        0 | 1 => good.planned(ms),
        _ => any_order_of(r, good, e, n as u32),
    };
    if n > 1 && r.one_in(2) {
        let at = r.below(n - 1) as usize;
        order.swap(at, at + 1);
    }
    if r.one_in(6) {
        order = bad_order(r, &order);
    }
    order.truncate(MOST_WORDS as usize);
    Question::CheckOrder(entry, order)
}

/// `n` plans and orders, mostly of structs; now and then an entry that is not there.
fn some_orders(r: &mut Random, t: &Table, n: usize) -> Vec<Question> {
    let types = t.entries.len().max(1) as u64;
    let good = laid_out(t);
    let fit: Vec<u32> = (0..t.entries.len() as u32).filter(|e| t.entries[*e as usize].kind == 12).collect();
    let mut one = || {
        let (past, any) = (r.of(&[types, 255, 4_294_967_295]) as u32, r.below(types) as u32);
        let entry = match r.below(32) {
            0 => past,
            1 | 2 => any,
            _ if fit.is_empty() => any,
            3..=24 => *fit.last().expect("one that is a struct"),
            _ => r.of(&fit),
        };
        faulty_order(r, good.as_ref(), entry)
    };
    (0..n).map(|_| one()).collect()
}

/// The questions about member orders. They have random numbers of their own too.
pub fn order_blocks(seed: u64, plan: &Plan, mut each: impl FnMut(Block)) {
    let mut r = Random(!seed.rotate_left(24));
    let edges = |r: &mut Random, good: &Good, e: usize, one_of: u64| match good.table.entries[e].kind {
        12 => order_edges(r, good, e, plan.order_all, one_of),
        _ => some_of(r, one_of, orders_of_any(e as u32)),
    };
    let t = order_sorts();
    let good = model::check(&t.write(&[])).ok().expect("an accepted table");
    let mut questions: Vec<Question> =
        (0..t.entries.len()).flat_map(|e| edges(&mut r, &good, e, plan.order_edges)).collect();
    let types = t.entries.len() as u32;
    questions.extend([types, 255, u32::MAX].into_iter().flat_map(orders_of_any));
    each(Block { file: t.write(&[]), questions });
    // no table, and a bad entry
    for file in [vec![0], table(&[scalar(2), scalar(16)]).write(&[])] {
        each(Block { file, questions: orders_of_any(0) });
    }
    for kinds in [SHORT.as_slice(), &[2, 4, 5, 13]] {
        for t in small_over(plan.order_small, kinds) {
            let good = model::check(&t.write(&[])).ok().expect("an accepted table");
            let questions = edges(&mut r, &good, t.entries.len() - 1, 1);
            each(Block { file: t.write(&[]), questions });
        }
    }
    for t in at_limits().into_iter().take(plan.large) {
        each(Block { file: t.write(&[]), questions: some_orders(&mut r, &t, plan.limits) });
    }
    let (n, kinds) = (plan.order_asked, [0, 1, 2, 3, 3, 4, 4, 4, 5, 13, 14, 15]);
    for i in 0..plan.orders {
        let most = r.of(&[3, 4, 6, 8, 8, 20]);
        let t = mixed(&mut r, most, &kinds);
        let form = if r.one_in(4) { 2 } else { 1 };
        each(Block { file: named(&mut r, &t).write_as(form, &[]), questions: some_orders(&mut r, &t, n) });
        if i % 4 == 3 {
            let d = damaged_table(&mut r, &t);
            each(Block { file: file(&mut r, &d), questions: some_orders(&mut r, &d, n.min(4)) });
            let b = file(&mut r, &t);
            each(Block { file: damaged_file(&mut r, &b), questions: some_orders(&mut r, &t, n.min(3)) });
        }
        if i % 8 == 7 && plan.order_small > 0 {
            let (base, types) = (table(&[scalar(r.of(&kinds))]), 3 + r.below(8) as usize);
            let any = random_over(&mut r, base, types, 40, &kinds);
            each(Block { file: any.write(&[]), questions: some_orders(&mut r, &any, n) });
            let many = if r.one_in(64) { 1000 + r.below(24) } else { 1 + r.below(80) };
            let w = wide(&mut r, many, &kinds);
            each(Block { file: w.write(&[]), questions: some_orders(&mut r, &w, n) });
        }
    }
}

/// A u32, so many members of it, and structs of some of them: the first, and how many.
fn naming(members: usize, structs: &[(u16, u32)]) -> Table {
    let structs = structs.iter().map(|(first, count)| entry(12, 0, 0, *first, *count));
    Table { entries: [scalar(2).0].into_iter().chain(structs).collect(), members: vec![Member::default(); members] }
}

/// Every such table of at most so many structs and of at most one member more.
fn all_naming(most: usize) -> Vec<Table> {
    let mut list = Vec::new();
    for members in 0..=most + 1 {
        let counts = |first: usize| (1..=members - first).map(move |count| (first as u16, count as u32));
        let spans: Vec<(u16, u32)> = (0..members).flat_map(counts).collect();
        let mut structs: Vec<Vec<(u16, u32)>> = vec![vec![]];
        for _ in 0..=most {
            list.extend(structs.iter().map(|structs| naming(members, structs)));
            let longer = structs.iter().flat_map(|s| spans.iter().map(move |span| [s.as_slice(), &[*span]].concat()));
            structs = longer.collect();
        }
    }
    list
}

/// Tables whose members are all named, and tables with some that are not: the last, the first, one between others, several; beside members
/// named twice, by structs that overlap, that lie within each other, that come in falling order, of which the last alone names some; beside
/// structs within others and structs that nothing uses; beside what refers and counts, and is no struct; members that would be bad if a
/// struct named them; and beside a bad entry.
fn stray_edges() -> Vec<Table> {
    let over = |kind, rows, reference, count| (entry(kind, 0, rows, reference, count), vec![]);
    let all = |types: &[u16]| (entry(12, 0, 0, 0, 0), types.iter().map(|ty| member(*ty, None, None)).collect());
    let more = |t: Table, entries: &[Entry]| Table { entries: [t.entries.as_slice(), entries].concat(), ..t };
    let spans: [(usize, &[(u16, u32)]); 20] = [
        // one left over, and none
        (3, &[(0, 2)]),
        (2, &[(0, 2)]),
        // the lowest of several
        (4, &[]),
        (3, &[(1, 2)]),
        (3, &[(0, 1), (2, 1)]),
        (5, &[(1, 1), (3, 1)]),
        (5, &[(0, 1), (2, 1)]),
        // named twice, and as many names as members
        (2, &[(0, 2), (0, 2)]),
        (4, &[(0, 2), (0, 2)]),
        (4, &[(2, 2), (2, 2)]),
        // overlapping, and within each other
        (3, &[(0, 2), (1, 2)]),
        (4, &[(0, 2), (1, 2)]),
        (4, &[(1, 2), (2, 2)]),
        (4, &[(0, 4), (1, 2)]),
        (5, &[(1, 1), (0, 4)]),
        // in falling order; the last struct alone names some
        (3, &[(2, 1), (1, 1), (0, 1)]),
        (4, &[(3, 1), (2, 1), (0, 1)]),
        (4, &[(2, 2), (0, 1)]),
        (4, &[(0, 1), (0, 1), (0, 4)]),
        (5, &[(0, 1), (0, 1), (0, 4)]),
    ];
    let mut list: Vec<Table> = spans.into_iter().map(|(members, structs)| naming(members, structs)).collect();
    // 2 holds 1, 3 is an array of 2, and nothing uses 4
    let used = table(&[scalar(2), all(&[0]), all(&[1, 0]), over(9, 0, 2, 2), all(&[0])]);
    list.extend([used.clone(), with_member(&used, 1, Member::default()), with_stray(&used)]);
    // a vector, an array, a runtime array and an atomic
    let referring = [entry(7, 0, 2, 0, 0), entry(9, 0, 0, 0, 3), entry(10, 0, 0, 0, 0), entry(11, 0, 0, 0, 0)];
    list.push(more(naming(2, &[]), &referring));
    list.push(more(naming(4, &[(0, 1)]), &[entry(9, 0, 0, 1, 2)]));
    // no such type, flags that are none, a size and an align that no flag gives
    let bad = Member { ty: 9, flags: 65_532, size: 1, align: 3, name: 0 };
    list.extend([0, 2].map(|at| with_member(&naming(2, &[(0, 2)]), at, bad)));
    // 5 by its kind, by none and by one too many members; 6; 7
    let left = naming(3, &[(1, 1)]);
    list.push(more(left.clone(), &[entry(16, 0, 0, 0, 0)]));
    list.push(more(left.clone(), &[entry(12, 0, 0, 0, 0)]));
    list.push(more(left.clone(), &[entry(12, 0, 0, 2, 2)]));
    list.push(Table { members: vec![member(0, Some(1), None); 3], ..left.clone() });
    list.push(more(left, &[entry(9, 0, 0, 0, 1 << 30)]));
    list
}

/// 256 types and 1,024 members: most structs have four of them, in falling order, and the last struct has the rest; one is left over, or
/// none. Structs of all members but one, or of all.
fn stray_limits() -> Vec<Table> {
    let structs: Vec<(u16, u32)> = (0..254).rev().map(|k| (4 * k, 4)).chain([(1016, 8)]).collect();
    // the first or the last member of a struct
    let without = |m: u32| {
        let cut = |(first, count): &(u16, u32)| match m.wrapping_sub(*first as u32) {
            0 => (first + 1, count - 1),
            after if after + 1 == *count => (*first, count - 1),
            _ => (*first, *count),
        };
        naming(1024, &structs.iter().map(cut).collect::<Vec<_>>())
    };
    let mut list = vec![without(1023), naming(1024, &structs)];
    list.extend([0, 1, 511, 512, 1015, 1016, 1022].map(without));
    list.extend([(0, 1023), (1, 1023), (0, 1024)].map(|span| naming(1024, &[span; 255])));
    list.push(naming(1024, &[]));
    list
}

/// A question of every sort about a file, in this buffer.
fn every_sort(buffer: &[u8]) -> Vec<Question> {
    let moved = [1, 2].map(|to| Question::Move(to, buffer.to_vec()));
    [vec![Question::Common(vec![]), Question::ExtractU32(77, Field { offset: 1, count: 3 })], moved.to_vec()].concat()
}

/// A question of every sort about an entry, in this buffer, with its member 0 and with two of them.
fn every_sort_of(e: u32, buffer: &[u8]) -> Vec<Question> {
    let (path, field, room) = (vec![MEMBER], Field { offset: 4, count: 12 }, || buffer.to_vec());
    let (mask, sheets) = (1 << 40 | 1, || Sheets { factory: vec![9; buffer.len()], site: room() });
    vec![
        Question::Size(e),
        Question::Align(e),
        Question::MinSize(e),
        Question::Layout(e),
        Question::Uniform(e),
        Question::Rank(e, 0),
        Question::Common(vec![0, e]),
        Question::Write(e, vec![1, 2], room()),
        Question::Read(e, vec![7; 3], room()),
        Question::View(e, path.clone(), room()),
        Question::Set(e, vec![8], path.clone(), room()),
        Question::Clean(e, room()),
        Question::PlanOrder(e, vec![7; 3]),
        Question::CheckOrder(e, vec![1, 0]),
        Question::Extract(e, field, path.clone(), room()),
        Question::Insert(e, 5, field, path, room()),
        Question::SiteInheriting(e, mask),
        Question::SiteFresh(e, mask, sheets()),
        Question::SiteClear(e, 0, 1),
        Question::SiteMember(e, 0, 1, sheets()),
        Question::SiteSet(e, 0, 1, vec![8], vec![], sheets()),
    ]
}

/// A table with one member more at a place. Structs that have members on both sides of it have it too.
fn with_member(t: &Table, at: usize, m: Member) -> Table {
    let mut t = t.clone();
    for e in t.entries.iter_mut().filter(|e| e.kind == 12) {
        let (first, end) = (e.reference as usize, e.reference as usize + e.count as usize);
        e.reference += (first >= at) as u16;
        e.count += (first < at && at < end) as u32;
    }
    t.members.insert(at, m);
    t
}

/// A copy of a table of which mostly a member is left over, and whose entries pass: a struct's members begin or end one earlier or later, a
/// struct became a u32, or there is a member more.
fn with_strays(r: &mut Random, t: &Table) -> Table {
    let structs: Vec<usize> = (0..t.entries.len()).filter(|k| t.entries[*k].kind == 12).collect();
    for _ in 0..12 {
        let mut new = t.clone();
        if structs.is_empty() || r.one_in(8) {
            let (ty, flags, size) = (r.below(12) as u16, r.below(5) as u16, r.below(9) as u32);
            let (at, any) = (r.below(t.members.len() as u64 + 1), Member { ty, flags, size, ..Member::default() });
            new = with_member(t, at as usize, r.of(&[Member::default(), any]));
        } else {
            let e = &mut new.entries[r.of(&structs)];
            let firsts = [e.reference.wrapping_sub(1), e.reference, e.reference + 1];
            (e.reference, e.count) = (r.of(&firsts), r.of(&[e.count - 1, e.count, e.count + 1]));
            if r.one_in(24) {
                *e = scalar(2).0;
            }
        }
        if laid_out(&new).is_some() && (model::stray(&new).is_some() || r.one_in(4)) {
            return new;
        }
    }
    with_stray(t)
}

/// The questions about members that no struct names. They have random numbers of their own too.
pub fn stray_blocks(seed: u64, plan: &Plan, mut each: impl FnMut(Block)) {
    let mut r = Random(seed.rotate_left(8));
    let room = bytes(&mut r, 9);
    // of the first entry, of the last, and of one more than there are
    let asked = |r: &mut Random, t: &Table, one_of: u64| {
        let types = t.entries.len() as u32;
        let of_file = some_of(r, one_of, every_sort(&room));
        let of_entries = [0, types - 1, types].map(|e| some_of(r, one_of, every_sort_of(e, &room)));
        [vec![Question::Check], of_file, of_entries.concat()].concat()
    };
    for (i, t) in stray_edges().into_iter().enumerate() {
        // of the first two everything
        let one_of = if i < 2 { 1 } else { plan.stray_edges };
        each(Block { file: t.write(&[]), questions: asked(&mut r, &t, one_of) });
        if r.one_in(plan.stray_edges.min(4)) {
            let t = named(&mut r, &t);
            let file = t.write_as(2, &[]);
            let moved = [1, 2].map(|to| moves(&mut r, &file, &t, to, plan.outputs)).concat();
            let moved = some_of(&mut r, plan.stray_edges, moved);
            each(Block { file, questions: [asked(&mut r, &t, plan.stray_edges), moved].concat() });
        }
    }
    for t in stray_limits().into_iter().take(plan.large.max(1)) {
        each(Block { file: t.write(&[]), questions: asked(&mut r, &t, 1) });
    }
    for t in all_naming(plan.stray_small) {
        let past = t.entries.len() as u32;
        let questions = vec![Question::Check, Question::Layout(0), Question::Size(past - 1), Question::Align(past)];
        each(Block { file: t.write(&[]), questions });
    }
    let (n, kinds) = (plan.stray_asked, [0, 1, 2, 3, 3, 4, 4, 5, 13, 14, 15]);
    let few = n.div_ceil(4);
    let any = |r: &mut Random, t: &Table| {
        let asked = [some(r, t, n), some_fields(r, t, few), some_cleans(r, t, few), some_orders(r, t, few)].concat();
        [asked, some_sites(r, t, few, plan.site_bytes.min(FEW_BYTES))].concat()
    };
    for i in 0..plan.strays {
        let (base, types) = (table(&[scalar(r.of(&kinds))]), 3 + r.below(7) as usize);
        let t = random_over(&mut r, base, types, if i % 8 == 7 { 60 } else { 12 }, &kinds);
        let (t, form) = (with_strays(&mut r, &t), r.of(&[1, 1, 2]));
        let new = named(&mut r, &t).write_as(form, &[]);
        let moved = moves(&mut r, &new, &t, 3 - form, plan.outputs);
        let moved = some_of(&mut r, 4, moved);
        each(Block { file: new, questions: [any(&mut r, &t), moved].concat() });
        if i % 4 == 3 {
            let d = damaged_table(&mut r, &t);
            each(Block { file: file(&mut r, &d), questions: some(&mut r, &d, n.min(4)) });
            let b = file(&mut r, &t);
            each(Block { file: damaged_file(&mut r, &b), questions: some(&mut r, &t, n.min(3)) });
        }
    }
    for _ in 0..plan.large {
        let t = random(&mut r, 256, 1024);
        let t = with_strays(&mut r, &t);
        each(Block { file: file(&mut r, &t), questions: any(&mut r, &t) });
    }
}

/// Numbers that are no scalar's kind: the kinds of other types, the next one, and two that end in the byte or the 16 bits of one.
const NO_SCALARS: [u32; 9] = [7, 8, 9, 10, 11, 12, 16, 256 + 5, 65_536 + 6];

const ABSTRACT_INT: u32 = 5;
const ABSTRACT_FLOAT: u32 = 6;
const SIGN: u64 = 1 << 63;

/// What abstract ints and abstract floats may be converted to, and an i64, which they may not.
const CONCRETE: [u32; 6] = [1, 2, 3, 4, 6, 13];

/// 2^power as an abstract float.
fn two_to(power: i32) -> f64 {
    f64::from_bits(((1023 + power) as u64) << 52)
}

/// The abstract float after, or before, one that is above 0.
fn after(x: f64) -> f64 {
    f64::from_bits(x.to_bits() + 1)
}

fn before(x: f64) -> f64 {
    f64::from_bits(x.to_bits() - 1)
}

/// Abstract floats at the edges of a float type that has so many bits of mantissa and whose greatest power of two and least one of a normal
/// number are these: the largest number, half a place above it and a little less, the next power; the least number, half of it and a little
/// more and less, one and a half of it; the least normal number and half a place below it; half a place above 1, one and a half, a little
/// more than the first, by two bits, and a little less than the second; below 0 what rounds to zero, and on each side of what is infinite.
fn float_edges(mantissa: i32, greatest: i32, least: i32) -> Vec<f64> {
    let over = two_to(greatest) * 2.0 - two_to(greatest - mantissa - 1);
    let (last, half) = (two_to(least - mantissa), two_to(least - mantissa - 1));
    let (place, tie) = (two_to(-mantissa), two_to(-mantissa - 1));
    vec![
        over - two_to(greatest - mantissa - 1),
        over,
        before(over),
        two_to(greatest + 1),
        last,
        half,
        after(half),
        before(half),
        half + last,
        two_to(least),
        two_to(least) - half,
        1.0 + tie,
        1.0 + place + tie,
        1.0 + tie + two_to(-40),
        after(1.0 + tie),
        before(1.0 + place + tie),
        -half,
        -half / 2.0,
        -over,
        -before(over),
    ]
}

/// Literals at each edge of what they are converted to: from, to and the patterns.
fn literal_edges() -> Vec<(u32, u32, Vec<u64>)> {
    let ints = |to: u32, list: &[i64]| (ABSTRACT_INT, to, list.iter().map(|n| *n as u64).collect());
    let floats = |to: u32, list: Vec<f64>| (ABSTRACT_FLOAT, to, list.iter().map(|x| x.to_bits()).collect());
    let (low, high) = (i64::MIN, i64::MAX);
    let near = |n: i64| [n - 1, n, n + 1];
    vec![
        ints(1, &[1 << 31, (1 << 31) - 1, -1 << 31, (-1 << 31) - 1, -1, low, high]),
        ints(2, &[1 << 32, (1 << 32) - 1, 0, -1, -1 << 31, 1 - (1 << 32), low, high]),
        ints(3, &[(1 << 24) + 1, (1 << 24) + 3, -1, low, high]),
        ints(3, &near((1 << 40) + (1 << 16))),
        ints(4, &[0, 2049, 2051, -2049, 65_504, 65_519, 65_520, -65_519, -65_520, 1 << 32, low, high]),
        ints(6, &[(1 << 53) + 1, (1 << 53) + 3, 0, -1, -(1 << 53) - 1, low, high]),
        ints(6, &near(high - 511)),
        floats(3, float_edges(23, 127, -126)),
        floats(4, float_edges(10, 15, -14)),
        floats(4, vec![65_519.0, f64::MAX, -0.0, -two_to(-1022), f64::INFINITY]),
        floats(3, vec![16_777_217.0, f64::MAX, -0.0, -two_to(-1022), f64::INFINITY]),
        (ABSTRACT_FLOAT, 3, vec![1, 0x7ff8 << 48, (0x7ff0 << 48) + 1, 0xfff0 << 48, 0xffff << 48]),
        (ABSTRACT_FLOAT, 4, vec![SIGN + 1, 0x7ff8 << 48, (0x7ff0 << 48) + 1, 0xfff0 << 48, 0xffff << 48]),
    ]
}

/// The literal of the other sign.
fn negated(from: u32, pattern: u64) -> u64 {
    if from == ABSTRACT_INT { pattern.wrapping_neg() } else { pattern ^ SIGN }
}

/// Every pair of kinds, with so many patterns; with one alone, of what is no scalar's kind some pairs.
fn literal_pairs(r: &mut Random, patterns: usize) -> Vec<Question> {
    let scalars: Vec<u32> = SHORT.iter().chain(&LONG).map(|kind| *kind as u32).collect();
    let kinds = [scalars.as_slice(), &NO_SCALARS, &[u32::MAX]].concat();
    let mut qs: Vec<Question> = scalars[..7].iter().map(|kind| Question::Convert(*kind, u64::MAX, *kind)).collect();
    for from in &kinds {
        for to in &kinds {
            let is_plain = |kind: &u32| scalars.contains(kind);
            let is_near = from == to || [*from, *to].contains(&ABSTRACT_INT) || (is_plain(from) && is_plain(to));
            if patterns == 1 && (!is_near || *from == u32::MAX) {
                continue;
            }
            let list = [1, 0, two_to(0).to_bits(), u64::MAX, SIGN, 0x7ff8 << 48, r.next()];
            qs.extend(list.into_iter().take(patterns).map(|pattern| Question::Convert(*from, pattern, *to)));
        }
    }
    qs
}

/// An abstract int of any length; often one that is half way between two numbers of a float type, or next to that, or to an edge.
fn any_int(r: &mut Random) -> u64 {
    let length = 1 + r.below(64);
    let mut n = r.next() >> (64 - length);
    let kept = r.of(&[11, 24, 53]);
    if length > kept && r.one_in(2) {
        let cut = length - kept;
        n = ((n >> cut) << cut) | 1 << (cut - 1);
        n = n.wrapping_add(r.of(&[0, 1, u64::MAX]));
    }
    if r.one_in(6) {
        n = r.of(&[1 << 31, 1 << 32, 65_520, 2048, 1 << 24, 1 << 53, SIGN]);
        n = n.wrapping_add(r.below(7)).wrapping_sub(3);
    }
    if r.one_in(2) { n.wrapping_neg() } else { n }
}

/// An abstract float with an exponent that a float type has, mostly near an edge of it; often one that is half way between two of its
/// numbers, or above or below that by the last bit or any other.
fn any_float(r: &mut Random) -> u64 {
    let (mantissa, greatest, least) = r.of(&[(23, 127, -126), (10, 15, -14)]);
    let mut below = |start: i32, n: u64| start + r.below(n) as i32;
    let ends = [below(greatest - 1, 4), below(least - mantissa - 3, 6), below(least - 2, 4)];
    let any = [below(least - mantissa - 3, (greatest - least + mantissa + 6) as u64), below(-1022, 2046)];
    let power = if r.one_in(4) { r.of(&any) } else { r.of(&ends) };
    // bits that the type does not have at this power, where it has some
    let cut = (52 - mantissa + (least - power).max(0)).min(53) as u32;
    let tie = 1u64 << (cut - 1);
    let bit = 1u64 << r.below(cut as u64 - 1);
    let all = (((1023 + power) as u64) << 52) + (r.next() >> 12);
    let near = (all >> cut).wrapping_shl(cut);
    let any = r.below(2 * tie);
    let low = r.of(&[any, 0, tie, tie, tie + 1, tie - 1, tie + bit, tie - bit]);
    let pattern = if cut == 53 { ((all >> 52) << 52) + r.of(&[0, 0, 1, bit, any % tie]) } else { near + low };
    if r.one_in(2) { pattern | SIGN } else { pattern }
}

/// A literal to convert: mostly an abstract one, and to what it may be converted to.
fn any_literal(r: &mut Random) -> Question {
    let (int, float, any) = (any_int(r), any_float(r), r.next());
    match r.below(16) {
        0..=5 => Question::Convert(ABSTRACT_INT, int, r.of(&CONCRETE)),
        6..=12 => Question::Convert(ABSTRACT_FLOAT, float, r.of(&[3, 4, 4])),
        13 => Question::Convert(ABSTRACT_FLOAT, any, r.of(&[3, 4])),
        // infinities and NaNs
        14 => {
            let payload = r.of(&[0, 1, 1 << 51, 1 << 42, 1 << 41, 1 << 29, 1 << 28, any >> 12]);
            Question::Convert(ABSTRACT_FLOAT, 0x7ff << 52 | any & SIGN | payload, r.of(&[3, 4, 6]))
        }
        _ => {
            let mut kind = || r.of(&[0, 1, 2, 3, 4, 5, 6, 13, 14, 15, 16]);
            let (from, to) = (kind(), kind());
            Question::Convert(from, any, if r.one_in(2) { from } else { to })
        }
    }
}

/// The questions about literals, on a file that is none; and one on a file that is refused otherwise, and on a good one. They have random
/// numbers of their own too.
pub fn literal_blocks(seed: u64, plan: &Plan, mut each: impl FnMut(Block)) {
    let mut r = Random(!seed.rotate_left(8));
    let none = vec![0];
    each(Block { file: none.clone(), questions: literal_pairs(&mut r, plan.literal_patterns) });
    for (from, to, patterns) in literal_edges() {
        let mut questions = Vec::new();
        for pattern in patterns {
            questions.push(Question::Convert(from, pattern, to));
            let other = negated(from, pattern);
            let mut others = vec![Question::Convert(from, other, to)];
            for kind in CONCRETE.into_iter().filter(|kind| *kind != to) {
                others.extend([pattern, other].map(|pattern| Question::Convert(from, pattern, kind)));
            }
            others.retain(|_| r.one_in(plan.literal_edges));
            questions.extend(others);
        }
        each(Block { file: none.clone(), questions });
    }
    let mut left = plan.literals;
    while left > 0 {
        let n = left.min(1000);
        each(Block { file: none.clone(), questions: (0..n).map(|_| any_literal(&mut r)).collect() });
        left -= n;
    }
    // a member that no struct names, and none
    for t in [naming(1, &[]), naming(0, &[])] {
        each(Block { file: t.write(&[]), questions: vec![Question::Convert(ABSTRACT_INT, 7, 3)] });
    }
}
