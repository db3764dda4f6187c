//! A table as the Rust's types, each struct entry with a name of its own, and what the Rust answers about them.
use std::cell::Cell;
use std::cmp::Reverse;
use std::panic::{AssertUnwindSafe, catch_unwind};

use half::f16;
use wgsl_types::Error;
use wgsl_types::conv::{Convert, conversion_rank, convert_all_ty};
use wgsl_types::inst::{
    ArrayInstance, AtomicInstance, Instance, LiteralInstance, MatInstance, MemView, StructInstance, VecInstance,
};
use wgsl_types::ty::{StructMemberType, StructType, Ty, Type};

use crate::file::{Entry, Table};
use crate::model::{Good, Refusal, is_scalar};
use crate::question::{self, Answer, Question, with_buffer, with_gaps, with_part, with_words};
use crate::rows::VAST;

/// The Rust's types are trees without sharing: a type of more nodes is not built.
pub const MOST: u64 = 4096;

pub const NOTHING: &str = "nothing to ask";
pub const PANICS: &str = "panics";

thread_local! {
    /// Whether the Rust is being asked: its panics are answers, and say nothing.
    static ASKING: Cell<bool> = const { Cell::new(false) };
}

/// Keeps the Rust's panics quiet.
pub fn quiet() {
    let loud = std::panic::take_hook();
    std::panic::set_hook(Box::new(move |info| {
        if !ASKING.get() {
            loud(info)
        }
    }));
}

/// The nodes of each entry's tree.
pub fn nodes(t: &Table) -> Vec<u64> {
    let mut counts: Vec<u64> = Vec::new();
    for e in &t.entries {
        let of = |r: u16| counts.get(r as usize).copied().unwrap_or(0);
        let below: u64 = match e.kind {
            12 => t.members_of(e).unwrap_or(&[]).iter().fold(0, |n: u64, m| n.saturating_add(of(m.ty))),
            7..=11 => of(e.reference),
            _ => 0,
        };
        counts.push(below.saturating_add(1));
    }
    counts
}

/// The types of a table; none where the Rust has no type that says what the entry says.
pub fn build(t: &Table) -> Vec<Option<Type>> {
    let nodes = nodes(t);
    let mut types: Vec<Option<Type>> = Vec::new();
    for (k, e) in t.entries.iter().enumerate() {
        let ty = if nodes[k] > MOST { None } else { entry(t, &types, k, e) };
        types.push(ty);
    }
    types
}

fn entry(t: &Table, types: &[Option<Type>], k: usize, e: &Entry) -> Option<Type> {
    let inner = || Some(Box::new(types.get(e.reference as usize)?.clone()?));
    let (sides, refers, counts) = ((e.columns, e.rows), e.reference, e.count);
    if e.zero3 != 0 || e.zero6 != 0 {
        return None;
    }
    match (e.kind, sides, refers, counts) {
        (0, (0, 0), 0, 0) => Some(Type::Bool),
        (1, (0, 0), 0, 0) => Some(Type::I32),
        (2, (0, 0), 0, 0) => Some(Type::U32),
        (3, (0, 0), 0, 0) => Some(Type::F32),
        (4, (0, 0), 0, 0) => Some(Type::F16),
        (5, (0, 0), 0, 0) => Some(Type::AbstractInt),
        (6, (0, 0), 0, 0) => Some(Type::AbstractFloat),
        (13, (0, 0), 0, 0) => Some(Type::I64),
        (14, (0, 0), 0, 0) => Some(Type::U64),
        (15, (0, 0), 0, 0) => Some(Type::F64),
        (7, (0, rows), _, 0) => Some(Type::Vec(rows, inner()?)),
        (8, (columns, rows), _, 0) => Some(Type::Mat(columns, rows, inner()?)),
        (9, (0, 0), _, n) => Some(Type::Array(inner()?, Some(n as usize))),
        (10, (0, 0), _, 0) => Some(Type::Array(inner()?, None)),
        (11, (0, 0), _, 0) => Some(Type::Atomic(inner()?)),
        (12, (0, 0), _, _) => structure(t, types, k, e),
        _ => None,
    }
}

fn structure(t: &Table, types: &[Option<Type>], k: usize, e: &Entry) -> Option<Type> {
    let mut members = Vec::new();
    for (i, m) in t.members_of(e)?.iter().enumerate() {
        let (sized, aligned) = (m.flags & 1 != 0, m.flags & 2 != 0);
        if m.flags > 3 || (!sized && m.size != 0) || (!aligned && m.align != 0) {
            return None;
        }
        members.push(StructMemberType {
            name: format!("m{i}"),
            ty: types.get(m.ty as usize)?.clone()?,
            size: sized.then_some(m.size),
            align: aligned.then_some(m.align),
        });
    }
    Some(StructType { name: format!("S{k}"), members }.into())
}

fn told(n: Option<u32>, refusal: u32) -> String {
    n.map_or(format!("refused {refusal} at 0"), |n| n.to_string())
}

fn marked(n: Option<u32>) -> String {
    n.map_or("-".into(), |n| n.to_string())
}

/// The Rust tells no stride of a type: it is what an array of two takes more than an array of one. Of a runtime array its element's.
fn stride(ty: &Type) -> Option<u32> {
    let element = match ty {
        Type::Array(element, None) => element,
        ty => ty,
    };
    let array = |n| Type::Array(Box::new(element.clone()), Some(n)).size_of();
    Some(array(2)?.wrapping_sub(array(1)?))
}

fn common(types: &[Option<Type>], list: &[u32]) -> Option<Option<u32>> {
    let tys: Vec<&Type> = list.iter().map(|e| types.get(*e as usize)?.as_ref()).collect::<Option<_>>()?;
    let found = convert_all_ty(tys.iter().copied());
    let number = |f: &Type| list[tys.iter().position(|t| std::ptr::eq(*t, f)).expect("one of the list")];
    Some(found.map(number))
}

/// The element of the runtime array that a type is or ends in.
fn tail(ty: &Type) -> Option<&Type> {
    match ty {
        Type::Array(element, None) => Some(element),
        Type::Struct(s) => match &s.members.last()?.ty {
            Type::Array(element, None) => Some(element),
            _ => None,
        },
        _ => None,
    }
}

/// The words of a type's scalars, two of each of 64 bits, those of a runtime array not counted.
fn count(ty: &Type) -> u64 {
    match ty {
        Type::Vec(n, scalar) => *n as u64 * count(scalar),
        Type::Mat(c, r, scalar) => *c as u64 * *r as u64 * count(scalar),
        Type::Array(_, None) => 0,
        Type::Array(element, Some(n)) => count(element).saturating_mul(*n as u64),
        Type::Struct(s) => s.members.iter().fold(0, |n, m| n.saturating_add(count(&m.ty))),
        Type::I64 | Type::U64 | Type::F64 => 2,
        _ => 1,
    }
}

/// How many elements a type has that has so many words; none where no number of elements gives so many.
fn elements(ty: &Type, words: u64) -> Option<u64> {
    match tail(ty) {
        None => (words == count(ty)).then_some(0),
        Some(element) => {
            let more = words.checked_sub(count(ty))?;
            (more % count(element) == 0).then_some(more / count(element))
        }
    }
}

/// The value of a type that has these words, with `n` elements if it is open; none where an f16 can't have a word's bits.
pub fn value(ty: &Type, n: u64, words: &mut impl Iterator<Item = u32>) -> Option<Instance> {
    Some(match ty {
        Type::Vec(rows, scalar) => VecInstance::new(values(scalar, *rows as u64, n, words)?).into(),
        Type::Mat(columns, rows, scalar) => {
            let column = Type::Vec(*rows, scalar.clone());
            MatInstance::from_cols(values(&column, *columns as u64, n, words)?).into()
        }
        Type::Array(element, Some(count)) => {
            ArrayInstance::new(values(element, *count as u64, n, words)?, false).into()
        }
        Type::Array(element, None) => ArrayInstance::new(values(element, n, n, words)?, true).into(),
        Type::Atomic(scalar) => AtomicInstance::new(value(scalar, n, words)?).into(),
        Type::Struct(s) => {
            let members = s.members.iter().map(|m| value(&m.ty, n, words)).collect::<Option<Vec<Instance>>>()?;
            StructInstance::new((**s).clone(), members).into()
        }
        scalar => literal(scalar, &words.take(count(scalar) as usize).collect::<Vec<_>>())?.into(),
    })
}

/// `count` values of a type.
fn values(ty: &Type, count: u64, n: u64, words: &mut impl Iterator<Item = u32>) -> Option<Vec<Instance>> {
    (0..count).map(|_| value(ty, n, words)).collect()
}

/// The scalar that has these words, of 64 bits the low one first; none where it takes another number of them, or an f16 can't have the
/// word's bits.
fn literal(scalar: &Type, words: &[u32]) -> Option<LiteralInstance> {
    Some(match (scalar, words) {
        (Type::Bool, [word]) => LiteralInstance::Bool(*word != 0),
        (Type::AbstractInt, [word]) => LiteralInstance::AbstractInt(*word as i64),
        (Type::AbstractFloat, [word]) => LiteralInstance::AbstractFloat(*word as f64),
        (Type::I32, [word]) => LiteralInstance::I32(*word as i32),
        (Type::U32, [word]) => LiteralInstance::U32(*word),
        (Type::F32, [word]) => LiteralInstance::F32(f32::from_bits(*word)),
        (Type::F16, [word]) => LiteralInstance::F16(f16::from_bits((*word).try_into().ok()?)),
        (Type::I64, [low, high]) => LiteralInstance::I64(long(*low, *high) as i64),
        (Type::U64, [low, high]) => LiteralInstance::U64(long(*low, *high)),
        (Type::F64, [low, high]) => LiteralInstance::F64(f64::from_bits(long(*low, *high))),
        _ => return None,
    })
}

fn long(low: u32, high: u32) -> u64 {
    (high as u64) << 32 | low as u64
}

/// The words of a value.
pub fn words_of(value: &Instance, words: &mut Vec<u32>) {
    let both = |n: u64| [n as u32, (n >> 32) as u32];
    match value {
        Instance::Literal(LiteralInstance::I32(n)) => words.push(*n as u32),
        Instance::Literal(LiteralInstance::U32(n)) => words.push(*n),
        Instance::Literal(LiteralInstance::F32(n)) => words.push(n.to_bits()),
        Instance::Literal(LiteralInstance::F16(n)) => words.push(n.to_bits() as u32),
        Instance::Literal(LiteralInstance::I64(n)) => words.extend(both(*n as u64)),
        Instance::Literal(LiteralInstance::U64(n)) => words.extend(both(*n)),
        Instance::Literal(LiteralInstance::F64(n)) => words.extend(both(n.to_bits())),
        Instance::Vec(v) => v.iter().for_each(|c| words_of(c, words)),
        Instance::Mat(m) => m.iter_cols().for_each(|c| words_of(c, words)),
        Instance::Array(a) => a.iter().for_each(|c| words_of(c, words)),
        Instance::Atomic(a) => words_of(a.inner(), words),
        Instance::Struct(s) => s.members.iter().for_each(|m| words_of(m, words)),
        _ => unreachable!("no buffer gives such a value"),
    }
}

fn holds_bool(ty: &Type) -> bool {
    match ty {
        Type::Bool => true,
        Type::Vec(_, inner) | Type::Array(inner, _) => holds_bool(inner),
        Type::Struct(s) => s.members.iter().any(|m| holds_bool(&m.ty)),
        _ => false,
    }
}

/// What the Rust's `None` means, if the buffer was long enough: the type has no layout by the Rust's own numbers, or holds a bool.
fn unshared(ty: &Type) -> Option<u32> {
    let laid = ty.align_of().is_some() && (ty.size_of().is_some() || tail(ty).is_some());
    if !laid { Some(9) } else { holds_bool(ty).then_some(10) }
}

/// Puts the Rust's bytes to the front of a buffer, where they fit: how many.
pub fn put_front(bytes: &[u8], buffer: &mut [u8]) -> Answer {
    let front = buffer.get_mut(..bytes.len()).ok_or((15, 0))?;
    front.copy_from_slice(bytes);
    Ok(bytes.len() as u64)
}

/// The Rust's bytes of a value go to the front of the buffer.
fn write(ty: &Type, n: u64, words: &[u32], buffer: &[u8]) -> Option<String> {
    let mut buffer = buffer.to_vec();
    let answer: Answer = match value(ty, n, &mut words.iter().copied())?.to_buffer() {
        None => Err((unshared(ty).unwrap_or(0), 0)),
        Some(bytes) => put_front(&bytes, &mut buffer),
    };
    Some(with_buffer(answer, &buffer))
}

/// The words of the Rust's value go to the front of the words.
fn read(ty: &Type, words: &[u32], buffer: &[u8]) -> String {
    let (mut words, mut found) = (words.to_vec(), Vec::new());
    let answer: Answer = match Instance::from_buffer(buffer, ty) {
        None => Err((unshared(ty).unwrap_or(15), 0)),
        Some(value) => {
            words_of(&value, &mut found);
            if found.len() > words.len() { Err((14, 0)) } else { Ok(found.len() as u64) }
        }
    };
    if answer.is_ok() {
        words[..found.len()].copy_from_slice(&found);
    }
    with_words(answer, &words)
}

/// A path as the Rust has it: members by their names.
pub fn mem_view(path: &[u32]) -> MemView {
    path.iter().rev().fold(MemView::Whole, |rest, step| {
        let number = step & 0x7fff_ffff;
        if step >> 31 == 1 {
            MemView::Member(format!("m{number}"), Box::new(rest))
        } else {
            MemView::Index(number as usize, Box::new(rest))
        }
    })
}

/// 01's number for an error of the Rust's.
fn number(error: Error) -> u32 {
    match error {
        Error::Component(..) => 11,
        Error::OutOfBounds(..) => 12,
        Error::NotIndexable(..) => 13,
        Error::WriteRefType(..) => 14,
        _ => unreachable!("no view and no write gives such an error"),
    }
}

/// The part of a value that a path leads to; else the Rust's error, and the end of the shortest path that gives one.
fn part<'a>(value: &'a Instance, path: &[u32]) -> Result<&'a Instance, (u32, u64)> {
    value.view(&mem_view(path)).map_err(|error| {
        let ends: Vec<usize> = (0..path.len()).collect();
        let bad = ends.partition_point(|k| value.view(&mem_view(&path[..=*k])).is_ok());
        (number(error), bad as u64)
    })
}

/// Bytes of which no two neighbours stand together a second time.
fn unlike(length: usize) -> Vec<u8> {
    (0..=255).flat_map(|a| std::iter::once(a).chain((a + 1..=255).flat_map(move |b| [a, b]))).take(length).collect()
}

/// Where in a buffer the Rust reads the first scalar of what a path leads to: read from bytes of which no two neighbours stand together a
/// second time, it tells.
fn offset(ty: &Type, path: &[u32], length: usize) -> u64 {
    let bytes = unlike(length);
    let value = Instance::from_buffer(&bytes, ty).expect("bytes of the same length");
    let mut words = Vec::new();
    words_of(value.view(&mem_view(path)).expect("the same path"), &mut words);
    let first = (words[0] as u16).to_le_bytes();
    bytes.windows(2).position(|pair| pair == first).expect("a scalar in the buffer") as u64
}

/// The Rust reads the buffer, takes the part of the value that the path leads to, and writes that part.
fn view(ty: &Type, path: &[u32], buffer: &[u8]) -> String {
    let viewed = || {
        let value = Instance::from_buffer(buffer, ty).ok_or((unshared(ty).unwrap_or(15), 0))?;
        let bytes = part(&value, path)?.to_buffer().expect("what was read can be written");
        Ok((offset(ty, path, buffer.len()), bytes))
    };
    with_part(viewed())
}

/// What the Rust is given to set a part of this type to words: a literal of the scalar that it is, or that its atomic refers to, else any.
/// None where there is no such scalar.
fn literal_for(ty: &Type, words: &[u32]) -> Option<LiteralInstance> {
    match ty {
        Type::Atomic(scalar) => literal(scalar, words),
        Type::Vec(..) | Type::Mat(..) | Type::Array(..) | Type::Struct(_) => Some(LiteralInstance::U32(7)),
        scalar => literal(scalar, words),
    }
}

/// The Rust sets what a path leads to in a value; none where there is no such value.
pub fn set_part(value: &mut Instance, path: &MemView, words: &[u32]) -> Option<Result<(), Error>> {
    let set = |part: &mut Instance| Some(part.write(literal_for(&part.ty(), words)?.into()).map(|_| ()));
    match value.view_mut(path) {
        Ok(part) => set(part),
        Err(error) => Some(Err(error)),
    }
}

/// The Rust reads the buffer, sets what the path leads to in the value, and its bytes of the whole value go to the front of the buffer.
fn set(ty: &Type, path: &[u32], words: &[u32], buffer: &[u8]) -> Option<String> {
    let mut after = buffer.to_vec();
    let answer: Answer = match Instance::from_buffer(buffer, ty) {
        None => Err((unshared(ty).unwrap_or(15), 0)),
        Some(mut value) => match set_part(&mut value, &mem_view(path), words)? {
            Err(error) => Err(part(&value, path).err().unwrap_or((number(error), 0))),
            Ok(()) => {
                let bytes = value.to_buffer().expect("what was read can be written");
                put_front(&bytes, &mut after).map(|_| offset(ty, path, buffer.len()))
            }
        },
    };
    Some(with_buffer(answer, &after))
}

/// The Rust reads the buffer, and its bytes of the value go to the front of the buffer: it has no other way to clean.
fn clean(ty: &Type, buffer: &[u8]) -> String {
    let mut after = buffer.to_vec();
    let extent = match Instance::from_buffer(buffer, ty) {
        None => Err((unshared(ty).unwrap_or(15), 0)),
        Some(value) => put_front(&value.to_buffer().expect("what was read can be written"), &mut after),
    };
    with_gaps(extent, buffer, &after)
}

fn is_runtime(m: &StructMemberType) -> bool {
    matches!(m.ty, Type::Array(_, None))
}

/// The Rust has no planner, but alignments to sort by.
fn plan(ty: &Type, list: &[u32]) -> String {
    let planned = || {
        let Type::Struct(s) = ty else { return None };
        let align = |m: &StructMemberType| m.align.or_else(|| m.ty.align_of());
        let aligns = s.members.iter().map(align).collect::<Option<Vec<u32>>>()?;
        let mut order: Vec<usize> = (0..aligns.len()).collect();
        order.sort_by_key(|k| (is_runtime(&s.members[*k]), Reverse(aligns[*k])));
        Some(order)
    };
    let mut after = list.to_vec();
    let answer: Answer = match planned() {
        None => Err((9, 0)),
        Some(order) if order.len() > list.len() => Err((14, 0)),
        Some(order) => {
            after.iter_mut().zip(&order).for_each(|(place, k)| *place = *k as u32);
            Ok(order.len() as u64)
        }
    };
    with_words(answer, &after)
}

/// Where a struct ends for the Rust: its size. Of an open one it tells none, but takes one that the array is given: the array starts as many
/// bytes before the struct's size with an array of none as the array may have without a larger one.
fn end(s: StructType) -> Option<u32> {
    let is_open = s.members.last().is_some_and(is_runtime);
    let mut ty = Type::from(s);
    if !is_open {
        return ty.size_of();
    }
    let mut sized = |n: u32| {
        if let Type::Struct(s) = &mut ty {
            s.members.last_mut().expect("a member").size = Some(n);
        }
        ty.size_of()
    };
    let none = sized(0)?;
    // less than the alignment, and so below 2^31: its bits, the highest first
    let room = (0..31).rev().fold(0, |room: u32, bit| {
        let more = room | 1 << bit;
        if sized(more) == Some(none) { more } else { room }
    });
    Some(none.wrapping_sub(room))
}

/// The Rust has no checker, but the ends of a struct as it is and of one with its members in that order. What is no order of them makes
/// none, and one whose array is not the last has no end.
fn check_order(ty: &Type, order: &[u32]) -> Answer {
    let Type::Struct(s) = ty else { return Err((9, 0)) };
    let now = end((**s).clone()).ok_or((9, 0))?;
    let is_once = (0..s.members.len() as u32).all(|k| order.iter().filter(|p| **p == k).count() == 1);
    if order.len() != s.members.len() || !is_once {
        return Err((23, 0));
    }
    let members = order.iter().map(|k| s.members[*k as usize].clone()).collect();
    let new = end(StructType { name: s.name.clone(), members });
    new.filter(|new| *new < now).map(u64::from).ok_or((23, 0))
}

/// The type of a scalar's kind.
fn scalar(kind: u32) -> Option<Type> {
    let kind = u8::try_from(kind).ok().filter(|kind| is_scalar(*kind))?;
    entry(&Table::default(), &[], 0, &Entry { kind, ..Entry::default() })
}

/// The literal of a scalar whose pattern is the lowest bits of this one.
fn literal_of(scalar: &Type, pattern: u64) -> LiteralInstance {
    match scalar {
        Type::Bool => LiteralInstance::Bool(pattern & 1 == 1),
        Type::I32 => LiteralInstance::I32(pattern as i32),
        Type::U32 => LiteralInstance::U32(pattern as u32),
        Type::F32 => LiteralInstance::F32(f32::from_bits(pattern as u32)),
        Type::F16 => LiteralInstance::F16(f16::from_bits(pattern as u16)),
        Type::AbstractInt => LiteralInstance::AbstractInt(pattern as i64),
        Type::AbstractFloat => LiteralInstance::AbstractFloat(f64::from_bits(pattern)),
        Type::I64 => LiteralInstance::I64(pattern as i64),
        Type::U64 => LiteralInstance::U64(pattern),
        Type::F64 => LiteralInstance::F64(f64::from_bits(pattern)),
        _ => unreachable!("a scalar"),
    }
}

/// The pattern of a literal.
fn pattern_of(literal: LiteralInstance) -> u64 {
    match literal {
        LiteralInstance::Bool(b) => b as u64,
        LiteralInstance::I32(n) => n as u32 as u64,
        LiteralInstance::U32(n) => n as u64,
        LiteralInstance::F32(n) => n.to_bits() as u64,
        LiteralInstance::F16(n) => n.to_bits() as u64,
        LiteralInstance::AbstractInt(n) | LiteralInstance::I64(n) => n as u64,
        LiteralInstance::AbstractFloat(n) | LiteralInstance::F64(n) => n.to_bits(),
        LiteralInstance::U64(n) => n,
    }
}

/// The Rust converts a literal. None where a kind is no scalar's, and of an abstract int to an f16: there the Rust calls `f16::from_i64`,
/// which half 1.6.0 lacks and oracle/num-traits only stands in for.
fn convert(from: u32, pattern: u64, to: u32) -> Option<String> {
    let (from, to) = (scalar(from)?, scalar(to)?);
    if (&from, &to) == (&Type::AbstractInt, &Type::F16) {
        return None;
    }
    let converted = literal_of(&from, pattern).convert_to(&to);
    Some(question::told(converted.map(pattern_of).ok_or((25, 0))))
}

/// What the Rust says of a question; `NOTHING` where it has no type, or no value, to be asked about. Buffers are asked about on tables
/// whose entries 01 accepts.
pub fn answer(types: &[Option<Type>], laid: &Result<Good, Refusal>, q: &Question) -> String {
    let of = |e: &u32| types.get(*e as usize)?.as_ref();
    let ask = || match q {
        Question::Check => {
            let built = !types.is_empty() && types.iter().all(Option::is_some);
            built.then(|| types.len().to_string())
        }
        Question::Size(e) => of(e).map(|t| told(t.size_of(), 9)),
        Question::Align(e) => of(e).map(|t| told(t.align_of(), 9)),
        Question::MinSize(e) => of(e).map(|t| told(t.min_size_of(), 9)),
        Question::Layout(e) => {
            of(e).map(|t| [t.size_of(), t.align_of(), t.min_size_of(), stride(t)].map(marked).join(" "))
        }
        Question::Rank(a, b) => of(a).zip(of(b)).map(|(a, b)| told(conversion_rank(a, b), 18)),
        Question::Common(list) => common(types, list).map(|n| told(n, 18)),
        Question::Write(e, words, buffer) => {
            let (good, ty) = laid.as_ref().ok().zip(of(e))?;
            let n = elements(ty, words.len() as u64)?;
            if good.extent(*e as usize, n) > VAST { None } else { write(ty, n, words, buffer) }
        }
        Question::Read(e, words, buffer) => {
            let (_, ty) = laid.as_ref().ok().zip(of(e))?;
            Some(read(ty, words, buffer))
        }
        Question::View(e, path, buffer) => {
            let (_, ty) = laid.as_ref().ok().zip(of(e))?;
            Some(view(ty, path, buffer))
        }
        Question::Set(e, words, path, buffer) => {
            let (_, ty) = laid.as_ref().ok().zip(of(e))?;
            set(ty, path, words, buffer)
        }
        Question::Clean(e, buffer) => {
            let (_, ty) = laid.as_ref().ok().zip(of(e))?;
            Some(clean(ty, buffer))
        }
        Question::PlanOrder(e, list) => {
            let (_, ty) = laid.as_ref().ok().zip(of(e))?;
            Some(plan(ty, list))
        }
        Question::CheckOrder(e, order) => {
            let (_, ty) = laid.as_ref().ok().zip(of(e))?;
            Some(question::told(check_order(ty, order)))
        }
        Question::Convert(from, pattern, to) => convert(*from, *pattern, *to),
        // The six files have no such function.
        Question::Uniform(_) | Question::Move(..) => None,
        Question::Extract(..) | Question::Insert(..) | Question::ExtractU32(..) | Question::InsertU32(..) => None,
        Question::SiteInheriting(..) | Question::SiteFresh(..) | Question::SiteClear(..) => None,
        Question::SiteMember(..) | Question::SiteSet(..) => None,
    };
    ASKING.set(true);
    let said = catch_unwind(AssertUnwindSafe(ask));
    ASKING.set(false);
    match said {
        Ok(said) => said.unwrap_or(NOTHING.into()),
        Err(_) => PANICS.into(),
    }
}
