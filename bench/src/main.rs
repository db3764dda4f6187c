//! How long Lepugaso takes to write, to read, to view and to set, beside the Rust, and for plain words beside memcpy: in one process, on
//! the same inputs, after both sides have been seen to give the same results.
mod lepugaso;

use std::cell::RefCell;
use std::hint::black_box;
use std::process::Command;
use std::time::Instant;

use oracle::file::{Entry, Member, Table};
use oracle::model::{self, Good};
use oracle::types;
use wgsl_types::inst::Instance;
use wgsl_types::ty::Type;

/// How often each side is timed; the best counts.
const ROUNDS: usize = 40;
/// What is timed at once takes at least so long.
const SECONDS: f64 = 1e-3;

enum Goal {
    /// at most so many times memcpy's time
    Memcpy(f64),
    /// the Rust's time is at least so many times Lepugaso's
    Rust(f64),
}

struct Case {
    name: &'static str,
    table: Table,
    goal: Goal,
}

fn over(kind: u8, columns: u8, rows: u8, reference: u16, count: u32) -> Entry {
    Entry { kind, columns, rows, reference, count, ..Default::default() }
}

fn table(entries: &[Entry], members: &[u16]) -> Table {
    let member = |ty: &u16| Member { ty: *ty, ..Default::default() };
    Table { entries: entries.to_vec(), members: members.iter().map(member).collect() }
}

/// The type of a case is its table's last entry.
fn cases() -> Vec<Case> {
    let [i32, u32, f32, f16, i64] = [1, 2, 3, 4, 13].map(|kind| over(kind, 0, 0, 0, 0));
    vec![
        Case {
            name: "array<u32, 262144>",
            table: table(&[u32, over(9, 0, 0, 0, 262_144)], &[]),
            goal: Goal::Memcpy(1.2),
        },
        Case {
            name: "array<i64, 131072>",
            table: table(&[i64, over(9, 0, 0, 0, 131_072)], &[]),
            goal: Goal::Memcpy(1.2),
        },
        Case {
            name: "array<vec4<f32>, 65536>",
            table: table(&[f32, over(7, 0, 4, 0, 0), over(9, 0, 0, 1, 65_536)], &[]),
            goal: Goal::Memcpy(1.5),
        },
        Case {
            name: "array<{u32, vec3<f32>, f32}, 4096>",
            table: table(&[u32, f32, over(7, 0, 3, 1, 0), over(12, 0, 0, 0, 3), over(9, 0, 0, 3, 4096)], &[0, 2, 1]),
            goal: Goal::Rust(50.0),
        },
        Case {
            name: "array<mat3x3<f32>, 4096>",
            table: table(&[f32, over(8, 3, 3, 0, 0), over(9, 0, 0, 1, 4096)], &[]),
            goal: Goal::Rust(50.0),
        },
        // u32, vec3<f32>, f32, mat3x3<f32>, i32, vec2<f32>, f16, vec2<f16>, atomic<u32>, vec4<f32>: 25 words in 128 bytes
        Case {
            name: "a struct of 10 members",
            table: table(
                &[
                    i32,
                    u32,
                    f32,
                    f16,
                    over(7, 0, 3, 2, 0),
                    over(8, 3, 3, 2, 0),
                    over(7, 0, 2, 2, 0),
                    over(7, 0, 2, 3, 0),
                    over(11, 0, 0, 1, 0),
                    over(7, 0, 4, 2, 0),
                    over(12, 0, 0, 0, 10),
                ],
                &[1, 4, 2, 5, 0, 6, 3, 7, 8, 9],
            ),
            goal: Goal::Rust(5.0),
        },
    ]
}

/// What both sides are given, and what both must give.
struct Input {
    file: Vec<u8>,
    entry: u32,
    ty: Type,
    words: Vec<u32>,
    value: Instance,
    bytes: Vec<u8>,
}

/// Words that all differ, and that an f16 has where one lies.
fn words(good: &Good, e: usize) -> Vec<u32> {
    let different = (0u32..).map(|k| k.wrapping_mul(0x9e37_79b1) ^ 0x5bd1_e995);
    good.places(e, 0, 0).iter().zip(different).map(|(p, w)| if p.width == 2 { w % 65_536 } else { w }).collect()
}

fn input(table: &Table) -> Input {
    let file = table.write(&[]);
    let good = model::check(&file).ok().expect("a good file");
    let e = table.entries.len() - 1;
    let ty = types::build(table).pop().flatten().expect("a type of the Rust's");
    let words = words(&good, e);
    let value = types::value(&ty, 0, &mut words.iter().copied()).expect("a value of the Rust's");
    let bytes = value.to_buffer().expect("a value that can be shared");
    Input { file, entry: e as u32, ty, words, value, bytes }
}

/// Holds what Lepugaso writes to what the Rust writes, and what each reads from that to the words.
fn check(input: &Input) {
    let filled = |n: usize| lepugaso::Answer { refusal: 0, place: 0, value: n as u64 };
    let mut buf = vec![0xa5; input.bytes.len() + 16];
    assert_eq!(lepugaso::write(&input.file, input.entry, &input.words, &mut buf), filled(input.bytes.len()));
    assert!(buf[..input.bytes.len()] == input.bytes && buf[input.bytes.len()..] == [0xa5; 16]);
    let mut words = vec![7; input.words.len() + 2];
    assert_eq!(lepugaso::read(&input.file, input.entry, &buf, &mut words), filled(input.words.len()));
    assert!(words[..input.words.len()] == input.words && words[input.words.len()..] == [7; 2]);
    let mut words = Vec::new();
    types::words_of(&Instance::from_buffer(&buf, &input.ty).expect("a value"), &mut words);
    assert!(words == input.words);
}

/// The best time of each of some programs, in seconds; they take turns.
fn best(programs: &mut [&mut dyn FnMut()]) -> Vec<f64> {
    let time = |program: &mut dyn FnMut(), times: u32| {
        let start = Instant::now();
        (0..times).for_each(|_| program());
        start.elapsed().as_secs_f64() / times as f64
    };
    let mut found: Vec<(f64, u32)> = Vec::new();
    for program in programs.iter_mut() {
        let once = time(program, 1).min(time(program, 1));
        found.push((once, (SECONDS / once).ceil().max(1.0) as u32));
    }
    for _ in 0..ROUNDS {
        for (program, (best, times)) in programs.iter_mut().zip(&mut found) {
            *best = best.min(time(program, *times));
        }
    }
    found.into_iter().map(|(best, _)| best).collect()
}

/// memcpy between what Lepugaso is lent.
fn copy<T, U>(from: &[T], to: &mut [U]) {
    let bytes = std::mem::size_of_val(from).min(std::mem::size_of_val(to));
    // SAFETY: so many bytes are in both, and `to` is lent alone. Any bytes are numbers.
    unsafe { std::ptr::copy_nonoverlapping(from.as_ptr().cast::<u8>(), to.as_mut_ptr().cast::<u8>(), bytes) }
}

/// Lepugaso's, the Rust's and memcpy's times: of writing, then of reading.
fn times(input: &Input) -> [Vec<f64>; 2] {
    let (file, entry) = (&input.file, input.entry);
    let buf = RefCell::new(input.bytes.clone());
    let words = RefCell::new(input.words.clone());
    let written = best(&mut [
        &mut || {
            drop(black_box(lepugaso::write(black_box(file), entry, black_box(&input.words), &mut buf.borrow_mut())))
        },
        &mut || drop(black_box(black_box(&input.value).to_buffer())),
        &mut || copy(black_box(&input.words), black_box(&mut buf.borrow_mut())),
    ]);
    let read = best(&mut [
        &mut || {
            drop(black_box(lepugaso::read(black_box(file), entry, black_box(&input.bytes), &mut words.borrow_mut())))
        },
        &mut || drop(black_box(Instance::from_buffer(black_box(&input.bytes), &input.ty))),
        &mut || copy(black_box(&input.bytes), black_box(&mut words.borrow_mut())),
    ]);
    [written, read]
}

/// A path of nine steps: three times a member that is an array, one of its two elements; then a matrix, its column, its scalar.
const PATH: [u32; 9] = [MEMBER | 1, 1, MEMBER | 1, 1, MEMBER | 1, 1, MEMBER | 1, 2, 1];
const MEMBER: u32 = 1 << 31;

/// {u32, array<{u32, array<{u32, array<{u32, mat3x3<f32>}, 2>}, 2>}, 2>}: 87 words in 624 bytes.
fn nested() -> Table {
    let (u32, f32, two, pair) = (over(2, 0, 0, 0, 0), over(3, 0, 0, 0, 0), over(9, 0, 0, 0, 2), over(12, 0, 0, 0, 2));
    let (array, of) = (|of| Entry { reference: of, ..two }, |first| Entry { reference: first, ..pair });
    table(
        &[u32, f32, over(8, 3, 3, 1, 0), of(0), array(3), of(2), array(5), of(4), array(7), of(6)],
        &[0, 2, 0, 4, 0, 6, 0, 8],
    )
}

/// Holds what Lepugaso views and sets at the path to what the Rust does. The bytes are the Rust's, so their gaps are 0 on both sides.
fn check_path(input: &Input, word: u32) -> u64 {
    let path = types::mem_view(&PATH);
    let (answer, part) = lepugaso::view(&input.file, input.entry, &PATH, &input.bytes);
    let offset = answer.value;
    assert_eq!(answer, lepugaso::Answer { refusal: 0, place: 0, value: offset });
    assert!(std::ptr::eq(part, &input.bytes[offset as usize..][..4]));
    assert_eq!(input.value.view(&path).expect("a part").to_buffer().expect("its bytes"), part);
    let mut buf = input.bytes.clone();
    assert_eq!(lepugaso::set(&input.file, input.entry, &PATH, word, &mut buf), answer);
    let mut value = input.value.clone();
    types::set_part(&mut value, &path, &[word]).expect("a value").expect("a scalar");
    assert!(value.to_buffer().expect("its bytes") == buf && buf != input.bytes);
    offset
}

/// Lepugaso's and the Rust's times, and the Rust's from bytes and to bytes: of viewing, then of setting.
fn path_times(input: &Input, word: u32) -> [Vec<f64>; 2] {
    let (file, entry, path) = (&input.file, input.entry, types::mem_view(&PATH));
    let buf = RefCell::new(input.bytes.clone());
    let value = RefCell::new(input.value.clone());
    let read = || Instance::from_buffer(black_box(&input.bytes), &input.ty).expect("a value");
    let viewed = best(&mut [
        &mut || drop(black_box(lepugaso::view(black_box(file), entry, black_box(&PATH), &input.bytes))),
        &mut || assert!(black_box(&input.value).view(black_box(&path)).is_ok()),
        &mut || assert!(read().view(black_box(&path)).is_ok()),
    ]);
    let set = best(&mut [
        &mut || drop(black_box(lepugaso::set(black_box(file), entry, black_box(&PATH), word, &mut buf.borrow_mut()))),
        &mut || drop(black_box(types::set_part(&mut value.borrow_mut(), black_box(&path), &[word]))),
        &mut || {
            let mut value = read();
            drop(black_box(types::set_part(&mut value, black_box(&path), &[word])));
            drop(black_box(value.to_buffer()))
        },
    ]);
    [viewed, set]
}

fn shown(seconds: f64) -> String {
    match seconds {
        s if s < 1e-6 => format!("{:.0} ns", s * 1e9),
        s if s < 1e-3 => format!("{:.2} us", s * 1e6),
        s => format!("{:.2} ms", s * 1e3),
    }
}

fn line(case: &Case, way: &str, times: &[f64]) {
    let (ours, rust, copied) = (times[0], times[1], times[2]);
    let (beside, goal) = match case.goal {
        Goal::Memcpy(most) => {
            let met = if ours <= most * copied { "met" } else { "NOT MET" };
            (format!("{:>10} {:6.2}", shown(copied), ours / copied), format!("{most} of memcpy: {met}"))
        }
        Goal::Rust(least) => {
            let met = if ours * least <= rust { "met" } else { "NOT MET" };
            (format!("{:>10} {:>6}", "", ""), format!("{least} times: {met}"))
        }
    };
    println!("{:35} {way:5} {:>10} {:>10} {:6.1} {beside}  {goal}", case.name, shown(ours), shown(rust), rust / ours);
}

/// What the Rust does to view and to set in a value that is there, and in bytes as Lepugaso does.
fn path_lines(way: &str, times: &[f64]) {
    let from_bytes =
        if way == "view" { "the Rust reads the bytes first" } else { "the Rust reads the bytes and writes them" };
    for (rust, what) in [(times[1], "the Rust has the value already"), (times[2], from_bytes)] {
        let (ours, times) = (times[0], rust / times[0]);
        println!(
            "{:35} {way:5} {:>10} {:>10} {times:6.1} {:>17}  {what}",
            "a path of 9 steps",
            shown(ours),
            shown(rust),
            ""
        );
    }
}

fn said_by(command: &str, arguments: &[&str]) -> String {
    let output = Command::new(command).args(arguments).output();
    output.map_or("?".into(), |o| String::from_utf8_lossy(&o.stdout).trim().to_string())
}

/// This machine: its processor, as the system names it.
fn machine() -> String {
    let info = std::fs::read_to_string("/proc/cpuinfo").unwrap_or_default();
    let model = info.lines().find_map(|l| l.strip_prefix("model name")).map(|l| l.trim_matches([' ', '\t', ':']));
    let processors = info.lines().filter(|l| l.starts_with("processor")).count();
    format!("{}, {}, {processors} processors", said_by("uname", &["-m"]), model.unwrap_or("a processor without a name"))
}

fn main() {
    println!("on {}; {}", machine(), said_by("rustc", &["--version"]));
    if cfg!(feature = "emulated") {
        println!(
            "Lepugaso's archive is for x86-64, and here it is emulated: nothing is timed, results are only compared"
        );
    } else {
        println!(
            "best of {ROUNDS}; both sides built for release; Lepugaso checks the file and works out its table in each call"
        );
        println!(
            "{:35} {:5} {:>10} {:>10} {:>6} {:>10} {:>6}  {}",
            "", "", "Lepugaso", "Rust", "times", "memcpy", "of it", "goal"
        );
    }
    for case in cases() {
        let input = input(&case.table);
        check(&input);
        if cfg!(feature = "emulated") {
            println!("{}: {} words in {} bytes, the same", case.name, input.words.len(), input.bytes.len());
            continue;
        }
        let [written, read] = times(&input);
        line(&case, "write", &written);
        line(&case, "read", &read);
    }
    let (input, word) = (input(&nested()), 7);
    let offset = check_path(&input, word);
    if cfg!(feature = "emulated") {
        println!("a path of {} steps: at offset {offset} of {} bytes, the same", PATH.len(), input.bytes.len());
        return;
    }
    let [viewed, set] = path_times(&input, word);
    path_lines("view", &viewed);
    path_lines("set", &set);
}
