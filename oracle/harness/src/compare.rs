//! Asking both sides, judging what they say, and the recorded list.
use std::collections::BTreeMap;
use std::fs;

use crate::file::Table;
use crate::generate::{self, Plan};
use crate::model::{self, Due};
use crate::question::{self, ANSWERS_HEAD, Block, HEAD, Question};
use crate::rows::{self, Example, Row};
use crate::types;

/// What the answering program reads at most.
const ROOM: usize = 1_048_576;

const PLAN: Plan = Plan {
    small: 3,
    edges: 1,
    long: 7,
    nested: 3000,
    random: 60_000,
    limits: 120,
    large: 120,
    damaged: 40_000,
    rounds: 40,
    fields: 121,
    packed: 2000,
    uniforms: 20_000,
    bool_edges: 1,
    bools: 6000,
    long_small: 3,
    long_edges: 1,
    long_counts: 1,
    longs: 12_000,
    forms: 20_000,
    outputs: 4088,
    site_edges: 1,
    sites: 8000,
    site_asked: 12,
    site_bytes: 4096,
    site_fresh: 4,
    site_steps: 6,
    clean_edges: 1,
    clean_small: 3,
    cleans: 6000,
    clean_asked: 12,
    order_edges: 1,
    order_all: 5,
    order_small: 3,
    orders: 16_000,
    order_asked: 12,
    stray_edges: 1,
    stray_small: 3,
    strays: 8000,
    stray_asked: 8,
    literal_patterns: 7,
    literal_edges: 1,
    literals: 200_000,
};

const RECORDED: Plan = Plan {
    small: 2,
    edges: 4,
    long: 0,
    nested: 40,
    random: 60,
    limits: 20,
    large: 0,
    damaged: 90,
    rounds: 1,
    fields: 1,
    packed: 1,
    uniforms: 40,
    bool_edges: 16,
    bools: 3,
    long_small: 0,
    long_edges: 100,
    long_counts: 2,
    longs: 3,
    forms: 10,
    outputs: 150,
    site_edges: 30,
    sites: 6,
    site_asked: 3,
    site_bytes: 24,
    site_fresh: 2,
    site_steps: 3,
    clean_edges: 4,
    clean_small: 0,
    cleans: 4,
    clean_asked: 3,
    order_edges: 3,
    order_all: 3,
    order_small: 0,
    orders: 8,
    order_asked: 4,
    stray_edges: 30,
    stray_small: 1,
    strays: 6,
    stray_asked: 2,
    literal_patterns: 1,
    literal_edges: 120,
    literals: 0,
};

fn read(path: &str) -> String {
    fs::read_to_string(path).unwrap_or_else(|e| panic!("{path}: {e}"))
}

fn write(path: &str, text: &str) {
    fs::write(path, text).unwrap_or_else(|e| panic!("{path}: {e}"))
}

fn examples(document: &str) -> Vec<Example> {
    rows::examples(&read(document))
}

/// Writes the questions to FOLDER/NNNN.questions: first the document's examples, then the generated ones.
pub fn ask(seed: u64, document: &str, folder: &str) -> bool {
    let mut batch = 0;
    let mut text = format!("{HEAD}\n");
    let mut flush = |text: &mut String| {
        write(&format!("{folder}/{batch:04}.questions"), text);
        *text = format!("{HEAD}\n");
        batch += 1;
    };
    for e in examples(document) {
        text += &e.block.lines();
    }
    flush(&mut text);
    println!(
        "{:9} tables of at most {} entries over the menu, all that are accepted",
        generate::small(PLAN.small).len(),
        PLAN.small
    );
    let mut files = 0;
    let mut put = |block: Block| {
        files += 1;
        let lines = block.lines();
        if text.len() + lines.len() > ROOM {
            flush(&mut text);
        }
        text += &lines;
    };
    generate::blocks(seed, &PLAN, &mut put);
    generate::field_blocks(seed, &PLAN, &mut put);
    generate::uniform_blocks(seed, &PLAN, &mut put);
    generate::bool_blocks(seed, &PLAN, &mut put);
    generate::long_blocks(seed, &PLAN, &mut put);
    generate::form_blocks(seed, &PLAN, &mut put);
    generate::site_blocks(seed, &PLAN, &mut put);
    generate::clean_blocks(seed, &PLAN, &mut put);
    generate::order_blocks(seed, &PLAN, &mut put);
    generate::stray_blocks(seed, &PLAN, &mut put);
    generate::literal_blocks(seed, &PLAN, &mut put);
    flush(&mut text);
    println!("{files:9} files in all, seed {seed}");
    true
}

/// What the Rust answers.
pub fn answer(questions: &str) -> String {
    let mut text = format!("{ANSWERS_HEAD}\n");
    for block in question::parse(questions) {
        let types = Table::read(&block.file).map_or(vec![], |t| types::build(&t));
        let laid = model::lay_all(&block.file);
        for q in &block.questions {
            text += &types::answer(&types, &laid, q);
            text.push('\n');
        }
    }
    text
}

/// What 01 says of each question of a block, and under which row it falls. Of a table that is refused for a member that no struct names the
/// Rust says what it says of the table's types.
fn due(block: &Block) -> Vec<Due> {
    let (checked, laid) = (model::check(&block.file), model::lay_all(&block.file));
    let nodes = Table::read(&block.file).map_or(vec![], |t| types::nodes(&t));
    let one = |q: &Question| {
        let due = model::answer(&block.file, &checked, &nodes, q);
        if due.row != Some(Row::Stray) {
            return due;
        }
        let of_types = model::answer(&block.file, &laid, &nodes, q);
        let agreed = of_types.row.is_none().then_some(of_types.says);
        Due { rust: of_types.rust.or(agreed), ..due }
    };
    block.questions.iter().map(one).collect()
}

/// Holds the document to the rows and to what both sides said of its examples.
fn judge_document(document: &str, rust: &[&str], lepugaso: &[&str]) -> Vec<String> {
    let examples = examples(document);
    let mut wrong = Vec::new();
    for row in rows::ALL.iter().filter(|r| !examples.iter().any(|e| e.name == r.name())) {
        wrong.push(format!("document: row {} has no example", row.name()));
    }
    for (e, (r, l)) in examples.iter().zip(rust.iter().zip(lepugaso)) {
        let row = due(&e.block)[0].row.map_or("none", Row::name);
        if (row, *r, *l) != (e.name.as_str(), e.rust.as_str(), e.lepugaso.as_str()) {
            wrong.push(format!("document: the example of {} is of row {row}: Rust: {r}, Lepugaso: {l}", e.name));
        }
    }
    wrong
}

/// The line of a disagreement, where there is one that no row lists, or an agreement where a row says that there is none.
fn judged(due: &Due, rust: &str, lepugaso: &str) -> Option<String> {
    let fault = match due.row {
        None if rust != lepugaso => "no row",
        Some(_) if rust == lepugaso => "the sides agree",
        _ if lepugaso != due.says => "not as 01 says",
        Some(_) if due.rust.as_ref().is_some_and(|said| said != rust) => "not as the row says of the Rust",
        _ => return None,
    };
    let row = due.row.map_or("-", Row::name);
    Some(format!("{fault} (row {row}): Lepugaso: {lepugaso}; Rust: {rust}; 01: {}", due.says))
}

/// A question with what it is about, as a fault names it.
fn whole(block: &Block, q: &Question) -> String {
    let factory = q.factory().map_or(String::new(), |b| question::factory_line(b) + " ");
    let buffer = q.buffer().map_or(String::new(), |b| question::buffer_line(b) + " ");
    format!("{} {factory}{buffer}{}", question::file_line(&block.file), q.line())
}

fn answers(path: &str) -> String {
    let text = read(path);
    assert_eq!(text.lines().next(), Some(ANSWERS_HEAD), "{path}");
    text
}

/// Judges FOLDER/NNNN.rust and .lepugaso, the answers to NNNN.questions.
pub fn judge(document: &str, folder: &str) -> bool {
    let mut faults = Vec::new();
    let (mut asked, mut by_word, mut by_row) = (0, BTreeMap::new(), BTreeMap::new());
    for batch in 0.. {
        let path = |side: &str| format!("{folder}/{batch:04}.{side}");
        if fs::metadata(path("questions")).is_err() {
            break;
        }
        let (rust, lepugaso) = (answers(&path("rust")), answers(&path("lepugaso")));
        let rust: Vec<&str> = rust.lines().skip(1).collect();
        let lepugaso: Vec<&str> = lepugaso.lines().skip(1).collect();
        let blocks = question::parse(&read(&path("questions")));
        let count: usize = blocks.iter().map(|b| b.questions.len()).sum();
        if rust.len() != count || lepugaso.len() != count {
            faults.push(format!("{}: {count} questions, {} and {} answers", path("*"), rust.len(), lepugaso.len()));
            continue;
        }
        if batch == 0 {
            faults.extend(judge_document(document, &rust, &lepugaso));
        }
        let mut at = 0;
        for block in &blocks {
            for (q, due) in block.questions.iter().zip(due(block)) {
                if let Some(fault) = judged(&due, rust[at], lepugaso[at]) {
                    faults.push(format!("{}: {fault}", whole(block, q)));
                }
                if batch > 0 {
                    *by_row.entry(due.row.map_or("none", Row::name)).or_insert(0) += 1;
                    *by_word.entry(q.line().split(' ').next().unwrap().to_string()).or_insert(0) += 1;
                }
                at += 1;
            }
        }
        asked += count;
    }
    for row in rows::ALL.iter().filter(|r| !by_row.contains_key(r.name())) {
        faults.push(format!("row {} never occurs", row.name()));
    }
    for (word, n) in by_word {
        println!("{n:9} {word}");
    }
    for (row, n) in by_row {
        println!("{n:9} row {row}");
    }
    for fault in faults.iter().take(100) {
        println!("unlisted: {fault}");
    }
    println!("{asked} questions, {} unlisted", faults.len());
    faults.is_empty()
}

/// Blocks that have the same file, one after another, as one: its line is written once.
fn joined(blocks: Vec<Block>) -> Vec<Block> {
    let mut list: Vec<Block> = Vec::new();
    for b in blocks {
        match list.last_mut().filter(|last| last.file == b.file) {
            Some(last) => last.questions.extend(b.questions),
            None => list.push(b),
        }
    }
    list
}

/// Writes FOLDER/stdin and FOLDER/stdout: questions, and the Rust's answers to them; where a row says that the Rust's is another, what 01
/// says.
pub fn record(document: &str, folder: &str) -> bool {
    let mut blocks: Vec<Block> = examples(document).into_iter().map(|e| e.block).collect();
    generate::blocks(1, &RECORDED, |b| blocks.push(b));
    generate::field_blocks(1, &RECORDED, |b| blocks.push(b));
    generate::uniform_blocks(1, &RECORDED, |b| blocks.push(b));
    generate::bool_blocks(1, &RECORDED, |b| blocks.push(b));
    generate::long_blocks(1, &RECORDED, |b| blocks.push(b));
    generate::form_blocks(1, &RECORDED, |b| blocks.push(b));
    generate::site_blocks(1, &RECORDED, |b| blocks.push(b));
    generate::clean_blocks(1, &RECORDED, |b| blocks.push(b));
    generate::order_blocks(1, &RECORDED, |b| blocks.push(b));
    generate::stray_blocks(1, &RECORDED, |b| blocks.push(b));
    generate::literal_blocks(1, &RECORDED, |b| blocks.push(b));
    let blocks = joined(blocks);
    let questions = blocks.iter().fold(format!("{HEAD}\n"), |s, b| s + &b.lines());
    let rust = answer(&questions);
    let mut rust = rust.lines();
    let mut text = format!("{}\n", rust.next().unwrap());
    for due in blocks.iter().flat_map(due) {
        let said = rust.next().unwrap();
        text += due.row.map_or(said, |_| &due.says);
        text.push('\n');
    }
    assert!(questions.len() <= ROOM, "{} bytes of questions", questions.len());
    write(&format!("{folder}/stdin"), &questions);
    write(&format!("{folder}/stdout"), &text);
    true
}
