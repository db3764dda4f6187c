//! Questions, their lines and those of their answers (oracle/README.md, version 13).

pub const HEAD: &str = "questions 13";
pub const ANSWERS_HEAD: &str = "answers 13";

#[derive(Clone)]
pub enum Question {
    Check,
    Size(u32),
    Align(u32),
    MinSize(u32),
    Layout(u32),
    Uniform(u32),
    Rank(u32, u32),
    Common(Vec<u32>),
    /// an entry, the words, and what the buffer holds before
    Write(u32, Vec<u32>, Vec<u8>),
    /// an entry, what the words hold before, and the buffer
    Read(u32, Vec<u32>, Vec<u8>),
    /// an entry, the steps, and the buffer
    View(u32, Vec<u32>, Vec<u8>),
    /// an entry, the words, the steps, and what the buffer holds before
    Set(u32, Vec<u32>, Vec<u32>, Vec<u8>),
    /// an entry, and what the buffer holds before
    Clean(u32, Vec<u8>),
    /// an entry, and what the list holds before
    PlanOrder(u32, Vec<u32>),
    /// an entry, and the order
    CheckOrder(u32, Vec<u32>),
    /// an entry, the field, the steps, and the buffer
    Extract(u32, Field, Vec<u32>, Vec<u8>),
    /// an entry, the new value, the field, the steps, and what the buffer holds before
    Insert(u32, u32, Field, Vec<u32>, Vec<u8>),
    /// a word and the field
    ExtractU32(u32, Field),
    /// a word, the new value and the field
    InsertU32(u32, u32, Field),
    /// a literal's kind and pattern, and the kind to convert it to
    Convert(u32, u64, u32),
    /// the form to move to, and what the output holds before
    Move(u16, Vec<u8>),
    /// an entry, and the mask before
    SiteInheriting(u32, u64),
    /// an entry, the mask, and the two buffers, of all of which the mask and the site's may change
    SiteFresh(u32, u64, Sheets),
    /// an entry, a member, and the mask before
    SiteClear(u32, u32, u64),
    /// an entry, a member, the mask, and the two buffers
    SiteMember(u32, u32, u64, Sheets),
    /// an entry, a member, the mask, the words, the steps, and the two buffers, of all of which the mask and the site's may change
    SiteSet(u32, u32, u64, Vec<u32>, Vec<u32>, Sheets),
}

/// A bit field as it is asked for.
#[derive(Clone, Copy)]
pub struct Field {
    pub offset: u32,
    pub count: u32,
}

impl Field {
    fn line(self) -> String {
        format!("{} {}", self.offset, self.count)
    }
}

/// The factory buffer and the site buffer of a block.
#[derive(Clone)]
pub struct Sheets {
    pub factory: Vec<u8>,
    pub site: Vec<u8>,
}

/// A file and what is asked of it.
#[derive(Clone)]
pub struct Block {
    pub file: Vec<u8>,
    pub questions: Vec<Question>,
}

/// What a call answers: a number, or a refusal with its place.
pub type Answer = Result<u64, (u32, u64)>;

fn listed(start: String, numbers: &[u32]) -> String {
    start + &numbers.iter().map(|n| format!(" {n}")).collect::<String>()
}

/// The low and the high 32 bits of a mask or a pattern.
fn halves(long: u64) -> String {
    format!("{} {}", long as u32, long >> 32)
}

fn hex(bytes: &[u8]) -> String {
    bytes.iter().map(|b| format!("{b:02x}")).collect()
}

impl Question {
    pub fn line(&self) -> String {
        match self {
            Question::Check => "check".into(),
            Question::Size(e) => format!("size {e}"),
            Question::Align(e) => format!("align {e}"),
            Question::MinSize(e) => format!("min_size {e}"),
            Question::Layout(e) => format!("layout {e}"),
            Question::Uniform(e) => format!("uniform {e}"),
            Question::Rank(a, b) => format!("rank {a} {b}"),
            Question::Common(list) => listed("common".into(), list),
            Question::Write(e, words, _) => listed(format!("write {e}"), words),
            Question::Read(e, words, _) => listed(format!("read {e}"), words),
            Question::View(e, path, _) => listed(format!("view {e}"), path),
            Question::Set(e, words, path, _) => listed(listed(format!("set {e} {}", words.len()), words), path),
            Question::Clean(e, _) => format!("clean {e}"),
            Question::PlanOrder(e, list) => listed(format!("plan_order {e}"), list),
            Question::CheckOrder(e, order) => listed(format!("check_order {e}"), order),
            Question::Extract(e, field, path, _) => listed(format!("extract {e} {}", field.line()), path),
            Question::Insert(e, new, field, path, _) => listed(format!("insert {e} {new} {}", field.line()), path),
            Question::ExtractU32(word, field) => format!("extract_u32 {word} {}", field.line()),
            Question::InsertU32(word, new, field) => format!("insert_u32 {word} {new} {}", field.line()),
            Question::Convert(from, pattern, to) => format!("convert {from} {} {to}", halves(*pattern)),
            Question::Move(form, _) => format!("to_form_{form}"),
            Question::SiteInheriting(e, mask) => format!("site_inheriting {e} {}", halves(*mask)),
            Question::SiteFresh(e, mask, _) => format!("site_fresh {e} {}", halves(*mask)),
            Question::SiteClear(e, k, mask) => format!("site_clear {e} {k} {}", halves(*mask)),
            Question::SiteMember(e, k, mask, _) => format!("site_member {e} {k} {}", halves(*mask)),
            Question::SiteSet(e, k, mask, words, path, _) => {
                listed(listed(format!("site_set {e} {k} {} {}", halves(*mask), words.len()), words), path)
            }
        }
    }

    /// The question of a line, about this buffer, and about this factory buffer beside it, if it is about them.
    pub fn parse(line: &str, buffer: &[u8], factory: &[u8]) -> Question {
        let mut parts = line.split(' ');
        let word = parts.next().unwrap_or("");
        let n: Vec<u32> = parts.map(|p| p.parse().expect("a number")).collect();
        let field = |offset: &u32, count: &u32| Field { offset: *offset, count: *count };
        let long = |low: &u32, high: &u32| (*high as u64) << 32 | *low as u64;
        let sheets = || Sheets { factory: factory.to_vec(), site: buffer.to_vec() };
        match (word, n.as_slice()) {
            ("check", []) => Question::Check,
            ("size", [e]) => Question::Size(*e),
            ("align", [e]) => Question::Align(*e),
            ("min_size", [e]) => Question::MinSize(*e),
            ("layout", [e]) => Question::Layout(*e),
            ("uniform", [e]) => Question::Uniform(*e),
            ("rank", [a, b]) => Question::Rank(*a, *b),
            ("common", list) => Question::Common(list.to_vec()),
            ("write", [e, words @ ..]) => Question::Write(*e, words.to_vec(), buffer.to_vec()),
            ("read", [e, words @ ..]) => Question::Read(*e, words.to_vec(), buffer.to_vec()),
            ("view", [e, path @ ..]) => Question::View(*e, path.to_vec(), buffer.to_vec()),
            ("set", [e, count, rest @ ..]) if *count as usize <= rest.len() => {
                let (words, path) = rest.split_at(*count as usize);
                Question::Set(*e, words.to_vec(), path.to_vec(), buffer.to_vec())
            }
            ("clean", [e]) => Question::Clean(*e, buffer.to_vec()),
            ("plan_order", [e, list @ ..]) => Question::PlanOrder(*e, list.to_vec()),
            ("check_order", [e, order @ ..]) => Question::CheckOrder(*e, order.to_vec()),
            ("extract", [e, o, c, path @ ..]) => Question::Extract(*e, field(o, c), path.to_vec(), buffer.to_vec()),
            ("insert", [e, new, o, c, path @ ..]) => {
                Question::Insert(*e, *new, field(o, c), path.to_vec(), buffer.to_vec())
            }
            ("extract_u32", [word, o, c]) => Question::ExtractU32(*word, field(o, c)),
            ("insert_u32", [word, new, o, c]) => Question::InsertU32(*word, *new, field(o, c)),
            ("convert", [from, l, h, to]) => Question::Convert(*from, long(l, h), *to),
            ("to_form_1", []) => Question::Move(1, buffer.to_vec()),
            ("to_form_2", []) => Question::Move(2, buffer.to_vec()),
            ("site_inheriting", [e, l, h]) => Question::SiteInheriting(*e, long(l, h)),
            ("site_fresh", [e, l, h]) => Question::SiteFresh(*e, long(l, h), sheets()),
            ("site_clear", [e, k, l, h]) => Question::SiteClear(*e, *k, long(l, h)),
            ("site_member", [e, k, l, h]) => Question::SiteMember(*e, *k, long(l, h), sheets()),
            ("site_set", [e, k, l, h, count, rest @ ..]) if *count as usize <= rest.len() => {
                let (words, path) = rest.split_at(*count as usize);
                Question::SiteSet(*e, *k, long(l, h), words.to_vec(), path.to_vec(), sheets())
            }
            _ => panic!("not a question: {line}"),
        }
    }

    /// The entries that the question names.
    pub fn entries(&self) -> Vec<u32> {
        match self {
            Question::Check | Question::Move(..) | Question::Convert(..) => vec![],
            Question::ExtractU32(..) | Question::InsertU32(..) => vec![],
            Question::Size(e) | Question::Align(e) | Question::MinSize(e) => vec![*e],
            Question::Layout(e) | Question::Uniform(e) => vec![*e],
            Question::Write(e, _, _) | Question::Read(e, _, _) => vec![*e],
            Question::View(e, _, _) | Question::Set(e, _, _, _) | Question::Clean(e, _) => vec![*e],
            Question::PlanOrder(e, _) | Question::CheckOrder(e, _) => vec![*e],
            Question::Extract(e, _, _, _) | Question::Insert(e, _, _, _, _) => vec![*e],
            Question::SiteInheriting(e, _) | Question::SiteFresh(e, _, _) | Question::SiteClear(e, _, _) => vec![*e],
            Question::SiteMember(e, _, _, _) | Question::SiteSet(e, _, _, _, _, _) => vec![*e],
            Question::Rank(a, b) => vec![*a, *b],
            Question::Common(list) => list.clone(),
        }
    }

    /// The buffer that the question is about; of two the site's.
    pub fn buffer(&self) -> Option<&[u8]> {
        match self {
            Question::Write(_, _, buffer) | Question::Read(_, _, buffer) => Some(buffer),
            Question::View(_, _, buffer) | Question::Set(_, _, _, buffer) => Some(buffer),
            Question::Extract(_, _, _, buffer) | Question::Insert(_, _, _, _, buffer) => Some(buffer),
            Question::Clean(_, buffer) | Question::Move(_, buffer) => Some(buffer),
            _ => self.sheets().map(|sheets| sheets.site.as_slice()),
        }
    }

    /// The factory buffer that the question is about.
    pub fn factory(&self) -> Option<&[u8]> {
        self.sheets().map(|sheets| sheets.factory.as_slice())
    }

    /// The two buffers of a block that the question is about.
    fn sheets(&self) -> Option<&Sheets> {
        match self {
            Question::SiteFresh(_, _, sheets) | Question::SiteMember(_, _, _, sheets) => Some(sheets),
            Question::SiteSet(_, _, _, _, _, sheets) => Some(sheets),
            _ => None,
        }
    }
}

pub fn file_line(file: &[u8]) -> String {
    format!("file {}", hex(file))
}

pub fn buffer_line(buffer: &[u8]) -> String {
    format!("buffer {}", hex(buffer)).trim_end().into()
}

pub fn factory_line(factory: &[u8]) -> String {
    format!("factory {}", hex(factory)).trim_end().into()
}

pub fn parse_bytes(hex: &str) -> Vec<u8> {
    let digits: String = hex.split_whitespace().collect();
    (0..digits.len() / 2).map(|i| u8::from_str_radix(&digits[2 * i..2 * i + 2], 16).expect("a byte")).collect()
}

impl Block {
    pub fn lines(&self) -> String {
        let mut text = file_line(&self.file) + "\n";
        let (mut held, mut beside) = (None, None);
        for q in &self.questions {
            if q.factory().is_some() && q.factory() != beside {
                beside = q.factory();
                text += &(factory_line(beside.unwrap()) + "\n");
            }
            if q.buffer().is_some() && q.buffer() != held {
                held = q.buffer();
                text += &(buffer_line(held.unwrap()) + "\n");
            }
            text += &(q.line() + "\n");
        }
        text
    }
}

/// The blocks of a text of questions.
pub fn parse(text: &str) -> Vec<Block> {
    let mut lines = text.lines();
    assert_eq!(lines.next(), Some(HEAD));
    let mut blocks: Vec<Block> = Vec::new();
    let (mut held, mut beside) = (Vec::new(), Vec::new());
    for line in lines {
        if let Some(hex) = line.strip_prefix("file") {
            blocks.push(Block { file: parse_bytes(hex), questions: vec![] });
        } else if let Some(hex) = line.strip_prefix("buffer") {
            held = parse_bytes(hex);
        } else if let Some(hex) = line.strip_prefix("factory") {
            beside = parse_bytes(hex);
        } else {
            blocks.last_mut().expect("a file first").questions.push(Question::parse(line, &held, &beside));
        }
    }
    blocks
}

/// What is said of a number that is asked for alone.
pub fn told(answer: Answer) -> String {
    match answer {
        Ok(n) => n.to_string(),
        Err((number, place)) => format!("refused {number} at {place}"),
    }
}

/// What is said of a write, of a set, of an insertion or of a move: its answer, and what the buffer holds after it.
pub fn with_buffer(answer: Answer, buffer: &[u8]) -> String {
    format!("{} {}", told(answer), hex(buffer)).trim_end().into()
}

/// What is said of cleaning so many bytes: how many of the buffer's differ after it and the first of them, all that were cleaned if none
/// does, or its refusal; and what the buffer holds after it.
pub fn with_gaps(extent: Answer, before: &[u8], after: &[u8]) -> String {
    let changed: Vec<usize> = (0..before.len()).filter(|k| before[*k] != after[*k]).collect();
    let first = extent.map(|extent| changed.first().map_or(extent, |k| *k as u64));
    let count = if first.is_ok() { format!("{} ", changed.len()) } else { String::new() };
    count + &with_buffer(first, after)
}

/// What is said of a read or of a plan: its answer, and what the words or the list hold after it.
pub fn with_words(answer: Answer, words: &[u32]) -> String {
    listed(told(answer), words)
}

/// What is said of a view: its offset, and of its bytes how many there are and what they hold; or its refusal.
pub fn with_part(viewed: Result<(u64, Vec<u8>), (u32, u64)>) -> String {
    match viewed {
        Ok((offset, part)) => format!("{offset} {} {}", part.len(), hex(&part)),
        Err(refusal) => told(Err(refusal)),
    }
}

/// What is said of an inheriting block and of clearing: its answer, and the mask after it.
pub fn with_mask(answer: Answer, mask: u64) -> String {
    format!("{} {mask}", told(answer))
}

/// What is said of a fresh block and of a set on site: its answer, the mask after it, and what the site buffer holds then.
pub fn with_site(answer: Answer, mask: u64, site: &[u8]) -> String {
    format!("{} {}", with_mask(answer, mask), hex(site)).trim_end().into()
}

/// A member that was asked for: its offset, its bytes, and whether they are the site's.
pub struct Shown {
    pub offset: u64,
    pub part: Vec<u8>,
    pub on_site: bool,
}

/// What is said of a member that is asked for: its offset, how many bytes it has, which buffer they are of and what they hold; or its
/// refusal.
pub fn with_shown(asked: Result<Shown, (u32, u64)>) -> String {
    match asked {
        Ok(Shown { offset, part, on_site }) => {
            let of = if on_site { "site" } else { "factory" };
            format!("{offset} {} {of} {}", part.len(), hex(&part)).trim_end().into()
        }
        Err(refusal) => told(Err(refusal)),
    }
}
