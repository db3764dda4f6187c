//! The texts that say what a call takes and answers, held to each other: the exports of crates/surface, the shim's declarations of them,
//! the shim's own calls, and the header. No compiler sees two of them at once.

const RATTLE: &str = include_str!("../../crates/surface/src/lib.rt");
const SURFACE: &str = include_str!("../src/surface.rs");
const SHIM: &str = include_str!("../src/lib.rs");
const HEADER: &str = include_str!("../include/lepugaso.h");

/// A parameter or a field: its name and its type, in Rust's words.
type Named = (String, String);

/// A function's name, its parameters, and what it answers.
type Signature = (String, Vec<Named>, String);

/// What stands in `text` between two marks.
fn between<'a>(text: &'a str, before: &str, after: &str) -> &'a str {
    let rest = text
        .split_once(before)
        .unwrap_or_else(|| panic!("no {:?} in {:?}", before, text))
        .1;
    rest.split_once(after)
        .unwrap_or_else(|| panic!("no {:?} after {:?}", after, before))
        .0
}

/// The parts of a list, each without the space around it.
fn parts(list: &str, separator: char) -> impl Iterator<Item = &str> {
    list.split(separator).map(str::trim).filter(|part| !part.is_empty())
}

/// `name: Type`, as Rattle and Rust have it.
fn named(declaration: &str) -> Named {
    let (name, ty) = declaration.trim_start_matches("pub ").split_once(": ").unwrap();
    (name.to_string(), ty.to_string())
}

/// `const uint8_t *name`, as C has it.
fn named_in_c(declaration: &str) -> Named {
    let (ty, name) = declaration.rsplit_once(' ').unwrap();
    let stars = name.chars().take_while(|c| *c == '*').count();
    let (pointer, ty) = match (stars, ty.strip_prefix("const ")) {
        (1, Some(ty)) => ("*const ", ty),
        (1, None) => ("*mut ", ty),
        (2, Some(ty)) => ("*mut *const ", ty),
        _ => ("", ty),
    };
    let ty = format!("{}{}", pointer, type_in_rust(ty));
    (name.trim_start_matches('*').to_string(), ty)
}

/// A type of C that is no pointer, in Rust's words.
fn type_in_rust(ty: &str) -> &str {
    match ty {
        "uint8_t" => "u8",
        "uint32_t" => "u32",
        "int32_t" => "i32",
        "uint64_t" => "u64",
        "size_t" => "usize",
        "lepugaso_layout" => "Layout",
        "lepugaso_answer" => "Crossing",
        other => panic!("a type of C that nothing here knows: {}", other),
    }
}

/// A parameter of Rattle as it crosses: a slice as a pointer and a count, an array or a number lent as a pointer, a number as it is.
fn crossing((name, ty): Named) -> Vec<Named> {
    let (pointer, lent) = match (ty.strip_prefix("&mut "), ty.strip_prefix('&')) {
        (Some(lent), _) => ("*mut", lent),
        (None, Some(lent)) => ("*const", lent),
        (None, None) => return vec![(name, ty)],
    };
    match lent.strip_prefix('[').and_then(|list| list.strip_suffix(']')) {
        Some(element) if !element.contains(';') => vec![
            (name.clone(), format!("{} {}", pointer, element)),
            (name + "_len", "usize".to_string()),
        ],
        _ => vec![(name, format!("{} {}", pointer, lent))],
    }
}

/// The functions of a text of Rattle or Rust that begin with `start`.
fn functions(text: &str, start: &str) -> Vec<Signature> {
    let found = text.split(start).skip(1).map(|function| {
        let name = function.split_once('(').unwrap().0;
        let parameters = parts(between(function, "(", ")"), ',').map(named);
        let answer = between(function, "-> ", "\n")
            .trim_end_matches(|c| c == ';' || c == '{')
            .trim_end();
        (name.to_string(), parameters.collect(), answer.to_string())
    });
    found.collect()
}

/// The functions of the header: where a line begins with a type, a space and a name of the library's before its first bracket.
fn functions_in_c(text: &str) -> Vec<Signature> {
    let lines = text.match_indices('\n').map(|(at, _)| &text[at + 1..]);
    let found = lines.filter_map(|from| {
        let (answer, name) = from.split_once('(')?.0.split_once(' ')?;
        if !name.starts_with("lepugaso_") || name.contains(char::is_whitespace) {
            return None;
        }
        let parameters = parts(between(from, "(", ")"), ',').map(named_in_c);
        Some((name.to_string(), parameters.collect(), type_in_rust(answer).to_string()))
    });
    found.collect()
}

fn fields(text: &str, structure: &str) -> Vec<Named> {
    parts(between(text, &format!("struct {} {{", structure), "}"), ',')
        .map(named)
        .collect()
}

fn fields_in_c(text: &str, structure: &str) -> Vec<Named> {
    parts(between(text, &format!("struct {} {{", structure), "}"), ';')
        .map(named_in_c)
        .collect()
}

#[test]
fn exports_are_declared_as_they_are() {
    let exports = functions(RATTLE, "extern \"C\" fn ").into_iter();
    let crossed =
        exports.map(|(name, parameters, answer)| (name, parameters.into_iter().flat_map(crossing).collect(), answer));
    assert_eq!(crossed.collect::<Vec<Signature>>(), functions(SURFACE, "pub fn "));
    assert_eq!(fields(RATTLE, "Crossing"), fields(SURFACE, "Crossing"));
}

#[test]
fn calls_are_in_the_header_as_they_are() {
    assert_eq!(functions(SHIM, "extern \"C\" fn "), functions_in_c(HEADER));
    assert_eq!(fields(SURFACE, "Crossing"), fields_in_c(HEADER, "lepugaso_answer"));
    assert_eq!(fields(SHIM, "Layout"), fields_in_c(HEADER, "lepugaso_layout"));
}

#[test]
fn there_are_as_many_calls_as_exports() {
    assert_eq!(
        functions(SURFACE, "pub fn ").len(),
        RATTLE.matches("#[unsafe(no_mangle)]").count()
    );
    assert_eq!(
        functions(SHIM, "extern \"C\" fn ").len(),
        RATTLE.matches("#[unsafe(no_mangle)]").count()
    );
    assert!(RATTLE.contains("#[unsafe(no_mangle)]"));
}
