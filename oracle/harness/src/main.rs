//! The oracle: what wgsl-types 0.3.2 answers, beside what Lepugaso answers (oracle/README.md).
use std::io::Read;

use oracle::{compare, types};

fn main() {
    types::quiet();
    let args: Vec<String> = std::env::args().skip(1).collect();
    let args: Vec<&str> = args.iter().map(String::as_str).collect();
    let done = match args.as_slice() {
        ["ask", seed, document, folder] => compare::ask(seed.parse().expect("a seed"), document, folder),
        ["answer"] => {
            let mut text = String::new();
            std::io::stdin().read_to_string(&mut text).expect("questions");
            print!("{}", compare::answer(&text));
            true
        }
        ["judge", document, folder] => compare::judge(document, folder),
        ["record", document, folder] => compare::record(document, folder),
        _ => {
            eprintln!("oracle: ask SEED DOCUMENT FOLDER | answer | judge DOCUMENT FOLDER | record DOCUMENT FOLDER");
            false
        }
    };
    std::process::exit(if done { 0 } else { 1 });
}
