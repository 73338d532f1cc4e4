//! What is printed of the named cases.

use std::sync::OnceLock;

use second::named::Cases;
use second::probe::probe;
use second::program::painterend;

pub fn probed(name: &str) -> String {
    probe(named(&format!("{name}.calls")))
}

pub fn printed(name: &str) -> String {
    let mut bytes = named(&format!("{name}.feed"));
    let mut page = Vec::new();
    painterend(&mut bytes, &mut page).expect("memory reads and writes");
    String::from_utf8(page).expect("a page is ASCII")
}

/// What is in the file of that name.
pub fn named(file: &str) -> &'static [u8] {
    static CASES: OnceLock<Cases> = OnceLock::new();
    let cases = CASES.get_or_init(Cases::all);
    cases.file(file).expect("a named case")
}
