//! The known answers in cases/.
use harness::cases::check;
use std::fs;
use std::path::Path;

#[test]
fn every_case_gives_its_known_answer() {
    let folder = Path::new(env!("CARGO_MANIFEST_DIR")).join("cases");
    let mut cases: Vec<_> = fs::read_dir(folder).unwrap().map(|entry| entry.unwrap().path()).collect();
    cases.sort();
    assert!(cases.len() >= 28, "cases are missing");
    let wrong: Vec<String> = cases
        .iter()
        .filter_map(|path| check(&fs::read_to_string(path).unwrap()).err().map(|error| format!("{}: {error}", path.display())))
        .collect();
    assert!(wrong.is_empty(), "{}", wrong.join("\n"));
}
