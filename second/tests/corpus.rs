//! The generator and the corpus that is kept.

use std::collections::BTreeMap;
use std::fs;
use std::path::Path;

use second::corpus::{make, Corpus};
use second::coverage::Coverage;

/// All files of a corpus by name.
fn by_name(corpus: &Corpus) -> BTreeMap<String, Vec<u8>> {
    let mut all = BTreeMap::new();
    for file in &corpus.files {
        all.insert(format!("{}.orders", file.name), file.orders.clone());
        all.insert(
            format!("{}.lines", file.name),
            file.lines.clone().into_bytes(),
        );
        if let Some(words) = &file.words {
            all.insert(format!("{}.words", file.name), words.clone().into_bytes());
        }
    }
    all.insert(
        "coverage.txt".to_string(),
        corpus.coverage.clone().into_bytes(),
    );
    all
}

#[test]
fn the_corpus_that_is_kept_is_that_of_seed_1() {
    let folder = Path::new(env!("CARGO_MANIFEST_DIR")).join("../crates/replay/data");
    let kept: BTreeMap<String, Vec<u8>> = fs::read_dir(folder)
        .unwrap()
        .map(|entry| entry.unwrap())
        .map(|entry| {
            let name = entry.file_name().into_string().unwrap();
            (name, fs::read(entry.path()).unwrap())
        })
        .collect();
    let made = by_name(&make(1).unwrap());
    assert_eq!(
        kept.keys().collect::<Vec<_>>(),
        made.keys().collect::<Vec<_>>()
    );
    for (name, bytes) in made {
        assert!(kept[&name] == bytes, "{name}");
    }
}

#[test]
fn every_seed_covers_everything_and_gives_the_same_again() {
    for seed in [0, 1, 2, 3, u64::MAX] {
        let corpus = make(seed).unwrap();
        assert!((20..=40).contains(&corpus.files.len()));
        let files = by_name(&corpus);
        assert!(files.values().map(Vec::len).sum::<usize>() < 600_000);
        assert!(files == by_name(&make(seed).unwrap()));
    }
    assert!(by_name(&make(1).unwrap()) != by_name(&make(2).unwrap()));
}

#[test]
fn what_is_not_covered_is_said() {
    let mut coverage = Coverage::default();
    let nothing_covered = coverage.missing().len();
    assert!(coverage.missing().contains(&"empty file".to_string()));
    coverage.note_file("one", b"KTS", false);
    coverage.note_file("none", b"", false);
    let missing = coverage.missing();
    assert!(!missing.contains(&"refusal 9".to_string()));
    assert!(!missing.contains(&"empty file".to_string()));
    assert!(missing.contains(&"refusal 10".to_string()));
    // Refusal 9, the order, its outcome, a whole end, and the empty file.
    assert_eq!(missing.len(), nothing_covered - 5);
}
