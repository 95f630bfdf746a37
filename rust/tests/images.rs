//! The images that `cases` lists, those with entries that a real EDK II wrote among them: the text of each is worked out from the paper, and both implementations
//! check it and start up from it alike.

mod common;

use std::collections::BTreeMap;
use std::path::{Path, PathBuf};

use common::same_bytes;
use common::tenants::admitting;
use varstore::calls::{ENGINE, PAPER};
use varstore::interface::{Context, Setup};
use varstore::paper;

fn folder() -> PathBuf {
    Path::new(env!("CARGO_MANIFEST_DIR")).join("../crates/cases")
}

/// What `cases` prints: a file's name, then the text of that file.
fn texts(printed: &str) -> BTreeMap<String, String> {
    let mut texts: BTreeMap<String, String> = BTreeMap::new();
    let mut file = String::new();
    for line in printed.lines() {
        if line.ends_with(".img") || line.ends_with(".calls") {
            file = line.into();
            texts.insert(file.clone(), String::new());
        } else {
            *texts.get_mut(&file).expect("a name comes first") += &format!("{line}\n");
        }
    }
    texts
}

#[test]
fn listed_and_started_up() {
    let printed = std::fs::read_to_string(folder().join("stdout")).expect("what cases prints");
    let images: Vec<_> = texts(&printed).into_iter().filter(|(file, _)| file.ends_with(".img")).collect();
    assert_eq!(images.len(), 82);
    for (file, text) in images {
        let image = std::fs::read(folder().join("data").join(&file)).expect("an image");
        assert_eq!(paper::varlist(&image), text, "{file}");
        assert_eq!((PAPER.check)(&image), (ENGINE.check)(&image), "check of {file}");
        let setups = [admitting(&image), Setup::PLAIN];
        for (limit, setup) in [0, 1, 2, 4096, 4098, u64::MAX].into_iter().flat_map(|limit| setups.map(|setup| (limit, setup))) {
            let (mut ours, mut theirs) = (image.clone(), image.clone());
            let context = Context::with(limit);
            let (here, there) = ((PAPER.start_up)(context, &mut ours, &setup), (ENGINE.start_up)(context, &mut theirs, &setup));
            assert_eq!(here.answer, there.answer, "start-up from {file} with limit {limit} and {setup:?}");
            same_bytes(&file, &ours, &theirs);
        }
    }
}
