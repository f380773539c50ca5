//! All cases of vectors/, with their answers.

use plain::batch::{answer, read_case};
use std::io::BufReader;
use std::path::Path;

#[test]
fn all_vectors_agree() {
    let folder = Path::new(env!("CARGO_MANIFEST_DIR")).join("../vectors");
    let mut files = 0;
    let mut count = 0;
    for entry in std::fs::read_dir(folder).expect("vectors/ is there") {
        let path = entry.expect("a file of vectors/").path();
        if path.extension().is_none_or(|e| e != "cases") {
            continue;
        }
        files += 1;
        let cases = std::fs::read(&path).expect("cases");
        let answers = std::fs::read(path.with_extension("answers")).expect("answers");
        let mut input = BufReader::new(&cases[..]);
        let mut at = 0;
        while let Some(case) = read_case(&mut input).expect("the format of docs/BATCH.md") {
            let given = answer(&case);
            let stored = &answers[at..answers.len().min(at + given.len())];
            let show = String::from_utf8_lossy;
            assert_eq!(show(&given), show(stored), "case {} of {}", case.id, path.display());
            at += given.len();
            count += 1;
        }
        assert_eq!(at, answers.len(), "every answer of {} is used", path.display());
    }
    assert!(files >= 9 && count >= 1667, "{files} files, {count} cases");
}
