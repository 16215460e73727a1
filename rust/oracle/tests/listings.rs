//! The expected listings of the program's cases are the original's; those of
//! requests 5 and 13, which are counted, are by the naive reading.

use oracle::left_out;
use oracle::listing::listing;
use std::fs;
use std::path::Path;

fn case_file(name: &str) -> Vec<u8> {
    let path = Path::new(env!("CARGO_MANIFEST_DIR")).join("../../crates/listing_cases");
    fs::read(path.join(name)).expect("the case file is there")
}

/// A line that starts with `==` names a case; its text is the lines below.
#[test]
fn cases_list_as_the_original() {
    let cases = case_file("stdin");
    let mut expected = Vec::new();
    let mut text: Vec<u8> = Vec::new();
    let (mut count, mut left_out) = (0, 0);
    for line in cases.split_inclusive(|&b| b == b'\n') {
        if line.starts_with(b"==") {
            if count > 0 {
                expected.extend(listing(&text).into_bytes());
                left_out += usize::from(left_out::text(&text));
            }
            expected.extend(line);
            text.clear();
            count += 1;
        } else {
            text.extend(line);
        }
    }
    expected.extend(listing(&text).into_bytes());
    let shown = |bytes: &[u8]| bytes.escape_ascii().to_string();
    assert_eq!(shown(&case_file("stdout")), shown(&expected));
    assert_eq!((count, left_out), (30, 12));
}
