//! The texts in the repository's sheets write the sheets that were worked out
//! by hand for the second program.

use std::fs;
use std::path::Path;

use desk::text::read;

#[test]
fn the_texts_write_the_sheets_made_by_hand() {
    let root = Path::new(env!("CARGO_MANIFEST_DIR")).join("../..");
    for name in [
        "sample",
        "eight-values",
        "gave-up-computing",
        "closed-number",
    ] {
        let text = fs::read_to_string(root.join(format!("sheets/{name}.txt"))).expect(name);
        let sheet = fs::read(root.join(format!("tests/second/sheets/{name}.sheet"))).expect(name);
        assert_eq!(read(&text).map(|text| text.bytes()), Ok(sheet), "{name}");
    }
}
