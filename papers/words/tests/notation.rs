// The notation of a question file.

use crate::notation::bytes;

#[test]
fn notations() {
    let read = |text: &str| bytes(text.as_bytes().to_vec());
    let paper = "# A comment | 99.\n01 0200\n#\n| 0B aF\n";
    assert_eq!(read(paper), Some(vec![0x01, 0x02, 0x00, 0x0B, 0xAF]));
    assert_eq!(read(""), Some(vec![]));
    // An odd count of digits, another letter, a comment behind digits, a tab.
    for text in ["01 0", "01 0G", "01 # 02", "01\t02"] {
        assert_eq!(read(text), None, "{text}");
    }
}

#[test]
fn what_begins_with_01_stands_for_itself() {
    let file = b"\x01 00 |\n# \xFF".to_vec();
    assert_eq!(bytes(file.clone()), Some(file));
    assert_eq!(bytes(vec![2, 1]), None);
}
