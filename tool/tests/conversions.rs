//! Row files brought over from the old format and back. The expected answers are worked out from document 02, C-14.

mod support;

use std::ffi::OsStr;
use std::fs;
use std::path::{Path, PathBuf};

use support::{called, called_with, output, wrong};

/// `int` in C89 with the structure check and an allowance of 1,000, as it was and as it is.
#[rustfmt::skip]
const OLD_INT: [u8; 26] = [
    11, 0, 0, 1, 0, 0, 1, 0xe8, 3, 0, 0,
    15, 0, 0, 0, 0, 0, 0, 0, 3, 0, 0, 0, b'i', b'n', b't',
];

#[rustfmt::skip]
const NEW_INT: [u8; 34] = [
    11, 0, 5, 1, 0, 0, 1, 0xe8, 3, 0, 0,
    23, 0, 0, 0, 0, 0, 0, 0, 0, 0, 0, 0, 3, 0, 0, 0, 0, 0, 0, 0, b'i', b'n', b't',
];

/// `int` that ends at 2^32.
fn far_int() -> [u8; 34] {
    let mut file = NEW_INT;
    file[11 + 12..][..8].copy_from_slice(&(1_u64 << 32).to_le_bytes());
    file
}

/// An empty folder for one test.
fn folder(name: &str) -> PathBuf {
    let folder = Path::new(env!("CARGO_TARGET_TMPDIR")).join(name);
    let _ = fs::remove_dir_all(&folder);
    fs::create_dir_all(&folder).expect("a folder");
    folder
}

/// A file in it, by its name.
fn file(folder: &Path, name: &str, bytes: &[u8]) -> String {
    let path = folder.join(name);
    fs::write(&path, bytes).expect("a file");
    path.to_str().expect("UTF-8").to_owned()
}

/// Status, standard output and standard error of a call on standard input.
fn converted(words: &[&str], input: &[u8]) -> (i32, Vec<u8>, String) {
    let words: Vec<&OsStr> = words.iter().map(OsStr::new).collect();
    let done = output(&words, input);
    let err = String::from_utf8(done.stderr).expect("UTF-8");
    (done.status.code().expect("no signal"), done.stdout, err)
}

#[test]
fn a_file_goes_to_standard_output() {
    let none = String::new();
    let widened = converted(&["widen", "-"], &OLD_INT);
    assert_eq!(widened, (0, NEW_INT.to_vec(), none.clone()));
    let narrowed = converted(&["narrow", "-"], &NEW_INT);
    assert_eq!(narrowed, (0, OLD_INT.to_vec(), none.clone()));
    let folder = folder("standard_output");
    let old = file(&folder, "old.row", &OLD_INT);
    assert_eq!(
        converted(&["widen", &old], b""),
        (0, NEW_INT.to_vec(), none)
    );
}

#[test]
fn a_file_goes_where_it_is_told() {
    let folder = folder("where_told");
    let old = file(&folder, "old.row", &OLD_INT);
    let new = file(&folder, "new.row", b"what was there");
    let call = called(&["widen", "-o", &new, &old]);
    assert_eq!((call.status, call.out.as_str()), (0, ""));
    assert_eq!(fs::read(&new).unwrap(), NEW_INT);
    let call = called(&["narrow", &new, "-o", &format!("{old}.again")]);
    assert_eq!((call.status, call.err.as_str()), (0, ""));
    assert_eq!(fs::read(folder.join("old.row.again")).unwrap(), OLD_INT);
    assert_eq!(called(&["read", "--file", &new]).out, "└─ int\n");
    // A file does not replace itself.
    for same in [
        old.clone(),
        format!("{}/./old.row", folder.to_str().unwrap()),
    ] {
        let said = wrong(&["widen", &old, "-o", &same]);
        assert!(said.contains("does not replace"), "{said}");
    }
    assert_eq!(fs::read(&old).unwrap(), OLD_INT);
    let nowhere = folder.join("no/such/folder");
    let said = wrong(&["widen", &old, "-o", nowhere.to_str().unwrap()]);
    assert!(said.contains("no/such/folder: "), "{said}");
}

#[test]
fn a_refused_file_gives_none() {
    let folder = folder("refused");
    let far = file(&folder, "far.row", &far_int());
    let there = file(&folder, "there.row", b"what was there");
    let sentence = "refusal 7: a span ends at 2^32 or later, which the old format cannot hold\n";
    let call = called(&["narrow", &far, "-o", &there]);
    assert_eq!((call.status, call.out.as_str()), (1, sentence));
    assert_eq!(fs::read(&there).unwrap(), b"what was there");
    let call = called(&["narrow", &far]);
    assert_eq!((call.status, call.out.as_str()), (1, ""));
    assert_eq!(call.err, sentence);
    // One byte more, at the end.
    let long = [&NEW_INT[..], &[0]].concat();
    let (status, _, err) = converted(&["narrow", "-"], &long);
    assert!(status == 1 && err.starts_with("refusal 4: "), "{err}");
    assert!(err.ends_with(", at byte 34\n"), "{err}");
    let (_, _, err) = converted(&["widen", "-"], &[0; 65_537]);
    assert_eq!(err, "refusal 1: the file has more than 65536 bytes\n");
    let (_, _, err) = converted(&["widen", "-"], &[0; 200_000]);
    assert!(err.starts_with("refusal 1: "), "{err}");
}

#[test]
fn the_other_format_is_told() {
    let already = "hint: the file is in that format already\n";
    let (status, _, err) = converted(&["widen", "-"], &NEW_INT);
    assert!(status == 1 && err.starts_with("refusal 2: "), "{err}");
    assert!(err.ends_with(already), "{err}");
    let (_, _, err) = converted(&["widen", "-"], &far_int());
    assert!(err.ends_with(already), "{err}");
    let (_, _, err) = converted(&["narrow", "-"], &OLD_INT);
    assert!(err.ends_with(already), "{err}");
    // Nothing is said that was not tried.
    for wrong in [&OLD_INT[..25], &[][..], b"hello, world"] {
        let (status, _, err) = converted(&["narrow", "-"], wrong);
        assert_eq!((status, err.lines().count()), (1, 1), "{err}");
    }
}

#[test]
fn an_old_file_that_is_to_be_read_is_told() {
    let hint = "hint: the file is in the old format; `type-name widen` brings it over\n";
    let calls: [&[&str]; 4] = [
        &["read", "--file", "-"],
        &["read", "--list", "--file", "-"],
        &["outer", "--file", "-"],
        &["match", "lane.rules", "--file", "-"],
    ];
    for words in calls {
        let (status, out, _) = converted(words, &OLD_INT);
        let out = String::from_utf8(out).unwrap();
        assert!(status == 1 && out.starts_with("refusal 2: "), "{out}");
        assert!(out.ends_with(hint), "{out}");
        let (_, out, _) = converted(words, &OLD_INT[..25]);
        assert!(!String::from_utf8(out).unwrap().contains("hint"));
    }
    let words = ["read", "--json", "--file", "-"].map(OsStr::new);
    let said = called_with(&words, &OLD_INT).out;
    assert!(said.contains("\"hint\":\"hint: the file is in the old format"));
    let words = ["read", "--listing", "--file", "-"].map(OsStr::new);
    assert_eq!(called_with(&words, &OLD_INT).out, "no 2 65535 0 0\n");
}

#[test]
fn several_files_go_into_a_folder() {
    let folder = folder("several");
    let into = folder.join("new");
    fs::create_dir(&into).unwrap();
    let into = into.to_str().unwrap();
    let one = file(&folder, "one.row", &OLD_INT);
    let two = file(&folder, "two.row", &OLD_INT[..11]);
    let cut = file(&folder, "cut.row", &OLD_INT[..25]);
    let call = called(&["widen", "--into", into, &one, &cut, &two]);
    assert_eq!((call.status, call.err.as_str()), (1, ""));
    let sentence = "a token record is cut off, or its length, kind, span or word is out of range";
    let expected = format!("{cut}: refusal 4: {sentence}, at byte 11\n2 widened, 1 refused\n");
    assert_eq!(call.out, expected);
    assert_eq!(fs::read(format!("{into}/one.row")).unwrap(), NEW_INT);
    assert_eq!(fs::read(format!("{into}/two.row")).unwrap(), NEW_INT[..11]);
    assert!(!Path::new(into).join("cut.row").exists());
    let back = folder.join("back");
    fs::create_dir(&back).unwrap();
    let back = back.to_str().unwrap();
    let [new_one, new_two] = ["one", "two"].map(|name| format!("{into}/{name}.row"));
    let call = called(&["narrow", "--into", back, &new_one, &new_two]);
    assert_eq!(
        (call.status, call.out.as_str()),
        (0, "2 narrowed, 0 refused\n")
    );
    assert_eq!(fs::read(format!("{back}/one.row")).unwrap(), OLD_INT);

    // A file that is not there ends it; what was said before is told.
    let call = called(&["widen", "--into", into, &cut, "no-such.row", &one]);
    assert_eq!((call.status, call.out.as_str()), (2, ""));
    let lines: Vec<&str> = call.err.lines().collect();
    assert!(
        lines[0].starts_with("type-name: no-such.row: "),
        "{lines:?}"
    );
    assert!(
        lines[1].starts_with(&format!("{cut}: refusal 4: ")),
        "{lines:?}"
    );

    // Before a file is written.
    let said = wrong(&["widen", "--into", back, &one, &new_one]);
    assert!(said.contains("two of the files are named `one.row`"));
    let said = wrong(&["widen", "--into", folder.to_str().unwrap(), &one]);
    assert!(said.contains("does not replace"), "{said}");
    assert_eq!(fs::read(&one).unwrap(), OLD_INT);
    let said = wrong(&["widen", "--into", &one, &two]);
    assert!(said.contains("no folder"), "{said}");
    let said = wrong(&["widen", "--into", back, "-"]);
    assert!(said.contains("`-` has no name"), "{said}");
}

/// The library's limit is above that of the program `listing`.
#[test]
fn a_file_of_70_000_bytes_is_read() {
    let letters = [b'w'; 255];
    let mut file = vec![11, 0, 5, 1, 0, 0, 0, 0xe8, 3, 0, 0];
    for length in [255; 254].into_iter().chain([119]) {
        file.extend((20 + length as u16).to_le_bytes());
        file.extend([0; 18]);
        file.extend(&letters[..length]);
    }
    assert_eq!(file.len(), 70_000);
    let words = ["read", "--listing", "--file", "-"].map(OsStr::new);
    assert!(called_with(&words, &file).out.starts_with("ok 255 255\n"));
}
