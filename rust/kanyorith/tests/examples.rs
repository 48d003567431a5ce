//! The example programs on files: what they print and how they end. `cargo test` without `--test` builds them.

use std::fs;
use std::path::{Path, PathBuf};
use std::process::Command;

use kanyorith::build_vec;

/// Two runs: point 1 of sheet 7 is in both, point 2 in the older one; point 3 is gone, and sheet 8 has a point.
fn tray() -> Vec<u8> {
    let record = |sheet: u8, point: u8, kind: u8, value: [u32; 4]| {
        let value = value.map(u32::to_be_bytes);
        [&[0, 0, 0, 0, 0, sheet, 0, point, kind], value.as_flattened()].concat()
    };
    [
        vec![2, 0, 0, 0, 0, 2, 0, 4],
        record(7, 1, 0, [800, 400, 13_400_000, 52_500_000]),
        record(7, 3, 1, [0; 4]),
        record(7, 1, 0, [100, 50, 1, 2]),
        record(7, 2, 0, [101, 50, 0, u32::MAX]),
        record(7, 3, 0, [9, 9, 9, 9]),
        record(8, 1, 0, [5, 6, 7, 8]),
    ]
    .concat()
}

/// A folder of one test's own.
fn scratch(name: &str) -> PathBuf {
    let folder = Path::new(env!("CARGO_TARGET_TMPDIR")).join(name);
    fs::create_dir_all(&folder).expect("a folder");
    folder
}

/// Writes a file, and gives its path as text.
fn file(folder: &Path, name: &str, bytes: &[u8]) -> String {
    let path = folder.join(name);
    fs::write(&path, bytes).expect("a file");
    path.to_str().expect("a path in Unicode").to_string()
}

/// Runs an example; gives its status, what it prints, and what it says on its error output.
fn run(name: &str, words: &[&str]) -> (i32, String, String) {
    let test = std::env::current_exe().expect("this program has a path");
    let built = test.parent().and_then(Path::parent).expect("it stands in deps").join("examples").join(name);
    let output = Command::new(&built)
        .args(words)
        .output()
        .unwrap_or_else(|error| panic!("{}: {error}: run `cargo test` without --test", built.display()));
    let text = |bytes| String::from_utf8(bytes).expect("text");
    (output.status.code().expect("it ends by itself"), text(output.stdout), text(output.stderr))
}

#[test]
fn list_sheet() {
    let folder = scratch("list_sheet");
    let tray = tray();
    let index = build_vec(&tray, 3).expect("a sound tray");
    let (tray, index) = (file(&folder, "tray", &tray), file(&folder, "index", &index));
    let cut = file(&folder, "cut", &fs::read(&index).expect("it was written")[..20]);
    let sheet = "1 800 400 13400000 52500000\n2 101 50 0 -1\n";
    let other = "1 5 6 7 8\n";
    // Words, status, what is printed, and a part of what is said on the error output.
    let rows: [(&[&str], i32, &str, &str); 11] = [
        (&[&tray, &index, "000000000007"], 0, sheet, ""),
        (&[&tray, &index, "000000000008"], 0, other, ""),
        (&[&tray, &index, "000000000009"], 0, "", ""),
        (&[&tray, &index, "00"], 0, &format!("{sheet}{other}"), ""),
        (&[&tray, &index, ""], 1, "", "the prefix has 0 bytes, and must have 1 to 8"),
        (&[&index, &tray, "000000000007"], 1, "", "the tray breaks the header, count or length rules"),
        (&[&tray, &cut, "000000000007"], 1, "", "the index breaks the header or length rules"),
        (&[&tray, &index, "00000000000"], 2, "", "not an even number of hexadecimal digits"),
        (&[&tray, &index, "00000000000g"], 2, "", "not an even number of hexadecimal digits"),
        (&[&tray, "no-such-file", "000000000007"], 2, "", "no-such-file: "),
        (&[&tray, &index], 2, "", "usage: list_sheet TRAY INDEX SHEET"),
    ];
    for (words, status, printed, said) in rows {
        let (ended, out, err) = run("list_sheet", words);
        assert_eq!((ended, out.as_str()), (status, printed), "{words:?}: {err}");
        assert!(err.contains(said) && err.is_empty() == said.is_empty(), "{words:?}: {err}");
    }
}

#[test]
fn judge_index() {
    let folder = scratch("judge_index");
    let tray = tray();
    let index = build_vec(&tray, 3).expect("a sound tray");
    let mut wrong = index.clone();
    *wrong.last_mut().expect("it has bytes") ^= 0x80;
    let mut unsound = tray.clone();
    unsound[16] = 2;
    let (wrong, unsound) = (file(&folder, "wrong", &wrong), file(&folder, "unsound", &unsound));
    let (tray, index) = (file(&folder, "tray", &tray), file(&folder, "index", &index));
    let rows: [(&[&str], i32, &str, &str); 7] = [
        (&[&tray, &index], 0, "accepted: 2 segments\n", ""),
        (&[&tray, &wrong], 1, "refused by 5: the index is not accepted: segment 1 is wrong or missing\n", ""),
        (&[&unsound, &index], 1, "refused by 3: the kind of record 0 is above 1, or it is gone and has a value\n", ""),
        (&[&index, &tray], 1, "refused by 1: the tray breaks the header, count or length rules\n", ""),
        (
            &[&tray, &tray],
            1,
            "refused by 4: the index breaks the header or length rules, or is for another number of runs\n",
            "",
        ),
        (&[&tray, "no-such-file"], 2, "", "no-such-file: "),
        (&[], 2, "", "usage: judge_index TRAY INDEX"),
    ];
    for (words, status, printed, said) in rows {
        let (ended, out, err) = run("judge_index", words);
        assert_eq!((ended, out.as_str()), (status, printed), "{words:?}: {err}");
        assert!(err.contains(said) && err.is_empty() == said.is_empty(), "{words:?}: {err}");
    }
}
