//! The program `clipfind`, run in a folder with index.bin and sheet.bin, beside what the oracle says it prints.
//! The environment variable CLIPFIND names the program.

use crate::tested::{IMAGE_I, first_seed, show};
use oracle::cases::{Case, Random};
use oracle::compare::Lent;
use oracle::program::{MOST_IMAGE_BYTES, MOST_SHEET_BYTES, printed};
use std::fs;
use std::path::{Path, PathBuf};
use std::process::Command;

/// Random cases.
const CASES: u64 = 400;

/// What is put where a file belongs.
#[derive(Clone, Debug)]
enum Put {
    Nothing,
    Folder,
    Bytes(Vec<u8>),
}

/// A folder for the program to run in, gone when the test is.
struct Folder {
    path: PathBuf,
    program: PathBuf,
}

impl Folder {
    fn new(name: &str) -> Folder {
        let program = std::env::var_os("CLIPFIND")
            .expect("the environment variable CLIPFIND has to name the program clipfind, which this test runs");
        let program = fs::canonicalize(&program)
            .unwrap_or_else(|error| panic!("CLIPFIND names {}: {error}", Path::new(&program).display()));
        let path = Path::new(env!("CARGO_TARGET_TMPDIR")).join(format!("{name}-{}", std::process::id()));
        fs::create_dir_all(&path).expect("a folder to run in");
        Folder { path, program }
    }

    /// Runs the program on these files and compares what it prints, byte for byte.
    fn compare(&self, image: &Put, sheet: &Put) {
        self.put("index.bin", image);
        self.put("sheet.bin", sheet);
        let run = Command::new(&self.program).current_dir(&self.path).output();
        let given = run.unwrap_or_else(|error| panic!("{} does not run: {error}", self.program.display())).stdout;
        let expected = printed(image.bytes(), sheet.bytes());
        if given != expected.as_bytes() {
            let given = String::from_utf8_lossy(&given);
            panic!("index.bin {image:02X?}\nsheet.bin {sheet:02X?}\noracle:\n{expected}\nclipfind:\n{given}");
        }
    }

    fn put(&self, name: &str, put: &Put) {
        let path = self.path.join(name);
        if path.is_dir() {
            fs::remove_dir(&path).expect("an empty folder goes");
        } else if path.exists() {
            fs::remove_file(&path).expect("a file goes");
        }
        match put {
            Put::Nothing => {}
            Put::Folder => fs::create_dir(&path).expect("a folder stands"),
            Put::Bytes(bytes) => fs::write(&path, bytes).expect("a file is written"),
        }
    }
}

impl Drop for Folder {
    fn drop(&mut self) {
        fs::remove_dir_all(&self.path).expect("the folder goes");
    }
}

impl Put {
    fn bytes(&self) -> Option<&[u8]> {
        match self {
            Put::Bytes(bytes) => Some(bytes),
            Put::Nothing | Put::Folder => None,
        }
    }
}

fn sheet_bytes(numbers: &[u32]) -> Vec<u8> {
    numbers.iter().flat_map(|number| number.to_be_bytes()).collect()
}

const P1: [u32; 7] = [1, 1, 1, 100, 1, 0, 3];

#[test]
fn the_program_prints_what_document_01_says() {
    assert_eq!(printed(Some(&IMAGE_I), Some(&sheet_bytes(&P1))), "10 1 2\n7 27\n");
    let mut p7 = IMAGE_I;
    p7[24] = 0x41;
    assert_eq!(printed(Some(&p7), Some(&sheet_bytes(&P1))), "refused 8 1\n");
    let folder = Folder::new("paper");
    folder.compare(&Put::Bytes(IMAGE_I.to_vec()), &Put::Bytes(sheet_bytes(&P1)));
    folder.compare(&Put::Bytes(p7.to_vec()), &Put::Bytes(sheet_bytes(&P1)));
}

#[test]
fn the_program_prints_what_the_oracle_prints() {
    let folder = Folder::new("cases");
    let first = first_seed(0);
    for seed in first..first + CASES {
        let lent = Lent::new(&Case::from_seed(seed));
        let mut sheet = sheet_bytes(&lent.sheet);
        let mut random = Random::new(seed);
        if random.one_in(20) {
            sheet.truncate(sheet.len() - random.below(sheet.len().clamp(1, 4)));
        }
        folder.compare(&Put::Bytes(lent.image), &Put::Bytes(sheet));
    }
    show(&format!("clipfind, seeds {first} to {}: {CASES} cases alike", first + CASES - 1));
}

#[test]
fn the_program_says_what_is_wrong_with_its_files() {
    let folder = Folder::new("files");
    let sound = Put::Bytes(IMAGE_I.to_vec());
    let bytes = |length: usize| Put::Bytes(vec![0; length]);
    let images = [Put::Nothing, Put::Folder, sound, bytes(0), bytes(MOST_IMAGE_BYTES), bytes(MOST_IMAGE_BYTES + 1)];
    let lengths = [0, 1, 4, 27, MOST_SHEET_BYTES, MOST_SHEET_BYTES + 1, MOST_SHEET_BYTES + 4];
    let mut sheets = vec![Put::Nothing, Put::Folder, Put::Bytes(sheet_bytes(&P1))];
    sheets.extend(lengths.map(bytes));
    for image in &images {
        for sheet in &sheets {
            folder.compare(image, sheet);
        }
    }
}

/// The longest answer and the longest sheet that the program takes.
#[test]
fn the_program_prints_the_longest_sheet() {
    let folder = Folder::new("longest");
    let query = [vec![0, 64, 100, 16], [0, 255].repeat(16)].concat();
    let sheet = sheet_bytes(&[vec![64], query.repeat(64)].concat());
    assert_eq!(sheet.len(), MOST_SHEET_BYTES);
    folder.compare(&Put::Bytes(IMAGE_I.to_vec()), &Put::Bytes(sheet));
}
