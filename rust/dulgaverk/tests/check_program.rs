//! The check program: the worked stages of the paper, the longest files and formulas, random tables, and files that are
//! missing, long, in pieces or no files at all.

mod common;
use common::{root, Folder};

use stages::build::{fill, header};
use stages::limit;
use stages::rng::Rng;
use stages::table::Size;
use stages::turn::turned_up;
use stages::{stream, Case, Operation, CLASSES};
use std::fs;
use std::io::Write;
use std::os::unix::fs::symlink;
use std::path::{Path, PathBuf};
use std::process::Command;
use std::thread;
use std::time::Duration;

/// The worked stages as folders under examples/, and the first line that is printed of each.
const STAGES: [(&str, &str); 40] = [
    ("stage-1", "accepted 31"),
    ("stage-1-mixed", "accepted 31"),
    ("stage-1-reordered", "accepted 31"),
    ("stage-10", "accepted 79"),
    ("stage-10-constants", "refused 7 file 1 at 4"),
    ("stage-10-constraints", "refused 8 file 1 at 1192"),
    ("stage-2", "refused 15 file 3 at 15"),
    ("stage-3", "accepted 19"),
    ("stage-4", "refused 15 file 3 at 17"),
    ("stage-5", "accepted 51"),
    ("stage-5-mixed", "accepted 51"),
    ("stage-5-shortened", "accepted 51"),
    ("stage-5-turned", "accepted 51"),
    ("stage-5-unused", "accepted 51"),
    ("stage-6", "accepted 19"),
    ("stage-6-exchanged", "accepted 19"),
    ("stage-7", "refused 20 file 3 at 8"),
    ("stage-8-edition", "refused 5 file 1 at 0"),
    ("stage-8-edition-2", "refused 6 file 1 at 8"),
    ("stage-8-note", "accepted 31"),
    ("stage-8-tag", "refused 3 file 1 at 8"),
    ("stage-9", "accepted 19"),
    ("stage-9-again", "refused 13 file 3 at 14"),
    ("stage-four-bytes", "accepted 19"),
    ("stage-four-bytes-cut", "refused 15 file 3 at 17"),
    ("stage-four-bytes-edition", "refused 6 file 1 at 8"),
    ("stage-four-bytes-lowest", "refused 13 file 1 at 8"),
    ("stage-interlock", "accepted 33"),
    ("stage-interlock-exchanged", "accepted 33"),
    ("stage-interlock-mixed", "accepted 33"),
    ("stage-lines", "accepted 19"),
    ("stage-lines-over", "refused 16 file 3 at 6994"),
    ("stage-lines-turned", "refused 16 file 3 at 764"),
    ("stage-long", "accepted 19"),
    ("stage-long-over", "refused 1 file 2 at 0"),
    ("stage-pump", "accepted 41"),
    ("stage-rounding-1", "accepted 51"),
    ("stage-rounding-2", "accepted 83"),
    ("stage-rounding-3", "accepted 171"),
    ("stage-two-deep", "refused 15 file 3 at 71"),
];

const FORMULA: &str = "01000101020001033500140000000200000000000000010000000000000000";

struct Files {
    a: Vec<u8>,
    b: Vec<u8>,
    p: Vec<u8>,
}

impl Files {
    fn of(folder: &Path) -> Files {
        let file = |name: &str| fs::read(folder.join(name)).expect("a file");
        Files {
            a: file("a"),
            b: file("b"),
            p: file("p"),
        }
    }

    /// In a folder of their own.
    fn folder(&self, name: &str) -> Folder {
        Folder::new("checker", name)
            .with("a", &self.a)
            .with("b", &self.b)
            .with("p", &self.p)
    }

    /// What the independent checker's answer is, as it is to be printed.
    fn answer(&self) -> String {
        let mut out = vec![0; 65_536];
        let r = reference::check(&self.a, &self.b, &self.p, &mut out);
        let answer = r.answer;
        if answer.number != 0 {
            return format!(
                "refused {} file {} at {}\n",
                answer.number, answer.file, answer.place
            );
        }
        let digits: String = out[..r.written]
            .iter()
            .map(|byte| format!("{byte:02X}"))
            .collect();
        format!("accepted {}\n{digits}\n", r.written)
    }
}

fn examples() -> PathBuf {
    root().join("examples")
}

fn stage_1() -> Files {
    Files::of(&examples().join("stage-1"))
}

fn accepted() -> String {
    format!("accepted 31\n{FORMULA}\n")
}

/// The folders under examples/, in order.
fn folders() -> Vec<PathBuf> {
    let mut list: Vec<PathBuf> = fs::read_dir(examples())
        .expect("examples/")
        .map(|entry| entry.expect("an entry").path())
        .filter(|path| path.join("p").is_file())
        .collect();
    list.sort();
    list
}

/// Each folder under examples/ with a proof prints what its file `expected` has, which is what the independent checker answers.
#[test]
fn worked_stages() {
    let mut seen = Vec::new();
    for path in folders() {
        let name = path.file_name().and_then(|n| n.to_str()).expect("a name");
        let expected = fs::read_to_string(path.join("expected")).expect("a file");
        let files = Files::of(&path);
        assert_eq!(files.answer(), expected, "{name}");
        files.folder(name).prints(&expected);
        let first = expected.lines().next().unwrap_or_default();
        seen.push((name.to_string(), first.to_string()));
    }
    let stages = STAGES.map(|(name, line)| (name.to_string(), line.to_string()));
    assert_eq!(seen, stages);
}

/// What the paper prints of stages 1 and 2, and the run that is stored beside the program.
#[test]
fn printed_in_the_paper() {
    let expected = |name: &str| fs::read_to_string(examples().join(name).join("expected"));
    assert_eq!(expected("stage-1").expect("a file"), accepted());
    assert_eq!(
        expected("stage-2").expect("a file"),
        "refused 15 file 3 at 15\n"
    );
    let stored = Files::of(&root().join("crates/checker/data"));
    let first = stage_1();
    assert_eq!((stored.a, stored.b, stored.p), (first.a, first.b, first.p));
}

/// A note in B or in the proof changes nothing either; a tag below 0x80 there is refused.
#[test]
fn stage_8_in_each_file() {
    let first = stage_1();
    let files = [first.a, first.b, first.p];
    for (index, name) in ["a", "b", "p"].into_iter().enumerate() {
        for (tag, expected) in [
            (0x80, accepted()),
            (0xFF, accepted()),
            (0x06, format!("refused 3 file {} at 8\n", index + 1)),
            (0x7F, format!("refused 3 file {} at 8\n", index + 1)),
        ] {
            let mut all = files.clone();
            all[index].splice(8..8, [tag, 0, 2, 4, 0]);
            let [a, b, p] = all;
            Files { a, b, p }
                .folder(&format!("8-{name}-{tag}"))
                .prints(&expected);
        }
    }
}

/// A file that cannot be opened, or read through, counts as empty.
#[test]
fn files_that_are_not_there() {
    for (index, name) in ["a", "b", "p"].into_iter().enumerate() {
        let expected = format!("refused 2 file {} at 0\n", index + 1);
        let without = |how: &str| {
            let folder = stage_1().folder(&format!("no-{name}-{how}"));
            fs::remove_file(folder.path().join(name)).expect("removed");
            folder
        };
        without("missing").prints(&expected);
        without("empty").with(name, &[]).prints(&expected);
        without("directory").with_folder(name).prints(&expected);
        for (how, target) in [
            ("dangling", "nowhere"),
            ("loop", name),
            ("failing", "/proc/self/mem"),
        ] {
            let folder = without(how);
            symlink(target, folder.path().join(name)).expect("a link");
            folder.prints(&expected);
        }
    }
    Folder::new("checker", "nothing").prints("refused 2 file 1 at 0\n");
}

/// A file above its limit is refused with 1, and never cut to one that fits; one that is as long as its limit is read.
#[test]
fn files_at_their_limits() {
    let limits = [
        (0, 1, 4_096),
        (0, 2, 8_192),
        (1, 1, 4_096),
        (1, 2, 8_192),
        (2, 1, 65_536),
        (2, 2, 65_536),
    ];
    for (index, edition, limit) in limits {
        let run = |how: &str, change: &dyn Fn(&mut Vec<u8>)| {
            let mut files = stage_1();
            let all = [&mut files.a, &mut files.b, &mut files.p];
            let file = &mut *all[index];
            if edition == 2 {
                *file = turned_up(file);
            }
            change(file);
            let name = format!("{index}-{edition}-{how}");
            (files.answer(), files.folder(&name))
        };
        let refused = format!("refused 1 file {} at 0\n", index + 1);
        let (answer, folder) = run("longest", &|file| fill(file, limit));
        assert_eq!(answer, accepted());
        folder.prints(&answer);
        // The bytes up to the limit are whole fields that would be accepted.
        let (answer, folder) = run("over", &|file| {
            fill(file, limit);
            file.push(0);
        });
        assert_eq!(answer, refused);
        folder.prints(&answer);
        let (_, folder) = run("far-over", &|file| file.resize(1_000_000, 0));
        folder.prints(&refused);
        // A file without end.
        let (_, folder) = run("endless", &|_| ());
        let name = ["a", "b", "p"][index];
        fs::remove_file(folder.path().join(name)).expect("removed");
        symlink("/dev/zero", folder.path().join(name)).expect("a link");
        folder.prints(&refused);
    }
}

/// 1 comes for A, B and the proof in turn, before any field is read.
#[test]
fn the_first_file_that_is_too_long() {
    let long = vec![0; 65_537];
    let folder = |name: &str| Folder::new("checker", name);
    folder("long-abp")
        .with("a", &long)
        .with("b", &long)
        .with("p", &long)
        .prints("refused 1 file 1 at 0\n");
    folder("long-bp")
        .with("b", &long)
        .with("p", &long)
        .prints("refused 1 file 2 at 0\n");
    folder("long-p")
        .with("p", &long)
        .prints("refused 1 file 3 at 0\n");
}

/// A pipe that hands out a file in pieces, with pauses.
fn pipe(folder: &Folder, name: &str, bytes: &[u8], size: usize) -> thread::JoinHandle<()> {
    let path = folder.path().join(name);
    let _ = fs::remove_file(&path);
    let made = Command::new("mkfifo").arg(&path).status().expect("mkfifo");
    assert!(made.success());
    let pieces: Vec<Vec<u8>> = bytes.chunks(size).map(<[u8]>::to_vec).collect();
    thread::spawn(move || {
        let mut end = fs::OpenOptions::new()
            .write(true)
            .open(path)
            .expect("the pipe");
        for piece in pieces {
            // The program stops reading at the byte above the limit.
            if end.write_all(&piece).is_err() {
                return;
            }
            thread::sleep(Duration::from_millis(1));
        }
    })
}

/// Whatever pieces the system hands out, the file is read in whole.
#[test]
fn files_in_pieces() {
    let files = stage_1();
    let folder = files.folder("pieces");
    let writers = [
        pipe(&folder, "a", &files.a, 1),
        pipe(&folder, "b", &files.b, 5),
        pipe(&folder, "p", &files.p, 2),
    ];
    folder.prints(&accepted());
    for writer in writers {
        writer.join().expect("written");
    }

    for (length, expected) in [
        (65_536, accepted()),
        (65_537, "refused 1 file 3 at 0\n".to_string()),
    ] {
        let mut long = header(3);
        long.extend_from_slice(&files.p[8..]);
        fill(&mut long, 65_536);
        long.resize(length, 0);
        let folder = files.folder(&format!("pieces-{length}"));
        let writer = pipe(&folder, "p", &long, 700);
        folder.prints(&expected);
        writer.join().expect("written");
    }
}

fn compare(name: &str, case: Case) -> String {
    let Case::Check { a, b, proof, .. } = case else {
        panic!("another operation");
    };
    let files = Files { a, b, p: proof };
    let answer = files.answer();
    files.folder(name).prints(&answer);
    answer
}

/// Both sides of the limits with long files, the longest formula among them.
#[test]
fn long_proofs_and_formulas() {
    let cases = limit::heavy(&mut Rng::new(11), Operation::Check);
    let first: Vec<String> = cases
        .into_iter()
        .map(|(_, case)| compare("heavy", case))
        .map(|answer| answer.lines().next().unwrap_or_default().to_string())
        .collect();
    // Without roundings, and with them; the first that is too long.
    for line in [
        "accepted 53279",
        "accepted 65535",
        "refused 1 file 4 at 65539",
    ] {
        assert!(first.iter().any(|found| found == line), "{line}");
    }
}

/// Random tables, sound and damaged, as the independent checker answers.
#[test]
fn random_tables() {
    for (index, class) in CLASSES.into_iter().enumerate() {
        for size in [Size::SMALL, Size::MEDIUM, Size::LARGE] {
            for case in stream(Operation::Check, class, size, 12 + index as u64).take(100) {
                compare("random", case);
            }
        }
    }
}

/// ./check runs the program in a folder, or in examples/stage-1; its status tells a refusal.
#[test]
fn the_script() {
    let run = |folder: &[&str], place: &Path| {
        let script = fs::canonicalize(root().join("check")).expect("the script");
        let output = Command::new(script)
            .args(folder)
            .current_dir(place)
            .output()
            .expect("the script");
        let text = String::from_utf8(output.stdout).expect("text");
        (output.status.success(), text)
    };
    assert_eq!(run(&[], &root()), (true, accepted()));
    assert_eq!(run(&[], Path::new("/")), (true, accepted()));
    let refused = "refused 15 file 3 at 15\n".to_string();
    let second = (false, refused);
    assert_eq!(run(&["examples/stage-2"], &root()), second);
    assert_eq!(run(&["stage-2"], &examples()), second);
    assert_eq!(run(&["no such folder"], &root()), (false, String::new()));
    assert_eq!(run(&["a", "b"], &root()), (false, String::new()));
}
