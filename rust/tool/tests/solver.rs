//! z3, where it is installed, answers unsat to both queries of every accepted stage.

mod common;
use common::{examples, run, some, Folder};

use stages::table::Size;
use stages::Class;
use std::process::Command;

/// What z3 answers of a stage within two seconds a query, if the stage is accepted.
fn answers(folder: &Folder, stage: &str) -> Option<Vec<String>> {
    let (script, _, status) = run(&["smt", stage]);
    let file = folder.file("query.smt2", script.as_bytes());
    let z3 = Command::new("z3").args(["-t:2000", &file]).output().ok()?;
    let text = String::from_utf8(z3.stdout).expect("text");
    (status == 0).then(|| text.lines().map(String::from).collect())
}

#[test]
fn guards_are_interpolants() {
    if Command::new("z3").arg("-version").output().is_err() {
        eprintln!("z3 is not installed: nothing asked");
        return;
    }
    let folder = Folder::new("solver");
    let unsat = vec!["unsat".to_string(); 2];
    let paths = examples();
    let paths = paths.iter().map(|path| path.to_str().expect("a path"));
    let answered: Vec<_> = paths.filter_map(|path| answers(&folder, path)).collect();
    assert!(answered.len() >= 22 && answered.iter().all(|answers| *answers == unsat));
    let (mut asked, mut unknown) = (0, 0);
    for files in some(Class::Sound, Size::SMALL, 21, 200) {
        let stage = folder.stage("s", &files);
        for answer in answers(&folder, &stage).expect("accepted") {
            assert!(
                ["unsat", "unknown", "timeout"].contains(&answer.as_str()),
                "{answer}"
            );
            asked += 1;
            unknown += usize::from(answer != "unsat");
        }
    }
    assert!(asked == 400 && unknown < 40, "{asked}, {unknown}");
}
