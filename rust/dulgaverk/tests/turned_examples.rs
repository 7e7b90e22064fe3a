//! The stages under examples/, turned into the other edition and back, and checked.

mod common;
use common::root;

use dulgaverk::{check, turn_bundle, turn_proof, Edition, Refusal};
use stages::damage::{edition_of, fields};
use std::fs;

type Turn = fn(&[u8], Edition) -> Result<Vec<u8>, Refusal>;

const TURNS: [(&str, Turn); 3] = [("a", turn_bundle), ("b", turn_bundle), ("p", turn_proof)];

/// The files that cannot be turned, with number, file and place of the refusal.
const REFUSED: [(&str, &str, (u8, u8, usize)); 14] = [
    ("stage-10-constants", "a", (7, 1, 4)),
    ("stage-10-constants", "b", (7, 1, 4)),
    ("stage-10-constants", "p", (7, 3, 4)),
    ("stage-10-constraints", "a", (8, 1, 1_192)),
    ("stage-8-edition", "a", (5, 1, 0)),
    ("stage-8-edition-2", "a", (6, 1, 8)),
    ("stage-8-tag", "a", (3, 1, 8)),
    ("stage-four-bytes", "a", (13, 1, 8)),
    ("stage-four-bytes-edition", "a", (6, 1, 8)),
    ("stage-four-bytes-lowest", "a", (13, 1, 8)),
    ("stage-long", "a", (13, 1, 8)),
    ("stage-long-over", "a", (13, 1, 8)),
    ("stage-long-over", "b", (1, 1, 0)),
    ("stage-pump", "b", (13, 1, 8)),
];

/// The stage whose branch is too long for edition 1, and the same with the proof turned down.
const TOO_LONG: &str = "stage-lines";
const TOO_LONG_TURNED: &str = "stage-lines-turned";

/// The names of the stages and their files, in order.
fn stages() -> Vec<(String, [Vec<u8>; 3])> {
    let mut list: Vec<_> = fs::read_dir(root().join("examples"))
        .expect("examples/")
        .map(|entry| entry.expect("an entry").path())
        .filter(|path| path.join("p").is_file())
        .map(|path| {
            let name = path.file_name().and_then(|n| n.to_str()).expect("a name");
            let files = ["a", "b", "p"].map(|file| fs::read(path.join(file)).expect("a file"));
            (name.to_string(), files)
        })
        .collect();
    list.sort();
    list
}

fn other(file: &[u8]) -> Edition {
    match edition_of(file).number() {
        1 => Edition::Two,
        _ => Edition::One,
    }
}

fn without_notes(file: &[u8]) -> Vec<u8> {
    let parts = fields(file).into_iter().map(|part| &file[part]);
    let kept: Vec<&[u8]> = parts.filter(|part| part[0] < 0x80).collect();
    kept.concat()
}

/// Every file is turned up or down and back again, or refused as the table says.
#[test]
fn every_file_there_and_back() {
    let mut refused = Vec::new();
    let (mut up, mut down) = (0, 0);
    for (name, files) in stages() {
        for ((file, turn), bytes) in TURNS.into_iter().zip(&files) {
            let to = other(bytes);
            match turn(bytes, to) {
                Err(refusal) => {
                    let told = Refusal::outside(refusal.number, refusal.file, refusal.place);
                    assert_eq!(refusal, told, "{name}/{file}");
                    let place = (refusal.number, refusal.file, refusal.place);
                    refused.push((name.clone(), file, place));
                }
                Ok(turned) => {
                    let back = turn(&turned, other(&turned));
                    assert_eq!(back, Ok(without_notes(bytes)), "{name}/{file}");
                    assert_eq!(turn(&turned, to).expect_err("its own edition").number, 5);
                    match to {
                        Edition::One => down += 1,
                        Edition::Two => up += 1,
                    }
                }
            }
        }
    }
    let expected = REFUSED.map(|(name, file, place)| (name.to_string(), file, place));
    assert_eq!(refused, expected);
    assert!(up > 60 && down > 15, "{up} up, {down} down");
}

/// Every choice of a stage's files, turned: an accepted stage stays accepted with the same formula, a refused one is refused
/// by the same number. Only a branch with more than 128 lines is accepted in one edition and not in the other.
#[test]
fn every_stage_checked() {
    let (mut accepted, mut checks) = (0, 0);
    let mut long = None;
    for (name, [a, b, p]) in stages() {
        let before = check(&a, &b, &p);
        accepted += u32::from(before.is_ok());
        if name == TOO_LONG {
            long = before.clone().ok();
        }
        for choice in 1..8 {
            let mut files = [a.clone(), b.clone(), p.clone()];
            let all = (0..3).filter(|file| choice >> file & 1 == 1).all(|file| {
                let turned = TURNS[file].1(&files[file], other(&files[file]));
                turned.map(|new| files[file] = new).is_ok()
            });
            if !all {
                continue;
            }
            checks += 1;
            let after = check(&files[0], &files[1], &files[2]);
            let number = |refusal: &Refusal| (refusal.number, refusal.file);
            let expected = match &before {
                Ok(_) if name == TOO_LONG && choice & 4 != 0 => Err((16, 3)),
                Err(_) if name == TOO_LONG_TURNED && choice & 4 != 0 => {
                    Ok(long.as_ref().expect("the stage before"))
                }
                Ok(formula) => Ok(formula),
                Err(refusal) => Err(number(refusal)),
            };
            assert_eq!(after.as_ref().map_err(number), expected, "{name} {choice}");
        }
    }
    assert!(accepted > 15 && checks > 150, "{accepted}, {checks}");
}

/// The two stages that are turned ones.
#[test]
fn the_turned_stages() {
    let stages = stages();
    let files = |name: &str| -> &[Vec<u8>; 3] {
        let found = stages.iter().find(|stage| stage.0 == name);
        &found.expect("a stage").1
    };
    let (short, long) = (files(TOO_LONG_TURNED), files(TOO_LONG));
    assert_eq!(turn_proof(&long[2], Edition::One).as_ref(), Ok(&short[2]));
    assert_eq!((&short[0], &short[1]), (&long[0], &long[1]));

    let [a, b, p] = files("stage-5-turned");
    let [first_a, first_b, first_p] = files("stage-5");
    assert_eq!(turn_bundle(first_a, Edition::Two).as_ref(), Ok(a));
    assert_eq!(turn_bundle(first_b, Edition::Two).as_ref(), Ok(b));
    // Beside stage 5 it has a claim behind the first combine, which keeps its form.
    let mut claimed = first_p.clone();
    claimed.splice(21..21, p[24..43].iter().copied());
    assert_eq!(turn_proof(&claimed, Edition::Two).as_ref(), Ok(p));
    assert_eq!(check(a, b, p), check(first_a, first_b, &claimed));
}
