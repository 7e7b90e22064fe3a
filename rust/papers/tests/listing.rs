//! The lines that are shown are those that the checker makes: read back from the text and claimed behind their rows, they are
//! accepted with the same formula.

use papers::catalogue::EXAMPLES;
use papers::listing::listing;
use papers::stage::Stage;
use papers::tables::folder;
use stages::build::claim;

/// A form as it is shown, such as `-2x + 3b - 1`.
fn form(text: &str, names: &[String]) -> Vec<i32> {
    let mut out = vec![0; names.len() + 1];
    let text = text.replace(" - ", " + -");
    for part in text.split(" + ") {
        let (minus, part) = match part.strip_prefix('-') {
            Some(rest) => (-1, rest),
            None => (1, part),
        };
        let end = part.find(|c: char| !c.is_ascii_digit());
        let (digits, name) = part.split_at(end.unwrap_or(part.len()));
        let number = digits.parse().unwrap_or(1);
        let index = names.iter().position(|n| n == name);
        out[index.unwrap_or(names.len())] += minus * number;
    }
    out
}

/// The line shown behind each row that makes one.
fn lines(stage: &Stage) -> Vec<Vec<u8>> {
    let shown = listing(stage);
    let rows: Vec<&str> = shown.lines().map(str::trim_start).collect();
    let makes = |row: &str| {
        let word = row.split(' ').nth(2);
        row.starts_with("row ") && matches!(word, Some("combine" | "reduce" | "scale"))
    };
    rows.windows(2)
        .filter(|two| makes(two[0]))
        .map(|two| {
            let (_, line) = two[1].split_once(": ").expect("a line");
            let (t, own) = line.split_once("   [").expect("both forms");
            let t = t.rsplit_once(if t.contains("<=") { " <=" } else { " =" });
            let t = form(t.expect("its sign").0, &stage.constants);
            claim(&t, &form(own.trim_end_matches(']'), &stage.constants))
        })
        .collect()
}

#[test]
fn shown_lines_can_be_claimed() {
    let mut claims = 0;
    for example in EXAMPLES {
        let mut stage = Stage::read(&folder(example.name));
        let Ok(formula) = stage.check() else {
            continue;
        };
        let mut lines = lines(&stage).into_iter();
        let (mut rest, mut claimed) = (stage.p.as_slice(), Vec::new());
        while !rest.is_empty() {
            let length = 3 + usize::from(u16::from_be_bytes([rest[1], rest[2]]));
            let (field, behind) = rest.split_at(length);
            rest = behind;
            match field[0] {
                0x20 => {}
                0x10..=0x12 => {
                    claimed.extend_from_slice(field);
                    claimed.extend(lines.next().expect("a line for each such row"));
                    claims += 1;
                }
                _ => claimed.extend_from_slice(field),
            }
        }
        assert_eq!(lines.next(), None, "{}", example.name);
        stage.p = claimed;
        assert_eq!(stage.check(), Ok(formula), "{}", example.name);
    }
    assert!(claims > 100, "{claims} claims");
}
