//! The tables of docs/PAPERS.md and the page of each folder under examples/papers.

use crate::catalogue::{paper, Chain, Example, Relation, Source, CHAINS, EXAMPLES, PAPERS};
use crate::families::{self, Member, Way};
use crate::formula::Formula;
use crate::root;
use crate::stage::{self, constraints, Stage};
use crate::words;
use reference::{Answer, Edition, NONE};
use std::path::PathBuf;

/// Formulas longer than this are cut in a table; the folder's page has all of them.
const LONG: usize = 110;

pub fn folder(name: &str) -> PathBuf {
    root().join("examples/papers").join(name)
}

/// The papers, as a list.
pub fn papers() -> String {
    let mut out = String::new();
    for paper in &PAPERS {
        let (number, authors, title) = (paper.number, paper.authors, paper.title);
        out += &format!(
            "- **{number}**: {authors}: *{title}*. {}.\n",
            first_upper(paper.printed)
        );
    }
    out
}

/// The examples of one paper.
pub fn examples(number: &str) -> String {
    let mut out = head(&[
        "Example",
        "Where",
        "Source",
        "A",
        "B",
        "The paper's interpolant",
        "Ours",
        "Relation, and why",
    ]);
    for example in EXAMPLES.iter().filter(|e| e.name.starts_with(number)) {
        let stage = Stage::read(&folder(example.name));
        let [a, b] = [&stage.a, &stage.b].map(|bundle| bundle_said(bundle, &stage.constants));
        let mut ours = ours(&stage);
        if ours.len() > LONG {
            let end = ours[..LONG].rfind(" or ").unwrap_or(LONG);
            ours.truncate(end);
            ours += " or ..";
        }
        out += &row(&[
            &format!("[{0}](../examples/papers/{0}/README.md)", example.name),
            example.place,
            example.source.word(),
            &a,
            &b,
            &paper_said(example.paper),
            &format!("`{ours}`"),
            &format!("{}: {}", example.relation.word(), example.why),
        ]);
    }
    out
}

/// The chains, cut by cut.
pub fn chains() -> String {
    let mut out = head(&[
        "Chain",
        "Cut",
        "Source",
        "The paper's, or by definition",
        "Ours",
        "Relation",
    ]);
    for chain in CHAINS {
        let files = stage::Chain::read(&folder(chain.name));
        for (cut, (source, paper, relation)) in chain.cuts.iter().enumerate() {
            let name = format!("[{0}](../examples/papers/{0}/README.md)", chain.name);
            out += &row(&[
                if cut == 0 { &name } else { "" },
                &cut.to_string(),
                source.word(),
                &paper_said(paper),
                &format!("`{}`", ours(&files.cut(cut))),
                relation.word(),
            ]);
        }
    }
    out
}

/// How many stand how, by whose they are.
pub fn counts() -> String {
    let mut all: Vec<(Source, Relation)> =
        EXAMPLES.iter().map(|e| (e.source, e.relation)).collect();
    for chain in CHAINS {
        all.extend(
            chain
                .cuts
                .iter()
                .map(|&(source, _, relation)| (source, relation)),
        );
    }
    let relations = [
        Relation::Identical,
        Relation::Equivalent,
        Relation::Stronger,
        Relation::Weaker,
        Relation::Alone,
        Relation::Refused,
    ];
    let mut names = vec!["Source", "Formulas"];
    names.extend(relations.map(Relation::word));
    let mut out = head(&names);
    let sources = [
        Source::Printed,
        Source::Rebuilt,
        Source::Problem,
        Source::Instance,
        Source::Definition,
        Source::Literal,
    ];
    for source in sources {
        let of = |relation| all.iter().filter(|&&one| one == (source, relation)).count();
        let numbers = relations.map(of);
        let total: usize = numbers.iter().sum();
        let mut cells = vec![
            format!("{}: {}", source.word(), source.said()),
            total.to_string(),
        ];
        cells.extend(numbers.map(|n| if n == 0 { String::new() } else { n.to_string() }));
        out += &row(&cells.iter().map(String::as_str).collect::<Vec<_>>());
    }
    out
}

/// The places where a paper, read word for word, is refused.
pub fn literal() -> String {
    let mut out = head(&["Example", "Where", "As printed", "Answer"]);
    for example in EXAMPLES.iter().filter(|e| e.source == Source::Literal) {
        let stage = Stage::read(&folder(example.name));
        let refusal = stage.check().expect_err("a refusal");
        let (number, title) = (paper(example.name).number, paper(example.name).title);
        out += &row(&[
            &format!("[{0}](../examples/papers/{0}/README.md)", example.name),
            &format!("{number}, *{title}*, {}", example.place),
            example.why,
            &refusal_said(&refusal),
        ]);
    }
    out
}

/// The page of an example.
pub fn example_page(example: &Example) -> String {
    let stage = Stage::read(&folder(example.name));
    let [a, b] = [&stage.a, &stage.b].map(|bundle| bundle_said(bundle, &stage.constants));
    let mut out = page_head(example.name, example.place);
    out += &format!("Source: {}.\n\n", example.source.said());
    out += &format!("- A: {a}\n- B: {b}\n");
    if !example.paper.is_empty() {
        let whose = match example.source {
            Source::Printed | Source::Literal => "The paper's interpolant",
            _ => "To compare with",
        };
        out += &format!("- {whose}: {}\n", paper_said(example.paper));
    }
    out += &format!("- Ours: `{}`\n", ours(&stage));
    out += &format!(
        "- Relation: {}. {}.\n",
        example.relation.word(),
        first_upper(example.why)
    );
    out
}

/// The page of a chain.
pub fn chain_page(chain: &Chain) -> String {
    let files = stage::Chain::read(&folder(chain.name));
    let mut out = page_head(chain.name, chain.place);
    out += "One proof `p` for every cut: at cut 0 all bundles `t1`, `t2`, .. are B, at cut 1 `t1` is A; the guards of the cuts are `i0`, `i1` and so on.\n\n";
    for (i, bundle) in files.stages.iter().enumerate() {
        out += &format!("- T{}: {}\n", i + 1, bundle_said(bundle, &files.constants));
    }
    for (cut, (source, paper, relation)) in chain.cuts.iter().enumerate() {
        out += &format!("- I{cut}: `{}`", ours(&files.cut(cut)));
        if !paper.is_empty() {
            let whose = match source {
                Source::Definition => "by definition",
                _ => "the paper's",
            };
            out += &format!("; {whose}: {} ({})", paper_said(paper), relation.word());
        }
        out += &format!("; {}\n", source.said());
    }
    out += &format!("\n{}.\n", first_upper(chain.why));
    out
}

fn page_head(name: &str, place: &str) -> String {
    let paper = paper(name);
    format!(
        "# {name}\n\n{}: *{}*, {place}.\n\n",
        paper.authors, paper.title
    )
}

/// How a family grows. The last member of each is refused.
pub fn growth(family: &str) -> String {
    use Way::{One, Roundings, Strengthens};
    let members: Vec<Member> = match family {
        "example-2-one" => (2..=9).map(|n| families::example_2(n, One)).collect(),
        "example-2-roundings" => [8, 9, 10, 12, 14, 16, 17]
            .map(|n| families::example_2(n, Roundings))
            .into(),
        "example-2-cases" => [8, 16, 17, 18, 19, 20, 21]
            .map(families::example_2_cases)
            .into(),
        "example-2-strengthens" => (2..=5)
            .map(|n| families::example_2(n, Strengthens))
            .collect(),
        "successive-strengthens" => (1..=9)
            .map(|k| families::successive(k, Strengthens))
            .collect(),
        "successive-roundings" => [1, 2, 3, 4, 8, 12, 16, 17, 24, 32, 33]
            .map(|k| families::successive(k, Roundings))
            .into(),
        "cuts-strengthens" => [1, 2, 4, 6, 8, 9]
            .map(|d| families::pure_cuts(d, false))
            .into(),
        "cuts-splits" => [1, 2, 4, 8, 16, 29, 30]
            .map(|d| families::pure_cuts(d, true))
            .into(),
        "program-2" => [2, 1_000, 32_766]
            .map(|n| families::program_2(n, Edition::One))
            .into_iter()
            .chain([families::program_2(2_147_483_646, Edition::Two)])
            .collect(),
        _ => panic!("no family {family}"),
    };
    let parameter = match family.split('-').next() {
        Some("successive") => "k",
        Some("cuts") => "d",
        _ => "n",
    };
    let mut out = head(&[
        parameter,
        "Bytes of A and B",
        "Rows",
        "Bytes of the proof",
        "Answer",
        "Bytes of the formula",
        "Its leaves",
        "Its levels",
    ]);
    for member in &members {
        out += &member_row(family, member);
    }
    if family == "program-2" {
        let formulas: Vec<_> = members.iter().map(|m| m.stage.check()).collect();
        assert!(formulas.windows(2).all(|two| two[0] == two[1]), "{family}");
    }
    out
}

fn member_row(family: &str, member: &Member) -> String {
    let stage = &member.stage;
    let mut cells = vec![
        thousands(member.parameter as usize),
        (stage.a.len() + stage.b.len()).to_string(),
        thousands(member.rows),
        thousands(stage.p.len()),
    ];
    match stage.check() {
        Ok(file) => {
            let formula = Formula::read(&file);
            if family.starts_with("example-2") {
                let n = member.parameter as i32;
                assert!(families::is_example_2(&formula, n), "{family} at {n}");
            }
            cells.push("accepted".into());
            cells.push(thousands(file.len()));
            cells.push(formula.leaves().to_string());
            cells.push(formula.levels().to_string());
        }
        Err(refusal) => {
            cells.push(refusal_said(&refusal));
            cells.extend(["", "", ""].map(String::from));
        }
    }
    row(&cells.iter().map(String::as_str).collect::<Vec<_>>())
}

fn refusal_said(refusal: &Answer) -> String {
    let mut out = format!(
        "refused {} file {} at {}",
        refusal.number, refusal.file, refusal.place
    );
    if refusal.row != NONE {
        out += &format!(", row {}", refusal.row);
    }
    out
}

/// The formula in words, or the refusal as the program prints it.
fn ours(stage: &Stage) -> String {
    match stage.check() {
        Ok(file) => words::formula(&Formula::read(&file), &stage.constants),
        Err(_) => stage.printed().trim_end().into(),
    }
}

fn bundle_said(bundle: &[u8], names: &[String]) -> String {
    let said: Vec<String> = constraints(bundle)
        .iter()
        .map(|c| format!("`{}`", words::constraint(c, names)))
        .collect();
    if said.is_empty() {
        return "refused".into();
    }
    said.join(", ")
}

fn paper_said(paper: &str) -> String {
    if paper.is_empty() {
        return "none".into();
    }
    paper.to_string()
}

fn head(names: &[&str]) -> String {
    row(names) + &format!("|{}\n", "---|".repeat(names.len()))
}

fn row(cells: &[&str]) -> String {
    let cells: Vec<String> = cells.iter().map(|cell| cell.replace('|', "\\|")).collect();
    format!("| {} |\n", cells.join(" | "))
}

fn first_upper(text: &str) -> String {
    let mut letters = text.chars();
    letters
        .next()
        .map(|first| first.to_uppercase().collect::<String>() + letters.as_str())
        .unwrap_or_default()
}

fn thousands(number: usize) -> String {
    let digits = number.to_string();
    let mut out = String::new();
    for (index, digit) in digits.chars().enumerate() {
        if index > 0 && (digits.len() - index).is_multiple_of(3) {
            out.push(',');
        }
        out.push(digit);
    }
    out
}
