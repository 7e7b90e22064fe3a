//! Forms, constraints and formulas in words, with the papers' names for the constants.

use crate::formula::Formula;
use crate::stage::{Constraint, Kind};
use std::fmt::Write;

/// A form, such as `2x - 3b + 1`.
pub fn form<N: Copy + Into<i64>>(form: &[N], names: &[String]) -> String {
    let mut out = String::new();
    for (index, &number) in form.iter().enumerate() {
        let number: i64 = number.into();
        if number == 0 {
            continue;
        }
        out.push_str(match (out.is_empty(), number < 0) {
            (true, true) => "-",
            (true, false) => "",
            (false, true) => " - ",
            (false, false) => " + ",
        });
        let name = names.get(index).map_or("", |name| name);
        if number.abs() != 1 || name.is_empty() {
            write!(out, "{}", number.abs()).expect("text");
        }
        out.push_str(name);
    }
    if out.is_empty() {
        out.push('0');
    }
    out
}

/// What a kind says behind a form.
pub fn sign(kind: Kind) -> &'static str {
    match kind {
        Kind::AtMostZero => "<= 0",
        Kind::Zero => "= 0",
        Kind::NotZero => "!= 0",
    }
}

pub fn constraint(constraint: &Constraint, names: &[String]) -> String {
    format!(
        "{} {}",
        form(&constraint.form, names),
        sign(constraint.kind)
    )
}

/// A formula; what one and or one or joins to the right stands side by side.
pub fn formula(whole: &Formula, names: &[String]) -> String {
    match whole {
        Formula::Or(i, j) => junction(i, j, " or ", names),
        Formula::And(i, j) => junction(i, j, " and ", names),
        Formula::AtMostZero(t) => format!("{} <= 0", form(t, names)),
        Formula::Zero(t) => format!("{} = 0", form(t, names)),
        Formula::Divides(g, t) => format!("{g} divides {}", form(t, names)),
    }
}

fn junction(i: &Formula, j: &Formula, word: &str, names: &[String]) -> String {
    let same = matches!(
        (j, word),
        (Formula::Or(..), " or ") | (Formula::And(..), " and ")
    );
    let right = if same {
        formula(j, names)
    } else {
        bracketed(j, names)
    };
    format!("{}{word}{right}", bracketed(i, names))
}

fn bracketed(part: &Formula, names: &[String]) -> String {
    let said = formula(part, names);
    if part.levels() > 0 {
        format!("({said})")
    } else {
        said
    }
}
