//! Constraints and formulas as terms of SMT-LIB.

use crate::formula::Formula;
use crate::stage::{Constraint, Kind};

/// All constraints of a bundle.
pub fn conjunction(constraints: &[Constraint], names: &[String]) -> String {
    let parts: Vec<String> = constraints.iter().map(|c| constraint(c, names)).collect();
    match parts.as_slice() {
        [] => "true".into(),
        [one] => one.clone(),
        all => format!("(and {})", all.join(" ")),
    }
}

fn constraint(constraint: &Constraint, names: &[String]) -> String {
    let sum = form(&constraint.form, names);
    match constraint.kind {
        Kind::AtMostZero => format!("(<= {sum} 0)"),
        Kind::Zero => format!("(= {sum} 0)"),
        Kind::NotZero => format!("(not (= {sum} 0))"),
    }
}

pub fn formula(whole: &Formula, names: &[String]) -> String {
    match whole {
        Formula::Or(i, j) => format!("(or {} {})", formula(i, names), formula(j, names)),
        Formula::And(i, j) => format!("(and {} {})", formula(i, names), formula(j, names)),
        Formula::AtMostZero(t) => format!("(<= {} 0)", form(t, names)),
        Formula::Zero(t) => format!("(= {} 0)", form(t, names)),
        Formula::Divides(g, t) => format!("(= (mod {} {g}) 0)", form(t, names)),
    }
}

fn form(form: &[i32], names: &[String]) -> String {
    let mut parts: Vec<String> = form
        .iter()
        .zip(names)
        .filter(|(&number, _)| number != 0)
        .map(|(&number, name)| match number {
            1 => name.clone(),
            _ => format!("(* {} {name})", numeral(number)),
        })
        .collect();
    let d = form[names.len()];
    if d != 0 || parts.is_empty() {
        parts.push(numeral(d));
    }
    match parts.as_slice() {
        [one] => one.clone(),
        all => format!("(+ {})", all.join(" ")),
    }
}

fn numeral(number: i32) -> String {
    if number < 0 {
        format!("(- {})", number.unsigned_abs())
    } else {
        number.to_string()
    }
}
