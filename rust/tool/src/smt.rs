//! `smt`: A, B and the guard for a solver, in the library's print.

use crate::command::{exactly, Command, Ended, NO, YES};
use crate::fields::{self, tag::*, Field, File, Sort};
use crate::files::Stage;
use crate::{names, words};
use std::ffi::OsString;
use std::io::Write;

pub const COMMAND: Command = Command {
    name: "smt",
    what: "prints A, B and the guard as SMT-LIB 2, with the two queries",
    help: "\
usage: dulgaverk smt FOLDER

Prints A, B and the guard of a stage as SMT-LIB 2, and two queries: whether A holds where the guard does not, and whether the
guard and B hold at once. A solver that answers unsat twice has confirmed that the guard is an interpolant, apart from the
registers that it may name. A stage that is refused has no guard: A and B are printed, and the one query whether both hold.
Constraints are printed by the library as guards are, each as a guard of its own; a register is called r.NAME.",
    run,
};

fn run(arguments: &[OsString], out: &mut dyn Write) -> Ended {
    let [folder] = exactly(arguments, "a folder")?;
    let (stage, names) = Stage::open(folder)?;
    // A name with a dot is none of SMT-LIB's words; bars are for letters that those do not have.
    let symbol = |name: &String| match name.is_ascii() {
        true => format!("r.{name}"),
        false => format!("|r.{name}|"),
    };
    let names: Vec<String> = names.iter().map(symbol).collect();
    let (a, b) = (
        bundle("a", &stage.a, &names)?,
        bundle("b", &stage.b, &names)?,
    );
    if let Err(refusal) = &stage.verdict {
        let said = words::refusal(refusal, &stage.p.fields);
        writeln!(out, "; {said}: no guard")?;
    }
    writeln!(out, "(set-logic QF_LIA)")?;
    for name in &names {
        writeln!(out, "(declare-const {name} Int)")?;
    }
    writeln!(
        out,
        "(define-fun A () Bool {a})\n(define-fun B () Bool {b})"
    )?;
    let Ok(guard) = &stage.verdict else {
        writeln!(out, "(assert A)\n(assert B)\n(check-sat)")?;
        return Ok(NO);
    };
    let guard = term(guard, &names)?;
    writeln!(out, "(define-fun guard () Bool {guard})")?;
    writeln!(
        out,
        "(push 1)(assert A)(assert (not guard))(check-sat)(pop 1)"
    )?;
    writeln!(out, "(push 1)(assert guard)(assert B)(check-sat)(pop 1)")?;
    Ok(YES)
}

fn term(formula: &[u8], names: &[String]) -> Result<String, String> {
    let text = dulgaverk::print(formula).map_err(|refusal| refusal.to_string())?;
    Ok(names::put(&text, names))
}

/// All constraints of a bundle, each printed as the formula that says the same.
fn bundle(name: &str, file: &File, names: &[String]) -> Result<String, String> {
    if let Some((place, why)) = &file.fault {
        return Err(format!("{name} is not laid out at byte {place}: {why}"));
    }
    let header = [
        Field::new(EDITION, &[1]),
        Field::new(CONSTANTS, &[file.constants as i64]),
    ];
    let mut text = "(and true".to_string();
    for field in file.fields.iter().filter(|field| field.is_constraint()) {
        let tag = if field.tag == INEQUALITY {
            AT_MOST
        } else {
            EQUAL
        };
        let mut fields = header.to_vec();
        fields.push(Field::new(tag, &field.numbers));
        let term = term(&fields::write(Sort::Formula, &fields), names)?;
        text.push_str("\n  ");
        text.push_str(&match field.tag {
            DISEQUALITY => format!("(not {term})"),
            _ => term,
        });
    }
    text.push(')');
    Ok(text)
}
