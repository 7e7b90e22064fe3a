//! Writes a crate of statements: for each case on standard input, one that the definitions give the answer and the
//! buffers that the reference checker gave. Each is proved by evaluation.
//!
//! usage: trial DIR < CASES

use std::fmt::Write as _;
use std::io::Read as _;
use std::path::Path;

/// How many cases stand in one file.
const CASES_A_FILE: usize = 25;

/// The number that is no longer given: no case has it.
const NOT_GIVEN: &str = "22";

const USES: &str = "use mathlib.Core.Path.{◌≡◌, refl}
use mathlib.Core.List.{List, [], ◌∷◌, ◌++◌}
use mathlib.Core.Bool.{true, false}
use Prim.Native.Nat.{ℕ, zero, suc}
use lib.ListN.{replicate}
use lib.IntN.{ℤ, pos, negsuc}
use Rattle.forms.specs.Edition.{newest_edition}
use Rattle.integers.specs.Remainder.{remainder}
use Rattle.forms.specs.Forms.{coeff, sum, value, sums, ◌⊞◌, ◌·◌, ◌plus◌, nonzero, small, every}
use Rattle.forms.specs.Reduced.{reduced}
use Rattle.calculus.specs.Rules.{in_range}
use Rattle.answers.specs.Answers.{position, answer_at, row_told, ◌>>=◌, ◌>>◌, need, found, each, over, fit, written}
use Rattle.number_bytes.specs.Numbers.{unsigned, complement, signed, unsigned_bytes, residue, signed_bytes, unsigneds, unsigneds_bytes, signeds, signeds_bytes, flat, form_from, form_bytes}
use Rattle.number_bytes.specs.Same.{same_bytes}
use Rattle.fields.specs.Fields.{front, note, unless_note, fields_from, fields, field_bytes, nth, file_of}
use Rattle.fields.specs.Header.{header_tag, known, agrees, header_field, edition_field, constants_field, header, finished, header_bytes}
use Rattle.bundle.specs.Bundle.{kind_tagged, at_most, form_small, constraints, bundle_header, bundle, bundles, both_read}
use Rattle.bundle.specs.Read.{kind_number, kinds_of, numbers_of, unread, store, stored, read_bundle}
use Rattle.bundle.specs.Write.{constraints_bytes, holdable, encode_bundle, write_bundle}
use Rattle.bundle.specs.Show.{part_of, constraint_part, shown_part, answer_of, show_answer, handed, show_part}
use Rattle.formula.specs.Formula.{encode, formula_file, formula_tagged, compound, formula_size, formula_of, formula_field, two_parts, formula_within, read_formula}
use Rattle.formula.specs.Test.{holds, judge, tested, judged, test_formula}
use Rattle.formula.specs.TestList.{vectors, read_for_list, truths, test_list}
use Rattle.printing.specs.Text.{decimal_by, decimal, term_text, prop_text}
use Rattle.printing.specs.Translation.{integer, unless_zero, terms_of, summed, term_of, smt}
use Rattle.printing.specs.Words.{unless_none, summands_of, sum_of, worded}
use Rattle.printing.specs.WordsText.{summand_text, summands_text, sum_text, wording_text}
use Rattle.printing.specs.Print.{text_behind, printed, print_formula}
use Rattle.proof.specs.Entries.{entry_tagged, renumbered, in_place, line_number, multiplier, size_of, entry_from, entry}
use Rattle.proof.specs.Rows.{is, plain_kind, owner, fails, equals, same_form, line_at, derived, fitting, undivided, inequality, roundable, disequality, by_number, by_stride, states}
use Rattle.conversion.specs.Turning.{asked, other_edition, each_field, numbers_fit, result_within, bundle_turned, behind_header, entries_read, makes_line, lines_fit, lines_turned, fields_turned, proof_turned, turn_bundle, turn_proof}
use Rattle.proof.specs.Check.{check_rounded, check_split, check_row, check_entry, check_entries, check_branch, check_proof, formula_at_most, interpolant, check_by, check}
use Rattle.shortening.specs.Shorten.{shorter, shortening, fit_both, written_both, shorten}
use Rattle.enumeration.specs.ShortProofs.{row_item, proof_file}
use Rattle.enumeration.specs.Sequence.{concat_map, up_from, combines, reduces, scales, inferences, number_closes, stride_closes, close_rows, new_line, close_formula, if_accepted, proofs_of, short_proofs_of, short_proofs}
use Rattle.enumeration.specs.Next.{first_rows, following, next_rows, next_file, next_proof}
use Rattle.run.specs.Uniform.{with_number, same_items, walk_branches, first_and_third, all_alike, walk_opened, walk_closed, walk_row, walk_entry, walk_entries, walk_branch, uniform}
use Rattle.run.specs.Run.{parted, total, parts, stages_short, read_stages, constants_of, run_of, claim_refused, check_cut, both, check_cuts, check_run, guard_files, unwritten, fit_guards, written_guards, guards_by, guards}
use Rattle.scheduler.specs.Scheduler.{empty, is_waiting, submission, cancellation, next_from, next_seat, check_job, turn_at, turn as turned}
use Rattle.scheduler.specs.Promises.{changed}
use Rattle.scheduler.specs.Table.{submit, cancel, turn, job, played}

";

/// The names that one operation's evaluation opens.
const SHARED: &str = "small every flat ◌>>=◌ ◌>>◌ need found unsigned complement signed signeds form_from front note unless_note fields_from fields header_tag known agrees header_field edition_field constants_field header";
const BUNDLES: &str = "kind_tagged at_most form_small constraints bundle_header bundle bundles";
const WRITING: &str =
    "over fit written unsigned_bytes residue signed_bytes signeds_bytes field_bytes header_bytes";
const CHECK: &str = "row_told remainder coeff sum value sums ◌⊞◌ ◌·◌ ◌plus◌ nonzero reduced in_range form_bytes finished encode formula_file entry_tagged in_place line_number multiplier size_of entry_from entry is plain_kind owner fails equals same_form line_at derived fitting undivided inequality roundable disequality by_number by_stride states check_rounded check_split check_row check_entry check_entries check_branch check_proof formula_at_most interpolant check_by check";
const NEXT: &str = "remainder coeff sum value sums ◌⊞◌ ◌·◌ nonzero reduced in_range is plain_kind fails line_at derived fitting by_number by_stride file_of row_item proof_file concat_map up_from combines reduces scales inferences number_closes stride_closes close_rows new_line close_formula if_accepted proofs_of short_proofs_of both_read short_proofs same_bytes first_rows following next_rows next_file next_proof";
const READ: &str = "over kind_number kinds_of numbers_of unread store stored read_bundle";
const WRITE: &str = "each constraints_bytes holdable encode_bundle write_bundle";
const SHOW: &str =
    "both_read nth part_of constraint_part shown_part answer_of show_answer handed show_part";
const SEATS: &str =
    "is_waiting submission cancellation next_from next_seat check_job turn_at turned changed";
const GUARDS: &str = "with_number same_bytes same_items walk_branches first_and_third all_alike walk_opened walk_closed walk_row walk_entry walk_entries walk_branch uniform parted total parts stages_short read_stages constants_of run_of claim_refused check_cut both check_cuts check_run guard_files unwritten fit_guards written_guards guards_by guards";
const TEST: &str = "each sum value finished formula_tagged compound formula_size formula_of formula_field two_parts formula_within read_formula holds judge tested judged test_formula";
const LIST: &str = "over fit written vectors read_for_list truths test_list";
const PRINT: &str = "over fit written nonzero decimal decimal_by text_behind printed print_formula";
const PRINT_TERMS: &str = "integer unless_zero terms_of summed term_of smt term_text prop_text";
const PRINT_WORDS: &str =
    "unless_none summands_of sum_of worded summand_text summands_text sum_text wording_text";
const TURN_BUNDLE: &str =
    "asked other_edition behind_header each_field each kind_number kinds_of numbers_of numbers_fit constraints_bytes holdable encode_bundle result_within bundle_turned turn_bundle";
const TURN_PROOF: &str = "asked other_edition each_field at_most form_bytes finished entry_tagged in_place line_number multiplier size_of entry_from entry behind_header entries_read makes_line unsigneds lines_fit unsigneds_bytes renumbered lines_turned fields_turned result_within proof_turned turn_proof";
const SHORTEN: &str =
    "unsigneds unsigneds_bytes renumbered file_of shorter shortening fit_both written_both shorten";

fn list(items: impl Iterator<Item = String>) -> String {
    let mut text = String::new();
    for item in items {
        let _ = write!(text, "{item} ∷ ");
    }
    text + "[]"
}

fn hex_list(hex: &str) -> String {
    list((0..hex.len() / 2).map(|i| format!("0x{}", &hex[2 * i..2 * i + 2])))
}

/// Bytes as the case list writes them: chunks joined by `+`, each HEX or HEX*N.
fn bytes(field: &str) -> String {
    if field == "-" {
        return "[]".to_string();
    }
    let chunks = field.split('+').map(|chunk| match chunk.split_once('*') {
        None => format!("({})", hex_list(chunk)),
        Some((hex, n)) if hex.len() == 2 => format!("(replicate {n} 0x{hex})"),
        Some((hex, n)) => format!("(times {n} ({}))", hex_list(hex)),
    });
    format!("({})", chunks.collect::<Vec<_>>().join(" ++ "))
}

/// How many bytes the field stands for.
fn size(field: &str) -> usize {
    if field == "-" {
        return 0;
    }
    let chunk = |c: &str| match c.split_once('*') {
        None => c.len() / 2,
        Some((hex, n)) => hex.len() / 2 * n.parse::<usize>().expect("a count"),
    };
    field.split('+').map(chunk).sum()
}

fn numbers(field: &str) -> Vec<i64> {
    if field == "-" {
        return Vec::new();
    }
    field
        .split(',')
        .map(|n| n.parse().expect("a number"))
        .collect()
}

fn naturals(field: &str) -> String {
    list(numbers(field).iter().map(i64::to_string))
}

/// Sizes and lengths, up to the largest `usize`.
fn sizes(field: &str) -> Vec<u64> {
    if field == "-" {
        return Vec::new();
    }
    field
        .split(',')
        .map(|n| n.parse().expect("a size"))
        .collect()
}

fn size_list(field: &str) -> String {
    list(sizes(field).iter().map(u64::to_string))
}

fn integers(field: &str) -> String {
    list(numbers(field).iter().map(|&z| {
        if z < 0 {
            format!("negsuc {}", -(z + 1))
        } else {
            format!("pos {z}")
        }
    }))
}

fn left(lent: &str, used: usize) -> usize {
    lent.parse::<usize>().expect("a length") - used
}

/// An answer as the definitions write it, from its number, file, place, row, step and branch.
fn answer(words: &[&str]) -> String {
    let [number, file, place, row, step, branch] = words else {
        panic!("an answer has six numbers: {words:?}");
    };
    format!("answer_at {row} (position {step} {branch}) {number} {file} {place}")
}

fn written(words: &[&str], lent: &str, output: &str) -> String {
    let used = size(output);
    format!(
        "record {{ answer = {}; count = {used}; output = {} ++ replicate {} 0xAA }}",
        answer(words),
        bytes(output),
        left(lent, used)
    )
}

/// A call at the scheduler, as the table of the definitions writes it.
fn call(word: &str) -> String {
    match word.split(':').collect::<Vec<_>>()[..] {
        ["submit", seat, job] => format!("submit {seat} (job {})", job.replace(',', " ")),
        ["cancel", seat] => format!("cancel {seat}"),
        ["turn", room, hex] => format!("turn ({}) {room}", hex_list(hex)),
        _ => panic!("no call: {word}"),
    }
}

/// A turn's statement: what the definition of this name gives.
fn turned(
    name: &str,
    edition: &str,
    file: &str,
    words: &[&str],
    lent: &str,
    output: &str,
) -> String {
    format!(
        "{name} {edition} {} (replicate {lent} 0xAA) ≡ {}",
        bytes(file),
        written(words, lent, output)
    )
}

/// The statement of a case, and the names that its evaluation opens.
fn statement(case: &[&str]) -> (String, String) {
    match case {
        ["check", _, _, _, _, NOT_GIVEN, ..] => panic!("a number that is not given: {case:?}"),
        ["check", a, b, p, lent, words @ .., output] => (
            format!(
                "check {} {} {} (replicate {lent} 0xAA) ≡ {}",
                bytes(a),
                bytes(b),
                bytes(p),
                written(words, lent, output)
            ),
            format!("{SHARED} {BUNDLES} {WRITING} {CHECK}"),
        ),
        ["next-proof", a, b, table, lent, words @ .., output] => (
            format!(
                "next_proof {} {} {} (replicate {lent} 0xAA) ≡ {}",
                bytes(a),
                bytes(b),
                bytes(table),
                written(words, lent, output)
            ),
            format!("{SHARED} {BUNDLES} {WRITING} {NEXT}"),
        ),
        ["read", file, kinds, nums, words @ .., count, k, edition, out_kinds, out_nums] => (
            format!(
                "read_bundle (replicate {kinds} 0xAA) (replicate {nums} (pos 0x55)) newest_edition {} ≡ record {{ answer = {}; count = {count}; K = {k}; edition = {edition}; kinds = ({}) ++ replicate {} 0xAA; numbers = ({}) ++ replicate {} (pos 0x55) }}",
                bytes(file),
                answer(words),
                naturals(out_kinds),
                left(kinds, numbers(out_kinds).len()),
                integers(out_nums),
                left(nums, numbers(out_nums).len())
            ),
            format!("{SHARED} {BUNDLES} {READ}"),
        ),
        ["write", edition, k, kinds, nums, lent, words @ .., output] => (
            format!(
                "write_bundle newest_edition {edition} {k} ({}) ({}) (replicate {lent} 0xAA) ≡ {}",
                naturals(kinds),
                integers(nums),
                written(words, lent, output)
            ),
            format!("{SHARED} {WRITING} {WRITE}"),
        ),
        ["show", a, b, line, words @ .., part] => {
            let part = if *part == "-" { "1:0:0" } else { part };
            let at: Vec<usize> = part.split(':').map(|x| x.parse().expect("a part")).collect();
            let (a, b) = (bytes(a), bytes(b));
            (
                format!(
                    "(show_answer newest_edition {a} {b} {line} ≡ {}) × (show_part newest_edition {a} {b} {line} ≡ record {{ file = {}; start = {}; size = {} }})",
                    answer(words),
                    at[0],
                    at[1],
                    at[2] - at[1]
                ),
                format!("{SHARED} {BUNDLES} {SHOW}"),
            )
        }
        ["test", file, values, words @ .., result] => (
            format!(
                "test_formula {} ({}) ≡ record {{ answer = {}; holds = {} }}",
                bytes(file),
                integers(values),
                answer(words),
                if *result == "true" { "true" } else { "false" }
            ),
            format!("{SHARED} {TEST}"),
        ),
        ["seats", calls @ ..] => {
            let (calls, tells): (Vec<_>, Vec<_>) = calls
                .iter()
                .map(|word| word.split_once('=').expect("a call and what it tells"))
                .unzip();
            (
                format!(
                    "played empty ({}) ≡ {}",
                    list(calls.into_iter().map(call)),
                    list(tells.into_iter().map(|told| {
                        let numbers = told.split(',').map(str::to_string);
                        format!("({})", list(numbers))
                    }))
                ),
                format!("{SHARED} {BUNDLES} {WRITING} {CHECK} {SEATS}"),
            )
        }
        ["turn-bundle", file, edition, lent, words @ .., output] => (
            turned("turn_bundle", edition, file, words, lent, output),
            format!("{SHARED} {BUNDLES} {WRITING} {TURN_BUNDLE}"),
        ),
        ["turn-proof", file, edition, lent, words @ .., output] => (
            turned("turn_proof", edition, file, words, lent, output),
            format!("{SHARED} {WRITING} {TURN_PROOF}"),
        ),
        ["shorten", a, b, p, report_lent, table_lent, words @ .., report, table] => (
            format!(
                "shorten {} {} {} (replicate {report_lent} 0xAA) (replicate {table_lent} 0xAA) ≡ record {{ answer = {}; rows = {}; count = {}; report = {} ++ replicate {} 0xAA; table = {} ++ replicate {} 0xAA }}",
                bytes(a),
                bytes(b),
                bytes(p),
                answer(words),
                size(report),
                size(table),
                bytes(report),
                left(report_lent, size(report)),
                bytes(table),
                left(table_lent, size(table))
            ),
            format!("{SHARED} {BUNDLES} {WRITING} {CHECK} {SHORTEN}"),
        ),
        ["list", file, k, values, lent, words @ .., output] => (
            format!(
                "test_list {} {k} ({}) (replicate {lent} 0xAA) ≡ {}",
                bytes(file),
                integers(values),
                written(words, lent, output)
            ),
            format!("{SHARED} {TEST} {LIST}"),
        ),
        ["print", file, lent, words @ .., output] => (
            printed("false", file, lent, words, output),
            format!("{SHARED} {TEST} {PRINT} {PRINT_TERMS}"),
        ),
        ["print-words", file, lent, words @ .., output] => (
            printed("true", file, lent, words, output),
            format!("{SHARED} {TEST} {PRINT} {PRINT_WORDS}"),
        ),
        ["guards", buffer, lengths, proof, lent, slots, words @ .., output, filled] => {
            let used = size(output);
            (
                format!(
                    "guards {} ({}) {} (replicate {lent} 0xAA) (replicate {slots} 7) ≡ record {{ answer = {}; count = {used}; output = {} ++ replicate {} 0xAA; sizes = ({}) ++ replicate {} 7 }}",
                    bytes(buffer),
                    size_list(lengths),
                    bytes(proof),
                    answer(words),
                    bytes(output),
                    left(lent, used),
                    size_list(filled),
                    left(slots, sizes(filled).len())
                ),
                format!("{SHARED} {BUNDLES} {WRITING} {CHECK} {GUARDS}"),
            )
        }
        other => panic!("no case: {other:?}"),
    }
}

/// A formula printed, in words or not.
fn printed(wording: &str, file: &str, lent: &str, words: &[&str], output: &str) -> String {
    format!(
        "print_formula {wording} {} (replicate {lent} 0xAA) ≡ {}",
        bytes(file),
        written(words, lent, output)
    )
}

fn main() {
    let folder = std::env::args().nth(1).expect("usage: trial DIR < CASES");
    let folder = Path::new(&folder);
    let mut cases = String::new();
    std::io::stdin()
        .read_to_string(&mut cases)
        .expect("cases on standard input");
    let cases: Vec<&str> = cases.lines().filter(|l| !l.is_empty()).collect();

    for sub in ["src", "specs", "proofs"] {
        std::fs::create_dir_all(folder.join(sub)).expect("a folder");
    }
    let put = |name: &str, text: &str| std::fs::write(folder.join(name), text).expect("a file");
    put(
        "src/lib.rt",
        "// The definitions against the reference checker.\n",
    );
    put("specs/Lib.antt", "-- Nothing.\n");
    let mut modules = String::from("-- The cases.\n");
    for (number, chunk) in cases.chunks(CASES_A_FILE).enumerate() {
        let mut text = format!("-- Cases of the reference checker. By evaluation.\n{USES}abbrev times : ℕ → List ℕ → List ℕ\ntimes zero bs = []\ntimes (suc n) bs = bs ++ times n bs\n");
        for (i, case) in chunk.iter().enumerate() {
            let words: Vec<&str> = case.split(' ').collect();
            let (statement, names) = statement(&words);
            let name = format!("case-{}", number * CASES_A_FILE + i);
            let proof = if words[0] == "show" {
                "(refl, refl)"
            } else {
                "refl"
            };
            let _ = write!(
                text,
                "\n{name} : {statement}\nunfolding {names}\n{name} = {proof}\n"
            );
        }
        put(&format!("proofs/Cases{number}.antt"), &text);
        let _ = writeln!(modules, "pub mod Cases{number}");
    }
    put("proofs/Lib.antt", &modules);
}
