//! A file field by field, with its branches and its fault: what `look` prints and `report` draws.

use crate::fields::{Field, File};
use crate::files::Stage;
use crate::tree::{self, Line, Node, What};
use crate::words;
use dulgaverk::Refusal;

#[derive(PartialEq, Default)]
pub enum Is {
    #[default]
    Field,
    Branch,
    /// The words at a fault, below the field that has it.
    Fault,
}

#[derive(Default)]
pub struct Shown {
    pub is: Is,
    pub depth: usize,
    pub place: Option<usize>,
    pub row: Option<usize>,
    pub bytes: String,
    pub said: String,
    /// The line that it makes or names, with its number, and whether it makes it.
    pub line: Option<(usize, Line)>,
    pub makes: bool,
    /// Whether the refusal is here.
    pub at_fault: bool,
}

/// A, B and the proof of a stage. What concerns the guard is marked behind the proof.
pub fn stage(stage: &Stage, names: &[String]) -> [Vec<Shown>; 3] {
    let refusal = stage.verdict.as_ref().err();
    let mark = |file: u8| refusal.filter(|refusal| refusal.file.min(3) == file);
    let Stage { a, b, p, .. } = stage;
    let tree = tree::tree(a, b, p, stage.right_until());
    [
        file(a, tree::flat(a, 0), mark(1), names),
        file(b, tree::flat(b, a.constraints()), mark(2), names),
        file(p, tree.nodes, mark(3), names),
    ]
}

/// A file: its header, and the nodes behind it.
pub fn file(
    file: &File,
    nodes: Vec<Node>,
    mut refusal: Option<&Refusal>,
    names: &[String],
) -> Vec<Shown> {
    let mut all = Vec::new();
    let header = file.parts().0.iter().map(Node::of);
    for node in header.chain(nodes) {
        let is_at = |place: usize| {
            refusal.is_some_and(|refusal| refusal.file != 4 && refusal.place == place)
        };
        let shown = match node.what {
            What::Branch(step) => Shown {
                is: Is::Branch,
                said: words::branch(&step),
                makes: true,
                ..Shown::default()
            },
            What::Field(field) => Shown {
                place: Some(field.place),
                bytes: grouped(file, field),
                said: match node.number.filter(|_| field.is_constraint()) {
                    Some(number) => format!("line {number}: {}", words::field(field, names)),
                    None => words::field(field, names),
                },
                makes: field.makes_line(),
                at_fault: is_at(field.place),
                ..Shown::default()
            },
        };
        let found = refusal.take_if(|_| shown.at_fault);
        all.push(Shown {
            depth: node.depth,
            row: node.row,
            line: node.number.zip(node.line),
            ..shown
        });
        all.extend(found.map(|refusal| fault(refusal, file, node.depth)));
    }
    if let Some((place, why)) = &file.fault {
        let rest = &file.bytes[*place..];
        all.push(Shown {
            place: Some(*place),
            bytes: words::cut(&words::hex(rest), BYTES),
            said: why.clone(),
            at_fault: true,
            ..Shown::default()
        });
    }
    // What is refused behind the last field, or of the whole file.
    all.extend(refusal.map(|refusal| fault(refusal, file, 0)));
    all
}

fn fault(refusal: &Refusal, file: &File, depth: usize) -> Shown {
    let place = words::place(refusal, &file.fields);
    let place = place.map_or(String::new(), |place| format!(": {place}"));
    let (number, meaning) = (refusal.number, refusal.meaning());
    Shown {
        is: Is::Fault,
        depth,
        said: format!("refused {number} here, {meaning}{place}"),
        ..Shown::default()
    }
}

/// Most characters of a field's bytes.
const BYTES: usize = 52;

/// A field's bytes: tag, length, and each number by itself; a note's together.
fn grouped(file: &File, field: &Field) -> String {
    let bytes = file.bytes_of(field);
    let mut text = format!("{:02X} {}", bytes[0], words::hex(&bytes[1..3]));
    let mut rest = &bytes[3..];
    let widths = match field.is_note() {
        true => vec![rest.len()],
        false => file.widths_of(field),
    };
    for width in widths {
        let (number, behind) = rest.split_at(width);
        rest = behind;
        text = format!("{text} {}", words::hex(number));
    }
    words::cut(text.trim_end(), BYTES)
}
