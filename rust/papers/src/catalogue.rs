//! What is said of each example: where it stands in its paper, whose it is, the interpolant as the paper prints it, how ours
//! stands to that, and why. Ours, A and B come from the files of its folder under examples/papers.

/// A source paper; a folder's name starts with its number.
pub struct Paper {
    pub number: &'static str,
    pub authors: &'static str,
    pub title: &'static str,
    /// Where and when, as the copy prints it.
    pub printed: &'static str,
}

pub const PAPERS: [Paper; 5] = [
    Paper {
        number: "000",
        authors: "Angelo Brillout, Daniel Kroening, Philipp Rümmer, Thomas Wahl",
        title: "An Interpolating Sequent Calculus for Quantifier-Free Presburger Arithmetic",
        printed: "\"an extended version of a publication that appeared at IJCAR\"; our copy prints no year, its reference [3] gives 2010 for IJCAR",
    },
    Paper {
        number: "001",
        authors: "Jürgen Christ, Jochen Hoenicke, Alexander Nutz",
        title: "Proof Tree Preserving Interpolation",
        printed: "AVACS Technical Report No. 89, February 2013",
    },
    Paper {
        number: "002",
        authors: "Alberto Griggio, Thi Thieu Hoa Le, Roberto Sebastiani",
        title: "Efficient Interpolant Generation in Satisfiability Modulo Linear Integer Arithmetic",
        printed: "our copy prints no year; paper 000 cites it as TACAS, 2011",
    },
    Paper {
        number: "003",
        authors: "Angelo Brillout, Daniel Kroening, Philipp Rümmer, Thomas Wahl",
        title: "Beyond Quantifier-Free Interpolation in Extensions of Presburger Arithmetic",
        printed: "our copy starts at the abstract; authors, title and the year 2011 are those of the paper of VMCAI that paper 001 cites, taken to be this one by its subject",
    },
    Paper {
        number: "004",
        authors: "Angelo Brillout, Daniel Kroening, Philipp Rümmer, Thomas Wahl",
        title: "Program Verification via Craig Interpolation for Presburger Arithmetic with Arrays",
        printed: "VERIFY-2010 (EPiC Series, vol. 3), pp. 31-46",
    },
];

#[derive(Clone, Copy, PartialEq, Eq, Debug)]
pub enum Source {
    /// Problem and interpolant are the paper's.
    Printed,
    /// The interpolant is printed, the steps are rebuilt from the text, as our copy lacks the figure.
    Rebuilt,
    /// Only the problem is the paper's.
    Problem,
    /// Made up here for a rule that the paper prints; what ours is compared with was worked out here by that rule.
    Instance,
    /// True or false by the definition of a chain.
    Definition,
    /// A place of the paper as our copy prints it, word for word.
    Literal,
}

impl Source {
    pub fn said(self) -> &'static str {
        match self {
            Source::Printed => "the paper's problem and interpolant",
            Source::Rebuilt => "the paper's interpolant; problem rebuilt from its text",
            Source::Problem => "the paper's problem; it prints no interpolant",
            Source::Instance => "an instance made up here for the paper's rule",
            Source::Definition => "the end of a chain",
            Source::Literal => "the paper read word for word",
        }
    }

    pub fn word(self) -> &'static str {
        match self {
            Source::Printed => "printed",
            Source::Rebuilt => "rebuilt",
            Source::Problem => "problem",
            Source::Instance => "instance",
            Source::Definition => "definition",
            Source::Literal => "literal",
        }
    }
}

/// How ours stands to what it is compared with.
#[derive(Clone, Copy, PartialEq, Eq, Debug)]
pub enum Relation {
    /// The same comparison or stride, with everything moved to one side.
    Identical,
    Equivalent,
    Stronger,
    Weaker,
    /// There is nothing to compare with.
    Alone,
    /// The check refuses.
    Refused,
}

impl Relation {
    pub fn word(self) -> &'static str {
        match self {
            Relation::Identical => "identical",
            Relation::Equivalent => "equivalent",
            Relation::Stronger => "stronger",
            Relation::Weaker => "weaker",
            Relation::Alone => "none to compare",
            Relation::Refused => "refused",
        }
    }
}

/// A folder with a, b and p.
pub struct Example {
    pub name: &'static str,
    pub place: &'static str,
    pub source: Source,
    /// The interpolant as the paper has it; of an instance, what the rule gives.
    pub paper: &'static str,
    pub relation: Relation,
    pub why: &'static str,
}

/// A folder with t1 to tn and p; one entry for each cut, 0 to n.
pub struct Chain {
    pub name: &'static str,
    pub place: &'static str,
    pub cuts: &'static [(Source, &'static str, Relation)],
    pub why: &'static str,
}

const fn example(
    name: &'static str,
    place: &'static str,
    source: Source,
    paper: &'static str,
    relation: Relation,
    why: &'static str,
) -> Example {
    Example {
        name,
        place,
        source,
        paper,
        relation,
        why,
    }
}

use Relation::{Alone, Equivalent, Identical, Refused, Stronger, Weaker};
use Source::{Definition, Instance, Literal, Printed, Problem, Rebuilt};

#[rustfmt::skip]
pub const EXAMPLES: &[Example] = &[
    example("000-2-stride", "section 2", Printed, "2 divides y", Identical,
        "one reduce and a close by stride"),
    example("000-branch-and-bound", "section 6.2.1; 002 section 3.3", Instance, "I or J of OR-LEFT-L: y <= 1 or y >= 3", Equivalent,
        "a split of the valid 2c - 1 != 0 in A gives \"or\"; numbers are doubled"),
    example("000-branch-and-bound-r", "section 6.2.1; 002 section 3.3", Instance, "I and J of OR-LEFT-R: y <= 2 and y >= 2", Equivalent,
        "the same constraint in B gives \"and\""),
    example("000-close-eq-gcd", "Figure 4, CLOSE-EQ-LEFT; 002 section 3.1", Instance, "the rule gives 4 divides y", Weaker,
        "the stride of a close divides the whole line, here 2, and not A's own coefficient alone"),
    example("000-close-eq-gcd-fresh", "Figure 4, CLOSE-EQ-LEFT", Instance, "4 divides y", Equivalent,
        "the rule's formula all the same, by fresh constants w and v of B, y = 4w + v and 0 <= v <= 3"),
    example("000-close-eq-shared", "Figure 4, CLOSE-EQ-LEFT", Instance, "the rule gives x + y = 0", Weaker,
        "without a constant of A's own the rule gives the equation; a close by stride gives its stride"),
    example("000-close-eq-shared-split", "Figure 4, CLOSE-EQ-LEFT", Instance, "x + y = 0", Equivalent,
        "the rule's formula all the same, by splits of two valid disequalities in B, which join by \"and\""),
    example("000-div", "Figure 6, DIV-LEFT and DIV-RIGHT", Instance, "the only one is 3 divides y", Equivalent,
        "the rules' fresh constants are constants of the bundles; a rounding leaves parts that are numbers"),
    example("000-figure-3-literal", "Figure 3, third premise of STRENGTHEN", Literal, "-3b + a <= 0", Refused,
        "printed with tA where the rule and the line above need tA + 1; stated as a claim"),
    example("000-gomory", "section 6.2.2, the cut (13) of (12)", Instance, "the strongest is 3 divides w", Equivalent,
        "k-STRENGTHEN by 2 as strengthens one inside the other, as no stride divides the line"),
    example("000-gomory-round", "section 6.2.2", Instance, "the strongest is 3 divides w", Equivalent,
        "the equation is used first; the same cut is then a rounding"),
    example("000-k-strengthen", "section 6.1, the example", Printed, "3 - 1 <= 0, or j - 1 <= 0 and 5 divides y + 1 - j for j = 0, 1, 2; so 5 divides y + 1 or 5 divides y", Equivalent,
        "part by part the one printed: 2 <= 0 is 3 - 1 <= 0, 4y + 4 is y + 1 times -1 in remainders by 5; the claims are the lines of the figure"),
    example("000-k-strengthen-literal", "section 6.1, the example, its first FM-ELIM", Literal, "5 divides y + 1 or 5 divides y", Refused,
        "y - 5x - 1 <= 0 [-y + 5x - 1 <= 0] is printed for -y + 5x - 1 <= 0 with itself; stated as a claim"),
    example("000-k-strengthen-tree", "section 6.1", Printed, "5 divides y + 1 or 5 divides y", Equivalent,
        "the same by STRENGTHEN alone, 2^3 - 1 times: more parts, the same meaning"),
    example("000-mul-left", "section 4.2, MUL-LEFT", Instance, "the rules give -3a = 0", Identical,
        "scale, then reduce: the factor stays"),
    example("000-or-left-l", "Figure 4, OR-LEFT-L", Instance, "I or J: x <= 3 or x >= 7", Equivalent,
        "a disjunction of A over a bounded constant, by a fresh h != 0 and its split; the inequalities are the same"),
    example("000-or-left-r", "Figure 4, OR-LEFT-R", Instance, "I and J: 5 <= x and x <= 5", Equivalent,
        "the same disjunction in B"),
    example("000-program-2", "section 3, program (2) with n = 1000", Printed, "-3b + a <= 0", Equivalent,
        "the conjuncts over n are not used, so the formula is that of the running example"),
    example("000-running", "sections 3 and 4, conjunction (1), Figures 1 and 3", Printed, "I1 or (false and phi), I1: -6b + 2a <= 0; so -3b + a <= 0", Equivalent,
        "part by part the one printed: \"2 divides 1\" is its false; the claims are the lines of Figure 3"),
    example("000-running-round", "section 6.1 on conjunction (1)", Printed, "-3b + a <= 0", Equivalent,
        "a rounding by 1 in the place of the STRENGTHEN"),
    example("000-strengthen-l", "section 6, STRENGTHEN-L", Instance, "I or J: 2 divides y or 1 <= 0", Equivalent,
        "the rule has two premises, the row three: the third repeats the first"),
    example("000-strengthen-l-split", "section 6, STRENGTHEN-L", Instance, "I or J: 2 divides y or 1 <= 0", Equivalent,
        "two premises by a split of the valid 2t + 1 != 0, t the line that is cut"),
    example("000-strengthen-r", "section 6, STRENGTHEN-R", Instance, "I and J: 2 divides y and 0 <= 0", Equivalent,
        "the row does not know that a line is B's alone; its first part is false"),
    example("001-combination-1", "section 5.1, t = u or t < u or t > u", Printed, "t != u", Equivalent,
        "formulas have no !=: A's disequality is split"),
    example("001-combination-2", "section 5.1, t != u or t <= u", Printed, "t = u", Weaker,
        "an inequality of B reduced by A's equation is an inequality, and so is what it closes with"),
    example("001-example-1", "section 5, Example 1", Printed, "t <= r and (t >= r implies t <= 2 floor(r/2))", Equivalent,
        "the branch a <= b or b < a is mixed and has no row; a rounding of the sum takes its place"),
    example("001-example-1-leaf-1", "section 5, Example 1, lemma with x1", Printed, "2x1 <= r", Identical,
        "Farkas coefficients 2, 1, 1, 2"),
    example("001-example-1-leaf-2", "section 5, Example 1, lemma with x2", Printed, "2x2 + t <= 0", Identical,
        "Farkas coefficients 1, 2, 2, 1"),
    example("001-section-6-arithmetic", "section 6 without f and q", Problem, "", Alone,
        "the paper's interpolant is of the problem with f; a != b is mixed, and as B's it makes a common"),
    example("001-section-6-lemma-1", "section 6, lemma with x3", Printed, "LA(2x3 - s, -1, false), so 2x3 - s <= 0", Identical,
        "Farkas coefficients"),
    example("001-section-6-lemma-2", "section 6, lemma with x4", Printed, "LA(2x4 + t, -1, false), so 2x4 + t <= 0", Identical,
        "Farkas coefficients"),
    example("001-table-1-row-1", "Table 1 (our copy lacks it; its rows are those of the proof of Lemma 5), a != b or a <= b", Printed, "LA(-xa + x1, -1, false), so x1 - xa <= 0", Identical,
        "reduced by the equations of both sides, then a sum"),
    example("001-table-1-row-3", "Table 1 (as above), a = b or a < b or b < a", Printed, "LA(x1 + x2, 0, xa = x1), so x1 + x2 <= 0 and (x1 + x2 >= 0 implies xa = x1)", Stronger,
        "B's xa != xb is split and joins by \"and\": both halves, not their sum"),
    example("002-3.1-divisor", "section 3.1, \"g is any integer that divides GCD(a_j)\"", Instance, "6 divides y for g = 6", Equivalent,
        "5y is y times -1 in remainders by 6"),
    example("002-3.1-divisor-literal", "section 3.1, with g = 3", Literal, "3 divides y, which B meets at y = 3", Refused,
        "3 divides 6, as the words ask, but also d: a close by stride asks that it does not"),
    example("002-example-1", "section 3.3, Example 1", Problem, "the only one is 2 divides x", Equivalent,
        "the paper's lemma is mixed; a rounding gives its first half"),
    example("002-example-1-defining", "section 3.3, Example 1", Problem, "the only one is 2 divides x", Equivalent,
        "as the paper avoids the mixed lemma: a defining constraint of each side cut into t + 1 <= 0 and t = 0"),
    example("002-example-2", "section 4, Example 2 with n = 8", Printed, "y is one of -7, -6, .. 0 modulo 16", Equivalent,
        "part by part the one printed, with parts that are numbers: 8 of the 15 strides stand beside a true one"),
    example("002-example-3", "section 4, Example 3", Printed, "-y + 2 ceil(y/2) <= 0", Equivalent,
        "formulas have no ceiling; by the equations themselves it is a stride"),
    example("002-example-3-cut", "section 4, Example 3, the cutting-plane proof", Printed, "-y + 2 ceil(y/2) <= 0", Equivalent,
        "Hyp-A and Hyp-B by 0 <= 0 in each bundle, Division by a rounding"),
    example("002-example-4", "section 4, Example 4 with n = 3", Printed, "2n ceil(y/2n) - y - n + 1 <= 0", Equivalent,
        "the ceiling expanded: one part for each remainder"),
    example("002-example-4-literal", "section 4, Example 4 with n = 3, a leaf of the proof", Literal, "2n ceil(y/2n) - y - n + 1 <= 0", Refused,
        "y - 2nx - n + 1 <= 0 [y + 2nx <= 0] is printed for -y - 2nx - n + 1 <= 0 with itself; stated as a claim"),
    example("002-intro", "section 1", Printed, "-y + 1 is 0 modulo 2", Equivalent,
        "the same stride in reduced form: -1 is 1 to stride 2"),
    example("003-example-11-i", "Example 11 (Figure 3), leaf (i)", Printed, "a != 1", Equivalent,
        "formulas have no !=: the goal is A's disequality, and split"),
    example("003-example-11-ii", "Example 11 (Figure 3), leaf (ii)", Printed, "b = c", Equivalent,
        "the goal is B's disequality, and split: two inequalities"),
    example("003-example-11-iii", "Example 11 (Figure 3), the last leaf", Printed, "d = 1", Identical,
        "equations alone: the line closes as an equation"),
    example("003-example-3", "Example 3 (Figure 2); 004 Example 4 (Figure 3), the arithmetic leaf", Printed, "y - 2d != 0", Stronger,
        "the split goal is doubled before it meets the equation: |y - 2d| is at least 2"),
    example("004-addsigned-30", "section 6, addSigned(30, x, y)", Instance, "", Alone,
        "30 is the largest width whose 2^width a bundle can hold"),
    example("004-example-1-left", "Example 1, left branch of OR-LEFT-L", Printed, "false", Equivalent,
        "A alone is contradictory; both halves of its split are numbers"),
    example("004-example-1-right", "Example 1, right branch of OR-LEFT-L", Printed, "d = 0", Equivalent,
        "complementary literals close at once there; here B's disequality is split"),
    example("004-insigned-32", "section 6, inSigned(32, x)", Instance, "x >= -2147483648", Refused,
        "the bound needs -2,147,483,648, the one number that no file may have"),
    example("004-insigned-32-fresh", "section 6, inSigned(32, x)", Instance, "x >= -2147483648", Refused,
        "stated through a fresh constant, but the only interpolant needs the same number, and so does the row that would make it"),
    example("004-path-1-equal", "section 2, path 0-1-2-3", Rebuilt, "i = 0", Equivalent,
        "the printed equation, by the valid 2i + 1 != 0 in B; an equation is two inequalities here"),
];

#[rustfmt::skip]
pub const CHAINS: &[Chain] = &[
    Chain {
        name: "000-chain",
        place: "section 5.2 with conjunction (1): T1 the condition, T2 b = a / 2, T3 c = 3b + 1, T4 the failing assertion; this choice is ours",
        cuts: &[
            (Definition, "true", Equivalent),
            (Problem, "", Alone),
            (Printed, "-3b + a <= 0", Equivalent),
            (Problem, "", Alone),
            (Definition, "false", Equivalent),
        ],
        why: "cut 2 is the partition of Figure 3, and its formula that of 000-running",
    },
    Chain {
        name: "004-path-1",
        place: "section 2, path 0-1-2-3: i = 0; not i < 1000; i != 1000",
        cuts: &[
            (Rebuilt, "true", Equivalent),
            (Rebuilt, "i = 0", Weaker),
            (Rebuilt, "false", Equivalent),
            (Rebuilt, "false", Equivalent),
        ],
        why: "at cut 1 an inequality meets an equation, and stays an inequality; 004-path-1-equal has the equation",
    },
    Chain {
        name: "004-path-2",
        place: "section 2, path 0-1-4-5-6-7: i = 0; i < 1000; i++; not i < 1000; i != 1000",
        cuts: &[
            (Rebuilt, "true", Equivalent),
            (Rebuilt, "i = 0", Weaker),
            (Rebuilt, "i < 1000", Equivalent),
            (Rebuilt, "i <= 1000", Equivalent),
            (Rebuilt, "i = 1000", Equivalent),
            (Rebuilt, "false", Equivalent),
        ],
        why: "the proof does not use i = 0, so cut 1 is true",
    },
    Chain {
        name: "004-path-3",
        place: "section 2, path 0-1-4-5-8-9-10-11, one more round of the loop",
        cuts: &[
            (Definition, "true", Equivalent),
            (Problem, "", Alone),
            (Problem, "", Alone),
            (Problem, "", Alone),
            (Rebuilt, "i < 1000", Equivalent),
            (Problem, "", Alone),
            (Problem, "", Alone),
            (Definition, "false", Equivalent),
        ],
        why: "the paper prints node 8 only, which is cut 4; the steps are rebuilt from the text",
    },
];

/// The paper of a folder.
pub fn paper(name: &str) -> &'static Paper {
    let found = PAPERS.iter().find(|paper| name.starts_with(paper.number));
    found.expect("a folder's name starts with its paper's number")
}
