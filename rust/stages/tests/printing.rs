//! A printed formula says what its file says: both texts, read by a reader of
//! their own, have the truth of a test at random register values, and the text
//! is all that the reader takes.

use reference::{print, print_words, test_formula, WriteResult};
use stages::other;
use stages::rng::Rng;
use stages::table::Size;
use stages::{stream, Case, Class, Operation};

fn printed(print: fn(&[u8], &mut [u8]) -> WriteResult, formula: &[u8]) -> Option<String> {
    let mut out = vec![0; 6 * formula.len()];
    let result = print(formula, &mut out);
    out.truncate(result.written);
    (result.answer.number == 0).then(|| String::from_utf8(out).expect("ASCII"))
}

/// A text as it is read, and the values of the constants.
struct Reader<'a> {
    rest: &'a str,
    values: &'a [i32],
}

impl<'a> Reader<'a> {
    /// Takes these characters, if the text goes on with them.
    fn takes(&mut self, start: &str) -> bool {
        let rest = self.rest.strip_prefix(start);
        self.rest = rest.unwrap_or(self.rest);
        rest.is_some()
    }

    /// Takes these characters, with which the text must go on.
    fn take(&mut self, start: &str) {
        assert!(self.takes(start), "{start:?} before {:?}", self.rest);
    }

    /// A numeral without leading zeros.
    fn natural(&mut self) -> i128 {
        let digits = self.rest.find(|c: char| !c.is_ascii_digit());
        let (number, rest) = self.rest.split_at(digits.unwrap_or(self.rest.len()));
        assert!(number == "0" || !number.starts_with('0'), "{number}");
        self.rest = rest;
        number.parse().expect("a number")
    }

    /// The value of a constant.
    fn constant(&mut self) -> i128 {
        self.take("r");
        let index = self.natural() as usize;
        i128::from(self.values[index])
    }
}

/// SMT-LIB.
impl Reader<'_> {
    fn integer(&mut self) -> i128 {
        if self.takes("(- ") {
            let number = self.natural();
            self.take(")");
            return -number;
        }
        self.natural()
    }

    fn term(&mut self) -> i128 {
        if !self.takes("(+ ") {
            return self.integer();
        }
        let mut sum = 0;
        while self.takes("(* ") {
            let coefficient = self.integer();
            assert_ne!(coefficient, 0);
            self.take(" ");
            sum += coefficient * self.constant();
            self.take(") ");
        }
        sum += self.integer();
        self.take(")");
        sum
    }

    fn proposition(&mut self) -> bool {
        let or = self.takes("(or ");
        if or || self.takes("(and ") {
            let first = self.proposition();
            self.take(" ");
            let second = self.proposition();
            self.take(")");
            return if or { first | second } else { first & second };
        }
        if self.takes("(= (mod ") {
            let value = self.term();
            self.take(" ");
            let g = self.natural();
            self.take(") 0)");
            return value.rem_euclid(g) == 0;
        }
        let equality = self.takes("(= ");
        if !equality {
            self.take("(<= ");
        }
        let value = self.term();
        self.take(" 0)");
        if equality {
            value == 0
        } else {
            value <= 0
        }
    }
}

/// Words.
impl Reader<'_> {
    fn sum(&mut self) -> i128 {
        let mut sum = 0;
        let mut sign = if self.takes("-") { -1 } else { 1 };
        loop {
            let number = sign * self.natural();
            sum += if self.takes("*") {
                number * self.constant()
            } else {
                number
            };
            sign = match (self.takes(" + "), self.takes(" - ")) {
                (false, false) => return sum,
                (true, _) => 1,
                _ => -1,
            };
        }
    }

    /// A comparison or stride, or what stands in parentheses.
    fn operand(&mut self) -> bool {
        if self.takes("(") {
            let inside = self.words();
            self.take(")");
            return inside;
        }
        let start = self.rest;
        let number = if self.takes("-") { 0 } else { self.natural() };
        if self.takes(" divides ") {
            return self.sum().rem_euclid(number) == 0;
        }
        self.rest = start;
        let value = self.sum();
        if self.takes(" = 0") {
            return value == 0;
        }
        self.take(" <= 0");
        value <= 0
    }

    /// At most one and/or outside all parentheses.
    fn words(&mut self) -> bool {
        let first = self.operand();
        if self.takes(" or ") {
            return self.operand() | first;
        }
        if self.takes(" and ") {
            return self.operand() & first;
        }
        first
    }
}

#[test]
fn the_texts_say_what_the_file_says() {
    let mut rng = Rng::new(1);
    let (mut judged, mut truths) = (0, 0);
    for class in [Class::Sound, Class::Damaged, Class::Edge] {
        for size in [Size::SMALL, Size::MEDIUM, Size::LARGE] {
            let count = if class == Class::Edge { 200 } else { 4_000 };
            for case in stream(Operation::Test, class, size, rng.word()).take(count) {
                let Case::Test { formula, values } = case else {
                    panic!("no test");
                };
                let [term, words] = [print, print_words].map(|print| printed(print, &formula));
                let (Some(term), Some(words)) = (term, words) else {
                    continue;
                };
                for _ in 0..3 {
                    let values: Vec<i32> = values.iter().map(|_| other::value(&mut rng)).collect();
                    let tested = test_formula(&formula, &values);
                    if tested.answer.number != 0 {
                        // The number of values is not K.
                        continue;
                    }
                    let mut reader = Reader {
                        rest: &term,
                        values: &values,
                    };
                    assert_eq!((reader.proposition(), reader.rest), (tested.holds, ""));
                    let mut reader = Reader {
                        rest: &words,
                        values: &values,
                    };
                    assert_eq!((reader.words(), reader.rest), (tested.holds, ""));
                    judged += 1;
                    truths += usize::from(tested.holds);
                }
            }
        }
    }
    assert!(judged > 20_000, "{judged}");
    assert!(truths > 5_000 && judged - truths > 5_000, "{truths}");
}
