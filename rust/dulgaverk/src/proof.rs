//! A writer of proofs, row by row.

use crate::{Edition, Refusal, CONSTANTS};

/// Writes a proof: the header, then a field for each call. Whether it proves anything is for [`check`](crate::check) to say;
/// what has no place in the layout is refused here, with file 3 and as place the byte at which the field would start, and
/// leaves the proof as it was. docs/FORMAT.md says what each row asks and gives.
///
/// ```
/// use dulgaverk::{Edition, ProofWriter};
/// // Stage 3: x ≤ 0 in A, -x + 1 ≤ 0 in B; combine lines 0 and 1, close line 2 by number.
/// let a = b"\x01\0\x01\x01\x02\0\x01\x01\x03\0\x04\0\x01\0\0";
/// let b = b"\x01\0\x01\x01\x02\0\x01\x01\x03\0\x04\xFF\xFF\0\x01";
/// let mut proof = ProofWriter::new(Edition::One, 1)?;
/// proof.combine(0, 1, 1, 1)?.claim(&[0, 1], &[1, 0])?.close(2)?;
/// let formula = dulgaverk::check(a, b, proof.bytes())?;
/// assert_eq!(dulgaverk::print_words(&formula)?, "1*r0 <= 0");
///
/// // One byte cannot hold the line number 256, two can.
/// let refusal = proof.close(256).unwrap_err();
/// assert_eq!((refusal.number, refusal.file, refusal.place), (10, 3, 40));
/// assert!(ProofWriter::new(Edition::Two, 1)?.close(256).is_ok());
/// # Ok::<(), dulgaverk::Refusal>(())
/// ```
#[derive(Clone, PartialEq, Eq, Debug)]
pub struct ProofWriter {
    edition: Edition,
    constants: usize,
    bytes: Vec<u8>,
}

type Written<'a> = Result<&'a mut ProofWriter, Refusal>;

impl ProofWriter {
    /// A proof of an edition over so many constants, without a row. 7 where they are not 1 to 16.
    ///
    /// ```
    /// use dulgaverk::{Edition, ProofWriter};
    /// assert_eq!(ProofWriter::new(Edition::Two, 16)?.bytes(), [1, 0, 1, 2, 2, 0, 1, 16]);
    /// assert_eq!(ProofWriter::new(Edition::Two, 272).unwrap_err().number, 7);
    /// # Ok::<(), dulgaverk::Refusal>(())
    /// ```
    pub fn new(edition: Edition, constants: usize) -> Result<ProofWriter, Refusal> {
        match u8::try_from(constants) {
            Ok(k) if (1..=CONSTANTS).contains(&constants) => Ok(ProofWriter {
                edition,
                constants,
                bytes: vec![1, 0, 1, edition.number(), 2, 0, 1, k],
            }),
            _ => Err(Refusal::outside(7, 3, 4)),
        }
    }

    /// 0x10: the line αs + βt.
    pub fn combine(&mut self, s: usize, t: usize, alpha: u16, beta: u16) -> Written<'_> {
        self.row(0x10, &[s, t], &[alpha, beta])
    }

    /// 0x11: the line s + αt.
    pub fn reduce(&mut self, s: usize, t: usize, alpha: i16) -> Written<'_> {
        self.row(0x11, &[s, t], &[alpha.cast_unsigned()])
    }

    /// 0x12: the line αt.
    pub fn scale(&mut self, t: usize, alpha: u16) -> Written<'_> {
        self.row(0x12, &[t], &[alpha])
    }

    /// 0x13: three branches.
    pub fn strengthen(&mut self, t: usize) -> Written<'_> {
        self.row(0x13, &[t], &[])
    }

    /// 0x14: the branch ends by number.
    pub fn close(&mut self, t: usize) -> Written<'_> {
        self.row(0x14, &[t], &[])
    }

    /// 0x15: the branch ends by the stride g.
    pub fn close_stride(&mut self, t: usize, g: u16) -> Written<'_> {
        self.row(0x15, &[t], &[g])
    }

    /// 0x16: k + 1 branches.
    pub fn round(&mut self, t: usize, g: u16, k: u16) -> Written<'_> {
        self.row(0x16, &[t], &[g, k])
    }

    /// 0x17: two branches.
    pub fn split(&mut self, t: usize) -> Written<'_> {
        self.row(0x17, &[t], &[])
    }

    /// 0x20: what the line made by the row before has to be, its t and its tA. 6 where either is not K + 1 numbers.
    ///
    /// ```
    /// use dulgaverk::{Edition, ProofWriter};
    /// let mut proof = ProofWriter::new(Edition::One, 1)?;
    /// assert_eq!(proof.claim(&[0, 1], &[1]).unwrap_err().number, 6);
    /// # Ok::<(), dulgaverk::Refusal>(())
    /// ```
    pub fn claim(&mut self, t: &[i32], partial: &[i32]) -> Written<'_> {
        if [t.len(), partial.len()] != [self.constants + 1; 2] {
            return Err(self.refused(6));
        }
        let numbers = t.iter().chain(partial);
        let contents: Vec<u8> = numbers.flat_map(|number| number.to_be_bytes()).collect();
        self.field(0x20, &contents)
    }

    /// A note. 3 for a tag below 0x80, 6 for more than 65,535 bytes.
    ///
    /// ```
    /// use dulgaverk::{Edition, ProofWriter};
    /// let mut proof = ProofWriter::new(Edition::One, 1)?;
    /// assert_eq!(proof.note(0x80, b"by hand")?.bytes()[8..], *b"\x80\0\x07by hand");
    /// assert_eq!(proof.note(0x7F, b"").unwrap_err().number, 3);
    /// assert_eq!(proof.note(0x80, &[0; 65_536]).unwrap_err().number, 6);
    /// # Ok::<(), dulgaverk::Refusal>(())
    /// ```
    pub fn note(&mut self, tag: u8, contents: &[u8]) -> Written<'_> {
        if tag < 0x80 {
            return Err(self.refused(3));
        }
        self.field(tag, contents)
    }

    /// The file as far as it is written.
    pub fn bytes(&self) -> &[u8] {
        &self.bytes
    }

    fn refused(&self, number: u8) -> Refusal {
        Refusal::outside(number, 3, self.bytes.len())
    }

    /// 10 where the edition has no room for a line number.
    fn row(&mut self, tag: u8, lines: &[usize], others: &[u16]) -> Written<'_> {
        let mut contents = Vec::new();
        for &line in lines {
            match (self.edition, u8::try_from(line), u16::try_from(line)) {
                (Edition::One, Ok(line), _) => contents.push(line),
                (Edition::Two, _, Ok(line)) => contents.extend(line.to_be_bytes()),
                _ => return Err(self.refused(10)),
            }
        }
        contents.extend(others.iter().flat_map(|number| number.to_be_bytes()));
        self.field(tag, &contents)
    }

    fn field(&mut self, tag: u8, contents: &[u8]) -> Written<'_> {
        let length = u16::try_from(contents.len()).map_err(|_| self.refused(6))?;
        self.bytes.push(tag);
        self.bytes.extend(length.to_be_bytes());
        self.bytes.extend(contents);
        Ok(self)
    }
}
