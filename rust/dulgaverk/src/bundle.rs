//! A bundle that is read, as it is written.

use crate::{write_bundle, Bundle, Refusal};

impl Bundle {
    /// The bundle's file: that which was read, without its notes. Refused as [`write_bundle`] refuses.
    ///
    /// ```
    /// // x - 2 ≤ 0 and 3x ≠ 0, and behind them a note.
    /// let file = b"\x01\0\x01\x01\x02\0\x01\x01\x03\0\x04\0\x01\xFF\xFE\x05\0\x04\0\x03\0\0\x80\0\x01\x07";
    /// let mut bundle = dulgaverk::read_bundle(file)?;
    /// assert_eq!(bundle.write()?, file[..22]);
    /// // Two bytes cannot hold 40,000.
    /// bundle.numbers[1] = 40_000;
    /// assert_eq!(bundle.write(), Err(dulgaverk::Refusal::outside(13, 4, 1)));
    /// # Ok::<(), dulgaverk::Refusal>(())
    /// ```
    pub fn write(&self) -> Result<Vec<u8>, Refusal> {
        write_bundle(self.edition, self.constants, &self.kinds, &self.numbers)
    }
}
