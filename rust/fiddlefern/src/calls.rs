//! The calls on a stripe. The examples are worked by hand.
use crate::{Finding, Lost, Refusal, Shape, raw};

impl Shape {
    /// Keeps all data and sets every H and U.
    ///
    /// # Errors
    ///
    /// Number 6 where the stripe's length is not [`Shape::size`].
    ///
    /// ```
    /// # use fiddlefern::Shape;
    /// // Data 11 22 44.
    /// let shape = Shape::new(3, 1, 1, 1)?;
    /// let mut stripe = [0x11, 0, 0x22, 0, 0x44, 0, 0];
    /// shape.encode(&mut stripe)?;
    /// assert_eq!(stripe, [0x11, 0x22, 0x22, 0x44, 0x44, 0x11, 0x77]);
    ///
    /// // Row 0 is 01 02 04 08 10, row 1 is 20 40 80 03 05.
    /// let shape = Shape::new(5, 2, 2, 1)?;
    /// let mut stripe = [1, 0x20, 0, 2, 0x40, 0, 4, 0x80, 0, 8, 3, 0, 0x10, 5, 0, 0, 0];
    /// shape.encode(&mut stripe)?;
    /// assert_eq!(stripe[..9], [1, 0x20, 0x88, 2, 0x40, 0x13, 4, 0x80, 4]);
    /// assert_eq!(stripe[9..], [8, 3, 0x22, 0x10, 5, 0x44, 0x1F, 0xE6]);
    /// # Ok::<(), fiddlefern::Refusal>(())
    /// ```
    pub fn encode(self, stripe: &mut [u8]) -> Result<(), Refusal> {
        let answer = raw::encode(self, stripe);
        match answer.number() {
            0 => Ok(()),
            _ => Err(answer.stripe_refusal(self, stripe.len())),
        }
    }

    /// Replaces the bytes of a data element from `offset` on by the run. H of the row and U of the place's
    /// diagonal get old XOR new added in the same bytes, and nothing else changes, so a sound stripe stays
    /// sound. An empty run changes nothing.
    ///
    /// # Errors
    ///
    /// Number 6, then 9 where the row, the strip, or offset plus the run's length is outside.
    ///
    /// ```
    /// # use fiddlefern::Shape;
    /// let shape = Shape::new(5, 2, 2, 1)?;
    /// let mut stripe = [1, 0x20, 0, 2, 0x40, 0, 4, 0x80, 0, 8, 3, 0, 0x10, 5, 0, 0, 0];
    /// shape.encode(&mut stripe)?;
    /// shape.write(&mut stripe, 0, 2, 0, &[0xFF])?;
    /// assert_eq!(stripe[..9], [1, 0x20, 0x88, 2, 0x40, 0x13, 0xFF, 0x80, 4]);
    /// assert_eq!(stripe[9..], [8, 3, 0x22, 0x10, 5, 0xBF, 0xE4, 0xE6]);
    /// # Ok::<(), fiddlefern::Refusal>(())
    /// ```
    pub fn write(
        self,
        stripe: &mut [u8],
        row: usize,
        strip: usize,
        offset: usize,
        run: &[u8],
    ) -> Result<(), Refusal> {
        let answer = raw::write(self, stripe, (row, strip, offset), run);
        match answer.number() {
            0 => Ok(()),
            9 => Err(Refusal::Place {
                row,
                strip,
                offset,
                length: run.len(),
                shape: self,
            }),
            _ => Err(answer.stripe_refusal(self, stripe.len())),
        }
    }

    /// The data element of this row and strip: that part of the stripe.
    ///
    /// # Errors
    ///
    /// Number 6, then 9 where the row or the strip is outside.
    ///
    /// ```
    /// # use fiddlefern::Shape;
    /// let shape = Shape::new(3, 1, 1, 1)?;
    /// let stripe = [0x11, 0x22, 0x22, 0x44, 0x44, 0x11, 0x77];
    /// assert_eq!(shape.read(&stripe, 0, 2)?, [0x44]);
    /// # Ok::<(), fiddlefern::Refusal>(())
    /// ```
    pub fn read(self, stripe: &[u8], row: usize, strip: usize) -> Result<&[u8], Refusal> {
        let answer = raw::read(self, stripe, row, strip);
        match answer.number() {
            0 => Ok(answer.element(stripe, self.e())),
            9 => Err(Refusal::Place {
                row,
                strip,
                offset: 0,
                length: 0,
                shape: self,
            }),
            _ => Err(answer.stripe_refusal(self, stripe.len())),
        }
    }

    /// Counts the rows whose H is wrong and the diagonals whose U is wrong, and says what that finds.
    ///
    /// # Errors
    ///
    /// Number 6 where the stripe's length is not [`Shape::size`].
    ///
    /// ```
    /// # use fiddlefern::{Finding, Shape};
    /// let shape = Shape::new(3, 1, 1, 1)?;
    /// let mut stripe = [0x11, 0x22, 0x22, 0x44, 0x44, 0x11, 0x77];
    /// assert_eq!(shape.scrub(&stripe)?, Finding::Sound);
    /// stripe[2] = 0x23;
    /// assert_eq!(shape.scrub(&stripe)?, Finding::Element { row: 0, strip: 1 });
    /// # Ok::<(), fiddlefern::Refusal>(())
    /// ```
    pub fn scrub(self, stripe: &[u8]) -> Result<Finding, Refusal> {
        let answer = raw::scrub(self, stripe);
        match answer.number() {
            0 => Ok(answer.finding()),
            _ => Err(answer.stripe_refusal(self, stripe.len())),
        }
    }

    /// Gives the lost strips back: the survivors stay, and the stripe is then the one sound stripe that
    /// agrees with them. What stood in the lost strips has no influence. With no strip lost it tells
    /// whether the stripe is sound.
    ///
    /// Number 10 is no checksum. Two lost data strips leave n-r-2 lines to test, and none where r is n-2:
    /// there a damaged survivor yields another sound stripe unnoticed.
    ///
    /// # Errors
    ///
    /// Number 6; then 7 for a strip above n, 8 for more than two strips; then 10 where the survivors agree
    /// with no sound stripe, and the lost strips are zero afterwards.
    ///
    /// ```
    /// # use fiddlefern::{Lost, Refusal, Shape};
    /// let shape = Shape::new(5, 2, 2, 1)?;
    /// let mut stripe = [1, 0x20, 0, 2, 0x40, 0, 4, 0x80, 0, 8, 3, 0, 0x10, 5, 0, 0, 0];
    /// shape.encode(&mut stripe)?;
    /// let sound = stripe;
    ///
    /// let lost = Lost::from_mask(3); // strips 0 and 1
    /// stripe[..6].fill(0xFF);
    /// shape.rebuild(&mut stripe, lost)?;
    /// assert_eq!(stripe, sound);
    ///
    /// stripe[14] = 0x45; // U(4) was 44
    /// assert_eq!(shape.rebuild(&mut stripe, lost), Err(Refusal::NoSound { lost }));
    /// assert_eq!(stripe[..6], [0; 6]);
    /// # Ok::<(), fiddlefern::Refusal>(())
    /// ```
    pub fn rebuild(self, stripe: &mut [u8], lost: Lost) -> Result<(), Refusal> {
        let answer = raw::rebuild(self, stripe, lost.mask());
        match answer.number() {
            0 => Ok(()),
            7 => Err(answer.mask_refusal(self, lost)),
            8 => Err(Refusal::Many { lost }),
            10 => Err(Refusal::NoSound { lost }),
            _ => Err(answer.stripe_refusal(self, stripe.len())),
        }
    }
}
