//! What befalls the steps of a request.

use crate::{Error, OUTCOMES_LEN};

/// What befalls one step.
#[derive(Clone, Copy, Debug, PartialEq, Eq, Hash)]
#[repr(u8)]
pub enum Outcome {
    /// The step goes through.
    Through = 0,
    /// The store refuses the step, which changes nothing.
    Refused = 1,
    /// Power is lost before the step; nothing more is done.
    Cut = 2,
}

/// What befalls each step of a request.
///
/// | Request | Steps |
/// |---|---|
/// | `create` | 1 create page, 2 create header |
/// | `write` | 1 read header, 2 create page, 3 replace header, 4 destroy the former page, if any |
/// | `read` | 1 read header, 2 read page |
/// | `info` | 1 read header |
/// | `destroy` | 1 read header, 2 destroy header, then destroy each page that is there, by rising number |
/// | `set_expiry`, not sooner | 1 read header, then set each page's expiry, by rising number, then replace header |
/// | `set_expiry`, sooner | 1 read header, 2 replace header, then set each page's expiry, by rising number |
/// | `scavenge` | 1 sweep the headers, 2 sweep the pages |
///
/// After the header step of `write`, `destroy` or a sooner `set_expiry` a refused step is passed over: the answer is
/// still Success. At any other step a refusal ends the request with [`Error::ServiceError`]. A cut always ends it with
/// [`Error::Cut`].
///
/// ```
/// use pagefile::{Error, Outcome, Outcomes};
///
/// let refused = Outcomes::all_through().with(3, Outcome::Refused)?;
/// assert_eq!(refused.as_bytes()[..4], [0, 0, 1, 0]);
/// # Ok::<(), Error>(())
/// ```
#[derive(Clone, Copy, Debug, PartialEq, Eq, Hash)]
pub struct Outcomes([u8; OUTCOMES_LEN]);

impl Outcomes {
    /// Every step goes through.
    pub const fn all_through() -> Outcomes {
        Outcomes([Outcome::Through as u8; OUTCOMES_LEN])
    }

    /// The list in a driver's bytes, byte `k - 1` for step `k`.
    ///
    /// ```
    /// use pagefile::{Error, Outcomes};
    ///
    /// assert_eq!(Outcomes::from_bytes(&[0; 18]), Ok(Outcomes::all_through()));
    /// assert_eq!(Outcomes::from_bytes(&[3; 18]), Err(Error::BadCall));
    /// ```
    ///
    /// # Errors
    ///
    /// [`Error::BadCall`] where there are not 18 bytes, or one is above 2.
    pub fn from_bytes(bytes: &[u8]) -> Result<Outcomes, Error> {
        let list = bytes.try_into().map_err(|_| Error::BadCall)?;
        if bytes.iter().any(|&byte| byte > Outcome::Cut as u8) {
            return Err(Error::BadCall);
        }
        Ok(Outcomes(list))
    }

    /// The same list, but for step `step`, counted from 1.
    ///
    /// # Errors
    ///
    /// [`Error::BadCall`] for a step that no list has: 0, or above 18.
    pub fn with(mut self, step: usize, outcome: Outcome) -> Result<Outcomes, Error> {
        let place = step.checked_sub(1).ok_or(Error::BadCall)?;
        *self.0.get_mut(place).ok_or(Error::BadCall)? = outcome as u8;
        Ok(self)
    }

    /// The list's bytes.
    pub const fn as_bytes(&self) -> &[u8; OUTCOMES_LEN] {
        &self.0
    }
}
