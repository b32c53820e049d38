//! Days from texts: the public Solomon form.

use crate::{raw, Refusal};

/// Brings in an instance of the Solomon text form: writes the words of its day into the beginning of
/// `words`, and gives how many were written. The words behind them stay as they were. The day is
/// accepted by [`crate::judge`].
///
/// The capacity is Q; Q* is 1,000,000 and S* is 240. A rest takes no minutes, at the last minute of the
/// day. One tip stands at the depot, with its window and no service. A leg's minutes are the straight
/// line between its two points, and its distance is ten times that line; each is rounded down by
/// itself.
///
/// `words` needs 13 + 7n + n² words for n stops, 59,293 for the 240 that a day may have.
///
/// # Errors
///
/// 17 where the text is not of the form, 18 where a number that is used or a stop is past its limit:
/// the one at the earlier byte of the text, at one byte 17. Then 14 where `words` is too short.
///
/// ```
/// let text = b"\
/// R1
/// VEHICLE
/// NUMBER CAPACITY
/// 25 200
/// CUSTOMER
/// CUST X Y DEMAND READY DUE SERVICE
/// 0 35 35 0 0 230 0
/// 1 41 49 10 161 171 10
/// ";
/// let mut words = [9; 22];
/// assert_eq!(kazhuvendi::import_solomon(text, &mut words), Ok(21));
/// assert_eq!(words[1], 0x200000C8);
/// // From the depot to the stop it is 6 and 14, so 15 minutes and a distance of 152.
/// assert_eq!(words[14], 0x900F0098);
/// assert_eq!(words[21], 9);
/// assert_eq!(kazhuvendi::judge(&words[..21]), Ok(kazhuvendi::Size { stops: 1, tips: 1 }));
///
/// let refusal = kazhuvendi::import_solomon(text, &mut words[..20]).unwrap_err();
/// assert_eq!((refusal.number, refusal.place), (14, 21));
///
/// // Cut inside the last line, where the service is missing.
/// let refusal = kazhuvendi::import_solomon(&text[..text.len() - 4], &mut words).unwrap_err();
/// assert_eq!((refusal.number, refusal.place), (17, 113));
/// assert_eq!(refusal.to_string(), "at byte 113 the text breaks the Solomon form");
/// ```
pub fn import_solomon(text: &[u8], words: &mut [u32]) -> Result<usize, Refusal> {
    let mut out = [0; 6];
    raw::import_solomon(text, words, &mut out);
    match out {
        [0, count, ..] => Ok(count as usize),
        [number, place, ..] => Err(Refusal { number, place }),
    }
}
