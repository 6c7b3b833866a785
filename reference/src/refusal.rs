//! The refusal table of 01, with 02's numbers for. If several apply, the first in this
//! order is given: 11, then 1 to 5, then 18, then 6 to 8, then 14, then 9, then 10.

/// Success.
pub const NONE: u32 = 0;
/// 01: range. l isn't 2, 4, 8 or 16.
pub const RANGE: u32 = 1;
/// 01: ring. n is outside 2 to 4,096.
pub const RING: u32 = 2;
/// 01: degree. dX or dr isn't 1 or 2.
pub const DEGREE: u32 = 3;
/// 01: modulus. q is above 2,147,483,647, or q is at most the bound.
pub const MODULUS: u32 = 4;
/// 01: message size. mlen is above n * b or no multiple of b.
pub const MESSAGE_SIZE: u32 = 5;
/// 02, Q-7. The edition isn't 1 or 2. Tested after 5 and before 6.
pub const EDITION: u32 = 18;
/// 01: length. A buffer (01: a lent buffer), random octets apart, isn't of its exact length.
pub const LENGTH: u32 = 6;
/// 01: padding. A given packed element or message has a non-zero unused bit.
pub const PADDING: u32 = 7;
/// 01: coefficient. A given coefficient is q or more, or l or more where a small one is expected.
pub const COEFFICIENT: u32 = 8;
/// 02, Q-3. A given secret element has a zero at t^(n - 1). Tested after 8 and before 9.
pub const TOP_COEFFICIENT: u32 = 14;
/// 01: spent. The random octets end before the last draw is complete.
pub const RANDOM_EXHAUSTED: u32 = 9;
/// 01: tail. A decrypted coefficient past mlen bits isn't zero.
pub const TAIL: u32 = 10;
/// 01: line. The program roomsheet meets a malformed line.
pub const LINE: u32 = 11;
