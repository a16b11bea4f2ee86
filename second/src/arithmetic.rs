//! The operations: "A result outside the signed range becomes the nearest
//! end." "Each operation shall tell, besides its result, whether the result is
//! the true one; a clipped result and a division by zero are not."

/// What an operation tells.
#[derive(Clone, Copy, PartialEq, Eq, Debug)]
pub struct Outcome {
    pub result: i32,
    /// Whether the result is the true one.
    pub is_true: bool,
}

/// The nearest value of the signed 32-bit range, which is the true one where
/// nothing was clipped: also exactly at an end.
fn nearest(exact: i64) -> Outcome {
    let result = exact.clamp(i64::from(i32::MIN), i64::from(i32::MAX)) as i32;
    Outcome { result, is_true: i64::from(result) == exact }
}

pub fn copy(b: i32) -> Outcome {
    nearest(i64::from(b))
}

pub fn add(b: i32, c: i32) -> Outcome {
    nearest(i64::from(b) + i64::from(c))
}

/// "subtract c from b".
pub fn subtract(b: i32, c: i32) -> Outcome {
    nearest(i64::from(b) - i64::from(c))
}

pub fn negate(b: i32) -> Outcome {
    nearest(-i64::from(b))
}

pub fn multiply(b: i32, c: i32) -> Outcome {
    nearest(i64::from(b) * i64::from(c))
}

/// "divide b by c toward zero"; "A zero divisor gives 0."
///
/// Open point: a division with a remainder. The operation is division toward
/// zero, and of that -3 is the true result for -7 by 2.
///
/// Open point: 0 by 0. It is a division by zero as any other, so its 0 is not
/// the true result.
pub fn divide(b: i32, c: i32) -> Outcome {
    if c == 0 {
        Outcome { result: 0, is_true: false }
    } else {
        nearest(i64::from(b) / i64::from(c))
    }
}

pub fn minimum(b: i32, c: i32) -> Outcome {
    copy(b.min(c))
}

pub fn maximum(b: i32, c: i32) -> Outcome {
    copy(b.max(c))
}

/// "age (now less the birth of the current event)". The birth is at most now
/// and now in range, so nothing is clipped.
pub fn age(now: u32, birth: u32) -> Outcome {
    nearest(i64::from(now) - i64::from(birth))
}
