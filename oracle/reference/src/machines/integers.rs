//! What Op and IfC compute.

use crate::syntax::{BinOp, IfSort};

/// "Op wraps for Sum, Sub, Prod; Div goes toward zero, Rem has the dividend's sign; divisor 0 and
/// -2^63 by -1 have no next step."
pub fn evaluate(op: BinOp, fst: i64, snd: i64) -> Option<i64> {
    match op {
        BinOp::Div => fst.checked_div(snd),
        BinOp::Prod => Some(fst.wrapping_mul(snd)),
        BinOp::Rem => fst.checked_rem(snd),
        BinOp::Sum => Some(fst.wrapping_add(snd)),
        BinOp::Sub => Some(fst.wrapping_sub(snd)),
    }
}

pub fn holds(sort: IfSort, fst: i64, snd: i64) -> bool {
    match sort {
        IfSort::Equal => fst == snd,
        IfSort::NotEqual => fst != snd,
        IfSort::Less => fst < snd,
        IfSort::LessOrEqual => fst <= snd,
        IfSort::Greater => fst > snd,
        IfSort::GreaterOrEqual => fst >= snd,
    }
}
