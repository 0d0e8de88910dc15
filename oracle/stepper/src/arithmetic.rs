//! What Op and IfC compute, over whole numbers.

use reference::syntax::{BinOp, IfSort};

/// "Op wraps for Sum, Sub, Prod; Div goes toward zero, Rem has the dividend's sign; divisor 0 and -2^63
/// by -1 have no next step."
pub fn result(op: BinOp, fst: i64, snd: i64) -> Option<i64> {
    let (fst, snd) = (i128::from(fst), i128::from(snd));
    let wrapped = |whole: i128| Some(whole as i64);
    match op {
        BinOp::Sum => wrapped(fst + snd),
        BinOp::Sub => wrapped(fst - snd),
        BinOp::Prod => wrapped(fst * snd),
        BinOp::Div | BinOp::Rem if snd == 0 => None,
        BinOp::Div => i64::try_from(fst / snd).ok(),
        BinOp::Rem => {
            let quotient = i64::try_from(fst / snd).ok()?;
            wrapped(fst - i128::from(quotient) * snd)
        }
    }
}

pub fn compares(sort: IfSort, fst: i64, snd: i64) -> bool {
    let above = i128::from(fst) - i128::from(snd);
    match sort {
        IfSort::Equal => above == 0,
        IfSort::NotEqual => above != 0,
        IfSort::Less => above < 0,
        IfSort::LessOrEqual => above <= 0,
        IfSort::Greater => above > 0,
        IfSort::GreaterOrEqual => above >= 0,
    }
}
