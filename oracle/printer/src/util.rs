//! Braces.

use crate::Builder;

pub trait BracesExt {
    fn braces_anno(self) -> Self;
}

impl BracesExt for Builder<'_> {
    fn braces_anno(self) -> Self {
        format!("{{{}}}", self.text).into()
    }
}
