//! Types.

use super::Identifier;

#[derive(Debug, Clone, Copy, PartialEq, Eq)]
pub enum Ty {
    I64,
    Decl(Identifier),
}
