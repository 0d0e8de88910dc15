//! The modules of the syntax, and the names under which they know one another.

include!(concat!(env!("OUT_DIR"), "/syntax.rs"));

pub use context::{Chirality, ContextBinding, TypingContext};
pub use declaration::TypeDeclaration;
pub use def::Def;
pub use names::{ID, Identifier};
pub use program::Prog;
pub use statements::Statement;
pub use types::Ty;
