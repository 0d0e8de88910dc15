//! Names and IDs. "A name and an ID must never stand in for one another."

/// "A name is a number for one spelling."
#[derive(Debug, Clone, Copy, PartialEq, Eq, PartialOrd, Ord, Hash)]
pub struct Name(pub u16);

/// "A variable is known by its ID." Wider than a field of the image: IDs are drawn beyond 65,535
/// before question 11 is asked.
#[derive(Debug, Clone, Copy, PartialEq, Eq, PartialOrd, Ord, Hash)]
pub struct Id(pub u32);

#[derive(Debug, Clone, Copy, PartialEq, Eq)]
pub struct Identifier {
    pub name: Name,
    pub id: Id,
}
