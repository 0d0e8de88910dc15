//! Documents, and what makes them.

use std::marker::PhantomData;

/// The arena of the printer that this stands in for; text needs none.
#[derive(Default)]
pub struct Alloc<'a>(PhantomData<&'a ()>);

/// A document: its text.
#[derive(Clone)]
pub struct Builder<'a> {
    pub(crate) text: String,
    arena: PhantomData<&'a ()>,
}

impl From<String> for Builder<'_> {
    fn from(text: String) -> Self {
        Builder {
            text,
            arena: PhantomData,
        }
    }
}

impl From<&str> for Builder<'_> {
    fn from(text: &str) -> Self {
        text.to_string().into()
    }
}

impl<'a> Builder<'a> {
    pub fn append(mut self, after: impl Into<Builder<'a>>) -> Self {
        self.text.push_str(&after.into().text);
        self
    }

    pub fn parens(self) -> Self {
        format!("({})", self.text).into()
    }

    pub fn group(self) -> Self {
        self
    }

    pub fn nest(self, _indent: isize) -> Self {
        self
    }

    pub fn align(self) -> Self {
        self
    }
}

pub trait DocAllocator<'a> {
    fn text(&'a self, text: &str) -> Builder<'a> {
        text.into()
    }

    fn nil(&'a self) -> Builder<'a> {
        self.text("")
    }

    fn space(&'a self) -> Builder<'a> {
        self.text(" ")
    }

    fn line(&'a self) -> Builder<'a> {
        self.text(" ")
    }

    fn line_(&'a self) -> Builder<'a> {
        self.nil()
    }

    fn hardline(&'a self) -> Builder<'a> {
        self.text("\n")
    }

    fn intersperse(
        &'a self,
        docs: impl Iterator<Item = Builder<'a>>,
        separator: Builder<'a>,
    ) -> Builder<'a> {
        let texts: Vec<String> = docs.map(|doc| doc.text).collect();
        texts.join(&separator.text).into()
    }
}

impl<'a> DocAllocator<'a> for Alloc<'a> {}
