//! Marked words; the marks are left out.

use crate::{Alloc, Builder, DocAllocator};

pub trait ThemeExt<'a>: DocAllocator<'a> {
    fn keyword(&'a self, text: &str) -> Builder<'a> {
        self.text(text)
    }

    fn typ(&'a self, text: &str) -> Builder<'a> {
        self.text(text)
    }

    fn ctor(&'a self, text: &str) -> Builder<'a> {
        self.text(text)
    }
}

impl<'a> ThemeExt<'a> for Alloc<'a> {}
