//! What can be printed.

use crate::{Alloc, Builder, tokens::COMMA};

#[derive(Default)]
pub struct PrintCfg {
    pub allow_linebreaks: bool,
    pub omit_decl_sep: bool,
    pub indent: isize,
}

pub trait Print {
    fn print<'a>(&'a self, cfg: &PrintCfg, alloc: &'a Alloc<'a>) -> Builder<'a>;

    fn print_to_string(&self, cfg: Option<&PrintCfg>) -> String {
        let alloc = Alloc::default();
        self.print(cfg.unwrap_or(&PrintCfg::default()), &alloc).text
    }
}

impl Print for String {
    fn print<'a>(&'a self, _cfg: &PrintCfg, _alloc: &'a Alloc<'a>) -> Builder<'a> {
        self.as_str().into()
    }
}

impl<T: Print> Print for Vec<T> {
    fn print<'a>(&'a self, cfg: &PrintCfg, alloc: &'a Alloc<'a>) -> Builder<'a> {
        let texts: Vec<String> = self
            .iter()
            .map(|element| element.print(cfg, alloc).text)
            .collect();
        texts.join(&format!("{COMMA} ")).into()
    }
}
