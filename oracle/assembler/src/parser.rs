//! The statements of a text, whose records are written in the order in which they stand.

use crate::names::{Names, split};
use crate::records::{Binding, Identifier, Record, Ty, image};
use crate::tokens::{Placed, Token};
use crate::{Assembled, Fault};

type Parsed<T> = Result<T, Fault>;

const PRD: u8 = 0;
const CNS: u8 = 1;
const EXT: u8 = 2;

const OPERATORS: [&str; 5] = ["/", "*", "%", "+", "-"];
const COMPARISONS: [&str; 6] = ["==", "!=", "<", "<=", ">", ">="];

pub struct Parser {
    tokens: Vec<Placed>,
    at: usize,
    names: Names,
    records: Vec<Record>,
    definitions: usize,
    /// The binders on the way, the innermost last.
    scope: Vec<Binding>,
    last_id: u16,
}

impl Parser {
    pub fn new(tokens: Vec<Placed>) -> Parser {
        Parser {
            tokens,
            at: 0,
            names: Names::default(),
            records: Vec::new(),
            definitions: 0,
            scope: Vec::new(),
            last_id: 0,
        }
    }

    pub fn program(mut self) -> Parsed<Assembled> {
        let stated = self.max_id()?;
        while *self.peek() != Token::End {
            self.definition()?;
        }
        let max_id = stated.unwrap_or(self.last_id);
        match image(self.definitions, max_id, &self.records) {
            Some(image) => Ok(Assembled {
                image,
                names: self.names,
            }),
            None => self.fault("the image is too large".into()),
        }
    }

    fn max_id(&mut self) -> Parsed<Option<u16>> {
        if !self.takes_word("max_id") {
            return Ok(None);
        }
        let value = self.number()?;
        match u16::try_from(value) {
            Ok(value) => Ok(Some(value)),
            Err(_) => self.fault(format!("{value} is no ID")),
        }
    }

    fn definition(&mut self) -> Parsed<()> {
        self.word("def")?;
        self.definitions += 1;
        self.scope.clear();
        let name = self.label()?;
        let params = self.params()?;
        self.write(Record::of_kind(1).identifier(name).list(&params));
        self.block()
    }

    fn block(&mut self) -> Parsed<()> {
        let outer = self.scope.len();
        self.sign("{")?;
        self.statement()?;
        self.sign("}")?;
        self.scope.truncate(outer);
        Ok(())
    }

    /// A statement, with those behind it.
    fn statement(&mut self) -> Parsed<()> {
        loop {
            let ended = match self.peek_word() {
                Some("substitute") => self.substitute()?,
                Some("let") => self.r#let()?,
                Some("switch") => self.switch()?,
                Some("create") => self.create()?,
                Some("invoke") => self.invoke()?,
                Some("lit") => self.literal()?,
                Some("if") => self.ifc()?,
                Some("print_i64") => self.print_i64(0)?,
                Some("println_i64") => self.print_i64(1)?,
                Some("exit") => self.exit()?,
                Some(_) if self.peek_after() == &Token::Sign("<-") => self.op()?,
                Some(_) => self.call()?,
                None => return self.fault("a statement is missing".into()),
            };
            if ended {
                return Ok(());
            }
        }
    }

    fn substitute(&mut self) -> Parsed<bool> {
        self.word("substitute")?;
        let mut pairs = Vec::new();
        while *self.peek() != Token::Sign(";") {
            if !pairs.is_empty() {
                self.sign(",")?;
            }
            pairs.push(self.pair()?);
        }
        self.sign(";")?;
        for &(target, _) in &pairs {
            self.scope.push(target);
        }
        self.write(Record::of_kind(2).pairs(&pairs));
        Ok(false)
    }

    fn pair(&mut self) -> Parsed<(Binding, Identifier)> {
        let word = self.any_word()?;
        let told = self.told_type()?;
        self.sign(":=")?;
        let source = self.variable()?;
        let (chirality, ty) = told.map_or_else(|| self.type_of(source), Ok)?;
        let var = self.binder_of(&word)?;
        let target = Binding { var, chirality, ty };
        Ok((target, source))
    }

    fn call(&mut self) -> Parsed<bool> {
        let label = self.label()?;
        let args = self.args()?;
        self.write(Record::of_kind(3).identifier(label).list(&args));
        Ok(true)
    }

    fn r#let(&mut self) -> Parsed<bool> {
        self.word("let")?;
        let word = self.any_word()?;
        self.sign(":")?;
        let ty = self.ty()?;
        self.sign("=")?;
        let tag = self.label()?;
        let args = self.args()?;
        self.sign(";")?;
        let var = self.binder(&word, PRD, ty)?;
        let record = Record::of_kind(4).identifier(var).ty(ty);
        self.write(record.identifier(tag).list(&args));
        Ok(false)
    }

    fn switch(&mut self) -> Parsed<bool> {
        self.word("switch")?;
        let var = self.variable()?;
        let ty = self.type_at_use(var)?;
        let place = self.write(Record::of_kind(5).identifier(var).ty(ty).byte(0));
        self.clauses(place)?;
        Ok(true)
    }

    fn create(&mut self) -> Parsed<bool> {
        self.word("create")?;
        let word = self.any_word()?;
        self.sign(":")?;
        let ty = self.ty()?;
        self.sign("=")?;
        let var = self.binder_of(&word)?;
        let head = Record::of_kind(6).identifier(var).ty(ty);
        let marked = if *self.peek() == Token::Sign("(") {
            head.byte(1).list(&self.args()?)
        } else {
            head.byte(0)
        };
        let place = self.write(marked.byte(0));
        self.clauses(place)?;
        self.sign(";")?;
        self.scope.push(Binding {
            var,
            chirality: CNS,
            ty,
        });
        Ok(false)
    }

    /// The clauses of the record at a place, which ends in their count.
    fn clauses(&mut self, place: usize) -> Parsed<()> {
        self.sign("{")?;
        let mut count = 0;
        while *self.peek() != Token::Sign("}") {
            self.clause()?;
            count += 1;
        }
        match self.records[place].0.last_mut() {
            Some(last) => *last = count,
            None => unreachable!("a record has its kind"),
        }
        self.sign("}")
    }

    fn clause(&mut self) -> Parsed<()> {
        let outer = self.scope.len();
        let xtor = self.label()?;
        let params = self.params()?;
        self.sign("=>")?;
        self.write(Record::of_kind(11).identifier(xtor).list(&params));
        self.block()?;
        self.scope.truncate(outer);
        Ok(())
    }

    fn invoke(&mut self) -> Parsed<bool> {
        self.word("invoke")?;
        let var = self.variable()?;
        let ty = self.type_at_use(var)?;
        let tag = self.label()?;
        let args = self.args()?;
        let record = Record::of_kind(7).identifier(var).identifier(tag);
        self.write(record.ty(ty).list(&args));
        Ok(true)
    }

    fn literal(&mut self) -> Parsed<bool> {
        self.word("lit")?;
        let word = self.any_word()?;
        self.sign("<-")?;
        let value = self.number()?;
        self.sign(";")?;
        let var = self.binder(&word, EXT, Ty::I64)?;
        self.write(Record::of_kind(8).integer(value).identifier(var));
        Ok(false)
    }

    fn op(&mut self) -> Parsed<bool> {
        let word = self.any_word()?;
        self.sign("<-")?;
        let fst = self.variable()?;
        let code = self.code(&OPERATORS)?;
        let snd = self.variable()?;
        self.sign(";")?;
        let var = self.binder(&word, EXT, Ty::I64)?;
        let record = Record::of_kind(9).identifier(fst).byte(code);
        self.write(record.identifier(snd).identifier(var));
        Ok(false)
    }

    fn ifc(&mut self) -> Parsed<bool> {
        self.word("if")?;
        let fst = self.variable()?;
        let code = self.code(&COMPARISONS)?;
        let record = Record::of_kind(10).byte(code).identifier(fst);
        if *self.peek() == Token::Number(0) {
            self.take();
            self.write(record.byte(0));
        } else {
            let snd = self.variable()?;
            self.write(record.byte(1).identifier(snd));
        }
        self.block()?;
        self.word("else")?;
        self.block()?;
        Ok(true)
    }

    /// The word is told by the newline byte.
    fn print_i64(&mut self, newline: u8) -> Parsed<bool> {
        self.take();
        self.sign("(")?;
        let var = self.variable()?;
        self.sign(")")?;
        self.sign(";")?;
        self.write(Record::of_kind(12).byte(newline).identifier(var));
        Ok(false)
    }

    fn exit(&mut self) -> Parsed<bool> {
        self.word("exit")?;
        let var = self.variable()?;
        self.write(Record::of_kind(13).identifier(var));
        Ok(true)
    }

    /// Binders in parentheses.
    fn params(&mut self) -> Parsed<Vec<Binding>> {
        self.list(|parser| {
            let word = parser.any_word()?;
            match parser.told_type()? {
                Some((chirality, ty)) => {
                    let var = parser.binder(&word, chirality, ty)?;
                    Ok(Binding { var, chirality, ty })
                }
                None => parser.fault(format!("{word} has no type")),
            }
        })
    }

    /// Uses in parentheses.
    fn args(&mut self) -> Parsed<Vec<Binding>> {
        self.list(|parser| {
            let var = parser.variable()?;
            let told = parser.told_type()?;
            let (chirality, ty) = told.map_or_else(|| parser.type_of(var), Ok)?;
            Ok(Binding { var, chirality, ty })
        })
    }

    fn list(&mut self, item: impl Fn(&mut Parser) -> Parsed<Binding>) -> Parsed<Vec<Binding>> {
        self.sign("(")?;
        let mut items = Vec::new();
        while *self.peek() != Token::Sign(")") {
            if !items.is_empty() {
                self.sign(",")?;
            }
            items.push(item(self)?);
        }
        self.sign(")")?;
        if items.len() > 255 {
            return self.fault("a list is too long".into());
        }
        Ok(items)
    }

    /// A colon, a chirality and a type, where a colon stands.
    fn told_type(&mut self) -> Parsed<Option<(u8, Ty)>> {
        if !self.takes_sign(":") {
            return Ok(None);
        }
        let word = self.any_word()?;
        let chirality = match word.as_str() {
            "prd" => PRD,
            "cns" => CNS,
            "ext" => EXT,
            _ => return self.fault(format!("{word} is no chirality")),
        };
        Ok(Some((chirality, self.ty()?)))
    }

    /// The type of the variable of a switch or an invoke: as it stands, or its binder's.
    fn type_at_use(&mut self, var: Identifier) -> Parsed<Ty> {
        if self.takes_sign(":") {
            return self.ty();
        }
        Ok(self.type_of(var)?.1)
    }

    fn ty(&mut self) -> Parsed<Ty> {
        if self.takes_word("i64") {
            return Ok(Ty::I64);
        }
        Ok(Ty::Declared(self.label()?))
    }

    /// Chirality and type of the binder that a use means.
    fn type_of(&self, var: Identifier) -> Parsed<(u8, Ty)> {
        let mut binders = self.scope.iter().rev();
        match binders.find(|binder| binder.var.id == var.id) {
            Some(binder) => Ok((binder.chirality, binder.ty)),
            None => self.fault(format!("ID {} is not in scope", var.id)),
        }
    }

    /// A variable that is used.
    fn variable(&mut self) -> Parsed<Identifier> {
        let word = self.any_word()?;
        let (name, id) = split(&word);
        let name = self.name(name)?;
        if let Some(id) = id {
            return Ok(Identifier { name, id });
        }
        let mut binders = self.scope.iter().rev();
        match binders.find(|binder| binder.var.name == name) {
            Some(binder) => Ok(binder.var),
            None => self.fault(format!("{word} is not in scope")),
        }
    }

    /// A binder that is in scope from here on.
    fn binder(&mut self, word: &str, chirality: u8, ty: Ty) -> Parsed<Identifier> {
        let var = self.binder_of(word)?;
        self.scope.push(Binding { var, chirality, ty });
        Ok(var)
    }

    fn binder_of(&mut self, word: &str) -> Parsed<Identifier> {
        let (name, id) = split(word);
        let name = self.name(name)?;
        let id = match id {
            Some(id) => id,
            None => match self.last_id.checked_add(1) {
                Some(id) => id,
                None => return self.fault("there are no more IDs".into()),
            },
        };
        self.last_id = self.last_id.max(id);
        Ok(Identifier { name, id })
    }

    /// A label, a tag or the name of a type.
    fn label(&mut self) -> Parsed<Identifier> {
        let word = self.any_word()?;
        let (name, id) = split(&word);
        let name = self.name(name)?;
        let id = id.unwrap_or(0);
        Ok(Identifier { name, id })
    }

    fn name(&mut self, name: &str) -> Parsed<u16> {
        match self.names.number(name) {
            Some(number) => Ok(number),
            None => self.fault("there are too many names".into()),
        }
    }

    /// The place of a sign in a table.
    fn code(&mut self, signs: &[&str]) -> Parsed<u8> {
        for (code, sign) in signs.iter().enumerate() {
            if self.takes_sign(sign) {
                return Ok(code as u8);
            }
        }
        self.fault(format!("one of {} is missing", signs.join(" ")))
    }

    fn write(&mut self, record: Record) -> usize {
        self.records.push(record);
        self.records.len() - 1
    }

    fn peek(&self) -> &Token {
        &self.tokens[self.at].0
    }

    fn peek_after(&self) -> &Token {
        let after = (self.at + 1).min(self.tokens.len() - 1);
        &self.tokens[after].0
    }

    fn peek_word(&self) -> Option<&str> {
        match self.peek() {
            Token::Word(word) => Some(word),
            _ => None,
        }
    }

    /// The next token. The last one stays.
    fn take(&mut self) -> Token {
        let token = self.peek().clone();
        self.at = (self.at + 1).min(self.tokens.len() - 1);
        token
    }

    fn takes_word(&mut self, word: &str) -> bool {
        let there = self.peek_word() == Some(word);
        if there {
            self.take();
        }
        there
    }

    fn takes_sign(&mut self, sign: &str) -> bool {
        let there = matches!(self.peek(), Token::Sign(found) if *found == sign);
        if there {
            self.take();
        }
        there
    }

    fn word(&mut self, word: &str) -> Parsed<()> {
        if self.takes_word(word) {
            return Ok(());
        }
        self.fault(format!("{word} is missing"))
    }

    fn sign(&mut self, sign: &str) -> Parsed<()> {
        if self.takes_sign(sign) {
            return Ok(());
        }
        self.fault(format!("{sign} is missing"))
    }

    fn any_word(&mut self) -> Parsed<String> {
        match self.peek_word() {
            Some(word) => {
                let word = word.into();
                self.take();
                Ok(word)
            }
            None => self.fault("a name is missing".into()),
        }
    }

    fn number(&mut self) -> Parsed<i64> {
        match self.peek() {
            Token::Number(value) => {
                let value = *value;
                self.take();
                Ok(value)
            }
            _ => self.fault("a number is missing".into()),
        }
    }

    fn fault<T>(&self, what: String) -> Parsed<T> {
        let line = self.tokens[self.at].1;
        Err(Fault { line, what })
    }
}
