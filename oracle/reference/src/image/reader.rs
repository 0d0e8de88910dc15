//! Reading one record from its bytes. Each function takes what it reads off the front; `None` is the
//! no to question 4.

use super::Record;
use crate::syntax::{BinOp, Binding, Chirality, Id, Identifier, IfSort, Name, Pair, Ty};

/// "Is each record of kind 1 to 13, of exactly its length, every count at most 128, every code and
/// mark in range, I64's four bytes zero?"
pub fn record(bytes: &[u8]) -> Option<Record> {
    let mut reader = Reader { bytes };
    let record = reader.record()?;
    reader.bytes.is_empty().then_some(record)
}

struct Reader<'a> {
    bytes: &'a [u8],
}

impl Reader<'_> {
    fn record(&mut self) -> Option<Record> {
        Some(match self.byte()? {
            1 => Record::Definition {
                name: self.identifier()?,
                params: self.list()?,
            },
            2 => Record::Substitute {
                rearrange: self.counted(Self::pair)?,
            },
            3 => Record::Call {
                label: self.identifier()?,
                args: self.list()?,
            },
            4 => Record::Let {
                var: self.identifier()?,
                ty: self.ty()?,
                tag: self.identifier()?,
                args: self.list()?,
            },
            5 => Record::Switch {
                var: self.identifier()?,
                ty: self.ty()?,
                clauses: self.count()?,
            },
            6 => Record::Create {
                var: self.identifier()?,
                ty: self.ty()?,
                environment: self.marked(Self::list)?,
                clauses: self.count()?,
            },
            7 => Record::Invoke {
                var: self.identifier()?,
                tag: self.identifier()?,
                ty: self.ty()?,
                args: self.list()?,
            },
            8 => Record::Literal {
                lit: i64::from_le_bytes(self.take()?),
                var: self.identifier()?,
            },
            9 => Record::Op {
                fst: self.identifier()?,
                op: self.bin_op()?,
                snd: self.identifier()?,
                var: self.identifier()?,
            },
            10 => Record::IfC {
                sort: self.if_sort()?,
                fst: self.identifier()?,
                snd: self.marked(Self::identifier)?,
            },
            11 => Record::Clause {
                xtor: self.identifier()?,
                params: self.list()?,
            },
            12 => Record::PrintI64 {
                newline: self.newline()?,
                var: self.identifier()?,
            },
            13 => Record::Exit {
                var: self.identifier()?,
            },
            _ => return None,
        })
    }

    fn take<const N: usize>(&mut self) -> Option<[u8; N]> {
        let (first, rest) = self.bytes.split_first_chunk()?;
        self.bytes = rest;
        Some(*first)
    }

    fn byte(&mut self) -> Option<u8> {
        self.take::<1>().map(|[byte]| byte)
    }

    fn field(&mut self) -> Option<u16> {
        self.take().map(u16::from_le_bytes)
    }

    fn count(&mut self) -> Option<u8> {
        self.byte().filter(|&count| count <= Record::LARGEST_COUNT)
    }

    fn counted<T>(&mut self, read: fn(&mut Self) -> Option<T>) -> Option<Vec<T>> {
        (0..self.count()?).map(|_| read(self)).collect()
    }

    fn marked<T>(&mut self, read: fn(&mut Self) -> Option<T>) -> Option<Option<T>> {
        match self.byte()? {
            0 => Some(None),
            1 => read(self).map(Some),
            _ => None,
        }
    }

    /// "Newline byte 0 or 1."
    fn newline(&mut self) -> Option<bool> {
        match self.byte()? {
            0 => Some(false),
            1 => Some(true),
            _ => None,
        }
    }

    fn identifier(&mut self) -> Option<Identifier> {
        Some(Identifier {
            name: Name(self.field()?),
            id: Id(self.field()?.into()),
        })
    }

    fn ty(&mut self) -> Option<Ty> {
        match self.byte()? {
            0 => (self.take()? == [0; 4]).then_some(Ty::I64),
            1 => self.identifier().map(Ty::Decl),
            _ => None,
        }
    }

    fn binding(&mut self) -> Option<Binding> {
        Some(Binding {
            var: self.identifier()?,
            chi: self.chirality()?,
            ty: self.ty()?,
        })
    }

    fn list(&mut self) -> Option<Vec<Binding>> {
        self.counted(Self::binding)
    }

    fn pair(&mut self) -> Option<Pair> {
        Some(Pair {
            target: self.binding()?,
            source: self.identifier()?,
        })
    }

    fn chirality(&mut self) -> Option<Chirality> {
        match self.byte()? {
            0 => Some(Chirality::Prd),
            1 => Some(Chirality::Cns),
            2 => Some(Chirality::Ext),
            _ => None,
        }
    }

    fn bin_op(&mut self) -> Option<BinOp> {
        match self.byte()? {
            0 => Some(BinOp::Div),
            1 => Some(BinOp::Prod),
            2 => Some(BinOp::Rem),
            3 => Some(BinOp::Sum),
            4 => Some(BinOp::Sub),
            _ => None,
        }
    }

    fn if_sort(&mut self) -> Option<IfSort> {
        match self.byte()? {
            0 => Some(IfSort::Equal),
            1 => Some(IfSort::NotEqual),
            2 => Some(IfSort::Less),
            3 => Some(IfSort::LessOrEqual),
            4 => Some(IfSort::Greater),
            5 => Some(IfSort::GreaterOrEqual),
            _ => None,
        }
    }
}
