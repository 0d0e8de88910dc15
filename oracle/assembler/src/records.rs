//! Records as bytes, and the image that they make (docs/FORMAT.md).

#[derive(Debug, Clone, Copy, PartialEq, Eq)]
pub struct Identifier {
    pub name: u16,
    pub id: u16,
}

#[derive(Debug, Clone, Copy, PartialEq, Eq)]
pub enum Ty {
    I64,
    Declared(Identifier),
}

#[derive(Debug, Clone, Copy, PartialEq, Eq)]
pub struct Binding {
    pub var: Identifier,
    /// 0 Prd, 1 Cns, 2 Ext.
    pub chirality: u8,
    pub ty: Ty,
}

/// A record at work.
#[derive(Debug, Clone, Default)]
pub struct Record(pub Vec<u8>);

impl Record {
    pub fn of_kind(kind: u8) -> Record {
        Record(vec![kind])
    }

    pub fn byte(mut self, byte: u8) -> Record {
        self.0.push(byte);
        self
    }

    pub fn integer(mut self, value: i64) -> Record {
        self.0.extend(value.to_le_bytes());
        self
    }

    pub fn identifier(mut self, identifier: Identifier) -> Record {
        self.0.extend(identifier.name.to_le_bytes());
        self.0.extend(identifier.id.to_le_bytes());
        self
    }

    pub fn ty(self, ty: Ty) -> Record {
        match ty {
            Ty::I64 => self.byte(0).identifier(Identifier { name: 0, id: 0 }),
            Ty::Declared(identifier) => self.byte(1).identifier(identifier),
        }
    }

    pub fn binding(self, binding: Binding) -> Record {
        self.identifier(binding.var)
            .byte(binding.chirality)
            .ty(binding.ty)
    }

    pub fn list(self, bindings: &[Binding]) -> Record {
        bindings
            .iter()
            .fold(self.byte(bindings.len() as u8), |record, &binding| {
                record.binding(binding)
            })
    }

    pub fn pairs(self, pairs: &[(Binding, Identifier)]) -> Record {
        pairs
            .iter()
            .fold(self.byte(pairs.len() as u8), |record, &(target, source)| {
                record.binding(target).identifier(source)
            })
    }
}

/// Header, directory and records, or nothing where a number is too large for its field.
pub fn image(definitions: usize, max_id: u16, records: &[Record]) -> Option<Vec<u8>> {
    let mut image = Vec::new();
    let numbers = [1, definitions, max_id.into(), records.len()];
    for number in numbers {
        image.extend(u16::try_from(number).ok()?.to_le_bytes());
    }
    let mut offset = image.len() + 4 * records.len();
    for record in records {
        image.extend(u16::try_from(offset).ok()?.to_le_bytes());
        image.extend(u16::try_from(record.0.len()).ok()?.to_le_bytes());
        offset += record.0.len();
    }
    image.extend(records.iter().flat_map(|record| &record.0));
    Some(image)
}
