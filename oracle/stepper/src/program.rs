//! A program as its records by index: which records hang from which.

use reference::image::Record;
use reference::syntax::{Binding, Name};

/// The records of an image that has a yes to questions 1 to 5.
#[derive(Debug)]
pub struct Program {
    records: Vec<Record>,
    /// For each record the index behind the last one that hangs from it.
    ends: Vec<usize>,
}

impl Program {
    pub fn new(records: Vec<Record>) -> Program {
        let mut ends = vec![0; records.len()];
        // what hangs from a record stands behind it, so its ends are known before
        for index in (0..records.len()).rev() {
            ends[index] = (0..hanging(&records[index])).fold(index + 1, |end, _| ends[end]);
        }
        Program { records, ends }
    }

    pub fn record(&self, index: usize) -> &Record {
        &self.records[index]
    }

    /// Whether the record of that index is one of a statement.
    pub fn is_statement(&self, index: usize) -> bool {
        let kind = self.records.get(index).map(Record::kind);
        matches!(kind, Some(2..=10 | 12 | 13))
    }

    pub fn is_create(&self, index: usize) -> bool {
        matches!(self.records.get(index), Some(Record::Create { .. }))
    }

    /// The index of the definition at that place among the definitions.
    pub fn definition(&self, place: usize) -> Option<usize> {
        self.definitions().nth(place)
    }

    /// "Lookup of a label, or of a clause by tag, is by name, first found."
    pub fn labelled(&self, label: Name) -> Option<usize> {
        self.definitions().find(|&index| {
            matches!(&self.records[index], Record::Definition { name, .. } if name.name == label)
        })
    }

    /// The first clause with that tag of the Switch or Create.
    pub fn clause(&self, owner: usize, tag: Name) -> Option<usize> {
        self.parts(owner).find(|&index| {
            matches!(&self.records[index], Record::Clause { xtor, .. } if xtor.name == tag)
        })
    }

    /// The parameters of a definition or of a clause.
    pub fn params(&self, index: usize) -> &[Binding] {
        match &self.records[index] {
            Record::Definition { params, .. } | Record::Clause { params, .. } => params,
            other => panic!("kind {} has no parameters", other.kind()),
        }
    }

    /// The statement that follows: a body, behind the clauses of a Create; of an IfC the then-branch.
    pub fn next(&self, index: usize) -> usize {
        let mut parts = self.parts(index);
        let found = parts.find(|&part| !matches!(self.records[part], Record::Clause { .. }));
        found.expect("a record with a body")
    }

    pub fn else_branch(&self, ifc: usize) -> usize {
        self.ends[self.next(ifc)]
    }

    /// The indexes of the definitions; there is none inside another.
    fn definitions(&self) -> impl Iterator<Item = usize> {
        let is = |&index: &usize| matches!(self.records[index], Record::Definition { .. });
        (0..self.records.len()).filter(is)
    }

    /// The clauses and bodies that hang from a record at once.
    fn parts(&self, index: usize) -> impl Iterator<Item = usize> {
        let next = |&part: &usize| self.ends.get(part).copied();
        std::iter::successors(Some(index + 1), next).take(hanging(&self.records[index]))
    }
}

/// How many clauses and bodies hang from a record at once.
fn hanging(record: &Record) -> usize {
    match record {
        Record::Call { .. } | Record::Invoke { .. } | Record::Exit { .. } => 0,
        Record::Definition { .. }
        | Record::Substitute { .. }
        | Record::Let { .. }
        | Record::Literal { .. }
        | Record::Op { .. }
        | Record::Clause { .. }
        | Record::PrintI64 { .. } => 1,
        Record::IfC { .. } => 2,
        Record::Switch { clauses, .. } => usize::from(*clauses),
        Record::Create { clauses, .. } => usize::from(*clauses) + 1,
    }
}
