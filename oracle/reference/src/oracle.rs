//! The oracle: one image examined once, and what each of the four calls answers for it.

pub mod rust;

use crate::image::{Frame, LARGEST, LARGEST_ID, frame, order, writer};
use crate::questions::{Question, ask, scoped, source_form};
use crate::syntax::{Id, Prog};

use std::cell::OnceCell;

/// What a call reports beside its buffers.
#[derive(Debug, Clone, Copy, PartialEq, Eq)]
pub struct Answer {
    pub number: u8,
    pub length: usize,
    pub max_id: u32,
}

pub struct Oracle {
    /// Questions 1 to 5.
    read: Result<Prog, Question>,
    /// Questions 6 and 7.
    source_form: OnceCell<Result<(), Question>>,
    /// Questions 8 to 10.
    scoped: OnceCell<Result<(), Question>>,
    linearized: OnceCell<Linearized>,
    annotations: OnceCell<Vec<Option<Vec<u8>>>>,
}

/// What the pass gives for a program that has a yes to 1 to 10.
struct Linearized {
    prog: Prog,
    /// The image, where 11 has a yes and an image can have so many bytes.
    image: Result<Vec<u8>, Question>,
}

impl Oracle {
    pub fn new(image: &[u8]) -> Oracle {
        Oracle {
            read: Frame::read(image).and_then(|frame| order::program(&frame)),
            source_form: OnceCell::new(),
            scoped: OnceCell::new(),
            linearized: OnceCell::new(),
            annotations: OnceCell::new(),
        }
    }

    /// "Reading takes 1 to 5."
    pub fn read(&self) -> Answer {
        answer(self.program().map(|prog| (0, prog.max_id)))
    }

    /// "The scope check 1 to 10."
    pub fn check(&self) -> Answer {
        answer(self.checked().map(|prog| (0, prog.max_id)))
    }

    /// "Linearization 1 to 12."
    pub fn linearize(&self, out: &mut [u8]) -> Answer {
        self.give(out, self.image(out.len()))
    }

    /// "Annotation 1 to 7, 13, 12."
    pub fn annotate(&self, record: usize, out: &mut [u8]) -> Answer {
        self.give(out, self.annotation(record, out.len()))
    }

    /// The program that the image reads as.
    pub fn program(&self) -> Result<&Prog, Question> {
        self.read.as_ref().map_err(|&question| question)
    }

    /// The program that linearization gives, where questions 1 to 10 have a yes.
    pub fn linearized(&self) -> Result<&Prog, Question> {
        self.pass().map(|linearized| &linearized.prog)
    }

    /// The bytes that linearization needs, where questions 1 to 11 have a yes and some buffer does.
    pub fn needed(&self) -> Result<usize, Question> {
        self.image(LARGEST).map(|(image, _)| image.len())
    }

    /// The bytes that a record's annotation needs, where some buffer does.
    pub fn annotation_needed(&self, record: usize) -> Result<usize, Question> {
        self.annotation(record, usize::MAX)
            .map(|(bytes, _)| bytes.len())
    }

    fn formed(&self) -> Result<&Prog, Question> {
        let prog = self.program()?;
        (*self.source_form.get_or_init(|| source_form(prog)))?;
        Ok(prog)
    }

    fn checked(&self) -> Result<&Prog, Question> {
        let prog = self.formed()?;
        (*self.scoped.get_or_init(|| scoped(prog)))?;
        Ok(prog)
    }

    fn pass(&self) -> Result<&Linearized, Question> {
        let prog = self.checked()?;
        Ok(self.linearized.get_or_init(|| Linearized::new(prog)))
    }

    /// "Does the answer fit the lent buffer, an image also 65,535 bytes?" It is asked after 11.
    fn image(&self, room: usize) -> Result<(&[u8], Id), Question> {
        let linearized = self.pass()?;
        let image = linearized.image.as_deref().map_err(|&question| question)?;
        ask(Question::Room, image.len() <= room)?;
        Ok((image, linearized.prog.max_id))
    }

    /// "Is the record, given by its place from 0, below N and one with an annotation?"
    fn annotation(&self, record: usize, room: usize) -> Result<(&[u8], Id), Question> {
        let prog = self.formed()?;
        let annotations = self.annotations.get_or_init(|| annotations(prog));
        let annotation = match annotations.get(record) {
            Some(Some(annotation)) => annotation,
            _ => return Err(Question::Annotated),
        };
        ask(Question::Room, annotation.len() <= room)?;
        Ok((annotation, prog.max_id))
    }

    /// "Numbers 11 and 12 set the whole output buffer to zero; others leave it. After acceptance,
    /// bytes past the length stay."
    fn give(&self, out: &mut [u8], given: Result<(&[u8], Id), Question>) -> Answer {
        match given {
            Ok((bytes, _)) => out[..bytes.len()].copy_from_slice(bytes),
            Err(Question::Fresh | Question::Room) => out.fill(0),
            Err(_) => {}
        }
        answer(given.map(|(bytes, max_id)| (bytes.len(), max_id)))
    }
}

/// "A refusal reports length 0 and max_id 0."
fn answer(reported: Result<(usize, Id), Question>) -> Answer {
    match reported {
        Ok((length, max_id)) => Answer {
            number: 0,
            length,
            max_id: max_id.0,
        },
        Err(question) => Answer {
            number: question.number(),
            length: 0,
            max_id: 0,
        },
    }
}

impl Linearized {
    fn new(source: &Prog) -> Linearized {
        let prog = rust::linearize(source);
        let image = ask(Question::Fresh, prog.max_id.0 <= LARGEST_ID).and_then(|()| {
            let frame = order::frame(&prog);
            ask(
                Question::Room,
                frame::image_length(&frame.records) <= LARGEST,
            )?;
            Ok(frame.write())
        });
        Linearized { prog, image }
    }
}

/// For each record its annotation's bytes, where it has one. "Create's is that of its clauses, then
/// that of its next."
fn annotations(prog: &Prog) -> Vec<Option<Vec<u8>>> {
    rust::annotations(prog)
        .into_iter()
        .map(|sets| {
            let mut bytes = Vec::new();
            for set in &sets {
                writer::annotation(&mut bytes, set);
            }
            (!sets.is_empty()).then_some(bytes)
        })
        .collect()
}
