//! Script files: the terms, the checks with numbers 1 to 7, and the term reader.

use crate::{refuse, refuse_if, Verdict};
use std::rc::Rc;
use Term::*;

/// "A term is an application or a value, and an abstraction's body is a term again; kinds 1 to 4
/// begin values. Kinds 6 and 7 begin terms too, only in rewritten scripts." And Item 1: "Script
/// kinds 9, a sum, and 10, a branch, have number 0; two and three terms follow."
pub enum Term {
    Variable(u32),
    Function(u32),
    Constant(u32),
    /// Label and body.
    Abstraction(u32, Rc<Term>),
    /// Function and argument.
    Application(Rc<Term>, Rc<Term>),
    /// Function number, argument and rest.
    CallEvent(u32, Rc<Term>, Rc<Term>),
    Emit(u32, Rc<Term>, Rc<Term>),
    /// Left and right.
    Sum(Rc<Term>, Rc<Term>),
    /// First, second and third.
    Branch(Rc<Term>, Rc<Term>, Rc<Term>),
}

/// "The view of a closed value is the kind and number of its first record (house rule)."
#[derive(Clone, Copy, PartialEq)]
pub struct View {
    pub kind: u8,
    pub number: u32,
}

/// "Definitions numbered 0, 1, 2 in order, then one main term"; the body of definition f is
/// `definitions[f]`.
pub struct Script {
    pub definitions: Vec<Rc<Term>>,
    pub main: Rc<Term>,
}

/// Whether an entry takes commands: they are refused if "present for checking, rewriting or a
/// plain run".
#[derive(Clone, Copy, PartialEq)]
pub enum Commands {
    Refused,
    Allowed,
}

/// "Eight bytes each: byte 0 the kind, bytes 1 to 3 zero, bytes 4 to 7 a 32-bit number."
#[derive(Clone, Copy, PartialEq)]
struct Record {
    kind: u8,
    spare: [u8; 3],
    number: u32,
}

const VARIABLE_0: Record = Record { kind: 1, spare: [0; 3], number: 0 };

impl Record {
    fn read(bytes: &[u8]) -> Record {
        Record {
            kind: bytes[0],
            spare: [bytes[1], bytes[2], bytes[3]],
            number: u32::from_le_bytes([bytes[4], bytes[5], bytes[6], bytes[7]]),
        }
    }

    /// "The record kinds are 1 to 8, each with its own range of numbers"; those of 6, 7 and 8 are
    /// all in range (decision 1). "Kinds 9 and 10 leave refusal 2", with number 0.
    fn in_range(&self) -> bool {
        let number = match self.kind {
            1 => self.number <= 1_023,
            4 => self.number <= 65_535,
            5 | 9 | 10 => self.number == 0,
            2 | 3 | 6 | 7 | 8 => true,
            _ => false,
        };
        number && self.spare == [0; 3]
    }
}

impl Script {
    /// Each number "is tested over the whole file before the next number".
    pub fn read(bytes: &[u8], commands: Commands) -> Result<Script, Verdict> {
        // "It has 1 to 1,024 records; the rewritten run alone takes up to" 1,296: with Item 2 "a
        // rewritten script has up to 1,296 records".
        let most = if commands == Commands::Allowed { 1_296 } else { 1_024 };
        refuse_if(1, bytes.is_empty() || !bytes.len().is_multiple_of(8) || bytes.len() / 8 > most)?;

        let records: Vec<Record> = bytes.chunks(8).map(Record::read).collect();
        refuse(2, records.iter().position(|record| !record.in_range()))?;

        let parsed = Script::parse(&records);
        let script = parsed.map_err(|place| Verdict { number: 3, place: place as u32 })?;

        // "4 definition number not the next, or a 129th."
        let definitions = (0..records.len()).filter(|&place| records[place].kind == 8);
        let mut numbered = definitions.zip(0..);
        let wrong = numbered.find(|&(place, next)| records[place].number != next || next >= 128);
        refuse(4, wrong.map(|(place, _)| place))?;

        refuse(5, script.scope().err())?;

        let defined = script.definitions.len() as u32;
        let undefined = |record: &Record| record.kind == 2 && record.number >= defined;
        refuse(6, records.iter().position(undefined))?;

        let mut found = (0..records.len()).filter(|&place| matches!(records[place].kind, 6 | 7));
        let stands = |place| commands == Commands::Allowed && in_place(&records, place);
        refuse(7, found.find(|&place| !stands(place)))?;
        // "If neither, over 1,024 records besides commands and their arguments."
        let bodies: usize = script.definitions.iter().map(|body| 1 + body.size()).sum();
        refuse(7, (bodies + script.main.size() > 1_024).then_some(records.len()))?;
        Ok(script)
    }

    /// The definitions, "then one main term, then nothing"; or the place of number 3: "a record
    /// that cannot stand here, or the end too early (place: record count)".
    fn parse(records: &[Record]) -> Result<Script, usize> {
        let mut at = 0;
        let mut definitions = Vec::new();
        while at < records.len() && records[at].kind == 8 {
            at += 1;
            definitions.push(term(records, &mut at)?);
        }
        let main = term(records, &mut at)?;
        if at < records.len() {
            return Err(at);
        }
        Ok(Script { definitions, main })
    }

    /// "A variable must be below the count of abstractions around it, a definition counting as
    /// one": the record count, or the place of a variable that is not.
    fn scope(&self) -> Result<usize, usize> {
        let mut place = 0;
        for body in &self.definitions {
            place = body.scope(1, place + 1)?;
        }
        self.main.scope(0, place)
    }

    pub fn bytes(&self) -> Vec<u8> {
        let mut out = Vec::new();
        for (body, number) in self.definitions.iter().zip(0..) {
            push(&mut out, 8, number);
            body.write(&mut out);
        }
        self.main.write(&mut out);
        out
    }
}

impl Term {
    pub fn is_value(&self) -> bool {
        matches!(self, Variable(_) | Function(_) | Constant(_) | Abstraction(..))
    }

    /// Its records without those "of kind 6 or 7" and without "their arguments".
    pub fn size(&self) -> usize {
        match self {
            Variable(_) | Function(_) | Constant(_) => 1,
            Abstraction(_, body) => 1 + body.size(),
            Application(one, two) | Sum(one, two) => 1 + one.size() + two.size(),
            Branch(first, second, third) => 1 + first.size() + second.size() + third.size(),
            CallEvent(_, _, rest) | Emit(_, _, rest) => rest.size(),
        }
    }

    /// The kind and number of its first record.
    pub fn view(&self) -> View {
        let (kind, number) = match self {
            Variable(number) => (1, *number),
            Function(number) => (2, *number),
            Constant(number) => (3, *number),
            Abstraction(label, _) => (4, *label),
            Application(..) => (5, 0),
            CallEvent(function, ..) => (6, *function),
            Emit(function, ..) => (7, *function),
            Sum(..) => (9, 0),
            Branch(..) => (10, 0),
        };
        View { kind, number }
    }

    pub fn bytes(&self) -> Vec<u8> {
        let mut out = Vec::new();
        self.write(&mut out);
        out
    }

    fn write(&self, out: &mut Vec<u8>) {
        let View { kind, number } = self.view();
        push(out, kind, number);
        match self {
            Variable(_) | Function(_) | Constant(_) => {}
            Abstraction(_, body) => body.write(out),
            Application(one, two) | CallEvent(_, one, two) | Emit(_, one, two) | Sum(one, two) => {
                one.write(out);
                two.write(out);
            }
            Branch(first, second, third) => {
                first.write(out);
                second.write(out);
                third.write(out);
            }
        }
    }

    /// The record after the term, which begins at `place` with `around` abstractions around it; or
    /// the place of a variable that is too large.
    fn scope(&self, around: u32, place: usize) -> Result<usize, usize> {
        match self {
            Variable(number) if *number >= around => Err(place),
            Variable(_) | Function(_) | Constant(_) => Ok(place + 1),
            Abstraction(_, body) => body.scope(around + 1, place + 1),
            Application(one, two) | CallEvent(_, one, two) | Emit(_, one, two) | Sum(one, two) => {
                two.scope(around, one.scope(around, place + 1)?)
            }
            Branch(first, second, third) => {
                let place = first.scope(around, place + 1)?;
                third.scope(around, second.scope(around, place)?)
            }
        }
    }
}

/// One record more at the end of a file.
pub fn push(out: &mut Vec<u8>, kind: u8, number: u32) {
    out.extend([kind, 0, 0, 0]);
    out.extend(number.to_le_bytes());
}

/// The term at record `at`, which moves on to the record after it.
fn term(records: &[Record], at: &mut usize) -> Result<Rc<Term>, usize> {
    let place = *at;
    let Record { kind, number, .. } = *records.get(place).ok_or(place)?;
    *at += 1;
    let mut next = || term(records, at);
    Ok(Rc::new(match kind {
        1 => Variable(number),
        2 => Function(number),
        3 => Constant(number),
        4 => Abstraction(number, next()?),
        5 => Application(next()?, next()?),
        6 => CallEvent(number, next()?, next()?),
        7 => Emit(number, next()?, next()?),
        9 => Sum(next()?, next()?),
        10 => Branch(next()?, next()?, next()?),
        _ => return Err(place),
    }))
}

/// "In a rewritten script a definition's body may begin with 6, or with 6 and then 7 as its rest,
/// each naming its own definition with variable 0 as argument; 6 and 7 stand nowhere else."
fn in_place(records: &[Record], place: usize) -> bool {
    let like = |kind| Record { kind, ..records[place] };
    let before = match records[place].kind {
        6 => place >= 1 && records[place - 1] == like(8),
        7 => place >= 2 && records[place - 2] == like(6) && in_place(records, place - 2),
        _ => false,
    };
    before && records[place + 1] == VARIABLE_0
}

/// "A term reader stands on one record of a lent script and passes over a whole term to the
/// record after it, going by kinds alone; where no whole term of kinds 1 to 7 begins, or no such
/// record is, it answers none." A part of a record at the end is no record (decision 13). "Passing
/// over a term now takes kinds 9 and 10 too and promises no, one, two or three subterms by kind."
pub fn pass_term(script: &[u8], record: u64) -> Option<u64> {
    let count = (script.len() / 8) as u64;
    let (mut at, mut wanted) = (record, 1);
    while wanted > 0 {
        if at >= count {
            return None;
        }
        match script[at as usize * 8] {
            1..=3 => wanted -= 1,
            4 => {}
            5..=7 | 9 => wanted += 1,
            10 => wanted += 2,
            _ => return None,
        }
        at += 1;
    }
    Some(at)
}
