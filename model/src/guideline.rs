//! Guideline files: facts, rules and logged clauses, and the checks with numbers 11 to 17.

use crate::script::View;
use crate::{refuse, refuse_if, Verdict};

/// "Predicates have two places."
pub struct Fact {
    pub predicate: usize,
    pub places: [View; 2],
}

/// A predicate of two variables, 0 to 3.
pub struct Atom {
    pub predicate: usize,
    pub variables: [usize; 2],
}

/// "A head is followed by 1 to 4 atoms."
pub struct Rule {
    pub head: Atom,
    pub body: Vec<Atom>,
}

/// "A head is followed by 0 to 4 triggers, then its conditions."
pub struct Clause {
    pub function: u32,
    pub triggers: Vec<u32>,
    pub conditions: Vec<Condition>,
}

/// "Bytes 2, 3 are i and j, from 0 to the clause's trigger count"; 0 is the logged call. Kind 9 has
/// an i alone; its byte 3 is zero, and so is `j`.
pub struct Condition {
    pub test: Test,
    pub i: usize,
    pub j: usize,
}

/// "6 condition t_i < t_j; 7 condition predicate (byte 1) of x_i, x_j; 8 condition x_i equals x_j
/// (byte 1 is 0) or differs (1)." And Item 2: "Guideline kind 9 is a condition: bytes 4 to 7 a
/// function h, byte 2 an i as in kind 6."
pub enum Test {
    Before,
    Predicate(usize),
    Equal,
    Differ,
    /// Of this h, strictly between t_i and t_0.
    NoCall(u32),
}

impl Clause {
    /// The i and the h of each kind 9 condition.
    pub fn cancels(&self) -> impl Iterator<Item = (usize, u32)> + '_ {
        self.conditions.iter().filter_map(|condition| match condition.test {
            Test::NoCall(h) => Some((condition.i, h)),
            _ => None,
        })
    }
}

#[derive(Default)]
pub struct Guideline {
    pub facts: Vec<Fact>,
    pub rules: Vec<Rule>,
    pub clauses: Vec<Clause>,
}

/// "Sixteen bytes each, 0 to 256 records, no header."
struct Record<'a>(&'a [u8]);

impl Record<'_> {
    fn kind(&self) -> u8 {
        self.0[0]
    }

    /// Bytes 1, 2 and 3: predicates, variables, kinds, i and j.
    fn small(&self, at: usize) -> usize {
        self.0[at].into()
    }

    fn number(&self, at: usize) -> u32 {
        u32::from_le_bytes([self.0[at], self.0[at + 1], self.0[at + 2], self.0[at + 3]])
    }

    fn values(&self) -> [View; 2] {
        [(2, 4), (3, 8)].map(|(kind, at)| View { kind: self.0[kind], number: self.number(at) })
    }

    fn atom(&self) -> Atom {
        Atom { predicate: self.small(1), variables: [self.small(2), self.small(3)] }
    }

    /// Kinds, ranges, and "bytes not named are zero".
    fn in_range(&self) -> bool {
        let zero = |from: usize, to: usize| self.0[from..to].iter().all(|byte| *byte == 0);
        let both = |least: u8, most: u8| self.0[2..4].iter().all(|b| (least..=most).contains(b));
        match self.kind() {
            1 => self.0[1] <= 15 && both(2, 4) && zero(12, 16),
            2 | 3 => self.0[1] <= 15 && both(0, 3) && zero(4, 16),
            4 | 5 => zero(1, 4) && zero(8, 16),
            6 => self.0[1] == 0 && both(0, 4) && zero(4, 16),
            7 => self.0[1] <= 15 && both(0, 4) && zero(4, 16),
            8 => self.0[1] <= 1 && both(0, 4) && zero(4, 16),
            9 => self.0[1] == 0 && self.0[2] <= 4 && self.0[3] == 0 && zero(8, 16),
            _ => false,
        }
    }
}

/// "Three sections: facts, rules, logged clauses." The kinds in a row are
/// `1* (2 3+)* (4 5* (6|7|8|9)*)*`; whether a kind may stand after the one before.
fn may_follow(before: Option<u8>, kind: u8) -> bool {
    match kind {
        1 => matches!(before, None | Some(1)),
        2 => matches!(before, None | Some(1 | 3)),
        3 => matches!(before, Some(2 | 3)),
        4 => before != Some(2),
        5 => matches!(before, Some(4 | 5)),
        _ => matches!(before, Some(4..=9)),
    }
}

impl Guideline {
    /// Each number "is tested over the whole file before the next number"; 17, which covers heads,
    /// triggers and the h of kind 9, where the count of the script's functions is given.
    pub fn read(bytes: &[u8], functions: Option<usize>) -> Result<Guideline, Verdict> {
        refuse_if(11, !bytes.len().is_multiple_of(16) || bytes.len() / 16 > 256)?;
        let records: Vec<Record> = bytes.chunks(16).map(Record).collect();
        refuse(12, records.iter().position(|record| !record.in_range()))?;
        refuse(13, out_of_section(&records))?;
        refuse(14, unbound_head(&records))?;
        refuse(15, one_too_many(&records))?;
        refuse(16, above_triggers(&records))?;
        if let Some(count) = functions {
            let unknown = |record: &Record| record.number(4) as usize >= count;
            let names = |record: &Record| matches!(record.kind(), 4 | 5 | 9) && unknown(record);
            refuse(17, records.iter().position(names))?;
        }
        Ok(Guideline::parse(&records))
    }

    fn parse(records: &[Record]) -> Guideline {
        let mut guideline = Guideline::default();
        for record in records {
            match record.kind() {
                1 => {
                    let fact = Fact { predicate: record.small(1), places: record.values() };
                    guideline.facts.push(fact);
                }
                2 => guideline.rules.push(Rule { head: record.atom(), body: Vec::new() }),
                3 => guideline.rules.last_mut().unwrap().body.push(record.atom()),
                4 => guideline.clauses.push(Clause {
                    function: record.number(4),
                    triggers: Vec::new(),
                    conditions: Vec::new(),
                }),
                5 => guideline.clauses.last_mut().unwrap().triggers.push(record.number(4)),
                kind => {
                    let test = match (kind, record.small(1)) {
                        (6, _) => Test::Before,
                        (7, predicate) => Test::Predicate(predicate),
                        (8, 0) => Test::Equal,
                        (8, _) => Test::Differ,
                        _ => Test::NoCall(record.number(4)),
                    };
                    let condition = Condition { test, i: record.small(2), j: record.small(3) };
                    guideline.clauses.last_mut().unwrap().conditions.push(condition);
                }
            }
        }
        guideline
    }
}

/// "13 a record that its section or head does not allow (one too many of a kind is 15, not 13),
/// or a rule head with no atom (place: the record after it, or the record count)."
fn out_of_section(records: &[Record]) -> Option<usize> {
    let mut before = None;
    for (place, record) in records.iter().enumerate() {
        if !may_follow(before, record.kind()) {
            return Some(place);
        }
        before = Some(record.kind());
    }
    (before == Some(2)).then_some(records.len())
}

/// "Every head variable occurs in the rule's body": all atoms up to the next head (decision 8).
fn unbound_head(records: &[Record]) -> Option<usize> {
    (0..records.len()).filter(|&place| records[place].kind() == 2).find(|&place| {
        let body: Vec<usize> = records[place + 1..]
            .iter()
            .take_while(|record| record.kind() == 3)
            .flat_map(|record| record.atom().variables)
            .collect();
        !records[place].atom().variables.iter().all(|variable| body.contains(variable))
    })
}

/// "15 a 65th value, fifth atom, fifth trigger or ninth clause."
fn one_too_many(records: &[Record]) -> Option<usize> {
    let mut values = Vec::new();
    let (mut atoms, mut triggers, mut clauses) = (0, 0, 0);
    records.iter().position(|record| {
        match record.kind() {
            1 => add_values(&mut values, record.values()),
            2 => atoms = 0,
            3 => atoms += 1,
            4 => (clauses, triggers) = (clauses + 1, 0),
            5 => triggers += 1,
            _ => {}
        }
        values.len() > 64 || atoms > 4 || triggers > 4 || clauses > 8
    })
}

/// "16 i or j above the trigger count", the i of kind 9 too.
fn above_triggers(records: &[Record]) -> Option<usize> {
    let mut triggers = 0;
    records.iter().position(|record| {
        match record.kind() {
            4 => triggers = 0,
            5 => triggers += 1,
            _ => {}
        }
        record.kind() >= 6 && record.small(2).max(record.small(3)) > triggers
    })
}

/// "Values are numbered by first appearance (first place before second)."
pub fn add_values(values: &mut Vec<View>, places: [View; 2]) {
    for value in places {
        if !values.contains(&value) {
            values.push(value);
        }
    }
}
