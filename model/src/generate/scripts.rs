//! Scripts without commands, valid or with one definition or record too many.

use super::{Counts, Rng};
use crate::script::push;

/// How often a term is an abstraction, a call of a function, an abstraction applied, a call of a
/// variable, any application, a sum, a branch, a branch between functions called.
type Style = [usize; 8];

const APPLICATIONS: [Style; 4] = [
    [1, 3, 2, 1, 1, 0, 0, 0],
    [1, 6, 5, 0, 0, 0, 0, 0],
    [9, 1, 1, 0, 1, 0, 0, 0],
    [1, 1, 1, 1, 4, 0, 0, 0],
];

/// Most values are constants in the styles without abstractions, so that their sums and branches
/// are worked out; the last two have deep nests.
const SUMS: [Style; 7] = [
    [1, 3, 2, 1, 1, 2, 2, 1],
    [0, 4, 2, 0, 0, 4, 2, 0],
    [0, 4, 2, 0, 0, 2, 4, 1],
    [0, 3, 3, 0, 1, 3, 3, 1],
    [0, 1, 0, 0, 0, 6, 2, 0],
    [0, 0, 0, 0, 0, 1, 0, 0],
    [0, 0, 0, 0, 0, 0, 1, 0],
];

/// Numbers that scripts and guidelines share; more zeros, which branches ask for; and numbers two
/// of which add up to 4,294,967,295, to one more, to less or to more than that.
const SMALL: &[u32] = &[0, 1, 2, 3, 4, 5];
const ZEROS: &[u32] = &[0, 0, 0, 1, 2, 5];
const EDGES: &[u32] =
    &[0, 1, 2, 2_147_483_647, 2_147_483_648, 4_294_967_293, 4_294_967_294, 4_294_967_295];

/// How a term parts its records: deep in its first part, in its last, in a branch's second, even,
/// any way.
#[derive(Clone, Copy)]
enum Shape {
    Left,
    Right,
    Middle,
    Even,
    Any,
}

/// Writes closed terms over the functions 0 to `functions` − 1.
struct Writer<'a> {
    rng: &'a mut Rng,
    functions: usize,
    style: Style,
    shape: Shape,
    numbers: &'static [u32],
    out: Vec<u8>,
}

/// Definitions that call each other, and a main term: small ones for the most part, at times of
/// 1,024 records or with 128 definitions.
pub fn script(rng: &mut Rng, counts: Counts) -> Vec<u8> {
    let more = usize::from(counts == Counts::OneTooMany);
    let some = rng.below(20);
    let functions = rng.pick(&[0, 1, 1, 2, 2, 3, 3, 4, 5, 6, some, 128 + more]);
    let sums = rng.one_in(2);
    let style = if sums { rng.pick(&SUMS) } else { rng.pick(&APPLICATIONS) };
    let mut shapes = vec![Shape::Left, Shape::Right, Shape::Even, Shape::Any, Shape::Any];
    shapes.extend(sums.then_some(Shape::Middle));
    let shape = rng.pick(&shapes);
    let numbers = if sums { rng.pick(&[SMALL, ZEROS, ZEROS, EDGES]) } else { SMALL };
    let mut writer = Writer { rng, functions, style, shape, numbers, out: Vec::new() };
    for number in 0..functions {
        push(&mut writer.out, 8, number as u32);
        let most = writer.rng.pick(&[1, 1, 4, 8, 8, 16, 200]).min(800 / functions);
        let size = 1 + writer.rng.below(most);
        writer.term(if size == 2 && writer.numeric() { 1 } else { size }, 1);
    }
    let room = 1_024 + more - writer.out.len() / 8;
    let deep = sums && style[..5] == [0; 5];
    let size = match writer.rng.below(if deep { 4 } else { 12 }) {
        0 => room,
        1 => 1 + writer.rng.below(room),
        2 | 3 if sums => 1 + writer.rng.below(room.min(9)),
        _ => 1 + writer.rng.below(room.min(40)),
    };
    let forms: &[usize] = if sums { &[1, 2, 4, 5, 5, 6, 6, 7] } else { &[1, 1, 2, 2, 4] };
    let form = writer.rng.pick(forms);
    writer.formed(form, size, 0);
    writer.out
}

impl Writer<'_> {
    /// A term of `size` records under `around` abstractions.
    fn term(&mut self, size: usize, around: usize) {
        let form = self.form();
        self.formed(form, size, around);
    }

    /// A place in the style, by its weights.
    fn form(&mut self) -> usize {
        let weights = self.style.iter().enumerate();
        let forms: Vec<usize> = weights.flat_map(|(form, weight)| vec![form; *weight]).collect();
        self.rng.pick(&forms)
    }

    fn formed(&mut self, form: usize, size: usize, around: usize) {
        match self.fitting(form, size) {
            _ if size == 1 => self.leaf(around),
            1 if size >= 3 && self.functions > 0 => {
                push(&mut self.out, 5, 0);
                self.name();
                self.term(size - 2, around);
            }
            2 if size >= 4 => {
                push(&mut self.out, 5, 0);
                self.label();
                let body = self.part(size - 2);
                self.term(body, around + 1);
                self.term(size - 2 - body, around);
            }
            3 if size >= 3 && around > 0 => {
                push(&mut self.out, 5, 0);
                self.variable(around);
                self.term(size - 2, around);
            }
            4 if size >= 3 => self.two(5, size - 1, around),
            5 if size >= 3 => self.two(9, size - 1, around),
            6 if size >= 4 => self.branch(size - 1, around),
            7 if size >= 6 && self.functions > 0 => {
                push(&mut self.out, 5, 0);
                push(&mut self.out, 10, 0);
                let first = self.part(size - 4);
                self.term(first, around);
                self.name();
                self.name();
                self.term(size - 4 - first, around);
            }
            _ if size >= 3 && self.numeric() => self.two(9, size - 1, around),
            _ => {
                self.label();
                self.term(size - 1, around + 1);
            }
        }
    }

    /// A record of this kind and two terms that have `size` records together.
    fn two(&mut self, kind: u8, size: usize, around: usize) {
        push(&mut self.out, kind, 0);
        let first = self.part(size);
        self.term(first, around);
        self.term(size - first, around);
    }

    /// A branch whose three terms have `size` records together.
    fn branch(&mut self, size: usize, around: usize) {
        push(&mut self.out, 10, 0);
        let middle = matches!(self.shape, Shape::Middle);
        let first = if middle { 1 } else { self.part(size - 1) };
        self.term(first, around);
        let arms = size - first;
        let second = if middle { arms - 1 } else { self.part(arms) };
        self.term(second, around);
        self.term(arms - second, around);
    }

    /// In a numeric style, another form for one that would have a part of two records: that could
    /// only be an abstraction.
    fn fitting(&self, form: usize, size: usize) -> usize {
        match (form, size) {
            _ if !self.numeric() => form,
            (2 | 6, 5) => 5,
            (0 | 1 | 3 | 4 | 5 | 7, 4) => 6,
            _ => form,
        }
    }

    /// Whether the style has no abstractions but those that are applied.
    fn numeric(&self) -> bool {
        self.style[0] == 0
    }

    /// The records of the first of two terms that have `size` together.
    fn part(&mut self, size: usize) -> usize {
        let first = match self.shape {
            Shape::Left => size - 1,
            Shape::Right => 1,
            Shape::Even => size / 2,
            Shape::Middle | Shape::Any => 1 + self.rng.below(size - 1),
        };
        match (first, size - first) {
            (2, _) if self.numeric() => 1,
            (_, 2) if self.numeric() => size - 1,
            _ => first,
        }
    }

    fn leaf(&mut self, around: usize) {
        match self.rng.below(6) {
            0..=2 if around > 0 => self.variable(around),
            3 if self.functions > 0 && (!self.numeric() || self.rng.one_in(4)) => self.name(),
            _ => {
                let number = self.rng.pick(self.numbers);
                let number = if self.rng.one_in(40) { u32::MAX } else { number };
                push(&mut self.out, 3, number);
            }
        }
    }

    fn variable(&mut self, around: usize) {
        let any = self.rng.below(around);
        push(&mut self.out, 1, self.rng.pick(&[0, any as u32]));
    }

    fn name(&mut self) {
        push(&mut self.out, 2, self.rng.below(self.functions) as u32);
    }

    fn label(&mut self) {
        push(&mut self.out, 4, self.rng.pick(&[0, 1, 2, 3, 4, 5, 65_535]));
    }
}
