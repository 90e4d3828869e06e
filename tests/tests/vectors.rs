//! Runs every test vector, over the C interface and by the plain Rust model. Lent buffers hold noise before the call and are longer than needed;
//! every byte is compared.

use lorgwin_tests as engine;
use std::collections::HashMap;

const TABLE: usize = 8192;
const BUFFER: usize = 24576;
const OUT: usize = 10368;
/// Expression, scratch, history, log and table.
const SIZES: [usize; 5] = [BUFFER, BUFFER, 16384, 16384, TABLE];
const LENGTHS: [&str; 5] = ["expr_len", "scratch_len", "history_len", "log_len", "table_len"];
const OUTCOMES: [&str; 5] = ["value", "stuck", "spent", "large", "full"];
/// Bytes lent past what an entry uses.
const SPARE: usize = 96;

type Fields = HashMap<String, String>;
/// Number, place, outcome, steps, and the counts of history and log.
type Words = [u32; 6];

struct Vector {
    name: String,
    given: Fields,
    wanted: Fields,
}

fn fields(words: &str) -> Fields {
    words.split_whitespace().filter_map(|w| w.split_once('=')).map(|(k, v)| (k.into(), v.into())).collect()
}

/// The vectors of one entry: a name, and below it what is given and what is wanted.
fn vectors(entry: &str) -> Vec<Vector> {
    let path = format!("{}/vectors/{entry}.txt", env!("CARGO_MANIFEST_DIR"));
    let text = std::fs::read_to_string(path).unwrap();
    let mut name = String::new();
    let mut found = Vec::new();
    for line in text.lines() {
        match line.strip_prefix("# ") {
            Some(title) => name = title.into(),
            None => {
                let (given, wanted) = line.split_once("->").unwrap();
                found.push(Vector { name: name.clone(), given: fields(given), wanted: fields(wanted) });
            }
        }
    }
    assert!(found.len() > 40, "{entry}: only {} vectors", found.len());
    found
}

/// Bytes in hex, in pieces joined by `+`; `hex*count` is a piece that is repeated, `-` is none.
fn bytes(text: &str) -> Vec<u8> {
    let mut out = Vec::new();
    for piece in text.split('+').filter(|p| *p != "-") {
        let (hex, count) = piece.split_once('*').unwrap_or((piece, "1"));
        let once: Vec<u8> = (0..hex.len() / 2).map(|i| u8::from_str_radix(&hex[2 * i..2 * i + 2], 16).unwrap()).collect();
        for _ in 0..count.parse().unwrap() {
            out.extend(&once);
        }
    }
    out
}

/// A buffer of noise.
fn noise(len: usize) -> Vec<u8> {
    let mut x: u32 = 0x9e37_79b9 ^ len as u32;
    let mut next = || {
        x ^= x << 13;
        x ^= x >> 17;
        x ^= x << 5;
        x as u8
    };
    (0..len).map(|_| next()).collect()
}

impl Vector {
    fn file(&self, key: &str) -> Vec<u8> {
        bytes(&self.given[key])
    }

    /// The length to lend: as the vector says, or the document's and some bytes more.
    fn len(&self, key: &str, usual: usize) -> usize {
        self.given.get(key).map_or(usual + SPARE, |n| n.parse().unwrap())
    }

    fn number(&self, key: &str) -> u32 {
        self.wanted[key].parse().unwrap()
    }

    /// A word of the answer, 0 where a refusal leaves it out.
    fn word(&self, key: &str) -> u32 {
        self.wanted.get(key).map_or(0, |n| n.parse().unwrap())
    }

    fn outcome(&self) -> u32 {
        let number = |word: &String| OUTCOMES.iter().position(|o| o == word).unwrap() as u32;
        self.wanted.get("outcome").map_or(0, number)
    }

    fn budget(&self) -> u32 {
        self.given["budget"].parse().unwrap()
    }

    /// Number and place.
    fn verdict(&self) -> (u32, u32) {
        (self.number("number"), self.number("place"))
    }

    /// The table's nonzero bytes, the others zero.
    fn table(&self) -> Vec<u8> {
        let mut table = vec![0; TABLE];
        for pair in self.wanted["table"].split(',').filter(|p| *p != "-") {
            let (at, byte) = pair.split_once(':').unwrap();
            table[at.parse::<usize>().unwrap()] = byte.parse().unwrap();
        }
        table
    }

    /// The words of a rewritten run.
    fn words(&self) -> Words {
        let (number, place) = self.verdict();
        [number, place, self.outcome(), self.word("steps"), self.word("history_count"), self.word("log_count")]
    }

    /// The entries of history or log, 16 bytes each.
    fn entries(&self, key: &str) -> Vec<u8> {
        let entries = self.wanted[key].split(',').filter(|e| *e != "-");
        entries.flat_map(|e| e.split(':')).flat_map(|n| n.parse::<u32>().unwrap().to_le_bytes()).collect()
    }

    /// The five buffers after a rewritten run that found this noise in them.
    fn left(&self, before: &[Vec<u8>; 5]) -> [Vec<u8>; 5] {
        if self.number("number") != 0 {
            return before.clone();
        }
        let expression = bytes(&self.wanted["expression"]);
        let used = [expression, Vec::new(), self.entries("history"), self.entries("log"), self.table()];
        std::array::from_fn(|i| {
            let mut new = used[i].clone();
            new.resize(SIZES[i], 0);
            over(&new, &before[i])
        })
    }

    /// The name without what tells a plain run's from that of its rewritten run.
    fn show(&self) -> &str {
        let endings = [" (plain)", " plain run", " rewritten run"];
        endings.iter().find_map(|e| self.name.strip_suffix(e)).unwrap_or(&self.name)
    }
}

/// What a buffer must hold: the new bytes, then what stood there before.
fn over(new: &[u8], before: &[u8]) -> Vec<u8> {
    [new, &before[new.len()..]].concat()
}

#[test]
fn check_vectors() {
    for v in vectors("check") {
        let (script, guideline) = (v.file("script"), v.file("guideline"));
        let found = engine::check(&script, &guideline);
        assert_eq!((found.number, found.place), v.verdict(), "{}", v.name);
        let found = model::check(&script, &guideline);
        assert_eq!((found.number, found.place), v.verdict(), "the model on {}", v.name);
    }
}

/// A derive vector by one implementation of the entry.
fn derives(v: &Vector, derive: impl Fn(&[u8], &mut [u8]) -> (u32, u32)) {
    let before = noise(v.len("table_len", TABLE));
    let mut table = before.clone();
    let verdict = derive(&v.file("guideline"), &mut table);
    assert_eq!(verdict, v.verdict(), "{}", v.name);
    let wanted = if verdict.0 == 0 { over(&v.table(), &before) } else { before };
    assert!(table == wanted, "{}: the table differs", v.name);
}

#[test]
fn derive_vectors() {
    for v in vectors("derive") {
        derives(&v, |g, table| {
            let found = engine::derive(g, table);
            (found.number, found.place)
        });
        derives(&v, |g, table| {
            let found = model::derive(g, table);
            (found.number, found.place)
        });
    }
}

#[test]
fn pass_term_vectors() {
    for v in vectors("pass_term") {
        let script = v.file("script");
        let record = v.given["record"].parse().unwrap();
        let wanted = v.wanted["next"].parse().ok();
        assert_eq!(engine::pass_term(&script, record), wanted, "{}", v.name);
        assert_eq!(model::pass_term(&script, record), wanted, "the model on {}", v.name);
    }
}

/// A rewrite vector by one implementation of the entry.
fn rewrites(v: &Vector, rewrite: impl Fn(&[u8], &[u8], &mut [u8]) -> (u32, u32, u32)) {
    let before = noise(v.len("out_len", OUT));
    let mut out = before.clone();
    let (number, place, records) = rewrite(&v.file("script"), &v.file("guideline"), &mut out);
    assert_eq!((number, place), v.verdict(), "{}", v.name);
    assert_eq!(records, v.word("count"), "{}", v.name);
    let wanted = if number == 0 { over(&bytes(&v.wanted["out"]), &before) } else { before };
    assert!(out == wanted, "{}: the output differs", v.name);
}

#[test]
fn rewrite_vectors() {
    for v in vectors("rewrite") {
        rewrites(&v, |s, g, out| {
            let found = engine::rewrite(s, g, out);
            (found.number, found.place, found.records)
        });
        rewrites(&v, |s, g, out| {
            let (verdict, records) = model::rewrite(s, g, out);
            (verdict.number, verdict.place, records)
        });
    }
}

/// A plain run by one implementation of the entry: number, place, outcome, steps.
fn runs_plain(v: &Vector, by: &str, run: impl Fn(&[u8], u32, &mut [u8], &mut [u8]) -> [u32; 4]) {
    let before = [noise(v.len("expr_len", BUFFER)), noise(v.len("scratch_len", BUFFER))];
    let [mut expression, mut scratch] = before.clone();
    let found = run(&v.file("script"), v.budget(), &mut expression, &mut scratch);
    let (number, place) = v.verdict();
    assert_eq!(found, [number, place, v.outcome(), v.word("steps")], "{by} on {}", v.name);
    let wanted = if number == 0 {
        let mut last = bytes(&v.wanted["expression"]);
        last.resize(BUFFER, 0);
        [over(&last, &before[0]), over(&[0; BUFFER], &before[1])]
    } else {
        before
    };
    assert!(expression == wanted[0], "{by} on {}: the expression differs", v.name);
    assert!(scratch == wanted[1], "{by} on {}: scratch differs", v.name);
}

#[test]
fn plain_vectors() {
    for v in vectors("plain") {
        runs_plain(&v, "the engine", |script, budget, e, s| {
            let found = engine::run_plain(script, budget, e, s);
            [found.number, found.place, found.outcome, found.steps]
        });
        runs_plain(&v, "the model", |script, budget, e, s| {
            let (verdict, outcome, steps) = model::run_plain(script, budget.into(), e, s);
            [verdict.number, verdict.place, outcome, steps]
        });
    }
}

fn words(found: engine::RewrittenRun) -> Words {
    [found.number, found.place, found.outcome, found.steps, found.history_count, found.log_count]
}

fn model_run(script: &[u8], guideline: &[u8], budget: u32, lent: [&mut [u8]; 5]) -> Words {
    let [e, s, h, l, t] = lent;
    let (verdict, outcome, steps, history, log) = model::run_rewritten(script, guideline, budget.into(), e, s, h, l, t);
    [verdict.number, verdict.place, outcome, steps, history, log]
}

/// What the model's rewriting and then its rewritten run answer: the engine does both in one call. Budget and buffers must be in order.
fn model_rehearsal(script: &[u8], guideline: &[u8], budget: u32, out: &mut [u8], lent: [&mut [u8]; 5]) -> Words {
    let (verdict, records) = model::rewrite(script, guideline, out);
    if verdict.number != 0 {
        return [verdict.number, verdict.place, 0, 0, 0, 0];
    }
    model_run(&out[..8 * records as usize], guideline, budget, lent)
}

fn slices(buffers: &mut [Vec<u8>; 5]) -> [&mut [u8]; 5] {
    buffers.each_mut().map(Vec::as_mut_slice)
}

/// Every byte of the five buffers.
fn same(found: &[Vec<u8>; 5], wanted: &[Vec<u8>; 5], who: &str) {
    for i in 0..5 {
        assert!(found[i] == wanted[i], "{who}: {} differs", ["expression", "scratch", "history", "log", "table"][i]);
    }
}

#[test]
fn rewritten_vectors() {
    for v in vectors("rewritten") {
        let before: [Vec<u8>; 5] = std::array::from_fn(|i| noise(v.len(LENGTHS[i], SIZES[i])));
        let (script, guideline) = (v.file("script"), v.file("guideline"));
        let mut lent = before.clone();
        let found = words(engine::run_rewritten(&script, &guideline, v.budget(), slices(&mut lent)));
        assert_eq!(found, v.words(), "{}", v.name);
        same(&lent, &v.left(&before), &v.name);
        let mut lent = before.clone();
        let found = model_run(&script, &guideline, v.budget(), slices(&mut lent));
        assert_eq!(found, v.words(), "the model on {}", v.name);
        same(&lent, &v.left(&before), &format!("the model on {}", v.name));
    }
}

/// The shows of which there is a plain and a rewritten run, in one call: the rewritten script is the output. Then its refusals: a budget
/// too large, each buffer and the output a byte too short.
#[test]
fn rehearsals() {
    let plain = vectors("plain");
    let mut seen = 0;
    for v in vectors("rewritten") {
        let Some(p) = plain.iter().find(|p| p.show() == v.show()) else { continue };
        // A refused show is not always the same file twice.
        if v.number("number") != 0 || p.number("number") != 0 {
            continue;
        }
        assert_eq!(p.given["budget"], v.given["budget"], "{}", v.name);
        let (script, guideline, budget) = (p.file("script"), v.file("guideline"), v.budget());
        let rewritten = v.file("script");
        let before = SIZES.map(|n| noise(n + SPARE));
        let (mut lent, mut out) = (before.clone(), noise(OUT + SPARE));
        let found = words(engine::rehearse(&script, &guideline, budget, &mut out, slices(&mut lent)));
        assert_eq!(found, v.words(), "{}", v.name);
        same(&lent, &v.left(&before), &v.name);
        assert!(out == over(&rewritten, &noise(OUT + SPARE)), "{}: the output differs", v.name);

        let refused = |number: u32, budget: u32, lengths: [usize; 5], out_len: usize| {
            let before = lengths.map(noise);
            let (mut lent, mut out) = (before.clone(), noise(out_len));
            let found = words(engine::rehearse(&script, &guideline, budget, &mut out, slices(&mut lent)));
            assert_eq!(found, [number, 0, 0, 0, 0, 0], "{}", v.name);
            same(&lent, &before, &v.name);
            assert!(out == noise(out_len), "{}: a refusal altered the output", v.name);
        };
        refused(22, 1_000_001, [0; 5], 0);
        for i in 0..5 {
            let mut lengths = SIZES;
            lengths[i] -= 1;
            refused(23, budget, lengths, 0);
        }
        refused(21, budget, SIZES, rewritten.len() - 1);
        seen += 1;
    }
    assert!(seen > 90, "only {seen} shows");
}

/// What the listing prints of an answer and the log: its entries, then outcome and steps; a refusal's number and place.
fn listed(words: Words, log: &[u8]) -> String {
    let [number, place, outcome, steps, _, count] = words;
    if number != 0 {
        return format!("{number}:{place}");
    }
    let word = |b: &[u8]| u32::from_le_bytes(b.try_into().unwrap()).to_string();
    let entry = |e: &[u8]| e.chunks(4).map(word).collect::<Vec<_>>().join(":");
    let mut lines: Vec<String> = log.chunks(16).take(count as usize).map(entry).collect();
    lines.push(format!("{}:{steps}", OUTCOMES[outcome as usize]));
    lines.join(",")
}

/// The listing's shows: what it prints, by the engine and by the model, and the same bytes in all six buffers.
#[test]
fn listing_vectors() {
    for v in vectors("listing") {
        let (script, guideline) = (v.file("script"), v.file("guideline"));
        let (mut lent, mut out) = (SIZES.map(|n| noise(n + SPARE)), noise(OUT + SPARE));
        let found = words(engine::rehearse(&script, &guideline, 1000, &mut out, slices(&mut lent)));
        assert_eq!(listed(found, &lent[3]), v.wanted["text"], "{}", v.name);
        let (mut other, mut file) = (SIZES.map(|n| noise(n + SPARE)), noise(OUT + SPARE));
        let wanted = model_rehearsal(&script, &guideline, 1000, &mut file, slices(&mut other));
        assert_eq!(listed(wanted, &other[3]), v.wanted["text"], "the model on {}", v.name);
        assert_eq!(found, wanted, "{}", v.name);
        same(&lent, &other, &v.name);
        assert!(out == file, "{}: the output differs", v.name);
    }
}

/// What the listing program prints in a folder with these two files; one that is empty is not there at all.
fn printed(script: &[u8], guideline: &[u8]) -> String {
    let folder = std::env::temp_dir().join(format!("lorgwin-listing-{}", std::process::id()));
    std::fs::create_dir_all(&folder).unwrap();
    for (name, bytes) in [("show.scr", script), ("show.gl", guideline)] {
        if !bytes.is_empty() {
            std::fs::write(folder.join(name), bytes).unwrap();
        }
    }
    let program = concat!(env!("CARGO_MANIFEST_DIR"), "/../crates/listing/out/listing");
    let output = std::process::Command::new(program).current_dir(&folder).output().unwrap();
    std::fs::remove_dir_all(&folder).unwrap();
    assert!(output.status.success() && output.stderr.is_empty());
    String::from_utf8(output.stdout).unwrap()
}

/// The program itself, on files: the vectors, among them shows with a file missing, and files of any length over the limit.
#[test]
fn listing_program() {
    for v in vectors("listing") {
        let wanted = v.wanted["text"].replace(',', "\n").replace(':', " ") + "\n";
        assert_eq!(printed(&v.file("script"), &v.file("guideline")), wanted, "{}", v.name);
    }
    let constant = [3, 0, 0, 0, 1, 0, 0, 0];
    let fact = [1, 0, 3, 3, 1, 0, 0, 0, 1, 0, 0, 0, 0, 0, 0, 0];
    for more in [1, 7, 8, 100_000] {
        assert_eq!(printed(&vec![0; 8192 + more], &[]), "1 0\n", "a script with {more} bytes too many");
        assert_eq!(printed(&constant, &fact.repeat(512)[..4096 + more.min(4096)]), "11 0\n", "a guideline with {more} bytes too many");
    }
    assert_eq!(printed(&constant, &fact.repeat(256)), "value 0\n");
}
