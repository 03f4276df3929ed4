//! The proved library beside other implementations: first that all answer the same, then how long each takes.

pub mod ask;
pub mod calls;
pub mod journals;
pub mod lists;
mod proved;
mod store;
mod tables;
mod timing;
mod tree;
pub mod versions;

use ask::{Ask, Kind};
use calls::Reply;
use journals::{Drawn, Levels, ROW, journal};
use lists::{Block, Lists};
use tables::{print_head, print_line};
use timing::{Runner, times};
use tree::Tree;
use versions::{replies, run};

/// What an implementation answers: the last round's replies, and the output.
type Replies = fn(&[u8], &Ask) -> (Vec<Reply>, Vec<i16>);

/// A further implementation, over lists.
#[derive(Clone, Copy)]
pub struct More {
    pub run: Runner,
    pub replies: Replies,
}

/// What is asked at a number of blocks.
struct Case {
    name: &'static str,
    /// Loaded without calls, it tells what the calls take on top of it.
    without: Vec<u8>,
    journal: Vec<u8>,
    kind: Kind,
    numbers: Vec<u32>,
    rounds: u32,
}

impl Case {
    fn ask(&self) -> Ask<'_> {
        Ask { kind: self.kind, numbers: &self.numbers, rounds: self.rounds }
    }

    /// By how many things the time is divided.
    fn count(&self) -> usize {
        if self.kind == Kind::Load { 1 } else { self.ask().count() }
    }
}

/// How many edits are made in one run. Each is an edit of the same base.
const EDITS: usize = 100;
/// How many questions are asked in one round, and in how many rounds. Few enough that a run ends before the machine gives the processor to another.
const READINGS: (usize, u32) = (200, 5);
const SPANS: (usize, u32) = (20, 2);
const SUMMARIES: (usize, u32) = (100, 4);

fn cases(blocks: u32, levels: Levels) -> Vec<Case> {
    let whole = journal(blocks, levels);
    let before = journal(blocks - 1, levels);
    let base = blocks - 1;
    let readings = blocks * ROW;
    let half = readings / 2;
    let mut drawn = Drawn::new(2);
    let mut upto = |bound: u32, n: usize| (0..n).map(|_| drawn.below(bound)).collect::<Vec<_>>();
    let positions = upto(readings, READINGS.0);
    let spans = upto(readings - half + 1, SPANS.0);
    let starts = upto(readings - half + 1, SUMMARIES.0);
    let case = |name, journal: &[u8], kind, numbers: Vec<u32>, rounds| Case {
        name,
        without: if kind == Kind::Load { journals::HEAD.to_vec() } else { journal.to_vec() },
        journal: journal.to_vec(),
        kind,
        numbers,
        rounds,
    };
    vec![
        case("load", &whole, Kind::Load, Vec::new(), 1),
        case("append", &before, Kind::Append { base, len: ROW }, vec![0; EDITS], 1),
        case("insert", &before, Kind::Insert { base, level: levels.of(2), len: ROW }, vec![base / 2; EDITS], 1),
        case("reading", &whole, Kind::Reading { version: blocks }, positions, READINGS.1),
        case("span", &whole, Kind::Span { version: blocks, len: half }, spans, SPANS.1),
        case("summary", &whole, Kind::Summary { version: blocks, len: half }, starts, SUMMARIES.1),
    ]
}

fn without_nodes((replies, out): (Vec<Reply>, Vec<i16>)) -> (Vec<Reply>, Vec<i16>) {
    (replies.into_iter().map(Reply::without_nodes).collect(), out)
}

/// Stops where two implementations differ. All calls together are compared, and each alone, so that each span's output is seen.
fn compare(case: &Case, more: Option<More>) {
    let ones = case.numbers.iter().take(50).map(std::slice::from_ref);
    for numbers in ones.chain([&case.numbers[..]]) {
        let ask = Ask { kind: case.kind, numbers, rounds: 1 };
        let told = run::<Tree<true>>(&case.journal, &ask);
        assert_eq!(proved::run(&case.journal, &ask), told, "{}: the proved library and (a) differ", case.name);
        assert_eq!(run::<Tree<false>>(&case.journal, &ask), told, "{}: (a) and (a') differ", case.name);
        let seen = without_nodes(replies::<Tree<true>>(&case.journal, &ask));
        assert_eq!(replies::<Lists<Vec<Block>>>(&case.journal, &ask), seen, "{}: (b) differs", case.name);
        if let Some(more) = more {
            assert_eq!((more.replies)(&case.journal, &ask), seen, "{}: (c) differs", case.name);
        }
        assert!(seen.0.iter().all(Reply::is_accepted), "{}: a call was refused", case.name);
    }
}

/// Compares every reading, with its path, and every summary of ten readings, in some versions of a journal whose blocks came to drawn places.
fn compare_places(more: Option<More>) {
    let journal = journals::journal_of_places(200);
    for version in [2, 3, 50, 117, 200] {
        let positions: Vec<u32> = (0..version * ROW).collect();
        let starts = positions[..positions.len() - 10 + 1].to_vec();
        for (name, kind, numbers) in
            [("readings", Kind::Reading { version }, positions), ("summaries", Kind::Summary { version, len: 10 }, starts)]
        {
            compare(&Case { name, without: Vec::new(), journal: journal.clone(), kind, numbers, rounds: 1 }, more);
        }
    }
}

/// One case, again and again, for a profiler: its name, its number of blocks, drawn or zero levels, the implementation, and how often.
fn profile(words: &[String]) {
    let blocks = words[1].parse().expect("a number of blocks");
    let levels = if words[2] == "zero" { Levels::Zero } else { Levels::Drawn };
    let case = cases(blocks, levels).into_iter().find(|c| c.name == words[0]).expect("a case");
    let runner = match words[3].as_str() {
        "proved" => proved::run,
        "a" => run::<Tree<true>> as Runner,
        "again" => run::<Tree<false>>,
        _ => panic!("proved, a or again"),
    };
    let times: u32 = words[4].parse().expect("how often");
    let mut sum = 0u64;
    for _ in 0..times {
        sum = sum.wrapping_add(runner(&case.journal, &case.ask()));
    }
    println!("{sum}");
}

pub fn main_with(more: Option<More>) {
    let words: Vec<String> = std::env::args().skip(1).collect();
    if words.len() == 5 {
        return profile(&words);
    }
    let sizes = [(Levels::Drawn, 10), (Levels::Drawn, 100), (Levels::Drawn, 500), (Levels::Zero, 10), (Levels::Zero, 100)];
    for (levels, blocks) in sizes {
        for case in cases(blocks, levels) {
            compare(&case, more);
        }
    }
    compare_places(more);
    println!("All implementations answer the same.");
    let mut runners: Vec<Runner> = vec![proved::run, run::<Tree<true>>, run::<Tree<false>>, run::<Lists<Vec<Block>>>];
    runners.extend(more.map(|more| more.run));
    print_head(runners.len() - 1);
    for (levels, blocks) in sizes {
        for case in cases(blocks, levels) {
            let found = times(&case.without, &case.journal, &case.ask(), case.count(), &runners);
            print_line(case.name, blocks, levels, &found);
        }
    }
}
