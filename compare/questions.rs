// Compares the writing of question records and the reading of question files, the copy's and the
// engine's (question_agreement.rs): the documents' own records, then drawn ones, then drawn files. What
// is written is read back, as the same record with the same bits, and what is read is written again,
// as the same file. Prints a line for each outcome with how many had it, and ends with 1 if anything
// differs or an outcome never occurred. Argument: how many records, and as many files.

mod argument;
mod authored_papers;
mod guarded;
mod question_agreement;

use generator::broken::BREAKS;
use generator::papers::draw_paper;
use generator::questions::{draw_draft, draw_enough, draw_lent, AUTHORED, OF_NO_KIND};
use generator::random::Random;
use reference::exam::{read, MALFORMED};
use reference::flat_question::{Draft, FlatQuestion, Lent, NO_KIND};
use reference::question::{Paper, BROKEN_RULE, SHORT_OUTPUT};
use reference::refusal::Refusal;
use std::fmt::Debug;

/// The number of a slice that is too short for what is read.
const TOO_SHORT: usize = Refusal::WrongLength.number();

/// So many differences are shown.
const EXAMPLES: usize = 5;

fn main() {
    let count = argument::whole(1, 100_000);
    let random = Random::new(13);
    let mut table = Table::new();
    for example in authored_papers::all() {
        table.example(&random, &example);
    }
    for _ in 0..count {
        let (about, draft) = draw_draft(&random);
        table.record(&random, about, &draft);
    }
    for _ in 0..count {
        table.file(&random, &draw_paper(&random));
    }
    let never = table.print();
    if table.different > 0 || never > 0 {
        std::process::exit(1);
    }
}

/// Each outcome with how many had it.
struct Table {
    lines: Vec<(String, usize)>,
    different: usize,
}

impl Table {
    fn new() -> Self {
        let mut names = vec![of_record(AUTHORED, 0), of_record(AUTHORED, SHORT_OUTPUT)];
        names.extend(BREAKS.map(|(rule, _)| of_record(rule, BROKEN_RULE)));
        names.push(of_record(OF_NO_KIND, NO_KIND));
        names.extend([0, TOO_SHORT, MALFORMED].map(of_file));
        Table {
            lines: names.into_iter().map(|name| (name, 0)).collect(),
            different: 0,
        }
    }

    /// An outcome that has a line: the copy refuses 17 where a rule is broken, and so on.
    fn add(&mut self, name: String) {
        let line = self.lines.iter_mut().find(|line| line.0 == name);
        line.expect(&name).1 += 1;
    }

    fn example(&mut self, random: &Random, example: &authored_papers::Example) {
        let computed = question_agreement::written(&example.draft);
        let told = computed.map(|(flat, out)| authored_papers::told(&flat, &out));
        let (_, same) = judge_record(random, &example.draft);
        if told.as_ref() != Some(&example.should_be) || !same {
            self.show(&(example.about, &example.should_be, told));
        }
    }

    fn record(&mut self, random: &Random, about: &str, draft: &Draft) {
        let (number, same) = judge_record(random, draft);
        self.add(of_record(about, number));
        if !same {
            let (copied, computed) = (draft.written().0, question_agreement::written(draft));
            let computed = computed.map(|answer| answer.0);
            self.show(&(about, copied, computed, draft));
        }
    }

    fn file(&mut self, random: &Random, file: &[u8]) {
        let paper = read(file).ok();
        let lent = match &paper {
            Some(paper) => draw_lent(random, paper.returns.len(), paper.given.len()),
            // For about as many numbers as it may hold.
            None => draw_lent(random, file.len() / 9, random.below(65)),
        };
        let copied = lent.read(file);
        let number = copied.0;
        self.add(of_file(number as usize));
        let computed = question_agreement::read(file, &lent);
        let again = number != 0 || paper.is_some_and(|paper| comes_again(random, file, paper));
        if computed.as_ref() != Some(&copied) || !again {
            self.show(&(again, copied, computed, file));
        }
    }

    fn show(&mut self, what: &dyn Debug) {
        self.different += 1;
        if self.different <= EXAMPLES {
            let words = format!("{what:X?}");
            println!("    {}", words.chars().take(2000).collect::<String>());
        }
    }

    /// How many outcomes never occurred.
    fn print(&self) -> usize {
        for (name, count) in &self.lines {
            println!("{name:60} {count:>6}");
        }
        let never = self.lines.iter().filter(|line| line.1 == 0);
        never.clone().for_each(|line| println!("never: {}", line.0));
        println!("differences: {}", self.different);
        never.count()
    }
}

/// The outcome of a record, which was drawn for something, and of a file: 0, or a refusal's number.
fn of_record(about: &str, number: usize) -> String {
    match number {
        0 => format!("record, {about}: written"),
        _ => format!("record, {about}: refused {number}"),
    }
}

fn of_file(number: usize) -> String {
    match number {
        0 => "file: read".to_string(),
        _ => format!("file: refused {number}"),
    }
}

/// The number that the copy answers, 0 or a refusal's, and whether the engine answers alike and what
/// is written comes back.
fn judge_record(random: &Random, draft: &Draft) -> (usize, bool) {
    let copied = draft.written();
    let (number, bytes) = (copied.0.number, copied.0.wholes[0]);
    let same = question_agreement::written(draft).as_ref() == Some(&copied);
    let back = number != 0 || comes_back(random, draft, &copied.1[..bytes]);
    (number as usize, same && back)
}

/// Whether the copy and the engine read the draft's record and numbers from its file.
fn comes_back(random: &Random, draft: &Draft, file: &[u8]) -> bool {
    let question = draft.record.question().expect("it was written");
    let record = FlatQuestion::of(&question);
    let lent = draw_enough(random, draft.returns.len(), draft.given.len());
    let mut after = Lent {
        bits: record.bits(),
        wholes: record.wholes(),
        ..lent.clone()
    };
    after.returns[..draft.returns.len()].copy_from_slice(&draft.returns);
    after.given[..draft.given.len()].copy_from_slice(&draft.given);
    let answer = (0, after);
    lent.read(file) == answer && question_agreement::read(file, &lent) == Some(answer)
}

/// Whether the engine and the copy write the file again of what was read of it, into an output in
/// which every byte has to be changed, and none behind the file.
fn comes_again(random: &Random, file: &[u8], paper: Paper) -> bool {
    let behind: Vec<u8> = (0..random.below(4)).map(|_| random.bits() as u8).collect();
    let changed: Vec<u8> = file.iter().map(|byte| !byte).collect();
    let draft = Draft {
        record: FlatQuestion::of(&paper.question),
        returns: paper.returns,
        given: paper.given,
        out: [&changed[..], &behind].concat(),
    };
    let copied = draft.written();
    copied.0.wholes == [file.len(), 0]
        && copied.1 == [file, &behind].concat()
        && question_agreement::written(&draft) == Some(copied)
}
