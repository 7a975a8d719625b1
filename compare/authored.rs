// Document 02, Paper 5, at its corners: the file that is written of a record or the refusal, how the
// files are marked, how long they are, what is read back, and what a lent slice holds afterwards.

use crate::authored_papers::{self, limited, ridged, shrunk, told, with, BEFORE, SAMPLE};
use crate::Table;
use reference::covariance::Target;
use reference::exam::{exam, read};
use reference::question::{read_question, write_question, Asked, Estimate, Question, Shrinkage};

pub fn all(table: &mut Table) {
    files(table);
    marks(table);
    lengths(table);
    limits(table);
    kept_by_writing(table);
    kept_by_reading(table);
}

fn files(table: &mut Table) {
    for example in authored_papers::all() {
        let (flat, out) = example.draft.written();
        let what = format!("record, {}, output {}", example.about, out.len());
        table.line(&what, &told(&flat, &out), &example.should_be);
    }
}

/// The file of the first example that is about this.
fn file_of(about: &str) -> Vec<u8> {
    let examples = authored_papers::all();
    let found = examples.iter().find(|example| example.about == about);
    found.expect("an example").draft.written().1
}

fn marks(table: &mut Table) {
    let mut line = |about: &str, should_be| {
        let text = String::from_utf8(exam(&file_of(about))).expect("a text");
        table.line(&format!("marked, {about}"), text.trim_end(), should_be);
    };
    line("0 assets, 5 periods", "refused 1");
    line("8 assets, 0 periods", "refused 3");
    line("signalling NaN", "refused 3");
    line("given 2, no limit", "ok 1 1\n0 0 4000000000000000 2.0000");
    line("given 2, limit 100", "ok 1 1\n0 0 4000000000000000 2.0000");
    line("given 2, limit 0", "refused 13");
    line("given 2, limit 101", "refused 7");
    line("Bayes-Stein, limit 255", "refused 7");
    line("regularization NaN", "refused 7");
    line("half-life 0", "refused 7");
    line("factor 2", "refused 7");
    line("Ledoit-Wolf beside given 2", "refused 8");
}

/// By the kinds: 5 and 9·T·n, 9 for 3, 9 for 4, 2 for 5, 9 for 6, 1 for 7, 9 for 8, 9·n·n for 9, 2 for
/// 10, 9 for 12, and 2.
fn lengths(table: &mut Table) {
    let mut line = |what: &str, question: Question, should_be: &str| {
        let should_be = format!("{should_be}, Ok({should_be}), true");
        table.line(&format!("length, {what}"), &length(question), &should_be);
    };
    let of = |estimate| with(Asked::Covariance, estimate);
    let correlation = Shrinkage::LedoitWolf(Target::ConstantCorrelation);
    let james = with(Asked::JamesStein, Estimate::Sample);
    line("sample", SAMPLE, "25");
    line("regularization", ridged(SAMPLE, 9), "34");
    line("shrinkage", shrunk(SAMPLE, Shrinkage::Fixed(9)), "34");
    line("Ledoit-Wolf", shrunk(SAMPLE, correlation), "27");
    line("half-life", of(Estimate::HalfLife(9)), "34");
    line("semi", of(Estimate::Semi), "26");
    line("threshold", of(Estimate::SemiBelow(9)), "34");
    line("given", of(Estimate::Given), "34");
    line("given, limit", limited(of(Estimate::Given), 9), "36");
    line("James-Stein, limit", limited(james, 9), "27");
    line("factor", of(Estimate::Factor(9)), "34");
    let wide = |question| Question {
        assets: 8,
        periods: 128,
        ..question
    };
    line("8 × 128", wide(SAMPLE), "9223");
    line("8 × 128, given", wide(of(Estimate::Given)), "9799");
    let shrunk = shrunk(ridged(of(Estimate::Given), 9), Shrinkage::Fixed(9));
    line("the longest file", wide(limited(shrunk, 9)), "9819");
}

/// The length as stated, what is written to an output of that length, and whether the record is read
/// back.
fn length(question: Question) -> String {
    let (n, t) = (question.assets, question.periods);
    let entries = match question.estimate {
        Estimate::Given => n * n,
        _ => 0,
    };
    let length = question.length(t * n, entries);
    let mut out = vec![0; length];
    let written = write_question(&question, &vec![7; t * n], &vec![8; entries], &mut out);
    let back = read(&out).is_ok_and(|paper| paper.question == question);
    format!("{length}, {written:?}, {back}")
}

/// A missing limit and a limit of 100 are two records.
fn limits(table: &mut Table) {
    let limit = |about: &str| {
        let paper = read(&file_of(about)).ok();
        format!("{:?}", paper.map(|paper| paper.question.limit))
    };
    table.line("no limit, read", &limit("given 2, no limit"), "Some(None)");
    let told = limit("given 2, limit 100");
    table.line("limit 100, read", &told, "Some(Some(100))");
}

fn kept_by_writing(table: &mut Table) {
    let after = |assets: usize, output: usize| {
        let question = Question {
            assets,
            periods: 5,
            ..SAMPLE
        };
        let mut out = vec![BEFORE; output];
        let answer = write_question(&question, &[], &[], &mut out);
        format!("{answer:?} {out:02X?}")
    };
    let should_be = "Ok(7) [01, 00, 00, 05, 00, 0B, 00, EE, EE]";
    table.line("a longer output", &after(0, 9), should_be);
    let should_be = "Err(18) [EE, EE, EE, EE, EE, EE]";
    table.line("a shorter output", &after(0, 6), should_be);
    table.line("no output", &after(0, 0), "Err(18) []");
    let should_be = "Err(17) [EE, EE, EE, EE, EE, EE, EE]";
    table.line("9 assets without returns", &after(9, 7), should_be);
    table.line("and without output", &after(9, 0), "Err(17) []");
}

fn kept_by_reading(table: &mut Table) {
    let file = file_of("given 2, no limit");
    let after = |file: &[u8], returns: usize, given: usize| {
        let (mut returns, mut given) = (vec![7; returns], vec![8; given]);
        let answer = read_question(file, &mut returns, &mut given);
        let number = answer.map_or_else(|number| number, |_| 0);
        format!("{number} {returns:X?} {given:X?}")
    };
    let should_be = "0 [3FF0000000000000, 4008000000000000] [4000000000000000]";
    table.line("read", &after(&file, 2, 1), should_be);
    let should_be = "0 [3FF0000000000000, 4008000000000000, 7] [4000000000000000, 8]";
    table.line("read into longer slices", &after(&file, 3, 2), should_be);
    table.line("a return too short", &after(&file, 1, 1), "4 [7] [8]");
    table.line("an entry too short", &after(&file, 2, 0), "4 [7, 7] []");
    let malformed = &file[..file.len() - 1];
    table.line("no question", &after(malformed, 2, 1), "15 [7, 7] [8]");
    table.line("no slices", &after(malformed, 0, 0), "15 [] []");
    let file = file_of("signalling NaN");
    let should_be = "0 [7FF0000000000001] []";
    table.line("signalling NaN, read", &after(&file, 1, 0), should_be);
}
