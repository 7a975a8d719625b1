// The rules of a paper and of the format, with what is said where one is broken. The engine decides
// in the end; these say which word it is, and why.

use crate::record::{Estimate, Question, Record, Shrinkage};
use crate::vocabulary::{name, Word, QUESTIONS, WORDS};

/// What is wrong with a paper, and the number of the line where it shows.
#[derive(Debug, PartialEq)]
pub struct Fault {
    pub line: usize,
    pub why: String,
}

/// What a paper has said so far.
#[derive(Default)]
pub struct Draft {
    pub assets: Option<usize>,
    pub periods: Option<usize>,
    pub returns: Option<Vec<u64>>,
    pub estimate: Option<Estimate>,
    pub shrinkage: Option<Shrinkage>,
    pub regularization: Option<u64>,
    pub limit: Option<usize>,
    pub question: Option<Question>,
    /// Its words in their order, each with the number of its line.
    pub said: Vec<(Word, usize)>,
}

const ESTIMATES: &[Word] = &[
    Word::HalfLife,
    Word::DecayFactor,
    Word::Semi,
    Word::Threshold,
    Word::Given,
];
const SHRINKAGES: &[Word] = &[Word::Shrink, Word::LedoitWolf];

/// Whether a word may come now. Else why not.
pub fn may_come(word: Word, draft: &Draft) -> Result<(), String> {
    let new = name(WORDS, word);
    for &(before, line) in &draft.said {
        let old = name(WORDS, before);
        if before == word {
            return Err(format!(
                "'{new}' is too much: it stands on line {line} already"
            ));
        }
        for (kind, words) in [("estimate", ESTIMATES), ("shrinkage", SHRINKAGES)] {
            if words.contains(&before) && words.contains(&word) {
                return Err(format!(
                    "'{new}' is too much: a paper has at most one {kind}, and '{old}' on line {line} is one"
                ));
            }
        }
    }
    let matrix = [Word::Returns, Word::Given].contains(&word);
    for (size, known) in [("assets", draft.assets), ("periods", draft.periods)] {
        if matrix && known.is_none() {
            return Err(format!("expected '{size}' before '{new}'"));
        }
    }
    Ok(())
}

/// Whether a file takes so many assets or periods, or that limit, which was found as `found`.
pub fn may_be(word: Word, number: usize, found: &str) -> Result<(), String> {
    let (most, what) = match word {
        Word::Assets => (8, "at most 8 assets"),
        Word::Periods => (128, "at most 128 periods"),
        _ => (255, "a limit of at most 255"),
    };
    if number > most {
        return Err(format!(
            "expected {what}, found {found}: a question file takes no more"
        ));
    }
    Ok(())
}

/// The record that a paper says, where it is whole and has nothing that its question does not take.
/// `end` is the number of its last line.
pub fn record(draft: Draft, end: usize) -> Result<Record, Fault> {
    let missing = |what: &str| Fault {
        line: end,
        why: format!("expected {what}, found the end of the paper"),
    };
    let assets = draft.assets.ok_or_else(|| missing("'assets'"))?;
    let periods = draft.periods.ok_or_else(|| missing("'periods'"))?;
    if draft.returns.is_none() && assets * periods > 0 {
        return Err(missing("'returns'"));
    }
    let question = draft.question.ok_or_else(|| missing("'question'"))?;
    for &(word, line) in &draft.said {
        if let Some(why) = too_much(word, question, &draft) {
            let new = name(WORDS, word);
            let why = format!("'{new}' is too much: {why}");
            return Err(Fault { line, why });
        }
    }
    complete(question, &draft)?;
    Ok(Record {
        assets,
        periods,
        returns: draft.returns.unwrap_or_default(),
        estimate: draft.estimate.unwrap_or(Estimate::Sample),
        shrinkage: draft.shrinkage.unwrap_or(Shrinkage::Unshrunk),
        regularization: draft.regularization,
        limit: draft.limit,
        question,
    })
}

/// Why a word does not go with the question, or with what else the paper says.
fn too_much(word: Word, question: Question, draft: &Draft) -> Option<String> {
    let asked = name(QUESTIONS, question);
    let estimates = ESTIMATES.contains(&word);
    let decays = [Word::HalfLife, Word::DecayFactor].contains(&word);
    let limits = word == Word::Limit;
    let adjusts = SHRINKAGES.contains(&word) || word == Word::Regularization;
    let takes = match question {
        _ if word == Word::Given && draft.assets == Some(0) => {
            return Some("a given matrix has at least 1 asset".to_string());
        }
        Question::Covariance if limits && !is_given(draft) => "'limit' only beside 'given'",
        Question::WeightedMean if adjusts || limits || estimates && !decays => {
            "'half-life' or 'decay-factor' and no other setting"
        }
        Question::JamesStein | Question::BayesStein if adjusts || estimates => {
            "'limit' and no other setting"
        }
        _ => return None,
    };
    Some(format!("'question {asked}' takes {takes}"))
}

fn is_given(draft: &Draft) -> bool {
    matches!(draft.estimate, Some(Estimate::Given(_)))
}

/// A weighted mean has its weights.
fn complete(question: Question, draft: &Draft) -> Result<(), Fault> {
    if question != Question::WeightedMean || draft.estimate.is_some() {
        return Ok(());
    }
    let asked = draft.said.iter().find(|each| each.0 == Word::Question);
    Err(Fault {
        line: asked.map_or(1, |each| each.1),
        why: "'question weighted-mean' needs 'half-life' or 'decay-factor'".to_string(),
    })
}
