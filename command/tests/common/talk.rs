//! What a desk answers to a list of lines.

use super::{run, Folder};

/// Hands the lines to a desk without a journal: each gets just this answer, and the status is 1 exactly where one was bad or refused.
#[track_caller]
pub fn answers(talk: &[(&str, &str)]) {
    answers_with(&[], talk);
}

/// The same with further words of the command.
#[track_caller]
pub fn answers_with(words: &[&str], talk: &[(&str, &str)]) {
    let input: String = talk.iter().map(|(line, _)| format!("{line}\n")).collect();
    let words: Vec<&str> = ["desk"].iter().chain(words).copied().collect();
    let ran = run(&Folder::new(), &words, &input);
    let given: Vec<&str> = ran.output.lines().collect();
    for (place, (line, answer)) in talk.iter().enumerate() {
        assert_eq!(given.get(place), Some(answer), "to {line:?}, line {place}");
    }
    assert_eq!(given.len(), talk.len(), "{given:?}");
    let is_failure = |answer: &str| answer.starts_with("bad") || answer.starts_with("refused") || answer.starts_with("3\t");
    let status = i32::from(talk.iter().any(|(_, answer)| is_failure(answer)));
    assert_eq!((ran.status, ran.errors.as_str()), (status, ""));
}

/// The one answer to a line on an empty book, which is bad: its reason.
#[track_caller]
pub fn bad(line: impl AsRef<[u8]>) -> String {
    let ran = run(&Folder::new(), &["desk"], [line.as_ref(), b"\n"].concat());
    let shown = String::from_utf8_lossy(line.as_ref());
    assert_eq!((ran.status, ran.errors.as_str()), (1, ""), "{shown:?} is answered {:?}", ran.output);
    let answer = ran.output.strip_suffix('\n').unwrap();
    assert!(answer.bytes().all(|byte| (32..127).contains(&byte)), "{answer:?}");
    let reason = answer.strip_prefix("bad: ").unwrap_or_else(|| panic!("{shown:?} is answered {answer}"));
    assert!(!reason.trim().is_empty());
    reason.to_string()
}
