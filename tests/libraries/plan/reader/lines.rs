//! Lines before their words are read: line ends, and a line that is no DAG line.

use crate::reader::shown::compare_one;
use crate::same::same_text;
use dag_reader::{LineReader, Span, Token, line_text, split_line};
use std::alloc::{AllocError, Global};
use std::process::Abort;
use std::test::Fail;

/// Bytes, and what reading them answers.
static ENDS: [(&[u8], &str); 5] = [
    (b"", "[]"),
    (b"\n\r\n \t\n#\n", "[]"),
    (
        b"\r\nJOB A a\r\n",
        "[Job { name: A@2:5, file: a@2:7, dir: None, noop: false, done: false }]",
    ),
    (
        b"JOB A a\n\nJOB B b",
        "[Job { name: A@1:5, file: a@1:7, dir: None, noop: false, done: false }, Job { name: B@3:5, file: b@3:7, dir: None, noop: false, done: false }]",
    ),
    (
        b"JOB A a DIR \xC3\xA9\n# \xE2\x82\xAC\n",
        "[Job { name: A@1:5, file: a@1:7, dir: Some(\u{e9}@1:13), noop: false, done: false }]",
    ),
];

#[test]
fn ends(rt: HostRuntime) -> Result<(), Fail> {
    for row in &ENDS {
        compare_one(&rt, rt.alloc(), row.0, row.1)?;
    }
    Ok(())
}

/// The words of a line that is no DAG line, one after the other: each with its place, whether it begins a comment and whether it
/// is the word JOB, and which number it is, of those up to 2, of those up to 1 and of all.
static WORDS: [&str; 4] = [
    "a 0-1 false false None None None",
    "JOB 2-5 false true None None None",
    "+02 6-9 false false Some(2) None Some(2)",
    "-7 10-12 false false None None Some(-7)",
];

fn compare_next(
    rt: &impl Abort,
    alloc: Global,
    line: &mut LineReader<'_>,
    wanted: &str,
) -> Result<(), Fail> {
    let word = line.next_word().ok_or("a word")?;
    let told = shown(alloc, &word)?;
    same_text(rt, wanted, told.as_str(), wanted);
    Ok(())
}

fn compare_words(rt: &impl Abort, alloc: Global, text: &str) -> Result<(), Fail> {
    let mut line = LineReader::new(9, text);
    for wanted in &WORDS {
        compare_next(rt, alloc, &mut line, wanted)?;
    }
    assert!(rt; line.next_word().is_none());
    Ok(())
}

#[test]
fn words_of_another_line(rt: HostRuntime) -> Result<(), Fail> {
    let (first, rest) = split_line(b"a JOB +02 -7\r\nb");
    assert!(rt; rest == b"b".as_slice());
    let text = line_text(9, first).ok().ok_or("a text")?;
    compare_words(&rt, rt.alloc(), text)
}

fn shown(alloc: Global, word: &Token<'_>) -> Result<String, AllocError> {
    let Span { start, stop, .. } = word.span;
    let (two, one, number) = (word.count(2), word.count(1), word.integer());
    let (comment, job) = (word.is_comment(), word.is("job"));
    format!(in alloc;
        "{} {start}-{stop} {comment} {job} {two:?} {one:?} {number:?}",
        word.text
    )
}
