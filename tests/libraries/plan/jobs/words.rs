//! Words of arguments and of scripts.

use crate::jobs::shown::{joined, macro_fault, yes_or_no};
use crate::same::same_text;
use dag_reader::{Text, Texts};
use std::alloc::{AllocError, Global};
use std::process::Abort;
use std::test::Fail;
use vars_macros::{ScriptFacts, script_words, split_arguments, uses_whole_run};

/// The words, a bar behind each.
pub fn barred(alloc: Global, words: &Texts) -> Result<String, AllocError> {
    let mut out = String::new(alloc);
    for word in words.as_slice() {
        write!(&mut out, "{word}|")?;
    }
    Ok(out)
}

fn split(alloc: Global, text: &str) -> Result<String, AllocError> {
    match split_arguments(alloc, text) {
        Ok(words) => barred(alloc, &words),
        Err(fault) => macro_fault(alloc, fault),
    }
}

fn texts(alloc: Global, words: &[&str]) -> Result<Texts, AllocError> {
    let mut all = Texts::new(alloc);
    for word in words {
        all.push(Text::new(alloc, word)?)?;
    }
    Ok(all)
}

fn facts(alloc: Global, post: bool) -> Result<ScriptFacts, AllocError> {
    Ok(ScriptFacts {
        name: Text::new(alloc, "Y+A")?,
        attempt: 1,
        retries: 2,
        post,
        dag_status: 0,
        failed: 3,
        job_value: -9,
        pre_value: -1,
        job_launch: 12,
    })
}

static WORDS: [&str; 11] = [
    "p.sh",
    "$JOB",
    "$RETRY",
    "$MAX_RETRIES",
    "$DAG_STATUS",
    "$FAILED_COUNT",
    "$RETURN",
    "$PRE_SCRIPT_RETURN",
    "$JOBID",
    "x$JOB",
    "$job",
];

/// These words, filled in as those of a PRE or of a POST script.
fn words_of_script(alloc: Global, words: &[&str], post: bool) -> Result<String, Fail> {
    let words = texts(alloc, words)?;
    let facts = facts(alloc, post)?;
    let filled = script_words(alloc, words.as_slice(), &facts)?;
    Ok(barred(alloc, &filled)?)
}

/// Whether a script with this word is known in a whole run alone.
fn whole_run(alloc: Global, word: &str) -> Result<String, AllocError> {
    let words = texts(alloc, &["p.sh", word])?;
    joined(alloc, &[yes_or_no(uses_whole_run(words.as_slice()))])
}

/// What is done with a text.
enum How {
    /// It is split into arguments.
    Arguments,
    /// `WORDS` are filled in, as words of a POST script or of a PRE script.
    Script(bool),
    /// It is the word behind the path of a PRE script.
    Told,
    /// It is a word of a script, which may be known in a whole run alone.
    Whole,
}

fn answer(alloc: Global, text: &str, how: &How) -> Result<String, Fail> {
    match how {
        How::Arguments => Ok(split(alloc, text)?),
        How::Script(post) => words_of_script(alloc, &WORDS, *post),
        How::Told => words_of_script(alloc, &["p.sh", text], false),
        How::Whole => Ok(whole_run(alloc, text)?),
    }
}

/// Texts, and what comes of them.
static TEXTS: [(&str, How, &str); 21] = [
    (
        "\"one 'it''s ok' \"\"x\"\" A-0 d\"",
        How::Arguments,
        "one|it's ok|\"x\"|A-0|d|",
    ),
    ("-x \\\"q\\\" y", How::Arguments, "-x|\"q\"|y|"),
    ("a 'b c'", How::Arguments, "a|'b|c'|"),
    ("\"a''b ''\"", How::Arguments, "ab||"),
    ("\"\"", How::Arguments, ""),
    ("", How::Arguments, ""),
    ("\"'''\"", How::Arguments, "V4 BadQuote"),
    ("\"", How::Arguments, "V4 BadQuote"),
    ("\"a\"b\"", How::Arguments, "V4 BadQuote"),
    ("\"'a\"", How::Arguments, "V4 BadQuote"),
    (
        "PRE",
        How::Script(false),
        "p.sh|Y+A|1|2|0|3|$RETURN|$PRE_SCRIPT_RETURN|$JOBID|x$JOB|$job|",
    ),
    (
        "POST",
        How::Script(true),
        "p.sh|Y+A|1|2|0|3|-9|-1|12.0|x$JOB|$job|",
    ),
    ("$DAG_STATUS", How::Told, "p.sh|0|"),
    ("$DAG_STATUS", How::Whole, "yes"),
    ("$FAILED_COUNT", How::Whole, "yes"),
    ("$JOBID", How::Whole, "yes"),
    ("$(Cluster)", How::Whole, "yes"),
    ("$(ClusterId)", How::Whole, "yes"),
    ("$(cluster)", How::Whole, "no"),
    ("$RETURN", How::Whole, "no"),
    ("x$JOBID", How::Whole, "no"),
];

fn compare(rt: &impl Abort, alloc: Global, row: &(&str, How, &str)) -> Result<(), Fail> {
    let told = answer(alloc, row.0, &row.1)?;
    same_text(rt, row.0, told.as_str(), row.2);
    Ok(())
}

#[test]
fn arguments_and_scripts(rt: HostRuntime) -> Result<(), Fail> {
    for row in &TEXTS {
        compare(&rt, rt.alloc(), row)?;
    }
    Ok(())
}
