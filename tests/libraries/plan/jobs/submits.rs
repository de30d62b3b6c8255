//! The assignments of submit files.

use crate::jobs::commands::text_or_dash;
use crate::same::same_text;
use std::alloc::{AllocError, Global};
use std::process::Abort;
use std::test::Fail;
use submit_file::{Assignment, read_submit};

/// The assignments as `name=value;`.
fn assigned(alloc: Global, assignments: &[Assignment]) -> Result<String, AllocError> {
    let mut out = String::new(alloc);
    for one in assignments {
        write!(&mut out, "{}={};", one.name, one.value)?;
    }
    Ok(out)
}

/// What is read.
fn said(alloc: Global, text: &[u8]) -> Result<String, Fail> {
    let submit = read_submit(alloc, text)?;
    Ok(assigned(alloc, submit.assignments())?)
}

/// Texts, with the assignments.
static TEXTS: [(&[u8], &str); 8] = [
    (b"a = 1\nqueue\n", "a=1;"),
    (
        b" Executable =  /bin/echo \r\nqueue 1",
        "Executable=/bin/echo;",
    ),
    (b"# c \\\na = 1\nqueue", "a=1;"),
    (
        b"arguments = a \\\n  b = c\nqueue\n",
        "arguments=a   b = c;",
    ),
    (b"if = 1\nqueue 01\nlate = x\n", "if=1;"),
    (b"a =\n\n \t\nQueue", "a=;"),
    (b"a = 1\nA = 2\nqueue", "a=1;A=2;"),
    (b"queue", ""),
];

fn compare(rt: &impl Abort, alloc: Global, row: &(&[u8], &str)) -> Result<(), Fail> {
    let answer = said(alloc, row.0)?;
    same_text(rt, row.1, answer.as_str(), row.1);
    Ok(())
}

#[test]
fn assignments(rt: HostRuntime) -> Result<(), Fail> {
    for row in &TEXTS {
        compare(&rt, rt.alloc(), row)?;
    }
    Ok(())
}

const REPEATED: &[u8] = b"Error = a\nerror = b\noutput = c\nqueue\nERROR = d\n";

#[test]
fn last_value_of_a_name(rt: HostRuntime) -> Result<(), Fail> {
    let submit = read_submit(rt.alloc(), REPEATED)?;
    same_text(&rt, "ERROR", text_or_dash(submit.last("ERROR")), "b");
    same_text(&rt, "input", text_or_dash(submit.last("input")), "-");
    Ok(())
}
