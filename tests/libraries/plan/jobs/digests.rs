//! Digests of what plans are made from: SHA-256, by Python's hashlib, of the bytes that the rule of
//! `Plan::digest` spells; and the marks of rescue files.

use crate::built::files_of;
use crate::jobs::looks::{Kind, Look, Source, told};
use crate::same::same_text;
use std::alloc::Global;
use std::process::Abort;
use std::test::Fail;

/// The kind of a plan, the path of a DAG file, the files in the order in which they are added, a rescue file, what is looked at,
/// and what is due.
type Row = (
    Kind,
    &'static str,
    &'static [(&'static str, &'static str)],
    Option<&'static str>,
    Look,
    &'static str,
);

/// What a look at the plan of the files of this path and of a rescue file tells.
fn answer(
    alloc: Global,
    kind: Kind,
    top: &str,
    texts: &[(&str, &str)],
    rescue: Option<&str>,
    look: &Look,
) -> Result<String, Fail> {
    let files = files_of(alloc, texts)?;
    let source = Source {
        kind,
        top,
        files: &files,
        rescue,
    };
    told(alloc, &source, "", look)
}

fn compare(rt: &impl Abort, alloc: Global, row: &Row) -> Result<(), Fail> {
    let told = answer(alloc, row.0, row.1, row.2, row.3, &row.4)?;
    same_text(rt, row.5, told.as_str(), row.5);
    Ok(())
}

/// A DAG and the submit file of its nodes.
const MARKED: [(&str, &str); 2] = [
    (
        "x.dag",
        "JOB A a.sub\nJOB B a.sub\nJOB C a.sub DONE\nFINAL F a.sub\nJOB D a.sub\n",
    ),
    ("a.sub", "executable = x\nqueue\n"),
];

/// The kind of a plan, the path of a DAG file, the files in the order in which they are added, a
/// rescue file, and the digest of the plan or the nodes that are done from the start. For a digest
/// the DAG file of a full plan is empty or a comment.
static PLANS: [Row; 22] = [
    (
        Kind::Full,
        "d.dag",
        &[("d.dag", "")],
        None,
        Look::Digest,
        "9177a0c7acc31d1f02c0a0bbf6203ae83c85daf5b5726d32e2c3320aa144c608",
    ),
    (
        Kind::Full,
        "d.dag",
        &[("d.dag", "#\n")],
        None,
        Look::Digest,
        "9dbb12f364521de90f7ec52846e2b3cb65a8c7d5cf6c6d23d5b11a3bfe4c5553",
    ),
    (
        Kind::Full,
        "e.dag",
        &[("e.dag", "")],
        None,
        Look::Digest,
        "32ff4e5e9780a18525d6b7570bb682bf4283298f9a7f5b080ab47f872d5b6e3b",
    ),
    (
        Kind::Full,
        "d.dag",
        &[("d.dag", "")],
        Some(""),
        Look::Digest,
        "7a4ca3c49f9a051daf3e4802dded2127aff269d10c76fa881606798d2aec0fcf",
    ),
    (
        Kind::Full,
        "d.dag",
        &[("d.dag", "")],
        Some("#\n"),
        Look::Digest,
        "77216e15f6116cbe41c5c88e356b5aa14bda1c4fa873096a8303f11e39bd6fe8",
    ),
    (
        Kind::Full,
        "d.dag",
        &[("d.dag", ""), ("ab", "c")],
        None,
        Look::Digest,
        "6ab4bdf932c3ae43c4647032f3dca9e68b44f5a0662370bf56a96a316936a2ed",
    ),
    (
        Kind::Full,
        "d.dag",
        &[("ab", "c"), ("d.dag", "")],
        None,
        Look::Digest,
        "6ab4bdf932c3ae43c4647032f3dca9e68b44f5a0662370bf56a96a316936a2ed",
    ),
    (
        Kind::Full,
        "d.dag",
        &[("d.dag", ""), ("a", "bc")],
        None,
        Look::Digest,
        "12591d3008c31543c570738b076b96e195a75855cb126d730261c60c2996f9aa",
    ),
    (
        Kind::Full,
        "d.dag",
        &[("e", ""), ("d.dag", ""), ("E", "x")],
        None,
        Look::Digest,
        "04a85c70128cb7afea2bfe3e97780f58d9f8bed383e0c0227444a1ca975c870d",
    ),
    (
        Kind::Full,
        "d.dag",
        &[("d.dag", "#\n"), ("d.dag", "")],
        None,
        Look::Digest,
        "9177a0c7acc31d1f02c0a0bbf6203ae83c85daf5b5726d32e2c3320aa144c608",
    ),
    // the files of a bare plan don't count
    (
        Kind::Bare,
        "d.dag",
        &[("d.dag", "JOB A a.sub\n")],
        None,
        Look::Digest,
        "e12b1629de5d39cf0e0e2eb4f130c4c2ed98e400a940b84c1853fc208ff269b4",
    ),
    (
        Kind::Bare,
        "d.dag",
        &[("d.dag", "JOB A a.sub\n")],
        Some("#\n"),
        Look::Digest,
        "0d4615b0c5a98cca48cf87590ea9ec2e62517b47989a3b2bf9854e692f3241da",
    ),
    (Kind::Full, "x.dag", &MARKED, None, Look::Done, "C "),
    (Kind::Bare, "x.dag", &MARKED, None, Look::Done, "C "),
    (Kind::Full, "x.dag", &MARKED, Some(""), Look::Done, "C "),
    (Kind::Bare, "x.dag", &MARKED, Some(""), Look::Done, "C "),
    (
        Kind::Full,
        "x.dag",
        &MARKED,
        Some("DONE A\n"),
        Look::Done,
        "A C ",
    ),
    (
        Kind::Bare,
        "x.dag",
        &MARKED,
        Some("DONE A\n"),
        Look::Done,
        "A C ",
    ),
    (
        Kind::Full,
        "x.dag",
        &MARKED,
        Some("# A\nDONE D\nDONE A\n"),
        Look::Done,
        "A C D ",
    ),
    (
        Kind::Bare,
        "x.dag",
        &MARKED,
        Some("# A\nDONE D\nDONE A\n"),
        Look::Done,
        "A C D ",
    ),
    (
        Kind::Full,
        "x.dag",
        &MARKED,
        Some("done C\nDONE B\nDONE B"),
        Look::Done,
        "B C ",
    ),
    (
        Kind::Bare,
        "x.dag",
        &MARKED,
        Some("done C\nDONE B\nDONE B"),
        Look::Done,
        "B C ",
    ),
];

#[test]
fn digests_and_marks(rt: HostRuntime) -> Result<(), Fail> {
    for row in &PLANS {
        compare(&rt, rt.alloc(), row)?;
    }
    Ok(())
}
