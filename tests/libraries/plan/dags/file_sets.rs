//! Sets of files, and paths.

use crate::dags::shown::{View, answer};
use crate::same::same_text;
use splices::{FileSet, path_in};
use std::alloc::{AllocError, Global};
use std::process::Abort;
use std::test::Fail;

/// A row of a table.
type Row = (&'static str, &'static str, &'static str);

/// Files that are added in this order, and what is there under the name `a` then.
static ADDED: [Row; 4] = [
    ("b", "two", "-"),
    ("a", "one", "one"),
    ("A", "three", "one"),
    ("a", "", ""),
];

fn compare_added(
    rt: &impl Abort,
    alloc: Global,
    files: &mut FileSet,
    row: &Row,
) -> Result<(), AllocError> {
    files.add(alloc, row.0, row.1.as_bytes())?;
    let told = files.get("a").unwrap_or(b"-".as_slice());
    assert!(rt; told == row.2.as_bytes(), "{} {}", row.0, row.1);
    Ok(())
}

#[test]
fn last_file_of_a_name(rt: HostRuntime) -> Result<(), Fail> {
    let mut files = FileSet::new(rt.alloc());
    for row in &ADDED {
        compare_added(&rt, rt.alloc(), &mut files, row)?;
    }
    Ok(())
}

/// Files that are added in this order, and what opening t.dag answers then.
static STEPS: [Row; 5] = [
    ("d/y.dag", "JOB D d\n", "S1 MissingFile t.dag"),
    ("t.dag", "SPLICE X x.dag DIR d\n", "S1 MissingFile d/x.dag"),
    (
        "d/x.dag",
        "JOB A a\nSPLICE Y y.dag DIR e\n",
        "S1 MissingFile d/e/y.dag",
    ),
    (
        "d/e/y.dag",
        "SPLICE Z /z.dag\nJOB B b\n",
        "S1 MissingFile /z.dag",
    ),
    (
        "/z.dag",
        "JOB C c\n",
        "X+A d/a 'd';X+Y+B d/e/b 'd/e';X+Y+Z+C d/e/c 'd/e';",
    ),
];

fn compare_step(
    rt: &impl Abort,
    alloc: Global,
    files: &mut FileSet,
    row: &Row,
) -> Result<(), AllocError> {
    files.add(alloc, row.0, row.1.as_bytes())?;
    let told = answer(alloc, View::Options, files, "t.dag")?;
    same_text(rt, row.0, told.as_str(), row.2);
    Ok(())
}

#[test]
fn missing_file_is_added(rt: HostRuntime) -> Result<(), Fail> {
    let mut files = FileSet::new(rt.alloc());
    for row in &STEPS {
        compare_step(&rt, rt.alloc(), &mut files, row)?;
    }
    Ok(())
}

/// A folder, a path, and the path as seen from the folder.
static PATHS: [Row; 9] = [
    ("", "", ""),
    ("", "a/b", "a/b"),
    ("", "/a", "/a"),
    ("d", "", "d"),
    ("d", "a", "d/a"),
    ("d/", "a", "d//a"),
    ("/d", "../a", "/d/../a"),
    ("d", "/a", "/a"),
    ("d", "/", "/"),
];

fn compare_path(rt: &impl Abort, alloc: Global, row: &Row) -> Result<(), AllocError> {
    let told = path_in(alloc, row.0, row.1)?;
    same_text(rt, row.1, told.as_str(), row.2);
    Ok(())
}

#[test]
fn paths_in_folders(rt: HostRuntime) -> Result<(), Fail> {
    for row in &PATHS {
        compare_path(&rt, rt.alloc(), row)?;
    }
    Ok(())
}
