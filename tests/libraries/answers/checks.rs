//! What `check` answers as JSON, beside its line.

use crate::same::same;
use dag_main_check::{Answer, CheckForm, RunFault};
use folder_answers::{check_all_here, check_here};
use splices_flat::FileSet;
use std::alloc::Global;
use std::process::Abort;
use std::test::Fail;

/// A path and a text of a DAG file, and what both forms of its check answer: the text, or the line of the fault.
struct CheckRow {
    path: &'static str,
    dag: &'static str,
    line: &'static str,
    json: &'static str,
    warnings: &'static str,
}

static ROWS: [CheckRow; 5] = [
    // Of the pairs of a parent and a child that are said twice, one counts; the FINAL node is no ordinary node.
    CheckRow {
        path: "x.dag",
        dag: "JOB A a.sub\nJOB B a.sub\nJOB C a.sub\nFINAL F a.sub\n\
              PARENT A CHILD B C\nPARENT A CHILD B\n",
        line: "ok nodes=3 edges=2 final=yes\n",
        json: "{\"dag\":\"x.dag\",\"edges\":2,\"final\":true,\"nodes\":3}\n",
        warnings: "",
    },
    // The path is as it was given, and the warnings are the same.
    CheckRow {
        path: "my \"é\\\".dag",
        dag: "JOB A a.sub\nRETRY A 1\nRETRY A 2\n",
        line: "ok nodes=1 edges=0 final=no\n",
        json: "{\"dag\":\"my \\\"é\\\\\\\".dag\",\"edges\":0,\"final\":false,\"nodes\":1}\n",
        warnings: "warning: my \"é\\\".dag:2 overridden\n",
    },
    CheckRow {
        path: "x.dag",
        dag: "# nothing\n",
        line: "ok nodes=0 edges=0 final=no\n",
        json: "{\"dag\":\"x.dag\",\"edges\":0,\"final\":false,\"nodes\":0}\n",
        warnings: "",
    },
    CheckRow {
        path: "x.dag",
        dag: "JOB A b.sub\n",
        line: "P1 MissingFile b.sub",
        json: "P1 MissingFile b.sub",
        warnings: "",
    },
    CheckRow {
        path: "x.dag",
        dag: "JOB A a.sub\nJOB B a.sub\nPARENT A CHILD B\nPARENT B CHILD A\n",
        line: "G1 Cycle A B",
        json: "G1 Cycle A B",
        warnings: "",
    },
];

/// The files of a row.
fn files_of(alloc: Global, row: &CheckRow) -> Result<FileSet, Fail> {
    let mut files = FileSet::new(alloc);
    files.add(alloc, row.path, row.dag.as_bytes())?;
    files.add(alloc, "a.sub", b"executable = /bin/true\nqueue\n")?;
    Ok(files)
}

/// Compares what was answered, with status 0; or the line of the fault.
fn comes_to(
    rt: &impl Abort,
    alloc: Global,
    answer: Result<Answer, RunFault>,
    wanted: &str,
    warnings: &str,
) -> Result<(), Fail> {
    match answer {
        Ok(answer) => {
            same(rt, answer.text.as_str(), wanted);
            same(rt, answer.warnings.as_str(), warnings);
            same(rt, answer.status, 0);
        }
        Err(fault) => same(rt, format!(in alloc; "{fault}")?.as_str(), wanted),
    }
    Ok(())
}

// `check`, and `check --all` where no line is wrong.
#[test]
fn checks_as_json(rt: HostRuntime) -> Result<(), Fail> {
    let alloc = rt.alloc();
    for row in &ROWS {
        let files = files_of(alloc, row)?;
        for (form, wanted) in [(CheckForm::Line, row.line), (CheckForm::Json, row.json)] {
            let first = check_here(alloc, &files, row.path, form);
            comes_to(&rt, alloc, first, wanted, row.warnings)?;
            let all = check_all_here(alloc, &files, row.path, form);
            comes_to(&rt, alloc, all, wanted, row.warnings)?;
        }
    }
    Ok(())
}

// Where lines are wrong, `check --all` lists them, and has no text in either form.
#[test]
fn wrong_lines_in_both_forms(rt: HostRuntime) -> Result<(), Fail> {
    let alloc = rt.alloc();
    let mut files = FileSet::new(alloc);
    files.add(alloc, "x.dag", b"FOO\nBAR\n")?;
    for form in [CheckForm::Line, CheckForm::Json] {
        match check_all_here(alloc, &files, "x.dag", form) {
            Ok(answer) => {
                same(&rt, answer.text.as_str(), "");
                same(
                    &rt,
                    answer.warnings.as_str(),
                    "dagrun: L2 UnknownCommand x.dag:1:1\ndagrun: L2 UnknownCommand x.dag:2:1\n",
                );
                same(&rt, answer.status, 125);
            }
            Err(fault) => comes_to(&rt, alloc, Err(fault), "a list", "")?,
        }
    }
    Ok(())
}
