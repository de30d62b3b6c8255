//! What is displayed after the line of a refusal, with the line of the file to which it points.

use fault_guide::{Evidence, Refusal, hint_text};
use std::alloc::{AllocError, Global};

/// A line of a refusal, the file that it names, what the system said, and what is displayed.
struct Row {
    line: &'static str,
    source: &'static [u8],
    reason: Option<&'static str>,
    displayed: &'static str,
}

const ROWS: [Row; 5] = [
    Row {
        line: "L2 UnknownCommand x.dag:2:1",
        source: b"JOB A a.sub\nJOBS B b.sub\n",
        reason: None,
        displayed: "    2 | JOBS B b.sub\n        ^\n    is JOB meant?\n    dagrun explain L2 says more\n",
    },
    Row {
        line: "S5 UnknownNode x.dag:2:16",
        source: b"JOB Fetch a.sub\nPARENT A CHILD Fecth\n",
        reason: None,
        displayed: "    2 | PARENT A CHILD Fecth\n                       ^\n    is Fetch meant?\n    dagrun explain S5 says more\n",
    },
    Row {
        line: "L6 BadName x:y.dag:1:5",
        source: b"JOB\t\xc3\xa9 x\n",
        reason: None,
        displayed: "    1 | JOB \u{e9} x\n            ^\n    dagrun explain L6 says more\n",
    },
    Row {
        line: "U3 NoQueue a.sub:9",
        source: b"",
        reason: None,
        displayed: "    dagrun explain U3 says more\n",
    },
    Row {
        line: "P1 MissingFile work/a.sub",
        source: b"",
        reason: Some("work/a.sub: No such file or directory"),
        displayed: "    work/a.sub: No such file or directory\n    See that the file is there and may be read. A relative path is taken from\n    the folder in which dagrun is called, then the DIR of each SPLICE line on the\n    way to the node, and then the DIR of its JOB line. Where the file is beside\n    the DAG file, call dagrun in that folder.\n",
    },
];

fn is_displayed(alloc: Global, row: &Row) -> Result<bool, AllocError> {
    let evidence = Evidence {
        source: Some(row.source),
        reason: row.reason,
    };
    let text = hint_text(alloc, &Refusal::of(row.line), &evidence)?;
    Ok(text.as_str() == row.displayed)
}

#[test]
fn what_follows_a_refusal(rt: HostRuntime) -> Result<(), AllocError> {
    for row in &ROWS {
        assert!(rt; is_displayed(rt.alloc(), row)?, "{}", row.line);
    }
    Ok(())
}
