//! What is answered of the files of a folder, also of one that changes.

ghost use Rattle.std.specs.Prelude.{None, false};

use crate::same::same;
use dag_main_check::{Answer, CheckForm, RunFault};
use dag_main_files::{Folder, round_of};
use dag_main_inspect::{Form, Question, answer_here, report_here};
use event_journal_log::Peek;
use folder_answers::{check_all_here, check_here, rehearse_here};
use splices_flat::FileSet;
use std::alloc::Global;
use std::cell::Cell;
use std::process::Abort;
use std::test::Fail;
use throttles::Limits;

static NO_LIMITS: Limits = Limits {
    jobs: 0,
    pre: 0,
    post: 0,
    children: 1024,
};

static DAG: (&str, &str) = ("x.dag", "SPLICE S s.dag\nJOB A a.sub\nPARENT A CHILD S\n");

static SPLICE: (&str, &str) = ("s.dag", "JOB B b.sub\n");

static SUBMITS: [(&str, &str); 2] = [
    ("a.sub", "executable = /bin/true\nqueue\n"),
    ("b.sub", "executable = /bin/true\nqueue\n"),
];

static CHECKED: &str = "ok nodes=2 edges=1 final=no\n";

static REHEARSED: &str = "A DONE attempts=1 value=0\nS+B DONE attempts=1 value=0\nresult 0\n";

static FRESH: &str = "A READY attempts=0 value=-\nS+B NOT_READY attempts=0 value=-\n";

/// A folder with these files.
fn folder(alloc: Global, texts: &[(&str, &str)]) -> Result<FileSet, Fail> {
    let mut files = FileSet::new(alloc);
    for (name, text) in texts {
        files.add(alloc, name, text.as_bytes())?;
    }
    Ok(files)
}

/// The folder with all its files.
fn whole(alloc: Global) -> Result<FileSet, Fail> {
    folder(alloc, &[DAG, SPLICE, SUBMITS[0], SUBMITS[1]])
}

/// Compares what was answered with a text, or the fault with its line.
fn comes_to(rt: &impl Abort, alloc: Global, answer: Result<Answer, RunFault>, wanted: &str) {
    match answer {
        Ok(answer) => same(rt, answer.text.as_str(), wanted),
        Err(fault) => match format!(in alloc; "{fault}") {
            Ok(line) => same(rt, line.as_str(), wanted),
            Err(_) => same(rt, "no memory", wanted),
        },
    }
}

/// A folder in which other files stand once a file was asked for so often.
#[derive(Drop)]
struct Changing {
    first: FileSet,
    then: FileSet,
    asked: Cell<usize>,
    after: usize,
}

impl Changing {
    /// The files that stand there now.
    fn now(&self) -> &FileSet {
        let asked = self.asked.get();
        self.asked.set(asked.saturating_add(1));
        if asked < self.after {
            &self.first
        } else {
            &self.then
        }
    }
}

impl Folder for Changing {
    ghost holds = { λ _ _. None };

    ghost has = { λ _ _. false };

    ghost streams = { λ _. ⊥ };

    ghost honest = { λ _. ⊥ };

    fn top(&self, alloc: Global, path: &str) -> Result<Option<Vec<u8>>, RunFault> {
        self.now().top(alloc, path)
    }

    fn input(&self, alloc: Global, path: &str) -> Result<Option<Vec<u8>>, RunFault> {
        self.now().input(alloc, path)
    }

    fn beside(&self, alloc: Global, path: &str) -> Result<Option<Vec<u8>>, RunFault> {
        self.now().beside(alloc, path)
    }

    fn is_there(&self, alloc: Global, path: &str) -> Result<bool, RunFault> {
        self.now().is_there(alloc, path)
    }

    fn highest(&self, alloc: Global, top: &str) -> Result<u16, RunFault> {
        self.now().highest(alloc, top)
    }

    fn journal(&self, alloc: Global, top: &str) -> Result<Option<Peek>, RunFault> {
        self.now().journal(alloc, top)
    }
}

#[test]
fn checked(rt: HostRuntime) -> Result<(), Fail> {
    let alloc = rt.alloc();
    comes_to(
        &rt,
        alloc,
        check_here(alloc, &whole(alloc)?, "x.dag", CheckForm::Line),
        CHECKED,
    );
    for (texts, line) in [
        ([DAG, SPLICE, SUBMITS[0]], "P1 MissingFile b.sub"),
        ([DAG, SUBMITS[0], SUBMITS[1]], "S1 MissingFile s.dag"),
        ([SPLICE, SUBMITS[0], SUBMITS[1]], "S1 MissingFile x.dag"),
    ] {
        comes_to(
            &rt,
            alloc,
            check_here(alloc, &folder(alloc, &texts)?, "x.dag", CheckForm::Line),
            line,
        );
    }
    Ok(())
}

/// A submit file with which nothing is wrong.
const SOUND: &str = "executable = /bin/true\nqueue\n";

/// Files with faults of lines, and the lines that are listed of them.
struct ListRow {
    files: &'static [(&'static str, &'static str)],
    listed: &'static str,
}

static LISTS: [ListRow; 6] = [
    // Four lines are wrong, in three files.
    ListRow {
        files: &[
            (
                "x.dag",
                "JOB A a.sub\nFOO A\nSPLICE S s.dag\nRETRY A many\n",
            ),
            ("s.dag", "JOB B b.sub\nJOB B.C b.sub\n"),
            ("a.sub", "executable = /bin/true\na b = c\nqueue\n"),
            ("b.sub", SOUND),
        ],
        listed: "dagrun: L2 UnknownCommand x.dag:2:1\ndagrun: L7 BadNumber x.dag:4:9\n\
                 dagrun: L6 BadName s.dag:2:5\ndagrun: U2 BadLine a.sub:2\n",
    },
    // Each line that names what is not there is listed.
    ListRow {
        files: &[
            ("x.dag", "JOB A a.sub\nPARENT A CHILD Q\nRETRY R 1\n"),
            ("a.sub", SOUND),
        ],
        listed: "dagrun: S5 UnknownNode x.dag:2:16\ndagrun: S5 UnknownNode x.dag:3:7\n",
    },
    // But not one that may name what a wrong line declares.
    ListRow {
        files: &[
            ("x.dag", "JOB A a.sub\nJOB B\nPARENT A CHILD B\n"),
            ("a.sub", SOUND),
        ],
        listed: "dagrun: L4 MissingWord x.dag:2:6\n",
    },
    // A wrong line that is continued is one fault; the last line of a file may have no end.
    ListRow {
        files: &[
            ("x.dag", "JOB A a.sub\nJOB A a.sub"),
            (
                "a.sub",
                "executable = /bin/true\r\na b \\\r\n= c\r\nqueue\r\nqueue\r\n",
            ),
        ],
        listed: "dagrun: S4 DuplicateName x.dag:2:5\ndagrun: U2 BadLine a.sub:2\n\
                 dagrun: U4 QueueCount a.sub:5\n",
    },
    // A fault that names no line ends the list.
    ListRow {
        files: &[
            ("x.dag", "FOO\nJOB A a.sub\nJOB B b.sub\nJOB C c.sub\n"),
            ("a.sub", "executable = /bin/true\nqueue 5\n"),
            ("b.sub", "a b = c\n"),
            ("c.sub", "a b = c\n"),
        ],
        listed: "dagrun: L2 UnknownCommand x.dag:1:1\ndagrun: U4 QueueCount a.sub:2\n",
    },
    // A file of two splices has each fault once.
    ListRow {
        files: &[
            ("x.dag", "SPLICE S s.dag\nSPLICE T s.dag\n"),
            ("s.dag", "BAR\nJOB B b.sub\n\nBAR"),
            ("b.sub", SOUND),
        ],
        listed: "dagrun: L2 UnknownCommand s.dag:1:1\ndagrun: L2 UnknownCommand s.dag:4:1\n",
    },
];

// All faults of lines are listed in the order in which they are found, with status 125.
#[test]
fn listed(rt: HostRuntime) -> Result<(), Fail> {
    let alloc = rt.alloc();
    for row in &LISTS {
        let files = folder(alloc, row.files)?;
        match check_all_here(alloc, &files, "x.dag", CheckForm::Line) {
            Ok(answer) => {
                same(&rt, answer.warnings.as_str(), row.listed);
                same(&rt, answer.text.as_str(), "");
                same(&rt, answer.status, 125);
            }
            Err(fault) => comes_to(&rt, alloc, Err(fault), row.listed),
        }
    }
    Ok(())
}

// Where no line is wrong, it is answered as without the list; and of a hundred and one faults, one is not listed.
#[test]
fn listed_at_most(rt: HostRuntime) -> Result<(), Fail> {
    let alloc = rt.alloc();
    let answer = check_all_here(alloc, &whole(alloc)?, "x.dag", CheckForm::Line);
    comes_to(&rt, alloc, answer, CHECKED);
    let answer = check_all_here(alloc, &folder(alloc, &[SPLICE])?, "x.dag", CheckForm::Line);
    comes_to(&rt, alloc, answer, "S1 MissingFile x.dag");
    let mut text = String::new(alloc);
    for _ in 0..101 {
        text.push_str("FOO\n")?;
    }
    let mut files = FileSet::new(alloc);
    files.add(alloc, "x.dag", text.as_bytes())?;
    match check_all_here(alloc, &files, "x.dag", CheckForm::Line) {
        Ok(answer) => {
            same(&rt, answer.warnings.as_str().lines().count(), 100);
            same(
                &rt,
                answer.warnings.as_str().lines().last(),
                Some("dagrun: L2 UnknownCommand x.dag:100:1"),
            );
        }
        Err(fault) => comes_to(&rt, alloc, Err(fault), "a list"),
    }
    Ok(())
}

#[test]
fn rehearsed(rt: HostRuntime) -> Result<(), Fail> {
    let alloc = rt.alloc();
    let folder = folder(alloc, &[DAG, SPLICE])?;
    let answer = rehearse_here(alloc, &folder, "x.dag", None, NO_LIMITS, false);
    comes_to(&rt, alloc, answer, REHEARSED);
    let table: &[u8] = b"A 0 JOB no\n";
    let answer = rehearse_here(alloc, &folder, "x.dag", Some(table), NO_LIMITS, false);
    comes_to(&rt, alloc, answer, "N3 BadLine 1");
    Ok(())
}

/// A folder that has all its files once a file was asked for so often, and these until then.
fn coming(alloc: Global, first: &[(&str, &str)], after: usize) -> Result<Changing, Fail> {
    Ok(Changing {
        first: folder(alloc, first)?,
        then: whole(alloc)?,
        asked: Cell::new(0),
        after,
    })
}

// A file that is missing as the files are read is asked for once more, and read where it is there by then: a submit file; a splice, and
// then what its lines name; the DAG file.
#[test]
fn came_meanwhile(rt: HostRuntime) -> Result<(), Fail> {
    let alloc = rt.alloc();
    let changing = coming(alloc, &[DAG, SPLICE, SUBMITS[0]], 4)?;
    let answer = check_here(alloc, &changing, "x.dag", CheckForm::Line);
    comes_to(&rt, alloc, answer, CHECKED);
    let changing = coming(alloc, &[DAG], 3)?;
    let answer = check_here(alloc, &changing, "x.dag", CheckForm::Line);
    comes_to(&rt, alloc, answer, CHECKED);
    let changing = coming(alloc, &[], 1)?;
    let answer = rehearse_here(alloc, &changing, "x.dag", None, NO_LIMITS, false);
    comes_to(&rt, alloc, answer, REHEARSED);
    let changing = coming(alloc, &[], 2)?;
    let answer = answer_here(alloc, &changing, "x.dag", Question::Status(Form::Lines));
    comes_to(&rt, alloc, answer, FRESH);
    Ok(())
}

// So does `check --all`, which then reads all files again.
#[test]
fn came_while_all_were_checked(rt: HostRuntime) -> Result<(), Fail> {
    let alloc = rt.alloc();
    let changing = coming(alloc, &[DAG, SPLICE, SUBMITS[0]], 7)?;
    let answer = check_all_here(alloc, &changing, "x.dag", CheckForm::Line);
    comes_to(&rt, alloc, answer, CHECKED);
    Ok(())
}

// A journal that can't be read is looked at again as long as it has another length each time.
#[test]
fn journals_that_grow(rt: HostRuntime) -> Result<(), Fail> {
    let alloc = rt.alloc();
    let torn = ("x.dag.journal", "Journal?");
    for (then, wanted) in [("", FRESH), ("Jammed", "J3 NotAJournal")] {
        let changing = Changing {
            first: folder(alloc, &[torn])?,
            then: folder(
                alloc,
                &[DAG, SPLICE, SUBMITS[0], SUBMITS[1], ("x.dag.journal", then)],
            )?,
            asked: Cell::new(0),
            after: 1,
        };
        let answer = answer_here(alloc, &changing, "x.dag", Question::Status(Form::Lines));
        comes_to(&rt, alloc, answer, wanted);
    }
    Ok(())
}

// Of a round that was not begun there is no report, and neither of a journal that can't be read: its first byte opens a header.
#[test]
fn no_report(rt: HostRuntime) -> Result<(), Fail> {
    let alloc = rt.alloc();
    for journal in ["", "no journal", "Jammed"] {
        let mut files = whole(alloc)?;
        files.add(alloc, "x.dag.journal", journal.as_bytes())?;
        match report_here(alloc, &files, "x.dag") {
            Ok(answer) => same(&rt, answer.is_none(), true),
            Err(fault) => comes_to(&rt, alloc, Err(fault), "none"),
        }
    }
    Ok(())
}

/// Rescue files that stand beside x.dag, whether the highest is read, the one that is gone back to, and the numbers
/// that are read and written, or the line of a fault.
struct RoundRow {
    files: &'static [(&'static str, &'static str)],
    autorescue: bool,
    from: Option<u16>,
    wanted: &'static str,
}

static ROUNDS: [RoundRow; 8] = [
    RoundRow {
        files: &[],
        autorescue: true,
        from: None,
        wanted: "0 1",
    },
    RoundRow {
        files: &[("x.dag.rescue001", ""), ("x.dag.rescue003", "")],
        autorescue: true,
        from: None,
        wanted: "3 4",
    },
    RoundRow {
        files: &[("x.dag.rescue001", ""), ("x.dag.rescue003", "")],
        autorescue: false,
        from: None,
        wanted: "0 4",
    },
    RoundRow {
        files: &[("x.dag.rescue999", "")],
        autorescue: true,
        from: None,
        wanted: "999 999",
    },
    RoundRow {
        files: &[
            ("x.dag.rescue003.old", ""),
            ("y.dag.rescue003", ""),
            ("x.dag.rescue3", ""),
        ],
        autorescue: true,
        from: None,
        wanted: "0 1",
    },
    RoundRow {
        files: &[("x.dag.rescue001", ""), ("x.dag.rescue003", "")],
        autorescue: true,
        from: Some(1),
        wanted: "1 2",
    },
    RoundRow {
        files: &[("x.dag.rescue001", ""), ("x.dag.rescue003", "")],
        autorescue: true,
        from: Some(2),
        wanted: "E4 NotThere 2",
    },
    RoundRow {
        files: &[("x.dag.journal", "Jammed"), ("x.dag.rescue003", "")],
        autorescue: true,
        from: None,
        wanted: "J3 NotAJournal",
    },
];

// A new round reads the rescue file of the highest number and writes the next, and 999 again.
#[test]
fn rounds(rt: HostRuntime) -> Result<(), Fail> {
    let alloc = rt.alloc();
    for row in &ROUNDS {
        let files = folder(alloc, row.files)?;
        let line = match round_of(alloc, &files, "x.dag", row.autorescue, row.from, false) {
            Ok(round) => format!(in alloc; "{} {}", round.used, round.next)?,
            Err(fault) => format!(in alloc; "{fault}")?,
        };
        same(&rt, line.as_str(), row.wanted);
    }
    Ok(())
}
