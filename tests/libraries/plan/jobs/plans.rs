//! Plans: the commands of their phases, and what they say of their nodes.

use crate::built::files_of;
use crate::jobs::looks::{Kind, Look, Source, told};
use crate::same::same_text;
use node_machine::Phase;
use std::alloc::Global;
use std::process::Abort;
use std::test::Fail;

fn compare_one(
    rt: &impl Abort,
    alloc: Global,
    source: &Source<'_>,
    row: &(&str, Look, &str),
) -> Result<(), Fail> {
    let answer = told(alloc, source, row.0, &row.1)?;
    same_text(rt, row.0, answer.as_str(), row.2);
    Ok(())
}

/// Compares what looks at nodes of the plan of x.dag among these files tell with what is due.
fn compare(
    rt: &impl Abort,
    alloc: Global,
    kind: Kind,
    texts: &[(&str, &str)],
    rows: &[(&str, Look, &str)],
) -> Result<(), Fail> {
    let files = files_of(alloc, texts)?;
    let source = Source {
        kind,
        top: "x.dag",
        files: &files,
        rescue: None,
    };
    for row in rows {
        compare_one(rt, alloc, &source, row)?;
    }
    Ok(())
}

/// A DAG with a splice in a folder, and the submit files of its nodes.
static FILES: [(&str, &str); 15] = [
    (
        "x.dag",
        "JOB A a.sub\nVARS A msg=\"say \\\"hi\\\"\" who=\"$(JOB)-$(RETRY)\"\n\
        JOB Said a.sub\nVARS Said APPEND arguments=\"$(msg)|\" msg=\"say \\\"hi\\\"\"\n\
        JOB Before two.sub\nVARS Before PREPEND x=\"1\"\n\
        JOB Behind two.sub\nVARS Behind APPEND x=\"1\"\n\
        JOB Named two.sub\nVARS Named APPEND Arguments=\"q\"\n\
        JOB Unnamed two.sub\nVARS Unnamed arguments=\"q\"\n\
        JOB Again retry.sub\nRETRY Again 10\n\
        JOB Numbered cluster.sub\nJOB Unread unread.sub\nJOB Settings environment.sub\n\
        JOB Host local.sub\nJOB Tool tool.sub\n\
        JOB Judged plain.sub\nSCRIPT PRE Judged p.sh $RETURN $PRE_SCRIPT_RETURN $RETRY\n\
        SCRIPT POST Judged /q.sh $RETURN $PRE_SCRIPT_RETURN $RETRY $MAX_RETRIES $JOB x$JOB\n\
        RETRY Judged 2\n\
        JOB Told plain.sub\nSCRIPT POST Told q.sh $JOBID\n\
        JOB Nothing none.sub NOOP\nSCRIPT PRE Nothing p.sh $FAILED_COUNT\n\
        SPLICE Z in.dag DIR z\n\
        FINAL F end.sub DIR f\nSCRIPT PRE F p.sh $DAG_STATUS\n\
        SCRIPT POST F q.sh $FAILED_COUNT $RETURN\n",
    ),
    (
        "z/in.dag",
        "JOB A place.sub\nJOB B root.sub DIR d\nJOB C plain.sub\n\
        SCRIPT PRE A p.sh a.txt\nSCRIPT POST B /p.sh\n",
    ),
    (
        "a.sub",
        "executable = /bin/echo\n\
        arguments = \"one 'it''s ok' \"\"x\"\" $(who) $(none:d)\"\nqueue\n",
    ),
    (
        "two.sub",
        "executable = /bin/echo\nx = 2\narguments = $(x)\nqueue\n",
    ),
    (
        "retry.sub",
        "executable = /bin/echo\narguments = $(RETRY)\nqueue\n",
    ),
    (
        "cluster.sub",
        "executable = /bin/echo\noutput = b.$(Cluster).out\nqueue\n",
    ),
    (
        "unread.sub",
        "executable = /bin/echo\nx = $(Cluster)\nqueue\nerror = $(Cluster)\n",
    ),
    (
        "environment.sub",
        "executable = env\nenvironment = \"A=1 B='x y'\"\nqueue\n",
    ),
    (
        "local.sub",
        "universe = Local\nexecutable = /bin/true\nenvironment =\nqueue\n",
    ),
    (
        "tool.sub",
        "universe = $(kind)\nkind = scheduler\nexecutable = $(kind)\nqueue\n",
    ),
    (
        "plain.sub",
        "universe = vanilla\nexecutable = /bin/true\nqueue\n",
    ),
    (
        "z/place.sub",
        "executable = run.sh\ninitialdir = w\ninput = i.txt\noutput = o.txt\nerror =\nqueue\n",
    ),
    (
        "z/d/root.sub",
        "executable = /bin/x\ninitialdir = /w\ninput =\noutput = /o.txt\nerror = e.txt\nqueue\n",
    ),
    (
        "z/plain.sub",
        "executable = ../true\nerror = e.txt\nqueue\n",
    ),
    ("f/end.sub", "executable = end.sh\nqueue\n"),
];

/// Of a node an attempt and a phase, and the command that is due; and whether a word of the node's
/// commands is known in a whole run alone.
static LOOKS: [(&str, Look, &str); 34] = [
    (
        "A",
        Look::Command(0, Phase::Job),
        "/bin/echo|one|it's ok|\"x\"|A-0|d| in '' <- >- 2>- ",
    ),
    (
        "Said",
        Look::Command(0, Phase::Job),
        "/bin/echo|say|\"hi\"|| in '' <- >- 2>- ",
    ),
    (
        "Before",
        Look::Command(0, Phase::Job),
        "/bin/echo|2| in '' <- >- 2>- ",
    ),
    (
        "Behind",
        Look::Command(0, Phase::Job),
        "/bin/echo|1| in '' <- >- 2>- ",
    ),
    (
        "Named",
        Look::Command(0, Phase::Job),
        "/bin/echo|q| in '' <- >- 2>- ",
    ),
    (
        "Unnamed",
        Look::Command(0, Phase::Job),
        "/bin/echo|2| in '' <- >- 2>- ",
    ),
    (
        "Again",
        Look::Command(0, Phase::Job),
        "/bin/echo|0| in '' <- >- 2>- ",
    ),
    (
        "Again",
        Look::Command(3, Phase::Job),
        "/bin/echo|3| in '' <- >- 2>- ",
    ),
    (
        "Again",
        Look::Command(10, Phase::Job),
        "/bin/echo|10| in '' <- >- 2>- ",
    ),
    (
        "Numbered",
        Look::Command(0, Phase::Job),
        "/bin/echo| in '' <- >b.7.out 2>- ",
    ),
    (
        "Unread",
        Look::Command(0, Phase::Job),
        "/bin/echo| in '' <- >- 2>- ",
    ),
    (
        "Settings",
        Look::Command(0, Phase::Job),
        "env| in '' <- >- 2>- A=1|B=x y|",
    ),
    (
        "Host",
        Look::Command(0, Phase::Job),
        "/bin/true| in '' <- >- 2>- ",
    ),
    (
        "Tool",
        Look::Command(0, Phase::Job),
        "scheduler| in '' <- >- 2>- ",
    ),
    (
        "Judged",
        Look::Command(1, Phase::Pre),
        "p.sh|$RETURN|$PRE_SCRIPT_RETURN|1| in '' <- >- 2>- ",
    ),
    (
        "Judged",
        Look::Command(2, Phase::Post),
        "/q.sh|-9|4|2|2|Judged|x$JOB| in '' <- >- 2>- ",
    ),
    (
        "Told",
        Look::Command(0, Phase::Post),
        "q.sh|5.0| in '' <- >- 2>- ",
    ),
    (
        "Nothing",
        Look::Command(0, Phase::Pre),
        "p.sh|2| in '' <- >- 2>- ",
    ),
    (
        "Z+A",
        Look::Command(0, Phase::Job),
        "z/run.sh| in 'z/w' <z/w/i.txt >z/w/o.txt 2>- ",
    ),
    (
        "Z+A",
        Look::Command(0, Phase::Pre),
        "z/p.sh|a.txt| in 'z' <- >- 2>- ",
    ),
    (
        "Z+B",
        Look::Command(0, Phase::Job),
        "/bin/x| in '/w' <- >/o.txt 2>/w/e.txt ",
    ),
    (
        "Z+B",
        Look::Command(0, Phase::Post),
        "/p.sh| in 'z/d' <- >- 2>- ",
    ),
    (
        "Z+C",
        Look::Command(0, Phase::Job),
        "z/../true| in 'z' <- >- 2>z/e.txt ",
    ),
    (
        "F",
        Look::Command(0, Phase::Pre),
        "f/p.sh|0| in 'f' <- >- 2>- ",
    ),
    (
        "F",
        Look::Command(0, Phase::Job),
        "f/end.sh| in 'f' <- >- 2>- ",
    ),
    (
        "F",
        Look::Command(0, Phase::Post),
        "f/q.sh|2|-9| in 'f' <- >- 2>- ",
    ),
    ("A", Look::Whole, "no"),
    ("Again", Look::Whole, "no"),
    ("Numbered", Look::Whole, "yes"),
    ("Unread", Look::Whole, "no"),
    ("Judged", Look::Whole, "no"),
    ("Told", Look::Whole, "yes"),
    ("Nothing", Look::Whole, "yes"),
    ("F", Look::Whole, "yes"),
];

/// A DAG whose nodes' programs are its submit files.
static PROGRAMS: [(&str, &str); 1] = [(
    "x.dag",
    "JOB A a.sh\nVARS A APPEND output=\"$(Cluster)\" x=\"$(x)\"\nJOB B b.sh DIR d\n\
        SCRIPT PRE B p.sh $JOB\n",
)];

/// With no submit file read the path of a node's submit file is that of its job's program.
static BARE: [(&str, Look, &str); 4] = [
    ("A", Look::Command(0, Phase::Job), "a.sh| in '' <- >- 2>- "),
    (
        "B",
        Look::Command(0, Phase::Job),
        "d/b.sh| in 'd' <- >- 2>- ",
    ),
    (
        "B",
        Look::Command(0, Phase::Pre),
        "d/p.sh|B| in 'd' <- >- 2>- ",
    ),
    ("A", Look::Whole, "no"),
];

#[test]
fn commands_and_whole_runs(rt: HostRuntime) -> Result<(), Fail> {
    compare(&rt, rt.alloc(), Kind::Full, &FILES, &LOOKS)?;
    compare(&rt, rt.alloc(), Kind::Bare, &PROGRAMS, &BARE)
}
