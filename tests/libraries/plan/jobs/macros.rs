//! Expansions.

use crate::jobs::shown::{decimal, joined, macro_fault};
use crate::same::same_text;
use std::alloc::{AllocError, Global};
use std::process::Abort;
use std::test::Fail;
use vars_macros::{Attempt, Expanded, MacroFault, Macros, expand, expand_vars};

/// A name with its value, and whether VARS says so.
type Row = (&'static str, &'static str, bool);

/// By which macros a text is expanded.
enum How {
    /// By these, as a text of a submit file.
    Of(&'static [Row]),
    /// By these, as a text of VARS.
    OfVars(&'static [Row]),
    /// By `DOUBLED` with this m0.
    Doubled(&'static str),
}

fn assign_all(alloc: Global, macros: &mut Macros, rows: &[Row]) -> Result<(), MacroFault> {
    for row in rows {
        macros.assign(alloc, row.0, row.1, row.2)?;
    }
    Ok(())
}

fn add_assigned(alloc: Global, macros: &mut Macros, how: &How) -> Result<(), MacroFault> {
    match how {
        How::Of(rows) | How::OfVars(rows) => assign_all(alloc, macros, rows),
        How::Doubled(first) => {
            macros.assign(alloc, "m0", first, true)?;
            assign_all(alloc, macros, &DOUBLED)
        }
    }
}

/// What comes of a text of node A.
fn expanded(alloc: Global, text: &str, how: &How) -> Result<Expanded, MacroFault> {
    let mut macros = Macros::new(alloc, "A")?;
    add_assigned(alloc, &mut macros, how)?;
    match how {
        How::OfVars(_) => expand_vars(alloc, text, &macros, ATTEMPT),
        How::Of(_) | How::Doubled(_) => expand(alloc, text, &macros, ATTEMPT),
    }
}

const ATTEMPT: Attempt = Attempt {
    retry: 0,
    launch: 7,
};

fn text_of(alloc: Global, expanded: &Expanded) -> Result<String, AllocError> {
    let text = expanded.text.as_str();
    if text.len() > 100 {
        return decimal(alloc, text.len());
    }
    let bar = if expanded.whole_run { "|" } else { "" };
    joined(alloc, &[text, bar])
}

/// The text, with a bar behind it where it is known in a whole run alone; how many bytes it has where these are over 100; or the
/// fault.
fn shown(alloc: Global, text: &str, how: &How) -> Result<String, AllocError> {
    match expanded(alloc, text, how) {
        Ok(expanded) => text_of(alloc, &expanded),
        Err(fault) => macro_fault(alloc, fault),
    }
}

const NODE: [Row; 6] = [
    ("msg", "say \"hi\"", true),
    ("who", "$(JOB)-$(RETRY)", true),
    ("executable", "/bin/echo", false),
    ("twice", "first", false),
    ("TWICE", "$(msg)$(x)", false),
    ("x", "$", true),
];

const LOOPS: [Row; 5] = [
    ("a", "$(b)", true),
    ("b", "$(A)", true),
    ("file", "$(RETRY)$(JOB)", false),
    ("RETRY", "$(retry)", false),
    ("part", "$($(JOB))", true),
];

/// Names that are a file's own assignments, and in texts of VARS the node's.
const SHADOWED: [Row; 2] = [("JOB", "file", false), ("RETRY", "$(JOB)", false)];

/// Each is the one before it, twice.
static DOUBLED: [Row; 16] = [
    ("m1", "$(m0)$(m0)", true),
    ("m2", "$(m1)$(m1)", true),
    ("m3", "$(m2)$(m2)", true),
    ("m4", "$(m3)$(m3)", true),
    ("m5", "$(m4)$(m4)", true),
    ("m6", "$(m5)$(m5)", true),
    ("m7", "$(m6)$(m6)", true),
    ("m8", "$(m7)$(m7)", true),
    ("m9", "$(m8)$(m8)", true),
    ("m10", "$(m9)$(m9)", true),
    ("m11", "$(m10)$(m10)", true),
    ("m12", "$(m11)$(m11)", true),
    ("m13", "$(m12)$(m12)", true),
    ("m14", "$(m13)$(m13)", true),
    ("m15", "$(m14)$(m14)", true),
    ("m16", "$(m15)$(m15)", true),
];

/// Texts, and what comes of them.
static EXPANDED: [(&str, How, &str); 28] = [
    ("$(msg)", How::Of(&NODE), "say \"hi\""),
    ("-$(who)-", How::Of(&NODE), "-A-0-"),
    ("$(none:d)$(none)", How::Of(&NODE), "d"),
    ("$(msg:d)", How::Of(&NODE), "say \"hi\""),
    ("$(twice)(msg)", How::Of(&NODE), "say \"hi\"$(msg)"),
    ("$(none:$(JOB)$(b:(c)))", How::Of(&NODE), "A(c)"),
    ("$(Cluster).$(ProcId)", How::Of(&NODE), "7.0|"),
    ("$", How::Of(&NODE), "$"),
    ("a)b$(none:c)", How::Of(&NODE), "a)bc"),
    ("($(none:d)", How::Of(&NODE), "(d"),
    ("$(none:(d)", How::Of(&NODE), "V1 Unclosed"),
    (
        "$(i:$(j:$(k:x)y)$(MSG:m)z)",
        How::Of(&NODE),
        "xysay \"hi\"z",
    ),
    ("$(i:$(x:y)(i))", How::Of(&NODE), "$(i)"),
    ("$(a)", How::Of(&LOOPS), "V2 Loop"),
    ("$(file)", How::Of(&LOOPS), "V2 Loop"),
    ("$(c:$(c))", How::Of(&LOOPS), "V2 Loop"),
    ("x$(", How::Of(&LOOPS), "V1 Unclosed"),
    ("$$(a)", How::Of(&LOOPS), "V5 BadReference"),
    ("$ENV(a)", How::Of(&LOOPS), "V5 BadReference"),
    ("$(dollar)", How::Of(&LOOPS), "V5 BadReference"),
    ("$()", How::Of(&LOOPS), "V5 BadReference"),
    ("$(part)", How::Of(&LOOPS), "V5 BadReference"),
    ("$(Job)$(RETRY)$(JOB:d)", How::OfVars(&SHADOWED), "A0file"),
    ("$(Job)$(RETRY)", How::Of(&SHADOWED), "filefile"),
    ("$(m15)", How::Doubled("x"), "32768"),
    ("$(m15)", How::Doubled(""), ""),
    ("$(m16)", How::Doubled("x"), "V3 TooLong"),
    ("$(m16)", How::Doubled(""), "V3 TooLong"),
];

fn compare(rt: &impl Abort, alloc: Global, row: &(&str, How, &str)) -> Result<(), AllocError> {
    let told = shown(alloc, row.0, &row.1)?;
    same_text(rt, row.0, told.as_str(), row.2);
    Ok(())
}

#[test]
fn expansions(rt: HostRuntime) -> Result<(), Fail> {
    for row in &EXPANDED {
        compare(&rt, rt.alloc(), row)?;
    }
    Ok(())
}
