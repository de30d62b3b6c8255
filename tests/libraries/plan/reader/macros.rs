//! VARS lines: where the macros stand, their names, and their texts between quotes.

use crate::reader::shown::compare;
use std::test::Fail;

/// A text, and what it says.
static READ: [(&str, &str); 16] = [
    (
        "VARS A a=\"\"",
        "[Vars { node: Node(A@1:6), placement: Prepend, macros: [Macro { name: a@1:8, text: @1:10 }] }]",
    ),
    (
        "vars all_nodes append +x.1_Y = \"v w\"\t_b= \"\" ",
        "[Vars { node: AllNodes(Span { line: 1, start: 5, stop: 14 }), placement: Append, macros: [Macro { name: +x.1_Y@1:23, text: v w@1:32 }, Macro { name: _b@1:38, text: @1:42 }] }]",
    ),
    (
        "VARS A Prepend b=\"x\"",
        "[Vars { node: Node(A@1:6), placement: Prepend, macros: [Macro { name: b@1:16, text: x@1:18 }] }]",
    ),
    (
        "VARS A PREPEND=\"x\"",
        "[Vars { node: Node(A@1:6), placement: Prepend, macros: [Macro { name: PREPEND@1:8, text: x@1:16 }] }]",
    ),
    (
        "VARS A append  = \"x\"",
        "[Vars { node: Node(A@1:6), placement: Prepend, macros: [Macro { name: append@1:8, text: x@1:18 }] }]",
    ),
    (
        "VARS A APPEND PREPEND=\"x\"",
        "[Vars { node: Node(A@1:6), placement: Append, macros: [Macro { name: PREPEND@1:15, text: x@1:23 }] }]",
    ),
    (
        "VARS A PREPEND APPEND=\"x\"",
        "[Vars { node: Node(A@1:6), placement: Prepend, macros: [Macro { name: APPEND@1:16, text: x@1:23 }] }]",
    ),
    (
        "VARS A m=\"say \\\"hi\\\"\" who=\"$(JOB)\"",
        "[Vars { node: Node(A@1:6), placement: Prepend, macros: [Macro { name: m@1:8, text: say \"hi\"@1:10 }, Macro { name: who@1:23, text: $(JOB)@1:27 }] }]",
    ),
    (
        "VARS A a=\"\\\\\"",
        "[Vars { node: Node(A@1:6), placement: Prepend, macros: [Macro { name: a@1:8, text: \\@1:10 }] }]",
    ),
    (
        "VARS A a=\"\\\\\\\"\"",
        "[Vars { node: Node(A@1:6), placement: Prepend, macros: [Macro { name: a@1:8, text: \\\"@1:10 }] }]",
    ),
    (
        "VARS A a=\"\\n\\x\"",
        "[Vars { node: Node(A@1:6), placement: Prepend, macros: [Macro { name: a@1:8, text: \\n\\x@1:10 }] }]",
    ),
    (
        "VARS A a=\"\\\\n\"",
        "[Vars { node: Node(A@1:6), placement: Prepend, macros: [Macro { name: a@1:8, text: \\n@1:10 }] }]",
    ),
    (
        "VARS A a=\"\\\\\\n\"",
        "[Vars { node: Node(A@1:6), placement: Prepend, macros: [Macro { name: a@1:8, text: \\\\n@1:10 }] }]",
    ),
    (
        "VARS A a=\"\u{e9}\\\"\u{20ac}\" b=\"c\"",
        "[Vars { node: Node(A@1:6), placement: Prepend, macros: [Macro { name: a@1:8, text: \u{e9}\"\u{20ac}@1:10 }, Macro { name: b@1:20, text: c@1:22 }] }]",
    ),
    (
        "VARS A +queue=\"1\"",
        "[Vars { node: Node(A@1:6), placement: Prepend, macros: [Macro { name: +queue@1:8, text: 1@1:15 }] }]",
    ),
    (
        "VARS A a=\"b\" a=\"c\"",
        "[Vars { node: Node(A@1:6), placement: Prepend, macros: [Macro { name: a@1:8, text: b@1:10 }, Macro { name: a@1:14, text: c@1:16 }] }]",
    ),
];

#[test]
fn read(rt: HostRuntime) -> Result<(), Fail> {
    compare(&rt, rt.alloc(), &READ)?;
    Ok(())
}
