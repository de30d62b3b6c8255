//! What pages show: their rows, what is escaped, and what their drawings leave out.

use report_page::{LimitRow, NodeState, Page, PhaseBar, PhaseEnd, RoundState, Row, page_text};
use std::alloc::{AllocError, Global};

/// A node that is done, of which no log says anything, and whose shape the node at this place has.
fn row<'a>(name: &'a str, parents: &'a [u32], alike: u32) -> Row<'a> {
    Row {
        name,
        state: NodeState::Done,
        attempts: 1,
        value: Some(0),
        began: None,
        took: None,
        command: None,
        folder: None,
        output: None,
        error: None,
        parents,
        is_final: false,
        alike,
    }
}

/// A page of these nodes and phases, and of nothing else.
fn page<'a>(rows: &'a [Row<'a>], phases: &'a [PhaseBar<'a>]) -> Page<'a> {
    Page {
        path: "x.dag",
        version: "dagrun 1.0.0\n",
        round: RoundState::Ended(0),
        began: None,
        took: None,
        warnings: "",
        rows,
        phases,
        limits: &[],
        why: "",
        digest: "0f1e",
        confirmed: Some(true),
        reloads: false,
    }
}

/// Nodes of which each but the first is a child of the one before it, each of a shape of its own.
fn chain<'a>(alloc: Global, parents: &'a [u32]) -> Result<Vec<Row<'a>>, AllocError> {
    let mut rows = Vec::new(alloc);
    rows.push(row("N", &[], 0))?;
    for place in 0..parents.len() {
        let own = place.saturating_add(1);
        let parent = parents.get(place..own).unwrap_or(&[]);
        rows.push(row("N", parent, own as u32))?;
    }
    Ok(rows)
}

/// Nodes without a parent and of one shape, as many.
fn alone(alloc: Global, count: usize) -> Result<Vec<Row<'static>>, AllocError> {
    let mut rows = Vec::new(alloc);
    for _ in 0..count {
        rows.push(row("N", &[], 0))?;
    }
    Ok(rows)
}

/// First all parents and then a child of each, all parents of one shape and all children of another.
fn pairs<'a>(alloc: Global, numbers: &'a [u32]) -> Result<Vec<Row<'a>>, AllocError> {
    let mut rows = alone(alloc, numbers.len())?;
    for place in 0..numbers.len() {
        let parent = numbers.get(place..place.saturating_add(1)).unwrap_or(&[]);
        rows.push(row("N", parent, numbers.len() as u32))?;
    }
    Ok(rows)
}

#[test]
fn a_row_is_escaped(rt: HostRuntime) -> Result<(), AllocError> {
    let rows = [Row {
        state: NodeState::Error,
        attempts: 2,
        value: Some(-9),
        began: Some(1_005),
        took: Some(61_250),
        command: Some("/bin/echo '<script>'"),
        folder: Some("/a&b"),
        ..row("<b>&\"'\x1b", &[], 0)
    }];
    let text = page_text(rt.alloc(), &page(&rows, &[]))?;
    let wanted =
        "<tr class=\"error\"><td>&lt;b&gt;&amp;&quot;&#39;?</td><td>ERROR</td><td>2</td><td>-9</td>\
<td>1.005</td><td>61.250</td><td><p><code>/bin/echo &#39;&lt;script&gt;&#39;</code></p>\
<p>folder <a href=\"file:///a%26b\"><code>/a&amp;b</code></a></p></td></tr>\n";
    assert!(rt; text.as_str().contains(wanted));
    assert!(rt;
        text.as_str().contains(
            "<li class=\"plain\"><b>1</b> nodes</li>\n<li class=\"error\"><b>1</b> ERROR</li>\n</ul>"
        )
    );
    Ok(())
}

#[test]
fn a_page_says_how_full_limits_were(rt: HostRuntime) -> Result<(), AllocError> {
    let rows = alone(rt.alloc(), 1)?;
    let none = page_text(rt.alloc(), &page(&rows, &[]))?;
    assert!(rt; !none.as_str().contains("<h2>Limits</h2>"));
    let limits = [
        LimitRow {
            what: "jobs",
            category: None,
            limit: 3,
            most: 3,
        },
        LimitRow {
            what: "jobs",
            category: Some("<a>"),
            limit: 2,
            most: 1,
        },
    ];
    let wanted = Page {
        limits: &limits,
        ..page(&rows, &[])
    };
    let text = page_text(rt.alloc(), &wanted)?;
    assert!(rt;
        text.as_str().contains(
            "<h2>Limits</h2>\n<ul>\n<li class=\"ready\"><b>3 of 3</b> jobs at once</li>\n\
<li class=\"plain\"><b>1 of 2</b> jobs of &lt;a&gt; at once</li>\n</ul>\n<h2>Nodes</h2>"
        )
    );
    Ok(())
}

#[test]
fn a_page_reloads_where_it_is_wanted(rt: HostRuntime) -> Result<(), AllocError> {
    let rows = alone(rt.alloc(), 1)?;
    let still = page_text(rt.alloc(), &page(&rows, &[]))?;
    assert!(rt; !still.as_str().contains("http-equiv=\"refresh\""));
    let wanted = Page {
        reloads: true,
        ..page(&rows, &[])
    };
    let again = page_text(rt.alloc(), &wanted)?;
    assert!(rt;
        again
            .as_str()
            .contains("<meta http-equiv=\"refresh\" content=\"5\">")
    );
    Ok(())
}

#[test]
fn many_nodes_are_folded(rt: HostRuntime) -> Result<(), AllocError> {
    let alloc = rt.alloc();
    let few = alone(alloc, 200)?;
    let text = page_text(alloc, &page(&few, &[]))?;
    assert!(rt; !text.as_str().contains("Each box has all nodes"));
    let many = alone(alloc, 201)?;
    let text = page_text(alloc, &page(&many, &[]))?;
    assert!(rt;
        text.as_str().contains(
            "<p>Each box has all nodes of one shape: they have the same submit file and folder, their parents are in the same boxes, and so are their children.</p>"
        )
    );
    assert!(rt; text.as_str().contains(">and 200 more</text>"));
    let numbers: Vec<u32> = (0..150).collect(alloc)?;
    let pairs = pairs(alloc, &numbers)?;
    let text = page_text(alloc, &page(&pairs, &[]))?;
    assert!(rt; text.as_str().matches(">and 149 more</text>").count() == 2);
    let parents: Vec<u32> = (0..1_000).collect(alloc)?;
    let long = chain(alloc, &parents)?;
    let text = page_text(alloc, &page(&long, &[]))?;
    assert!(rt; text.as_str().contains("<p>Layers in each box: 6."));
    Ok(())
}

#[test]
fn the_longest_phases_have_rows(rt: HostRuntime) -> Result<(), AllocError> {
    let alloc = rt.alloc();
    let rows = alone(alloc, 1)?;
    let mut phases = Vec::new(alloc);
    for took in 0..201 {
        phases.push(PhaseBar {
            node: "N",
            phase: "JOB",
            attempt: 0,
            began: 0,
            took,
            end: PhaseEnd::Exit(0),
        })?;
    }
    let text = page_text(alloc, &page(&rows, &phases))?;
    assert!(rt;
        text.as_str().contains(
            "<p>These are the 200 longest of 201 phases, in the order in which they began.</p>"
        )
    );
    assert!(rt;
        text.as_str()
            .contains("N JOB 0: exit 0, from 0.000 s, for 0.001 s")
    );
    assert!(rt; !text.as_str().contains("for 0.000 s"));
    Ok(())
}
