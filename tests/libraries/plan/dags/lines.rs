//! What lines say beside declarations: settings, warnings and limits.

use dag_reader::Placement;
use splices::{CategorySetting, FlatDag, FlatNode, MacroSetting, ScriptSetting, Settings};
use std::alloc::{AllocError, Global};

/// What lines set for each node, FINAL last; each setting has the number of its line.
pub fn settings(alloc: Global, dag: &FlatDag) -> Result<String, AllocError> {
    let mut shown = String::new(alloc);
    for node in dag.nodes() {
        add_node(&mut shown, node)?;
    }
    if let Some(node) = dag.final_node() {
        add_node(&mut shown, node)?;
    }
    Ok(shown)
}

fn add_node(shown: &mut String, node: &FlatNode) -> Result<(), AllocError> {
    let settings = &node.settings;
    write!(shown, "{}", node.name)?;
    add_script(shown, "PRE", &settings.pre)?;
    add_script(shown, "POST", &settings.post)?;
    add_attempts(shown, settings)?;
    add_run(shown, settings)?;
    add_category(shown, &settings.category)?;
    add_macros(shown, settings.macros.as_slice())?;
    write!(shown, ";")
}

fn add_script(
    shown: &mut String,
    kind: &str,
    setting: &Option<ScriptSetting>,
) -> Result<(), AllocError> {
    match setting {
        Some(script) => write!(shown, " {}:{kind}{}", script.line, script.words),
        None => Ok(()),
    }
}

fn add_attempts(shown: &mut String, settings: &Settings) -> Result<(), AllocError> {
    if let Some(retry) = settings.retry {
        let (line, retries, unless) = (retry.line, retry.retries, retry.unless_exit);
        write!(shown, " {line}:RETRY {retries} {unless:?}")?;
    }
    match settings.pre_skip {
        Some(skip) => write!(shown, " {}:PRE_SKIP {}", skip.line, skip.value),
        None => Ok(()),
    }
}

fn add_run(shown: &mut String, settings: &Settings) -> Result<(), AllocError> {
    if let Some(priority) = settings.priority {
        write!(shown, " {}:PRIORITY {}", priority.line, priority.value)?;
    }
    match settings.abort {
        Some(abort) => {
            let (line, value, status) = (abort.line, abort.value, abort.status);
            write!(shown, " {line}:ABORT {value} {status:?}")
        }
        None => Ok(()),
    }
}

fn add_category(shown: &mut String, setting: &Option<CategorySetting>) -> Result<(), AllocError> {
    match setting {
        Some(category) => write!(shown, " {}:CATEGORY {}", category.line, category.name),
        None => Ok(()),
    }
}

fn add_macros(shown: &mut String, macros: &[MacroSetting]) -> Result<(), AllocError> {
    for one in macros {
        add_macro(shown, one)?;
    }
    Ok(())
}

fn add_macro(shown: &mut String, one: &MacroSetting) -> Result<(), AllocError> {
    let placement = match one.placement {
        Placement::Prepend => "PREPEND",
        Placement::Append => "APPEND",
    };
    write!(shown, " {}:{placement} {}={}", one.line, one.name, one.text)
}

/// The limits of categories, each with its place.
pub fn limits(alloc: Global, dag: &FlatDag) -> Result<String, AllocError> {
    let mut shown = String::new(alloc);
    for it in dag.categories() {
        write!(
            &mut shown,
            "{} {} {}:{};",
            it.name, it.limit, it.path, it.line
        )?;
    }
    Ok(shown)
}
