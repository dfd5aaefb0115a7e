//! The places that docs/ADDING-A-CALL.md lists.

/// A file that names every call, and how it names the first of them.
#[derive(PartialEq, Debug)]
pub struct Place<'a> {
    pub file: &'a str,
    pub form: &'a str,
}

/// The rows of the document's table: a file and a name, both as code.
pub fn listed(text: &str) -> Vec<Place<'_>> {
    let rows = text.lines().filter_map(|line| {
        let mut cells = line.strip_prefix("| `")?.split('|');
        let file = cells.next()?.trim().strip_suffix('`')?;
        let form = cells.next()?.trim().strip_prefix('`')?.strip_suffix('`')?;
        Some(Place { file, form })
    });
    rows.collect()
}

/// The call that `text` does not name in the form of `first`, the first of `cases`.
pub fn missing<'a>(
    text: &str,
    form: &str,
    cases: &'a [String],
) -> Result<Option<&'a String>, String> {
    let first = cases.first().ok_or("there are no calls")?;
    let (before, as_case): (_, fn(&str) -> String) = if let Some(before) = form.strip_suffix(first)
    {
        (before, str::to_string)
    } else if let Some(before) = form.strip_suffix(&first.to_lowercase()) {
        (before, str::to_lowercase)
    } else if let Some(before) = form.strip_suffix(&first.to_uppercase()) {
        (before, str::to_uppercase)
    } else {
        return Err(format!("`{form}` names no call as {first}"));
    };
    Ok(cases.iter().find(|case| !has_word(text, &format!("{before}{}", as_case(case)))))
}

/// Whether a name stands in a text, with no letter and no `_` beside it.
fn has_word(text: &str, name: &str) -> bool {
    let is_part = |c: char| c.is_alphabetic() || c == '_';
    text.match_indices(name).any(|(at, _)| {
        !text[..at].ends_with(is_part) && !text[at + name.len()..].starts_with(is_part)
    })
}

#[cfg(test)]
mod tests {
    use super::*;

    #[test]
    fn rows_are_read() {
        let text = "| Place | Named by |\n|---|---|\n| `a/b.rs` | `op_ALLOC` | what |\n";
        assert_eq!(listed(text), [Place { file: "a/b.rs", form: "op_ALLOC" }]);
    }

    #[test]
    fn a_missing_call_is_found() {
        let cases = ["Alloc".to_string(), "Copy".to_string()];
        assert_eq!(missing("op_ALLOC op_PCOPY", "op_ALLOC", &cases), Ok(Some(&cases[1])));
        assert_eq!(missing("alloc, copy;", "alloc", &cases), Ok(None));
        assert!(missing("alloc", "free", &cases).is_err());
    }
}
