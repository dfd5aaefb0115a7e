//! Lists as texts of antt. Stretches of equal elements are written in short.
//! Numbers stand as numerals: where one is a sum on either side, the checker
//! compares the sums part by part before it computes them, which can take it
//! beyond its limit.

/// Shorter stretches are written out.
const SHORTEST: usize = 4;

/// The list of these elements, each the text of a term.
pub fn list(elements: impl IntoIterator<Item = String>) -> String {
    let elements: Vec<String> = elements.into_iter().collect();
    let mut parts = Vec::new();
    let mut single: Vec<&str> = Vec::new();
    for equal in elements.chunk_by(|a, b| a == b) {
        if equal.len() < SHORTEST {
            single.extend(equal.iter().map(String::as_str));
        } else {
            parts.extend(written_out(std::mem::take(&mut single)));
            parts.push(format!("replicate {} ({})", equal.len(), equal[0]));
        }
    }
    parts.extend(written_out(single));
    match &parts[..] {
        [] => "[]".into(),
        [one] if one.starts_with('(') => one.clone(),
        _ => format!("({})", parts.join(" ++ ")),
    }
}

pub fn numbers(numbers: impl IntoIterator<Item = u64>) -> String {
    list(numbers.into_iter().map(|number| number.to_string()))
}

fn written_out(texts: Vec<&str>) -> Option<String> {
    (!texts.is_empty()).then(|| format!("({} ∷ [])", texts.join(" ∷ ")))
}

#[cfg(test)]
mod tests {
    use super::numbers;

    #[test]
    fn equal_elements_are_counted() {
        assert_eq!(numbers([]), "[]");
        assert_eq!(numbers([1, 1, 2]), "(1 ∷ 1 ∷ 2 ∷ [])");
        assert_eq!(numbers([0; 511]), "(replicate 511 (0))");
        assert_eq!(numbers([3, 0, 0, 0, 0, 7]), "((3 ∷ []) ++ replicate 4 (0) ++ (7 ∷ []))");
    }
}
