//! The word that was meant: the nearest of those that are known.

/// The nearest known word, where it is near: at most a third of its letters are others, or exchanged.
pub fn nearest<'a>(word: &str, known: impl IntoIterator<Item = &'a str>) -> Option<&'a str> {
    let near = known.into_iter().map(|other| (apart(word, other), other));
    let (steps, other) = near.min_by_key(|&(steps, _)| steps)?;
    (steps * 3 <= other.chars().count().max(3)).then_some(other)
}

/// How many letters are added, left out, replaced or exchanged with the next.
fn apart(from: &str, to: &str) -> usize {
    let (from, to): (Vec<char>, Vec<char>) = (from.chars().collect(), to.chars().collect());
    let mut rows: Vec<Vec<usize>> = vec![(0..=to.len()).collect()];
    for i in 1..=from.len() {
        let mut row = vec![i];
        for j in 1..=to.len() {
            let replaced = rows[i - 1][j - 1] + usize::from(from[i - 1] != to[j - 1]);
            let mut least = replaced.min(rows[i - 1][j] + 1).min(row[j - 1] + 1);
            if i > 1 && j > 1 && from[i - 1] == to[j - 2] && from[i - 2] == to[j - 1] {
                least = least.min(rows[i - 2][j - 2] + 1);
            }
            row.push(least);
        }
        rows.push(row);
    }
    rows[from.len()][to.len()]
}

#[cfg(test)]
mod tests {
    use super::{apart, nearest};

    #[test]
    fn steps() {
        let rows = [("", "", 0), ("", "abc", 3), ("answer", "anwser", 1), ("why", "who", 1), ("dot", "dots", 1)];
        for (from, to, steps) in rows {
            assert_eq!((apart(from, to), apart(to, from)), (steps, steps), "{} {}", from, to);
        }
    }

    #[test]
    fn near_or_not() {
        let known = ["answer", "suggest", "dot"];
        assert_eq!(nearest("anwser", known), Some("answer"));
        assert_eq!(nearest("dto", known), Some("dot"));
        assert_eq!(nearest("sugest", known), Some("suggest"));
        assert_eq!(nearest("merge", known), None);
        assert_eq!(nearest("x", []), None);
    }
}
