//! Words that stand for values.

/// Returns the value that a word stands for in a table of words.
pub fn value_of<T: Copy>(table: &[(&str, T)], word: &str) -> Option<T> {
    for (name, value) in table {
        if *name == word {
            return Some(*value);
        }
    }
    None
}
