//! The words of symbols, by the numbers that cells have for them.
use std::collections::HashSet;

/// The words of the symbols of two accepted texts, by first standing: the program's, then the job's. In an accepted text a quote stands before a
/// symbol and nowhere else.
pub fn words(program: &[u8], job: &[u8]) -> Vec<String> {
    let mut found: Vec<&[u8]> = Vec::new();
    for text in [program, job] {
        for after in text.split(|&b| b == b'\'').skip(1) {
            let length = after.iter().take_while(|b| b.is_ascii_alphanumeric()).count();
            if !found.contains(&&after[..length]) {
                found.push(&after[..length]);
            }
        }
    }
    found.into_iter().map(|word| String::from_utf8_lossy(word).into_owned()).collect()
}

// The new atoms of samples have the numbers from here on: both texts together have at most so many symbols. A sample has at most so many new atoms.
const FIRST_NEW: usize = 1024;
const NEW_ATOMS: usize = 4096;

/// The same words and, from number 1,024 on, the names of a sample's new atoms: Q and the numbers from 1 up that make none of these words.
pub fn with_new_atoms(words: &[String]) -> Vec<String> {
    let taken: HashSet<&str> = words.iter().map(String::as_str).collect();
    let free = (1..).map(|n| format!("Q{n}")).filter(|name| !taken.contains(&name[..]));
    let mut names = words.to_vec();
    names.resize(FIRST_NEW, String::new());
    names.extend(free.take(NEW_ATOMS));
    names
}

#[cfg(test)]
mod tests {
    use super::*;

    // A number with a leading nought is another word, and so is a Q alone.
    #[test]
    fn names_of_new_atoms() {
        let words = ["A", "Q2", "Q03", "Q", "Q5", "q1"].map(String::from);
        let names = with_new_atoms(&words);
        assert_eq!(names[..6], words);
        assert_eq!(names[1024..1028], ["Q1", "Q3", "Q4", "Q6"]);
        assert_eq!(names.len(), 1024 + 4096);
        assert_eq!(names[5119], "Q4098");
    }
}
