//! Lines and values read from cells, as docs/STORAGE.md has them.
use crate::expressions::Expression;
use crate::lines::Line;

fn leaf(cell: u16, words: &[String]) -> Expression {
    let number = cell / 4;
    match cell % 4 {
        2 => Expression::AnyValue(number),
        3 => Expression::AnyAtom(number),
        _ => Expression::Symbol(words[usize::from(number)].clone()),
    }
}

// The trees are read from the back, so that a pair finds its two parts on a stack and no tree is too deep for it.
pub fn trees(cells: &[u16], words: &[String]) -> Vec<Expression> {
    let mut found: Vec<Expression> = Vec::with_capacity(cells.len());
    for &cell in cells.iter().rev() {
        if cell == 4 {
            if let (Some(head), Some(tail)) = (found.pop(), found.pop()) {
                found.push(Expression::Pair(Box::new(head), Box::new(tail)));
            }
        } else {
            found.push(leaf(cell, words));
        }
    }
    found.reverse();
    found
}

/// Where the given number of lines ends.
pub fn lines_end(answer: &[u16], count: usize) -> usize {
    (0..count).fold(0, |at, _| {
        let [i, o, q] = [1, 2, 3].map(|k| usize::from(answer[at + k]));
        at + 4 + i + o + 2 * q
    })
}

/// The given number of lines, one behind the other.
pub fn lines(answer: &[u16], count: usize, words: &[String]) -> Vec<Line> {
    let mut at = 0;
    let mut found = Vec::with_capacity(count);
    for _ in 0..count {
        let [steps, i, o, q] = [0, 1, 2, 3].map(|k| usize::from(answer[at + k]));
        let cells = &answer[at + 4..at + 4 + i + o + 2 * q];
        found.push(Line {
            steps,
            inputs: trees(&cells[..i], words),
            output: trees(&cells[i..i + o], words).remove(0),
            unequal: cells[i + o..].chunks(2).map(|s| (leaf(s[0], words), leaf(s[1], words))).collect(),
        });
        at += 4 + i + o + 2 * q;
    }
    found
}

#[cfg(test)]
mod tests {
    use super::*;

    fn words() -> Vec<String> {
        ["A", "B"].map(String::from).to_vec()
    }

    fn shown(trees: &[Expression]) -> Vec<String> {
        trees.iter().map(Expression::to_string).collect()
    }

    // The example of docs/STORAGE.md, and every kind of cell.
    #[test]
    fn cells_of_trees() {
        assert_eq!(shown(&trees(&[4, 1, 6], &words())), ["(cons 'A ?e1)"]);
        assert_eq!(shown(&trees(&[5, 4, 4, 1, 7, 10, 3], &words())), ["'B", "(cons (cons 'A ?a1) ?e2)", "?a0"]);
        assert!(trees(&[], &words()).is_empty());
    }

    #[test]
    fn cells_of_lines() {
        let cells = [3, 1, 1, 1, 7, 5, 7, 1, 4, 4, 3, 0, 1, 4, 6, 5, 4, 5, 5, 0, 0];
        let found = lines(&cells, 2, &words());
        assert_eq!([0, 1, 2].map(|count| lines_end(&cells, count)), [0, 8, 19]);
        assert_eq!(found[0].to_string(), "(in ?a1) (out 'B) (neq [?a1 'A])");
        assert_eq!(found[1].to_string(), "(in 'A (cons ?e1 'B)) (out (cons 'B 'B)) (neq)");
        assert_eq!(found.iter().map(|line| line.steps).collect::<Vec<_>>(), [3, 4]);
    }
}
