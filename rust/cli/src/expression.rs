//! Expressions, written out no longer than a reader can use.

use std::fmt::{self, Write};

use zelmotar::{Store, Terms};

/// A text that takes no more than some letters, and fails then.
///
/// Few cells can hold an expression of very many terms, as they are shared. The failure ends its
/// writing at once.
struct Cut {
    text: String,
    most: usize,
}

impl Write for Cut {
    fn write_str(&mut self, more: &str) -> fmt::Result {
        if self.text.len() + more.len() > self.most {
            return Err(fmt::Error);
        }
        self.text.push_str(more);
        Ok(())
    }
}

/// Terms written out, with `..` in place of what goes beyond `most` letters.
pub fn written(terms: &Terms<'_>, most: usize) -> String {
    let mut cut = Cut { text: String::new(), most };
    match write!(cut, "{terms}") {
        Ok(()) if cut.text.is_empty() => "empty".to_string(),
        Ok(()) => cut.text,
        Err(_) => format!("{} ..", cut.text.trim_end()),
    }
}

/// What a register of a sound store holds.
pub fn register(store: &Store, register: usize, most: usize) -> String {
    written(&store.look(register), most)
}

#[cfg(test)]
mod tests {
    use super::*;
    use zelmotar::Call;

    #[test]
    fn an_expression_of_two_to_the_sixty_terms_is_cut() {
        let mut store = Store::new(256).unwrap();
        let mut calls = vec![Call::Symbol { d: 0, code: 65 }];
        for _ in 0..60 {
            calls.push(Call::Wrap { d: 0, a: 0 });
            calls.push(Call::Join { d: 0, a: 0, b: 0 });
        }
        store.run(&calls).unwrap();
        let text = register(&store, 0, 72);
        assert!(text.starts_with("((((") && text.ends_with(" ..") && text.len() <= 75, "{text}");
        assert_eq!(register(&store, 1, 72), "empty");
        store.run(&[Call::Open { d: 1, a: 0 }, Call::Symbol { d: 2, code: 7 }]).unwrap();
        assert_eq!(register(&store, 2, 72), "7");
        assert_eq!(register(&store, 2, 1), "7");
        assert_eq!(register(&store, 2, 0), " ..");
    }
}
