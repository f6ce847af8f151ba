//! A file in the making: lines of words, where line 0 is the header or the names.

use super::cells::push_new;

pub type Word = Vec<u8>;

#[derive(Clone, Debug)]
pub struct Table {
    pub lines: Vec<Vec<Word>>,
}

impl Table {
    pub fn of(lines: &[Vec<Word>]) -> Table {
        let lines = lines.to_vec();
        Table { lines }
    }

    pub fn to_bytes(&self) -> Vec<u8> {
        let mut bytes = Vec::new();
        for line in &self.lines {
            bytes.extend(line.join(&b' '));
            bytes.push(b'\n');
        }
        bytes
    }

    /// What the lines of this kind have behind it, in their order.
    pub fn words_of(&self, kind: &str) -> Vec<String> {
        let lines = self.lines.iter().filter(|line| line[0] == kind.as_bytes());
        let word = |line: &Vec<Word>| String::from_utf8_lossy(&line[1]).into_owned();
        lines.map(word).collect()
    }

    /// The names that a policy asks for, each once.
    pub fn names(&self) -> Vec<String> {
        let mut names = Vec::new();
        for name in self.words_of("attr") {
            push_new(&mut names, name);
        }
        names
    }

    /// The number of the last line.
    pub fn last(&self) -> usize {
        self.lines.len() - 1
    }
}

pub fn words(line: &str) -> Vec<Word> {
    line.split(' ')
        .map(|word| word.as_bytes().to_vec())
        .collect()
}
