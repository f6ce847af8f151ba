//! Damage to whole lines and to the spaces between words, for either file.

use super::random::Random;
use super::table::Table;

pub type Damage = fn(&mut Table, &mut Random);

pub const DAMAGES: [Damage; 18] = [
    drop_line,
    drop_last_line,
    double_line,
    swap_lines,
    empty_line,
    join_lines,
    cut_lines,
    double_space,
    trailing_space,
    leading_space,
    join_words,
    tab_between_words,
    drop_word,
    extra_word,
    swap_words,
    copy_word,
    upper_case,
    carriage_return,
];

/// Mostly a line after line 0, which has faults of its own.
pub fn any_line(table: &Table, random: &mut Random) -> usize {
    if table.last() == 0 || random.chance(10) {
        0
    } else {
        random.between(1, table.last())
    }
}

fn drop_line(table: &mut Table, random: &mut Random) {
    let line = any_line(table, random);
    if table.last() > 0 {
        table.lines.remove(line);
    }
}

fn drop_last_line(table: &mut Table, _: &mut Random) {
    if table.last() > 0 {
        table.lines.pop();
    }
}

fn double_line(table: &mut Table, random: &mut Random) {
    let line = any_line(table, random);
    table.lines.insert(line, table.lines[line].clone());
}

fn swap_lines(table: &mut Table, random: &mut Random) {
    let (one, other) = (any_line(table, random), any_line(table, random));
    table.lines.swap(one, other);
}

fn empty_line(table: &mut Table, random: &mut Random) {
    let place = random.between(0, table.lines.len());
    table.lines.insert(place, Vec::new());
}

fn join_lines(table: &mut Table, random: &mut Random) {
    let line = any_line(table, random);
    if line < table.last() {
        let next = table.lines.remove(line + 1);
        table.lines[line].extend(next);
    }
}

fn cut_lines(table: &mut Table, random: &mut Random) {
    let line = any_line(table, random);
    table.lines.truncate(line + 1);
}

fn double_space(table: &mut Table, random: &mut Random) {
    let line = any_line(table, random);
    let place = random.between(1, table.lines[line].len().max(1));
    let words = &mut table.lines[line];
    words.insert(place.min(words.len()), Vec::new());
    // With a word gone the count of spaces is right again, and the empty word shows.
    if random.chance(50) {
        words.pop();
    }
}

fn trailing_space(table: &mut Table, random: &mut Random) {
    let line = any_line(table, random);
    table.lines[line].push(Vec::new());
}

fn leading_space(table: &mut Table, random: &mut Random) {
    let line = any_line(table, random);
    table.lines[line].insert(0, Vec::new());
    if random.chance(30) {
        table.lines[line].pop();
    }
}

fn join_words(table: &mut Table, random: &mut Random) {
    merge(table, b"", random);
}

fn tab_between_words(table: &mut Table, random: &mut Random) {
    merge(table, b"\t", random);
}

fn merge(table: &mut Table, between: &[u8], random: &mut Random) {
    let line = any_line(table, random);
    let words = &mut table.lines[line];
    if words.len() > 1 {
        let place = random.below(words.len() - 1);
        let next = words.remove(place + 1);
        words[place].extend(between);
        words[place].extend(next);
    }
}

fn drop_word(table: &mut Table, random: &mut Random) {
    let line = any_line(table, random);
    let words = &mut table.lines[line];
    if words.len() > 1 {
        words.remove(random.below(words.len()));
    }
}

fn extra_word(table: &mut Table, random: &mut Random) {
    let line = any_line(table, random);
    let word = random.pick(&["-", "1", "a", "!"]);
    let place = random.between(0, table.lines[line].len());
    table.lines[line].insert(place, word.as_bytes().to_vec());
}

fn swap_words(table: &mut Table, random: &mut Random) {
    let line = any_line(table, random);
    let words = &mut table.lines[line];
    if !words.is_empty() {
        let (one, other) = (random.below(words.len()), random.below(words.len()));
        words.swap(one, other);
    }
}

fn copy_word(table: &mut Table, random: &mut Random) {
    let (from, to) = (any_line(table, random), any_line(table, random));
    if !table.lines[from].is_empty() && !table.lines[to].is_empty() {
        let source = random.below(table.lines[from].len());
        let goal = random.below(table.lines[to].len());
        table.lines[to][goal] = table.lines[from][source].clone();
    }
}

fn upper_case(table: &mut Table, random: &mut Random) {
    let line = any_line(table, random);
    table.lines[line]
        .iter_mut()
        .for_each(|word| word.make_ascii_uppercase());
}

fn carriage_return(table: &mut Table, random: &mut Random) {
    let line = any_line(table, random);
    if let Some(word) = table.lines[line].last_mut() {
        word.push(b'\r');
    }
}
