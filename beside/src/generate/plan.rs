//! Which cases about the acceptance of files are made, and how many of each sort.

use super::fields::{self, Fault, Role, KINDS};
use super::random::Random;
use super::table::Table;
use super::{bytes, cells, doubtful, lines, naming, sizes, tree, Case};
use crate::policy::MOST_LINES;

const SEED: u64 = 7_044_101;
const GOOD: usize = 1_180;
const FULL: usize = 11;
const HEADER_BYTES: usize = 24;
const BARE: usize = 26;
const LINE_DAMAGE_ROUNDS: usize = 16;
const NAMING: usize = 90;
const NAMES: usize = 80;
const CELL_ROUNDS: usize = 2;
const ROW_DAMAGE_ROUNDS: usize = 6;
const BYTES: usize = 160;
const SEVERAL: usize = 240;

/// All cases about which files are accepted, and why others are not.
pub fn cases() -> Vec<Case> {
    let mut plan = Plan {
        random: Random::new(SEED),
        cases: Vec::new(),
    };
    plan.good();
    plan.full();
    plan.wide();
    plan.headers();
    plan.policy_fields();
    plan.policy_lines();
    plan.policy_naming();
    plan.line_counts();
    plan.names();
    plan.cells();
    plan.rows();
    plan.bytes();
    plan.several();
    plan.cases.extend(sizes::cases(&mut plan.random));
    plan.cases
}

struct Plan {
    random: Random,
    cases: Vec<Case>,
}

impl Plan {
    fn push(&mut self, policy: Vec<u8>, readings: Vec<u8>) {
        self.cases.push(Case { policy, readings });
    }

    fn small_policy(&mut self) -> Table {
        let lines = self.random.between(5, 14);
        tree::policy(lines, &mut self.random)
    }

    fn few_readings(&mut self, policy: &Table) -> Table {
        let rows = self.random.below(3);
        cells::readings(policy, rows, &mut self.random)
    }

    /// Readings for a faulty policy: seldom faulty too, which must not show.
    fn readings_beside(&mut self, policy: &Table) -> Vec<u8> {
        let mut readings = self.few_readings(policy).to_bytes();
        if self.random.chance(10) {
            bytes::spoil(&mut readings, &mut self.random);
        }
        readings
    }

    fn good(&mut self) {
        for _ in 0..GOOD {
            let lines = match self.random.below(20) {
                0 | 1 => self.random.between(2, 4),
                2..=14 => self.random.between(5, 20),
                15..=18 => self.random.between(20, 40),
                _ => self.random.between(40, 64),
            };
            let policy = tree::policy(lines, &mut self.random);
            let rows = self.random.below(5);
            let readings = cells::readings(&policy, rows, &mut self.random);
            self.push(policy.to_bytes(), readings.to_bytes());
        }
    }

    /// Policies with as many lines as there may be, or one fewer.
    fn full(&mut self) {
        for round in 0..FULL {
            let policy = tree::policy(MOST_LINES - usize::from(round % 5 == 0), &mut self.random);
            let readings = cells::readings(&policy, 2, &mut self.random);
            self.push(policy.to_bytes(), readings.to_bytes());
        }
    }

    /// Readings with as many names as there may be, one fewer, and one more.
    fn wide(&mut self) {
        for round in 0..18 {
            let policy = self.small_policy();
            let width = 63 + round % 3;
            let mut readings = cells::wide_readings(width, round / 6, &mut self.random);
            // Among too many names, a bad one or a repeated one goes unseen.
            if round > 9 {
                cells::spoil_name(&mut readings, &mut self.random);
            }
            self.push(policy.to_bytes(), readings.to_bytes());
        }
    }

    fn headers(&mut self) {
        for header in doubtful::split(doubtful::HEADERS, b'|') {
            let policy = self.small_policy();
            let readings = self.readings_beside(&policy);
            let body = Table::of(&policy.lines[1..]).to_bytes();
            let ended = header.ends_with(b"\n") && self.random.chance(70);
            let body: &[u8] = if ended { &body } else { b"" };
            self.push([header, body].concat(), readings);
        }
        for _ in 0..HEADER_BYTES {
            let policy = self.small_policy();
            let readings = self.readings_beside(&policy);
            let mut file = policy.to_bytes();
            let place = self.random.below(15);
            file[place] = file[place].wrapping_add(self.random.between(1, 255) as u8);
            self.push(file, readings);
        }
    }

    /// Every kind, every field, every fault that suits the field.
    fn policy_fields(&mut self) {
        for (kind, _, roles) in KINDS {
            for (field, role) in roles.into_iter().enumerate() {
                for fault in fields::faults(role) {
                    // These two stand in every line, so half of their faults will do.
                    let common = matches!(role, Role::Kind | Role::Unused);
                    if common && self.random.chance(50) {
                        continue;
                    }
                    if let Some(policy) = self.spoiled_policy(kind, field, fault) {
                        let readings = self.readings_beside(&policy);
                        self.push(policy.to_bytes(), readings);
                    }
                }
            }
        }
    }

    /// Not every policy gives occasion for every fault, so several are tried.
    fn spoiled_policy(&mut self, kind: &str, field: usize, fault: Fault) -> Option<Table> {
        (0..400).find_map(|_| {
            let mut policy = self.small_policy();
            let of_kind = |line: &usize| policy.lines[*line][0] == kind.as_bytes();
            let places: Vec<usize> = (1..=policy.last()).filter(of_kind).collect();
            let line = self.random.pick_any(&places)?;
            fields::spoil(&mut policy, line, field, fault, &mut self.random).then_some(policy)
        })
    }

    fn policy_lines(&mut self) {
        for damage in lines::DAMAGES {
            for _ in 0..LINE_DAMAGE_ROUNDS {
                let mut policy = self.small_policy();
                let readings = self.readings_beside(&policy);
                damage(&mut policy, &mut self.random);
                self.push(policy.to_bytes(), readings);
            }
        }
        for _ in 0..LINE_DAMAGE_ROUNDS {
            let policy = self.small_policy();
            let readings = self.readings_beside(&policy);
            let mut file = policy.to_bytes();
            file.pop();
            self.push(file, readings);
        }
    }

    fn policy_naming(&mut self) {
        for _ in 0..NAMING {
            let mut policy = self.small_policy();
            let readings = self.readings_beside(&policy);
            naming::spoil(&mut policy, &mut self.random);
            self.push(policy.to_bytes(), readings);
        }
    }

    fn line_counts(&mut self) {
        for _ in 0..BARE {
            let policy = self.small_policy();
            let readings = self.readings_beside(&policy);
            let header = Table::of(&policy.lines[..1]);
            self.push(header.to_bytes(), readings);
        }
        for tail in doubtful::split(doubtful::TAILS, b'|') {
            let full = tree::policy(MOST_LINES, &mut self.random).to_bytes();
            self.push([&full, tail].concat(), b"a\n".to_vec());
        }
        for extra in [1, 1, 1, 2, 44] {
            let policy = tree::policy(MOST_LINES + extra, &mut self.random);
            let readings = self.readings_beside(&policy);
            self.push(policy.to_bytes(), readings);
        }
        self.faulty_line_counts();
    }

    /// An earlier fault wins over one line too many, which wins over the naming.
    fn faulty_line_counts(&mut self) {
        for extra in [0, 0, 1, 1, 1] {
            let mut policy = tree::policy(MOST_LINES + extra, &mut self.random);
            let line = self.random.between(2, MOST_LINES);
            fields::spoil_any(&mut policy, line, &mut self.random);
            self.push(policy.to_bytes(), b"a\n".to_vec());
        }
        for lines in [MOST_LINES - 1, MOST_LINES - 1, MOST_LINES, MOST_LINES] {
            let mut policy = tree::policy(lines, &mut self.random);
            naming::insert_stray(&mut policy, &mut self.random);
            self.push(policy.to_bytes(), b"a\n".to_vec());
        }
        let mut unended = tree::policy(MOST_LINES, &mut self.random).to_bytes();
        unended.pop();
        self.push(unended, b"a\n".to_vec());
    }

    fn names(&mut self) {
        for round in 0..NAMES {
            let policy = self.small_policy();
            let mut readings = self.few_readings(&policy);
            cells::spoil_name(&mut readings, &mut self.random);
            if round % 3 == 0 {
                cells::spoil_name(&mut readings, &mut self.random);
            }
            self.push(policy.to_bytes(), readings.to_bytes());
        }
        for file in doubtful::split(doubtful::READINGS, b'|') {
            let policy = self.small_policy();
            self.push(policy.to_bytes(), file.to_vec());
        }
    }

    fn cells(&mut self) {
        for _ in 0..CELL_ROUNDS {
            for cell in doubtful::split(doubtful::CELLS, b' ') {
                let policy = self.small_policy();
                let mut readings = cells::readings(&policy, 2, &mut self.random);
                let row = self.random.between(1, 2);
                let place = self.random.below(readings.lines[row].len());
                readings.lines[row][place] = cell.to_vec();
                self.push(policy.to_bytes(), readings.to_bytes());
            }
        }
    }

    fn rows(&mut self) {
        for damage in lines::DAMAGES {
            for _ in 0..ROW_DAMAGE_ROUNDS {
                let policy = self.small_policy();
                let mut readings = cells::readings(&policy, 3, &mut self.random);
                damage(&mut readings, &mut self.random);
                let mut file = readings.to_bytes();
                if self.random.chance(8) {
                    file.pop();
                }
                self.push(policy.to_bytes(), file);
            }
        }
    }

    fn bytes(&mut self) {
        for round in 0..BYTES {
            let policy = self.small_policy();
            let mut files = [policy.to_bytes(), self.few_readings(&policy).to_bytes()];
            bytes::spoil(&mut files[round % 2], &mut self.random);
            let [policy, readings] = files;
            self.push(policy, readings);
        }
    }

    /// Two faults or more at once, where the order of the checks decides.
    fn several(&mut self) {
        for round in 0..SEVERAL {
            let mut policy = self.small_policy();
            let mut readings = cells::readings(&policy, 3, &mut self.random);
            match round % 4 {
                0 => self.spoil_one_line(&mut policy),
                1 => self.spoil_policy(&mut policy),
                2 => self.spoil_readings(&mut readings),
                _ => {
                    self.spoil_policy(&mut policy);
                    self.spoil_readings(&mut readings);
                }
            }
            self.push(policy.to_bytes(), readings.to_bytes());
        }
    }

    fn spoil_one_line(&mut self, policy: &mut Table) {
        let line = self.random.between(1, policy.last());
        for _ in 0..self.random.between(2, 4) {
            fields::spoil_any(policy, line, &mut self.random);
        }
        if self.random.chance(25) {
            policy.lines[line].pop();
        }
    }

    fn spoil_policy(&mut self, policy: &mut Table) {
        for _ in 0..self.random.between(2, 3) {
            let line = lines::any_line(policy, &mut self.random);
            match self.random.below(4) {
                0 => self.random.pick(&lines::DAMAGES)(policy, &mut self.random),
                1 if policy.last() > 0 => naming::spoil(policy, &mut self.random),
                _ => fields::spoil_any(policy, line, &mut self.random),
            }
        }
    }

    fn spoil_readings(&mut self, readings: &mut Table) {
        for _ in 0..self.random.between(2, 3) {
            let last = readings.last();
            match self.random.below(6) {
                0 => self.random.pick(&lines::DAMAGES)(readings, &mut self.random),
                1 => cells::spoil_name(readings, &mut self.random),
                _ if last > 0 => {
                    let row = self.random.between(1, last);
                    cells::spoil_cell(readings, row, &mut self.random);
                }
                _ => readings.lines.push(Vec::new()),
            }
        }
    }
}

#[cfg(test)]
mod tests;
