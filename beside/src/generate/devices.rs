//! Which cases for devices are made: tables that go through everything, and then random ones.

mod lookups;
mod responses;

use super::random::Random;

const SEED: u64 = 5_310_877;

/// The lines of one case.
#[derive(Clone, Debug, PartialEq, Eq)]
pub struct DeviceCase {
    pub lines: Vec<String>,
}

impl DeviceCase {
    /// A case about this device, with the lines that follow.
    fn new(device: &str, rest: impl IntoIterator<Item = String>) -> DeviceCase {
        let lines = std::iter::once(device.to_owned()).chain(rest).collect();
        DeviceCase { lines }
    }

    /// Their length on a line of its own, the lines, and a closing line end.
    pub fn framed(&self) -> String {
        let lines = self.lines.join("\n");
        format!("{}\n{lines}\n", lines.len())
    }
}

pub fn cases() -> Vec<DeviceCase> {
    let random = &mut Random::new(SEED);
    [
        responses::tables(),
        lookups::tables(),
        responses::by_chance(random),
        lookups::by_chance(random),
    ]
    .concat()
}

#[cfg(test)]
mod tests;
