// The process aborts within a task, after a race: that stands in what is left of the log.
// status: 12
// ends: 134
use hhrec::{join, record, Logged};

fn main() {
    record(|| {
        let cells = Logged::new(vec![0u8; 2]);
        let race = || cells.set(0, 1);
        join(race, race);
        join(|| std::process::abort(), || ());
    });
}
