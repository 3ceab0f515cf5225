// A task that panics is joined, and what its parent does then comes after it.
// status: 0
use hhrec::{join, record, Logged};
use std::panic::{catch_unwind, AssertUnwindSafe};

fn main() {
    std::panic::set_hook(Box::new(|_| {}));
    record(|| {
        let cells = Logged::new(vec![0u8; 2]);
        let both = AssertUnwindSafe(|| {
            join(
                || cells.set(0, 1),
                || {
                    cells.set(1, 1);
                    panic!("on purpose");
                },
            )
        });
        assert!(catch_unwind(both).is_err());
        cells.set(1, cells.get(0));
    });
}
