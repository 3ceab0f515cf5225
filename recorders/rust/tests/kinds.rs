// Each kind of access, as a test and as a recorded program: test.bash compares its log.
// status: 0
use hhrec::{join, record, work, Block, Logged};

fn main() {
    record(|| {
        let numbers = Logged::new((0..10).collect::<Vec<i64>>());
        let (sum, product) = join(
            || (0..5).map(|i| numbers.get(i)).sum::<i64>(),
            || (5..10).rev().map(|i| numbers.get(i)).product::<i64>(),
        );
        numbers.set(0, sum);
        numbers.set(3, product);
        numbers.set(6, -1);
        assert_eq!(numbers.update(2, |old| old + 1), 2);
        assert_eq!(numbers.load(2), 3);
        assert!(numbers.replace(2, 3, 4));
        assert!(!numbers.replace(2, 3, 5));
        work(7);
        let block = Block::new(2);
        block.write_reference(0, Some(block));
        block.read_reference(0, Some(block));
        block.read_reference(1, None);
        block.release();
    });
}
