// Many forks, mostly run one after the other: each task is logged, and threads take over the files of ended ones.
// status: 0
// found: races 0
use hhrec::{join, record, Logged};

fn sum(numbers: &Logged<u32>, from: usize, to: usize) -> u32 {
    if to - from == 1 {
        return numbers.get(from);
    }
    let middle = from.midpoint(to);
    let (left, right) = join(|| sum(numbers, from, middle), || sum(numbers, middle, to));
    left + right
}

fn main() {
    record(|| {
        let numbers = Logged::new((0..4096).collect());
        assert_eq!(sum(&numbers, 0, 4096), 4096 * 4095 / 2);
    });
    let files = (0..).take_while(|n| std::path::Path::new(&format!("log.{n}")).exists()).count();
    assert!((1..=40).contains(&files), "{files} files");
}
