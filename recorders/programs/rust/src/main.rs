//! Six fork-join programs, each right and with a race: `programs NAME [SIZE] [race]`.

mod breadth_first;
mod matrix_product;
mod merge_sort;
mod prefix_sum;
mod queens;
mod tree_reduction;

#[cfg(not(feature = "rayon"))]
use hhrec::join;
#[cfg(feature = "rayon")]
use hhrec_rayon::join;

/// Calls with each number from `from` up to `to`, without that, in tasks of at most `grain` numbers.
fn for_each(from: usize, to: usize, grain: usize, call: &(impl Fn(usize) + Sync)) {
    if to - from <= grain {
        return (from..to).for_each(call);
    }
    let middle = from.midpoint(to);
    join(|| for_each(from, middle, grain, call), || for_each(middle, to, grain, call));
}

fn main() {
    let words: Vec<String> = std::env::args().collect();
    let name = words.get(1).map_or("", String::as_str);
    let size = words.get(2).and_then(|word| word.parse().ok());
    let race = words.iter().any(|word| word == "race");
    let answer = hhrec::record(|| match name {
        "merge_sort" => merge_sort::run(size.unwrap_or(1 << 15), race),
        "prefix_sum" => prefix_sum::run(size.unwrap_or(1 << 19), race),
        "tree_reduction" => tree_reduction::run(size.unwrap_or(14), race),
        "matrix_product" => matrix_product::run(size.unwrap_or(96), race),
        "breadth_first" => breadth_first::run(size.unwrap_or(150), race),
        "queens" => queens::run(size.unwrap_or(8), race),
        _ => panic!("usage: programs NAME [SIZE] [race]"),
    });
    println!("{answer}");
}
