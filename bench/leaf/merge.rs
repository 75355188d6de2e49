//! The plain program of the row `merge.row`: merges sorted lists of versions into one.
//!
//! The line `lists K N` makes N versions and answers `ok lists N`. Version i, from 0 on, goes to list i mod K; its
//! timestamp is i + 1, and its key the upper 20 bits of x(i), where x(0) = 1 and x(i + 1) = 6364136223846793005 x(i)
//! + 1442695040888963407 mod 2^64. Each list is sorted by rising key and, within a key, falling timestamp.
//!
//! The line `merge` walks the merged list and answers `ok merge N SUM`: the sum, mod 2^64, of place times timestamp
//! over all its versions, where the places count from 1.

use std::cmp::Reverse;
use std::collections::BinaryHeap;
use std::io::{self, BufRead, Write};

type Version = (u64, Reverse<u64>);

fn lists(count: usize, versions: u64) -> Vec<Vec<Version>> {
    let mut lists = vec![Vec::new(); count];
    let mut x: u64 = 1;
    for i in 0..versions {
        lists[i as usize % count].push((x >> 44, Reverse(i + 1)));
        x = x.wrapping_mul(6_364_136_223_846_793_005).wrapping_add(1_442_695_040_888_963_407);
    }
    lists.iter_mut().for_each(|list| list.sort_unstable());
    lists
}

/// Gives the number of versions and their sum.
fn merge(lists: &[Vec<Version>]) -> (u64, u64) {
    let mut heads: BinaryHeap<Reverse<(Version, usize)>> = BinaryHeap::new();
    let mut rests: Vec<_> = lists.iter().map(|list| list.iter()).collect();
    for (i, rest) in rests.iter_mut().enumerate() {
        heads.extend(rest.next().map(|version| Reverse((*version, i))));
    }
    let (mut place, mut sum) = (0, 0u64);
    while let Some(Reverse(((_, Reverse(ts)), i))) = heads.pop() {
        place += 1;
        sum = sum.wrapping_add(ts.wrapping_mul(place));
        heads.extend(rests[i].next().map(|version| Reverse((*version, i))));
    }
    (place, sum)
}

fn main() -> io::Result<()> {
    let mut made = Vec::new();
    for line in io::stdin().lock().lines() {
        let line = line?;
        match line.split(' ').collect::<Vec<_>>()[..] {
            ["lists", count, versions] => {
                made = lists(count.parse().expect("a number"), versions.parse().expect("a number"));
                println!("ok lists {versions}");
            }
            ["merge"] => {
                let (versions, sum) = merge(&made);
                println!("ok merge {versions} {sum}");
            }
            _ => println!("refused E1 BadLine"),
        }
        io::stdout().flush()?;
    }
    Ok(())
}
