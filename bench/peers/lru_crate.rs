// Replays lines of letter G on Rust's lru crate: lru_crate ENTRIES < trace
use std::io::{Read, Write};

fn main() {
    let entries = std::env::args().nth(1).unwrap().parse().unwrap();
    let mut held: lru::LruCache<u64, u64> = lru::LruCache::new(entries);
    let mut input = String::new();
    std::io::stdin().read_to_string(&mut input).unwrap();
    let (mut out, mut hits) = (Vec::new(), 0);
    for (n, line) in (1u64..).zip(input.lines()) {
        let key: u64 = line.rsplit(' ').next().unwrap().parse().unwrap();
        match held.get(&key) {
            Some(version) => {
                hits += 1;
                writeln!(out, "{n} hit {version}").unwrap();
            }
            None => {
                held.put(key, n);
                writeln!(out, "{n} load").unwrap();
            }
        }
    }
    writeln!(out, "hits {hits}").unwrap();
    std::io::stdout().write_all(&out).unwrap();
}
