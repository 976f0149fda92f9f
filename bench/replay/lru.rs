// Replays lines of letter G on a least-recently-used cache of std parts: a hash map, and a list in a vector.
use std::collections::HashMap;
use std::io::{Read, Write};

struct Node {
    key: u64,
    version: u64,
    before: usize,
    after: usize,
}

struct Lru {
    places: HashMap<u64, usize>,
    // Node 0 stands between the last and the first.
    nodes: Vec<Node>,
    most: usize,
}

impl Lru {
    fn cut(&mut self, at: usize) {
        let (before, after) = (self.nodes[at].before, self.nodes[at].after);
        self.nodes[before].after = after;
        self.nodes[after].before = before;
    }

    fn put_first(&mut self, at: usize) {
        let first = self.nodes[0].after;
        self.nodes[at].before = 0;
        self.nodes[at].after = first;
        self.nodes[first].before = at;
        self.nodes[0].after = at;
    }

    fn get(&mut self, key: u64) -> Option<u64> {
        let at = *self.places.get(&key)?;
        self.cut(at);
        self.put_first(at);
        Some(self.nodes[at].version)
    }

    // Stores a new entry, and answers the one that leaves for it.
    fn put(&mut self, key: u64, version: u64) -> Option<(u64, u64)> {
        let mut left = None;
        let at = if self.places.len() == self.most {
            let last = self.nodes[0].before;
            self.cut(last);
            left = Some((self.nodes[last].key, self.nodes[last].version));
            self.places.remove(&self.nodes[last].key);
            self.nodes[last].key = key;
            self.nodes[last].version = version;
            last
        } else {
            self.nodes.push(Node { key, version, before: 0, after: 0 });
            self.nodes.len() - 1
        };
        self.put_first(at);
        self.places.insert(key, at);
        left
    }
}

fn main() {
    let most = std::env::args().nth(1).unwrap().parse().unwrap();
    let mut input = Vec::new();
    std::io::stdin().read_to_end(&mut input).unwrap();
    let mut lru = Lru { places: HashMap::new(), nodes: vec![Node { key: 0, version: 0, before: 0, after: 0 }], most };
    let mut out = Vec::new();
    let mut hits = 0;
    for (n, line) in (1u64..).zip(input.split_inclusive(|b| *b == b'\n')) {
        let text = std::str::from_utf8(&line[..line.len() - 1]).unwrap();
        let mut parts = text.split(' ');
        let _moment: u64 = parts.next().unwrap().parse().unwrap();
        assert_eq!(parts.next(), Some("G"));
        let key: u64 = parts.next().unwrap().parse().unwrap();
        match lru.get(key) {
            Some(version) => {
                hits += 1;
                writeln!(out, "{n} hit {version}").unwrap();
            }
            None => match lru.put(key, n) {
                Some((key, version)) => writeln!(out, "{n} load {key}:{version}:size").unwrap(),
                None => writeln!(out, "{n} load").unwrap(),
            },
        }
    }
    writeln!(out, "hits {hits}").unwrap();
    std::io::stdout().write_all(&out).unwrap();
}
