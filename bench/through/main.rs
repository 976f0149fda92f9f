//! main skewed|held|puts-N THREADS CALLS MULTIPLICATIONS: what the harness does, on Rust's lru crate in a Mutex. A load holds
//! no lock, so two threads may load one key at once. Prints the nanoseconds, how many loads began, and the sum of all values.
use std::sync::Mutex;
use std::thread;
use std::time::Instant;

type Cache = Mutex<lru::LruCache<u64, u64>>;

// The stream of a thread: splitmix64.
struct Keys(u64);

impl Keys {
    fn of(thread: u64) -> Keys {
        Keys(thread.wrapping_mul(0x5851_F42D_4C95_7F2D))
    }

    fn draw(&mut self) -> u64 {
        self.0 = self.0.wrapping_add(0x9E37_79B9_7F4A_7C15);
        let mut z = self.0;
        z = (z ^ (z >> 30)).wrapping_mul(0xBF58_476D_1CE4_E5B9);
        z = (z ^ (z >> 27)).wrapping_mul(0x94D0_49BB_1331_11EB);
        z ^ (z >> 31)
    }

    fn held(&mut self) -> u64 {
        self.draw() & 0x7FF
    }

    fn skewed(&mut self) -> u64 {
        let z = self.draw();
        z & (z >> 32) & 0x1_FFFF
    }
}

fn load(key: u64, multiplications: u32) -> u64 {
    let mut z = key;
    for _ in 0..multiplications {
        z = (z ^ (z >> 30)).wrapping_mul(0xBF58_476D_1CE4_E5B9).wrapping_add(1);
    }
    z
}

// One thread's gets: how many loads it made, and the sum of the values.
fn gets(cache: &Cache, number: u64, held: bool, every: u32, calls: u32, multiplications: u32) -> (u64, u64) {
    let (mut keys, mut loads, mut values) = (Keys::of(number), 0, 0u64);
    for call in 0..calls {
        let key = if held { keys.held() } else { keys.skewed() };
        if every > 0 && call % every == 0 {
            cache.lock().expect("no call panics").put(key, load(key, multiplications));
            continue;
        }
        let found = cache.lock().expect("no call panics").get(&key).copied();
        let value = found.unwrap_or_else(|| {
            loads += 1;
            let value = load(key, multiplications);
            cache.lock().expect("no call panics").put(key, value);
            value
        });
        values = values.wrapping_add(value);
    }
    (loads, values)
}

fn main() {
    let given: Vec<String> = std::env::args().skip(1).collect();
    let number = |at: usize| given[at].parse::<u32>().expect("a number");
    let (threads, calls, multiplications) = (number(1), number(2), number(3));
    let held = given[0] != "skewed";
    let every = given[0].strip_prefix("puts-").map_or(0, |number| number.parse().expect("a number"));
    let cache = &Cache::new(lru::LruCache::new(4096));
    let begun = Instant::now();
    let (loads, values) = thread::scope(|scope| {
        let running: Vec<_> =
            (0..threads).map(|t| scope.spawn(move || gets(cache, t.into(), held, every, calls, multiplications))).collect();
        running.into_iter().map(|thread| thread.join().expect("no thread panics")).fold((0, 0u64), |all, one| {
            (all.0 + one.0, all.1.wrapping_add(one.1))
        })
    });
    println!("{} {loads} {values}", begun.elapsed().as_nanos());
}
