//! memory CACHE: the bytes that malloc has given out for an entry of a cache that was opened and filled, from u64 to u64.
use rookdresser::{Cache, Loading, Setup};

// What glibc tells of its memory: bytes in use in its arenas and in blocks of their own.
#[repr(C)]
struct Told {
    arena: usize,
    blocks: [usize; 3],
    mapped: usize,
    more: [usize; 2],
    in_use: usize,
    free: [usize; 2],
}

extern "C" {
    fn mallinfo2() -> Told;
}

fn given_out() -> usize {
    // SAFETY: it takes nothing, and returns numbers.
    let told = unsafe { mallinfo2() };
    told.in_use + told.mapped
}

// Opens a cache and has it filled: more keys than entries come, so that each shard of it is full. Prints the bytes of an entry.
fn weigh<C>(entries: u32, opened: C, mut put: impl FnMut(&mut C, u64), held: impl Fn(&mut C) -> u64, before: usize) {
    let mut cache = opened;
    (0..2 * u64::from(entries)).for_each(|key| put(&mut cache, key));
    assert_eq!(held(&mut cache), entries.into());
    println!("{}", (given_out() - before) / entries as usize);
}

fn main() {
    let given: Vec<String> = std::env::args().collect();
    let (entries, before) = (given[2].parse().expect("a number"), given_out());
    let setup = Setup { adaptive: Some(!given[1].ends_with("-fixed")), ..Setup::of(entries) };
    match given[1].as_str() {
        "cache" | "cache-fixed" => weigh(
            entries,
            Cache::<u64, u64>::open(&setup).expect("the setup is within its ranges"),
            |cache, key| drop(cache.put(&key, key, 1, 0).expect("memory is there")),
            |cache| cache.numbers().entries,
            before,
        ),
        "loading" | "loading-fixed" => weigh(
            entries,
            Loading::<u64, u64, ()>::open(&setup).expect("the setup is within its ranges"),
            |cache, key| cache.store(&key, key, 1).expect("memory is there"),
            |cache| cache.numbers().entries,
            before,
        ),
        #[cfg(feature = "lru")]
        "lru" => weigh(
            entries,
            lru::LruCache::<u64, u64>::new(entries as usize),
            |cache, key| drop(cache.put(key, key)),
            |cache| cache.len() as u64,
            before,
        ),
        cache => panic!("there is no cache {cache}"),
    }
}
