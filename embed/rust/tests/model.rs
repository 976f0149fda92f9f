//! Random calls of one thread. What each returns and what leaves by it is compared with a plain map of what is there.
#[path = "common/random.rs"]
mod random;
use random::Random;
use rookdresser::{Cause, GetError, Gone, Loading, Setup};
use std::collections::HashMap;
use std::fmt::Debug;
use std::hash::{Hash, Hasher};
use std::sync::{Arc, Mutex};
use std::time::Duration;

const AFTER_WRITE: u64 = 50;

struct Entry {
    value: u64,
    written: u64,
    used: u64,
}

// What is there, expired entries included until they are told to have left.
struct Model {
    entries: HashMap<u64, Entry>,
    // The latest moment, for all keys: there is one shard.
    latest: u64,
    // 0 for never.
    after_access: u64,
    // How many left: explicit, replaced, expired.
    left: [u64; 3],
}

impl Model {
    fn is_live(&self, entry: &Entry) -> bool {
        let is_used = self.after_access == 0 || self.latest < entry.used + self.after_access;
        self.latest < entry.written + AFTER_WRITE && is_used
    }

    // A use, as of a hit.
    fn hit(&mut self, number: u64) -> Option<u64> {
        let is_live = self.entries.get(&number).is_some_and(|entry| self.is_live(entry));
        let entry = self.entries.get_mut(&number).filter(|_| is_live)?;
        entry.used = self.latest;
        Some(entry.value)
    }

    // An entry left, for the given cause unless it had expired.
    fn leave(&mut self, number: u64, value: u64, cause: Cause, wanted: Option<Cause>) {
        let entry = self.entries.remove(&number).expect("what leaves was there");
        let wanted = if self.is_live(&entry) { wanted } else { Some(Cause::Expired) };
        assert_eq!((entry.value, Some(cause)), (value, wanted));
        self.left[match cause {
            Cause::Explicit => 0,
            Cause::Replaced => 1,
            Cause::Expired => 2,
            Cause::Size => unreachable!("there is room for all"),
        }] += 1;
    }

    fn store(&mut self, number: u64, value: u64) {
        let (written, used) = (self.latest, self.latest);
        assert!(self.entries.insert(number, Entry { value, written, used }).is_none(), "the old one was told");
    }
}

// A key that isn't of the standard library's, of which many have one hash.
#[derive(Clone, Debug, PartialEq, Eq)]
struct Coarse(u64);

impl Hash for Coarse {
    fn hash<H: Hasher>(&self, state: &mut H) {
        state.write_u64(self.0 % 3);
    }
}

fn agrees<K: Hash + Eq + Clone + Debug + Send + Sync + 'static>(key_of: fn(u64) -> K, after_access: u64, seed: u64) {
    let setup =
        Setup::of(64).after_write(Duration::from_millis(AFTER_WRITE)).after_access(Duration::from_millis(after_access));
    let told = Arc::new(Mutex::new(Vec::<Gone<K, u64>>::new()));
    let telling = told.clone();
    let cache = Loading::<K, u64, u64>::sharded(1, &setup)
        .unwrap()
        .with_listener(move |gone| telling.lock().unwrap().push(gone.clone()));
    let numbers: HashMap<K, u64> = (0..40).map(|number| (key_of(number), number)).collect();
    let (mut random, mut model) =
        (Random::of(seed), Model { entries: HashMap::new(), latest: 0, after_access, left: [0; 3] });
    for call in 0..20_000 {
        // Moments go back at times.
        let now = call / 2 + random.below(20);
        model.latest = model.latest.max(now);
        let (number, value) = (random.below(40), 1000 + call);
        let key = key_of(number);
        let (mut stores, mut wanted) = (false, None);
        match random.below(100) {
            0..=24 => assert_eq!(cache.look_at(&key, now).unwrap().as_deref().copied(), model.hit(number)),
            25..=39 => {
                (stores, wanted) = (true, Some(Cause::Replaced));
                if call % 2 == 0 {
                    drop(cache.put_at(&key, Arc::new(value), 1, now).unwrap());
                } else {
                    cache.store_at(&key, Arc::new(value), 1, now).unwrap();
                }
            }
            40..=49 => {
                wanted = Some(Cause::Explicit);
                drop(cache.drop_key_at(&key, now).unwrap());
            }
            50..=54 => assert_eq!(cache.forget_at(&key, now), Ok(false)),
            55..=84 => {
                let got = cache.get_at(&key, now, || Ok((value, 1))).unwrap();
                let hit = model.hit(number);
                stores = hit.is_none();
                assert_eq!(*got, hit.unwrap_or(value));
            }
            85..=96 => {
                let got = cache.get_at(&key, now, || Err(value)).map(|got| *got);
                assert_eq!(got, model.hit(number).ok_or(GetError::Load(Arc::new(value))));
            }
            97 if call % 10 == 0 => {
                wanted = Some(Cause::Explicit);
                drop(cache.clear_at(now).unwrap());
            }
            _ => drop(cache.clean_at(now).unwrap()),
        }
        for gone in std::mem::take(&mut *told.lock().unwrap()) {
            model.leave(numbers[&*gone.key], *gone.value, gone.cause, wanted);
        }
        if stores {
            model.store(number, value);
        }
        let held = model.entries.len();
        assert_eq!((cache.kept(), cache.numbers().entries), ((held, held), held as u64));
    }
    let stats = cache.stats();
    assert_eq!(([stats.explicit, stats.replaced, stats.expired], stats.size), (model.left, 0));
    assert!(model.left.iter().all(|&left| left > 500) && stats.failed > 500 && stats.hits > 500);
}

#[test]
fn answers_and_what_leaves_are_those_of_a_plain_map() {
    for seed in 1..=3 {
        agrees(|number| number, 30, seed);
        agrees(|number| format!("key {number}"), 30, seed);
        // A call for a key may count as a use of another one that has its hash.
        agrees(Coarse, 0, seed);
    }
}
