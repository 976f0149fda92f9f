//! The window follows the stream of look-ups.
mod common;
#[path = "common/random.rs"]
mod random;
#[path = "common/streams.rs"]
mod streams;
use common::within_a_minute;
use random::Random;
use rookdresser::{Adviser, Cache, Found, Landed, Loading, Numbers, OpenError, Reads, Setting, Setup, Token, Tokens};
use std::hash::{BuildHasher, Hasher};
use std::sync::atomic::{AtomicU64, Ordering::SeqCst};
use std::sync::Arc;
use std::time::Duration;
use streams::{passing, popular, OneSeed};

#[test]
fn a_window_follows_from_64_entries_on_unless_one_is_given() {
    let some = |window| Setup { window: Some(window), ..Setup::of(1000) };
    // A window that follows begins with 10 hundredths, and one that doesn't has one, rounded down, and one entry at least.
    for (setup, wanted) in [
        (Setup::of(1), 1),
        (Setup::of(99), 9),
        (Setup::of(63), 1),
        (Setup::of(64), 6),
        (Setup::of(512), 51),
        (Setup::of(1000), 100),
        (Setup { adaptive: Some(true), ..Setup::of(512) }, 51),
        (Setup { adaptive: Some(false), ..Setup::of(1000) }, 10),
        (some(400), 400),
        (Setup { adaptive: Some(false), ..some(7) }, 7),
    ] {
        let mut cache = Cache::<u64, u64, _>::with_hasher(&setup, OneSeed::default()).unwrap();
        assert_eq!(cache.window(), wanted, "{setup:?}");
        assert_eq!(Loading::<u64, u64, ()>::sharded(1, &setup).unwrap().window(), wanted, "{setup:?}");
        // All keys of the stream pass, so a window that follows becomes wider.
        for key in passing(20_000, setup.entries.max(64).into(), 1) {
            if cache.look(&key, 0).unwrap().0.is_none() {
                cache.put(&key, key, 1, 0).unwrap();
            }
        }
        let follows = setup.window.is_none() && setup.adaptive != Some(false) && setup.entries >= 64;
        assert_eq!(cache.window() != wanted, follows, "{setup:?}");
    }
}

#[test]
fn the_entries_of_all_shards_count() {
    let sharded = |shards, setup: &Setup| Loading::<u64, u64, ()>::sharded(shards, setup).map(|cache| cache.window());
    // 10 hundredths of 512, of which each shard has its part.
    assert_eq!(sharded(8, &Setup::of(64)), Ok(51));
    // A hundredth of 7 for each of eight: one at least.
    assert_eq!(sharded(8, &Setup::of(7)), Ok(8));
    // 10 hundredths of 4,096 are 409, but each shard has one entry at least.
    assert_eq!(sharded(4096, &Setup { flights: 1, ..Setup::of(1) }), Ok(4096));
    let divided = Loading::<u64, u64, ()>::open(&Setup::of(100_000)).unwrap();
    assert_eq!((divided.shards() > 1, divided.window()), (true, 10_000));
    let fixed = Loading::<u64, u64, ()>::open(&Setup { adaptive: Some(false), ..Setup::of(100_000) }).unwrap();
    assert_eq!(fixed.window(), 1000);
}

#[test]
fn a_window_that_can_t_follow_is_refused() {
    let adaptive = |entries| Setup { adaptive: Some(true), ..Setup::of(entries) };
    let given = Setup { window: Some(10), ..adaptive(1000) };
    let (if_given, unless) = (
        "adaptive is true, and has to be false or not given if window is given",
        "adaptive is true, and has to be false or not given unless the cache has 64 to 4194304 entries, all shards together",
    );
    for (bad, said) in
        [(given, if_given), (adaptive(63), unless), (adaptive(4_194_305), unless), (adaptive(1), unless)]
    {
        let error = bad.check().unwrap_err();
        assert_eq!((error.setting, error.value, error.least, error.most), (Setting::Adaptive, 1, 0, 0));
        assert_eq!(error.to_string(), said);
        assert_eq!(Loading::<u64, u64, ()>::open(&bad).err(), Some(OpenError::BadSetup(error)));
    }
    for good in [adaptive(64), adaptive(4_194_304), Setup::of(4_194_305), Setup { adaptive: Some(false), ..given }] {
        assert_eq!(good.check(), Ok(()));
    }
    let refused = |opened: Result<(), OpenError>| opened.unwrap_err().to_string();
    assert_eq!(refused(Cache::<u64, u64>::open(&given).map(drop)), if_given);
    assert_eq!(refused(Cache::<u64, u64>::open(&adaptive(63)).map(drop)), unless);
    let sharded = |shards, entries| Loading::<u64, u64, ()>::sharded(shards, &adaptive(entries)).map(drop);
    assert_eq!(
        (sharded(2, 32), refused(sharded(2, 31)), refused(sharded(65, 65_536))),
        (Ok(()), unless.into(), unless.into())
    );
    let plain = "adaptive is true, and has to be false or not given if the window moves only by `slide`";
    assert_eq!(refused(Tokens::<u64>::open(&adaptive(1000)).map(drop)), plain);
    // Another setting is named first.
    assert_eq!(Setup { flights: 0, ..given }.check().unwrap_err().setting, Setting::Flights);
}

#[test]
fn an_adviser_s_range_is_the_library_s() {
    // The wrapper checks the range, and the library would refuse what it lets through.
    for (entries, opens) in
        [(0, false), (63, false), (64, true), (4_194_304, true), (4_194_305, false), (u32::MAX, false)]
    {
        let adviser = Adviser::open(entries);
        assert_eq!(adviser.is_ok(), opens, "{entries}");
        assert!(adviser.map_or(true, |adviser| adviser.wanted() == (u64::from(entries) * 10 / 100) as u32));
    }
}

#[test]
fn a_window_is_wide_while_keys_pass_and_narrow_while_the_same_ones_stay_popular() {
    for (entries, shards) in [(64, 1), (512, 1), (1000, 1), (4096, 8)] {
        let cache = Loading::<u64, u64, (), _>::sharded_with_hasher(
            shards,
            &Setup::of(entries / shards as u32),
            OneSeed::default(),
        )
        .unwrap();
        let after = |keys: &mut dyn Iterator<Item = u64>| {
            for key in keys {
                cache.get_with(&key, || key).unwrap();
                assert!((1..=entries).contains(&cache.window()));
            }
            cache.window()
        };
        let many = 60 * u64::from(entries);
        for round in 0..2 {
            // Of the four windows to choose from, all entries are best for keys that pass, and a hundredth or a tenth for popular ones.
            assert_eq!(after(&mut passing(many, entries.into(), round)), entries, "round {round} of {entries}");
            let narrow = after(&mut popular(many, entries.into(), round));
            assert!(narrow <= entries / 10, "round {round} of {entries}: {narrow}");
        }
        let numbers = cache.numbers();
        assert_eq!(numbers.hits + numbers.misses, numbers.lookups);
    }
}

// Hashes a number to itself, so that the library gets the keys as they are.
#[derive(Clone, Default)]
struct Itself(u64);

impl BuildHasher for Itself {
    type Hasher = Itself;

    fn build_hasher(&self) -> Itself {
        self.clone()
    }
}

impl Hasher for Itself {
    fn finish(&self) -> u64 {
        self.0
    }

    fn write(&mut self, _: &[u8]) {
        unreachable!("the keys are numbers")
    }

    fn write_u64(&mut self, number: u64) {
        self.0 = number;
    }
}

// A driver of the plain calls, whose window follows by the rule: 64 keys are shown together, and at most four slides come before each
// look-up, put and landing.
struct Driver {
    tokens: Tokens,
    adviser: Adviser,
    seen: Vec<u64>,
    window: u32,
    latest: u64,
    moved: [u64; 2],
}

impl Driver {
    fn open(setup: &Setup) -> Driver {
        let adviser = Adviser::open(setup.entries).unwrap();
        let window = adviser.wanted();
        let tokens = Tokens::open(&Setup { window: Some(window), ..*setup }).unwrap();
        Driver { tokens, adviser, seen: Vec::new(), window, latest: 0, moved: [0; 2] }
    }

    fn slide(&mut self) {
        for _ in 0..4 {
            let wider = self.window < self.adviser.wanted();
            if self.window != self.adviser.wanted() {
                assert_eq!(self.tokens.slide(wider, self.latest), Ok(true));
                self.window = if wider { self.window + 1 } else { self.window - 1 };
                self.moved[usize::from(wider)] += 1;
            }
        }
    }

    fn look_up(&mut self, key: u64, call: fn(&mut Tokens, u64, u64) -> Result<Found, rookdresser::Fault>) -> Found {
        self.slide();
        let found = call(&mut self.tokens, key, self.latest).unwrap();
        self.seen.push(key);
        if self.seen.len() == 64 {
            self.adviser.saw(&self.seen).unwrap();
            self.seen.clear();
        }
        found
    }

    fn put(&mut self, key: u64) {
        self.slide();
        self.tokens.put(key, Token { token: key, weight: 1 }, self.latest).unwrap();
    }

    fn get(&mut self, key: u64) -> bool {
        match self.look_up(key, Tokens::seek) {
            Found::Lead(id) | Found::HitLead(_, id) => {
                self.slide();
                let landed = self.tokens.land_keep(id, key, Token { token: key, weight: 1 }, self.latest);
                assert_eq!(landed, Ok(Landed::Kept(1)));
                true
            }
            _ => false,
        }
    }
}

// The key of a round: keys pass and are popular in turn.
fn key_of(random: &mut Random, round: u64, entries: u64) -> u64 {
    let some = random.below(entries * 3 / 4);
    match round / 30_000 % 2 {
        0 => 1_000_000 + round / 10 + some,
        _ if random.below(4) == 0 => some,
        _ => 10_000_000 + round,
    }
}

// Makes the same calls of the driver and of the cache. The windows are the same after each.
fn moves_as_the_driver(
    setup: &Setup,
    mut made: impl FnMut(u64, u64, u64) -> (bool, u32),
    numbers: impl FnOnce() -> Numbers,
) {
    let (mut driver, mut random) = (Driver::open(setup), Random::of(5));
    for round in 0..120_000 {
        let (what, key) = (random.below(100), key_of(&mut random, round, setup.entries.into()));
        driver.latest = driver.latest.max(round + random.below(5));
        let hit = match what {
            0..=29 => matches!(driver.look_up(key, Tokens::look), Found::Hit(_)),
            30..=89 => !driver.get(key),
            90..=95 => {
                driver.put(key);
                true
            }
            96..=97 => driver.tokens.drop_key(key, driver.latest).unwrap(),
            98 => driver.tokens.forget(key, driver.latest).unwrap(),
            _ => {
                driver.tokens.clean(driver.latest).unwrap();
                true
            }
        };
        assert_eq!(made(what, key, driver.latest), (hit, driver.window), "call {round}");
    }
    assert!(driver.moved.iter().all(|&moved| moved > 900), "{:?}", driver.moved);
    assert_eq!(numbers(), driver.tokens.numbers());
}

#[test]
fn the_windows_are_those_of_a_plain_replay() {
    for setup in
        [Setup::of(512), Setup::of(1000).after_write(Duration::from_millis(700)).refresh(Duration::from_millis(500))]
    {
        let cache =
            Loading::<u64, u64, (), _>::sharded_with_hasher(1, &setup, Itself(0)).unwrap().with_reads(Reads::Exact);
        let made = |what, key, now| {
            let hit = match what {
                0..=29 => cache.look_at(&key, now).unwrap().is_some(),
                30..=89 => {
                    let mut hit = true;
                    let load = || {
                        hit = false;
                        Ok((key, 1))
                    };
                    cache.get_at(&key, now, load).unwrap();
                    hit
                }
                90..=95 => cache.store_at(&key, key, 1, now).is_ok(),
                96..=97 => {
                    cache.drop_key_at(&key, now).unwrap().iter().any(|left| left.cause != rookdresser::Cause::Expired)
                }
                98 => cache.forget_at(&key, now).unwrap(),
                _ => cache.clean_at(now).is_ok(),
            };
            (hit, cache.window())
        };
        moves_as_the_driver(&setup, made, || cache.numbers());
    }
}

#[test]
fn the_windows_of_a_cache_of_one_owner_are_those_of_a_plain_replay() {
    let setup = Setup::of(600).after_write(Duration::from_millis(700)).refresh(Duration::from_millis(500));
    let cache = std::cell::RefCell::new(Cache::<u64, u64, _>::with_hasher(&setup, Itself(0)).unwrap());
    let made = |what, key, now| {
        let mut cache = cache.borrow_mut();
        let hit = match what {
            0..=29 => cache.look(&key, now).unwrap().0.is_some(),
            30..=89 => match cache.seek(&key, now).unwrap().0 {
                Found::Lead(id) | Found::HitLead(_, id) => cache.land(id, &key, key, 1, now).0 != Landed::Kept(1),
                _ => true,
            },
            90..=95 => cache.put(&key, key, 1, now).is_ok(),
            96..=97 => cache.drop_key(&key, now).unwrap().iter().any(|left| left.cause != rookdresser::Cause::Expired),
            98 => cache.forget(&key, now).unwrap().0,
            _ => cache.clean(now).is_ok(),
        };
        (hit, cache.window())
    };
    moves_as_the_driver(&setup, made, || cache.borrow_mut().numbers());
}

#[test]
fn a_refused_call_leaves_the_latest_moment_as_it_was_though_the_window_moved() {
    let setup = Setup::of(512).bound(10_000).after_write(Duration::from_millis(10));
    let cache = Loading::<u64, u64, (), _>::sharded_with_hasher(1, &setup, OneSeed::default()).unwrap();
    let first = cache.window();
    // Keys pass until the window is about to move.
    let mut keys = passing(100_000, 512, 1);
    while cache.window() == first {
        let key = keys.next().unwrap();
        cache.get_at(&key, 0, || Ok((key, 1))).unwrap();
    }
    cache.store_at(&1, 7, 1, 0).unwrap();
    let (before, step) = (cache.window(), cache.numbers().step);
    assert_eq!(cache.store_at(&2, 8, 10_001, 50), Err(rookdresser::Fault::TooHeavy));
    assert_eq!((cache.window().abs_diff(before), cache.numbers().step - step), (4, 4), "four slides, and no call");
    assert_eq!((cache.numbers().latest, cache.look_at(&1, 9).unwrap().as_deref()), (0, Some(&7)));
}

// Eight threads, each of which alone writes some of the keys, while windows move: a value is never older than the last that its writer
// had stored before.
#[test]
fn threads_whose_windows_move_find_no_value_that_was_replaced() {
    const KEYS: u64 = 6000;
    for (shards, reads) in [(1, Reads::Shared), (4, Reads::Shared), (4, Reads::Exact)] {
        let (cache, moved) = within_a_minute(move || {
            let cache =
                Loading::<u64, u64, ()>::sharded(shards, &Setup::of(1024 / shards as u32)).unwrap().with_reads(reads);
            let [source, least] = [0, 1].map(|_| (0..KEYS).map(|_| AtomicU64::new(0)).collect::<Vec<_>>());
            let (next, moved) = (AtomicU64::new(1), AtomicU64::new(0));
            std::thread::scope(|threads| {
                for thread in 0..8 {
                    let (cache, source, least, next, moved) = (&cache, &source, &least, &next, &moved);
                    threads.spawn(move || {
                        let mut random = Random::of(thread + 1);
                        let mut window = cache.window();
                        for round in 0..30_000u64 {
                            let is_popular = round / 7500 % 2 == 0;
                            let key = if is_popular && random.below(3) != 0 {
                                random.below(200)
                            } else {
                                (round / 4 + random.below(500)) % KEYS
                            };
                            let before = least[key as usize].load(SeqCst);
                            if key % 8 == thread && random.below(4) == 0 {
                                let version = next.fetch_add(1, SeqCst);
                                source[key as usize].store(version, SeqCst);
                                cache.store(&key, version, 1).unwrap();
                                least[key as usize].store(version, SeqCst);
                            } else if random.below(2) == 0 {
                                let found = cache.look(&key).unwrap();
                                assert!(found.is_none_or(|version| *version >= before), "it was replaced");
                            } else {
                                let got = cache.get_with(&key, || source[key as usize].load(SeqCst)).unwrap();
                                assert!(*got >= before, "it was replaced");
                            }
                            if round % 64 == 0 {
                                let now = cache.window();
                                assert!((shards as u32..=1024).contains(&now));
                                moved.fetch_add(now.abs_diff(window).into(), SeqCst);
                                window = now;
                            }
                        }
                    });
                }
            });
            (cache, moved.into_inner())
        });
        let (stats, numbers) = (cache.stats(), cache.numbers());
        assert_eq!(
            (stats.hits, stats.misses, stats.hits + stats.misses),
            (numbers.hits, numbers.misses, numbers.lookups)
        );
        assert_eq!(cache.kept(), (numbers.entries as usize, numbers.entries as usize));
        assert!(moved > 100 && numbers.evicted > 1000, "{moved}");
    }
}

#[test]
fn a_cache_that_is_dropped_amid_the_moves_gives_each_value_back() {
    let values: Vec<_> = (0..3000).map(Arc::new).collect();
    for count in [10, 100, 300, 3000] {
        let cache = Loading::<u64, u64, ()>::sharded(2, &Setup::of(256)).unwrap();
        for key in passing(20 * count, 512, count) {
            let value = &values[(key % 3000) as usize];
            if cache.look(&key).unwrap().is_none() {
                cache.store(&key, value.clone(), 1).unwrap();
            }
        }
        drop(cache);
        assert!(values.iter().all(|value| Arc::strong_count(value) == 1));
    }
}

#[test]
fn an_adviser_may_be_used_by_another_thread_and_shows_what_it_wants() {
    let mut adviser = Adviser::open(512).unwrap();
    assert_eq!(format!("{adviser:?}"), "Adviser { wanted: 51, .. }");
    let adviser = std::thread::spawn(move || {
        // One key of eight, from the first on, and one call or many: it is the same.
        let keys: Vec<_> = passing(20_000, 512, 1).collect();
        keys.chunks(100).for_each(|keys| adviser.saw(keys).unwrap());
        adviser
    });
    assert_eq!(adviser.join().unwrap().wanted(), 512);
}
