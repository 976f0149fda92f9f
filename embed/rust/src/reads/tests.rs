//! Hits without the lock give the answers of hits that take it, whatever the order in which threads take their turns.
use crate::reads::own::use_stripe;
use crate::reads::turns::{begin_call, every_order};
use crate::{Fault, GetError, Loading, Numbers, Reads, Setup, Stats};
use std::hash::{BuildHasherDefault, DefaultHasher, Hash, Hasher};
use std::panic::{catch_unwind, AssertUnwindSafe};
use std::sync::atomic::{AtomicU64, Ordering::SeqCst};
use std::sync::{Arc, Barrier};
use std::time::Duration;

// A call of a key at a moment.
#[derive(Clone, Copy, Debug)]
enum Call {
    Look(u64, u64),
    Get(u64, u64),
    Store(u64, u64),
    /// With a life of 10 milliseconds.
    StoreFor(u64, u64),
    Drop(u64, u64),
    /// Of one that weighs two.
    Heavy(u64, u64),
    Count,
}

type Cache = Loading<u64, u64, (), BuildHasherDefault<DefaultHasher>>;

// Makes a call, which stores or loads the value. Returns the value that was found or left, or a count.
fn answer(cache: &Cache, call: Call, value: u64) -> Option<u64> {
    match call {
        Call::Look(key, now) => cache.look_at(&key, now).unwrap().map(|value| *value),
        Call::Get(key, now) => Some(*cache.get_at(&key, now, || Ok((value, 1))).unwrap()),
        Call::Store(key, now) => cache.put_at(&key, value, 1, now).unwrap().first().map(|left| *left.value),
        Call::Heavy(key, now) => cache.put_at(&key, value, 2, now).unwrap().first().map(|left| *left.value),
        Call::StoreFor(key, now) => {
            let life = Duration::from_millis(10);
            cache.store_for_at(&key, value, 1, life, now).map(|()| None).unwrap()
        }
        Call::Drop(key, now) => cache.drop_key_at(&key, now).unwrap().first().map(|left| *left.value),
        Call::Count => Some(cache.stats().hits),
    }
}

// A cache of one shard with two entries, which was looked at so often.
fn looked_at(setup: &Setup, reads: Reads, looks: u64) -> Cache {
    use_stripe(0);
    let cache = Cache::sharded_with_hasher(1, setup, BuildHasherDefault::default()).unwrap().with_reads(reads);
    cache.store_at(&1, 1, 1, 0).unwrap();
    cache.store_at(&2, 2, 1, 8).unwrap();
    (0..looks).for_each(|_| assert!(cache.look_at(&2, 8).unwrap().is_some()));
    cache
}

// What can be seen of a cache in which nothing goes on.
fn seen(cache: &Cache) -> (Stats, Numbers, (usize, usize)) {
    (Stats { load_time: Duration::ZERO, ..cache.stats() }, cache.numbers(), cache.kept())
}

// The orders of the calls of two threads, as the thread of each.
fn merges([a, b]: [usize; 2]) -> Vec<Vec<usize>> {
    if a + b == 0 {
        return vec![vec![]];
    }
    let then = |first: usize, rest: [usize; 2]| merges(rest).into_iter().map(move |rest| [vec![first], rest].concat());
    let first = if a > 0 { then(0, [a - 1, b]).collect() } else { vec![] };
    let second = if b > 0 { then(1, [a, b - 1]).collect() } else { vec![] };
    [first, second].concat()
}

// When a call began and ended, and its answer.
type Made = (u64, u64, Option<u64>);

// Has two threads make their calls in every order. Each time their answers, and what is seen at the end, are those of a cache that
// tells each hit at once, to which the calls are made one after another: in an order in which none comes before one that had ended
// when it began.
fn calls_have_an_order(setup: &Setup, looks: u64, calls: [&[Call]; 2], most: usize) -> u64 {
    let value = |thread: usize, at: usize| 100 * (thread as u64 + 1) + at as u64;
    let orders: Vec<_> = merges(calls.map(<[Call]>::len))
        .into_iter()
        .map(|order| {
            let (exact, mut next) = (looked_at(setup, Reads::Exact, looks), [0, 0]);
            let answers = order.iter().map(|&thread| {
                let at = next[thread];
                next[thread] += 1;
                (thread, at, answer(&exact, calls[thread][at], value(thread, at)))
            });
            let answers: Vec<_> = answers.collect();
            (answers, seen(&exact))
        })
        .collect();
    let time = AtomicU64::new(0);
    let of = |thread: usize| {
        let time = &time;
        move |cache: &Cache| -> Vec<Made> {
            use_stripe(thread);
            let call = |(at, &call)| {
                begin_call();
                let begun = time.fetch_add(1, SeqCst);
                let answer = answer(cache, call, value(thread, at));
                (begun, time.fetch_add(1, SeqCst), answer)
            };
            calls[thread].iter().enumerate().map(call).collect()
        }
    };
    let check = |cache: Cache, made: [Vec<Made>; 2]| {
        let last = seen(&cache);
        let fits = |(answers, end): &(Vec<(usize, usize, Option<u64>)>, _)| {
            let mut latest = 0;
            *end == last
                && answers.iter().all(|&(thread, at, wanted)| {
                    let (begun, ended, got) = made[thread][at];
                    latest = latest.max(begun);
                    got == wanted && ended > latest
                })
        };
        assert!(orders.iter().any(fits), "{looks} looks, {calls:?}: {made:?}, {last:?}, of {orders:?}");
    };
    every_order(most, || looked_at(setup, Reads::Shared, looks), [&of(0), &of(1)], check)
}

// Entries expire after 10 milliseconds.
fn aged() -> Setup {
    Setup::of(64).after_write(Duration::from_millis(10))
}

// The looks that leave no note, and that leave one.
const LOOKS: [u64; 2] = [0, 3];

// How many hits took no lock.
fn beside<K, V, S>(cache: &Loading<K, V, (), S>) -> u64 {
    cache.readers.hits()
}

#[test]
fn a_hit_without_the_lock_serves_nothing_beyond_its_life() {
    for setup in [Setup::of(64), Setup::of(64).after_write(Duration::from_millis(60))] {
        let cache = looked_at(&setup, Reads::Shared, 0);
        let hits = |key, now, value: Option<u64>, without_the_lock| {
            let before = beside(&cache);
            assert_eq!(cache.look_at(&key, now).unwrap().as_deref(), value.as_ref(), "{key} at {now}");
            assert_eq!(beside(&cache) - before, without_the_lock, "{key} at {now}");
        };
        cache.store_for_at(&3, 3, 1, Duration::from_millis(10), 20).unwrap();
        (0..20).for_each(|_| hits(3, 20, Some(3), 1));
        // A hit that moves the time takes the lock.
        hits(3, 29, Some(3), 0);
        hits(3, 29, Some(3), 1);
        // Another key's hit moves it too. A moment before the latest counts as the latest.
        hits(2, 30, Some(2), 0);
        hits(3, 29, None, 0);
        assert_eq!((cache.stats().expired, cache.kept()), (1, (2, 2)));
        // The same of a load that gives a life, and of a seek.
        let loaded = cache.get_for_at(&3, 30, || Ok((4, 1, Duration::from_millis(5)))).unwrap();
        hits(3, 34, Some(*loaded), 0);
        hits(3, 34, Some(*loaded), 1);
        assert_eq!(*cache.get_at(&3, 34, || unreachable!("it is there")).unwrap(), 4);
        assert_eq!(*cache.get_at(&3, 35, || Ok((5, 1))).unwrap(), 5);
        // In place of a life there is none.
        hits(3, 50, Some(5), 0);
        hits(3, 50, Some(5), 1);
    }
}

#[test]
fn calls_that_give_a_life_have_an_order() {
    for looks in LOOKS {
        let (store, look) = (Call::StoreFor(2, 10), Call::Look(2, 19));
        calls_have_an_order(&Setup::of(64), looks, [&[store, look], &[Call::Look(2, 20)]], 2_000);
        calls_have_an_order(&aged(), looks, [&[store, Call::Look(2, 20)], &[look]], 2_000);
    }
}

#[test]
fn three_calls_of_two_threads_have_an_order_whatever_theirs_is() {
    let firsts = [Call::Look(1, 9), Call::Look(2, 17), Call::Store(1, 5)];
    let mut orders = 0;
    for looks in LOOKS {
        for (first, second) in firsts.into_iter().flat_map(|first| firsts.map(|second| (first, second))) {
            for other in [Call::Look(2, 17), Call::Drop(2, 9), Call::Count] {
                orders += calls_have_an_order(&aged(), looks, [&[first, second], &[other]], 4);
            }
        }
    }
    assert!(orders > 10_000, "{orders}");
}

#[test]
fn puts_of_two_threads_have_an_order_whatever_theirs_is() {
    let calls = [Call::Store(2, 8), Call::Heavy(2, 8), Call::Look(2, 8), Call::StoreFor(2, 8)];
    let (mut orders, setup) = (0, Setup::of(64));
    for (first, second) in calls.into_iter().flat_map(|first| calls.map(|second| (first, second))) {
        for other in [Call::Store(2, 8), Call::Drop(2, 8), Call::Heavy(2, 8), Call::Count] {
            orders += calls_have_an_order(&setup, 0, [&[first, second], &[other]], 3);
        }
    }
    assert!(orders > 3_000, "{orders}");
}

#[test]
fn a_put_takes_no_lock_if_its_value_may_stand_in_place() {
    let puts = |cache: &Cache, key, weight, now| {
        let before = cache.readers.puts();
        let left = cache.put_at(&key, 7, weight, now).unwrap();
        (left.len(), cache.readers.puts() - before)
    };
    let cache = looked_at(&Setup::of(64), Reads::Shared, 0);
    assert_eq!(puts(&cache, 2, 1, 8), (1, 1));
    assert_eq!((cache.stats().replaced, cache.look_at(&2, 8).unwrap().as_deref()), (1, Some(&7)));
    // A new key, another weight, a later moment, and an entry with a life.
    assert_eq!((puts(&cache, 3, 1, 8), puts(&cache, 2, 2, 8), puts(&cache, 2, 2, 9)), ((0, 0), (1, 0), (1, 0)));
    cache.store_for_at(&2, 7, 2, Duration::from_millis(50), 9).unwrap();
    assert_eq!((puts(&cache, 2, 2, 9), puts(&cache, 2, 2, 9)), ((1, 0), (1, 1)));
    // A value that expires has the moment of its own put.
    let cache = looked_at(&aged(), Reads::Shared, 0);
    assert_eq!(puts(&cache, 2, 1, 8), (1, 0));
    let exact = looked_at(&Setup::of(64), Reads::Exact, 0);
    assert_eq!(puts(&exact, 2, 1, 8), (1, 0));
}

#[test]
fn six_calls_of_two_threads_have_an_order_if_two_turns_are_lost() {
    let look = |of| Call::Look(of, 9);
    let mut orders = 0;
    for calls in [
        [[look(2), Call::Store(1, 5), look(1)], [look(1), look(2), Call::Drop(1, 9)]],
        [[look(2), look(1), Call::Look(2, 17)], [Call::Look(1, 16), Call::Store(2, 9), look(2)]],
        [[look(2), look(2), look(1)], [look(2), Call::Count, look(2)]],
    ] {
        for looks in LOOKS {
            orders += calls_have_an_order(&aged(), looks, [&calls[0], &calls[1]], 2);
        }
    }
    assert!(orders > 500, "{orders}");
}

struct Random(u64);

impl Random {
    fn below(&mut self, limit: u64) -> u64 {
        self.0 ^= self.0 << 13;
        self.0 ^= self.0 >> 7;
        self.0 ^= self.0 << 17;
        (self.0 >> 16) % limit
    }
}

#[test]
fn hits_without_the_lock_answer_as_hits_that_take_it() {
    for (round, (after_write, refresh)) in [(0, 0), (40, 0), (0, 15), (60, 25)].into_iter().enumerate() {
        // No entry is evicted: hits that are told late, or never, change no answer.
        let setup =
            Setup::of(64).after_write(Duration::from_millis(after_write)).refresh(Duration::from_millis(refresh));
        let of =
            |reads| Cache::sharded_with_hasher(2, &setup, BuildHasherDefault::default()).unwrap().with_reads(reads);
        let (cache, exact) = (of(Reads::Shared), of(Reads::Exact));
        let (mut random, mut latest) = (Random(round as u64 * 77 + 5), 10);
        for call in 0..100_000 {
            latest += random.below(300) / 299;
            // At times a moment is before the latest one.
            let (key, now) = (random.below(24), latest - random.below(4) * random.below(3));
            let made = match random.below(200) {
                0 => Call::Store(key, now),
                1 => Call::Drop(key, now),
                2 => Call::Count,
                3..=99 => Call::Look(key, now),
                _ => Call::Get(key, now),
            };
            let [got, wanted] = [&cache, &exact].map(|cache| answer(cache, made, call));
            assert_eq!(got, wanted, "call {call}, {made:?}, {setup:?}");
        }
        let (one, other) = (seen(&cache), seen(&exact));
        assert_eq!(one, other);
        assert!(beside(&cache) > one.0.hits / 2 && beside(&exact) == 0);
        assert!(after_write == 0 || refresh != 0 || other.0.expired > 0);
    }
}

#[test]
fn a_hit_that_moves_the_time_makes_its_moment_the_latest() {
    let cache = looked_at(&aged(), Reads::Shared, 100);
    assert!(cache.look_at(&1, 9).unwrap().is_some() && cache.look_at(&2, 17).unwrap().is_some());
    assert_eq!(cache.look_at(&1, 9), Ok(None), "17 was the latest moment");
}

#[test]
fn durations_and_moments_may_be_the_greatest_there_are() {
    for (after_write, refresh) in [(u64::MAX, 0), (0, u64::MAX), (u64::MAX, u64::MAX - 1), (0, 0)] {
        let setup =
            Setup::of(64).after_write(Duration::from_millis(after_write)).refresh(Duration::from_millis(refresh));
        let [cache, exact] = [Reads::Shared, Reads::Exact].map(|reads| looked_at(&setup, reads, 13));
        for now in [0, 9, u64::MAX - 2, u64::MAX - 1, u64::MAX, 5] {
            for key in [1, 2] {
                assert_eq!(cache.look_at(&key, now), exact.look_at(&key, now), "{key} at {now} of {setup:?}");
            }
        }
        assert_eq!((exact.kept().0, cache.kept()), (if after_write == 0 { 2 } else { 1 }, exact.kept()));
    }
}

#[test]
fn a_refused_call_leaves_the_latest_moment_as_it_was() {
    let cache = Loading::<u64, u64, ()>::sharded(1, &Setup { bound: 5, ..aged() }).unwrap();
    cache.store_at(&1, 1, 1, 0).unwrap();
    assert_eq!(cache.store_at(&2, 2, 6, 50), Err(Fault::TooHeavy));
    assert_eq!((cache.numbers().latest, cache.look_at(&1, 9).unwrap().as_deref()), (0, Some(&1)));
}

#[test]
fn a_hit_that_is_told_after_later_ones_takes_no_entry_out() {
    for round in 0..8 {
        let cache = looked_at(&Setup::of(64).after_write(Duration::from_millis(15)), Reads::Shared, 13);
        let hits = |key: u64, now| (0..400).for_each(|_| assert!(cache.look_at(&key, now).unwrap().is_some()));
        let barrier = Barrier::new(2);
        std::thread::scope(|threads| {
            threads.spawn(|| {
                use_stripe(round);
                hits(1, 10);
                barrier.wait();
            });
            threads.spawn(|| {
                use_stripe(round + 1);
                barrier.wait();
                // The first entry has expired by then.
                hits(2, 20);
            });
        });
        let (stats, numbers, kept) = seen(&cache);
        assert_eq!((stats.expired, numbers.entries, numbers.hits, kept), (0, 2, stats.hits, (2, 2)));
        assert_eq!((cache.look_at(&1, 20), cache.kept(), cache.stats().expired), (Ok(None), (1, 1), 1));
    }
}

#[test]
fn a_hit_whose_entry_has_expired_since_is_not_told() {
    for has_another_life in [false, true] {
        let cache = looked_at(&Setup::of(64).after_write(Duration::from_millis(15)), Reads::Shared, 0);
        // It takes the lock, so the next two hits are told for sure, and together.
        assert!(cache.look_at(&1, 10).unwrap().is_some() && cache.look_at(&1, 10).unwrap().is_some());
        if has_another_life {
            cache.store_for_at(&1, 4, 1, Duration::from_millis(5), 12).unwrap();
        }
        // The first entry has expired by then.
        cache.store_at(&3, 3, 1, 20).unwrap();
        assert!(cache.look_at(&2, 20).unwrap().is_some());
        let (stats, numbers, kept) = seen(&cache);
        assert_eq!((beside(&cache), stats.expired, numbers.entries, kept), (2, 0, 3, (3, 3)));
        assert_eq!((cache.look_at(&1, 20), cache.kept(), cache.stats().expired), (Ok(None), (2, 2), 1));
    }
}

// A key of the caller's, of which two have one hash.
#[derive(Clone, PartialEq, Eq)]
struct Coarse(u64);

impl Hash for Coarse {
    fn hash<H: Hasher>(&self, state: &mut H) {
        state.write_u64(self.0 / 2);
    }
}

// Six threads, each of which alone writes some of the keys. Versions of a key only grow, and the last one is known once its store ended.
fn finds_nothing_that_was_removed<K: Hash + Eq + Clone + Send + Sync>(key: fn(u64) -> K, counts_each_once: bool) {
    const KEYS: u64 = 12;
    for shards in [1, 4] {
        let cache = Loading::<K, u64, ()>::sharded(shards, &Setup::of(64)).unwrap();
        let least: Vec<AtomicU64> = (0..KEYS).map(|_| AtomicU64::new(0)).collect();
        let (next, looks) = (AtomicU64::new(1), AtomicU64::new(0));
        std::thread::scope(|threads| {
            for thread in 0..6 {
                let (cache, least, next, looks) = (&cache, &least, &next, &looks);
                threads.spawn(move || {
                    let mut random = Random(thread * 1001 + 7);
                    for _ in 0..40_000 {
                        let of = random.below(KEYS);
                        let before = least[of as usize].load(SeqCst);
                        if random.below(120) == 0 && of % 6 == thread {
                            let version = next.fetch_add(1, SeqCst);
                            if random.below(3) == 0 {
                                cache.drop_key(&key(of)).unwrap();
                                assert_eq!(cache.look(&key(of)), Ok(None), "nobody else writes the key");
                                looks.fetch_add(1, SeqCst);
                            }
                            cache.store(&key(of), version, 1).unwrap();
                            least[of as usize].store(version, SeqCst);
                        } else {
                            let found = cache.look(&key(of)).unwrap();
                            assert!(found.is_none_or(|version| *version >= before), "it had left before");
                            looks.fetch_add(1, SeqCst);
                        }
                    }
                });
            }
        });
        let (stats, numbers, looks) = (cache.stats(), cache.numbers(), looks.into_inner());
        // A call for a key that shares its hash may be counted for the other too.
        let counted = stats.hits + stats.misses;
        assert!(counted == looks || (!counts_each_once && counted > looks));
        assert_eq!((stats.hits, stats.misses, counted), (numbers.hits, numbers.misses, numbers.lookups));
        assert_eq!(cache.kept(), (numbers.entries as usize, numbers.entries as usize));
        assert!(beside(&cache) > stats.hits / 2);
    }
}

#[test]
fn no_value_is_returned_after_the_call_that_removed_it() {
    finds_nothing_that_was_removed(|of| of, true);
    // Two of them share a hash.
    finds_nothing_that_was_removed(|of| Coarse(2 * of - u64::from(of == 11)), false);
}

#[test]
fn one_load_for_all_who_miss_where_others_hit() {
    let (cache, loads) = (Loading::<u64, u64, ()>::sharded(1, &Setup::of(64)).unwrap(), AtomicU64::new(0));
    let barrier = Barrier::new(6);
    std::thread::scope(|threads| {
        for thread in 0..6 {
            let (cache, loads, barrier) = (&cache, &loads, &barrier);
            threads.spawn(move || {
                for round in 0..300 {
                    for _ in 0..20 {
                        let got = cache.get(&1, || {
                            std::thread::yield_now();
                            Ok((loads.fetch_add(1, SeqCst), 1))
                        });
                        assert_eq!(got.as_deref(), Ok(&round));
                    }
                    barrier.wait();
                    if thread == 0 {
                        assert_eq!(cache.drop_key(&1).unwrap().len(), 1);
                    }
                    barrier.wait();
                }
            });
        }
    });
    assert_eq!((loads.into_inner(), cache.stats().loads), (300, 300));
    assert!(beside(&cache) > 300);
}

#[test]
fn each_hit_takes_the_lock_if_entries_expire_unused() {
    let setup = Setup::of(64).after_access(Duration::from_millis(10));
    let cache = looked_at(&setup, Reads::Shared, 100);
    assert_eq!((cache.look_at(&1, 9), beside(&cache)), (Ok(Some(1.into())), 0));
}

// A cache whose windows follow. In these tests an adviser is shown two keys together.
fn following(shards: usize) -> Setup {
    Setup::of(512 / shards as u32)
}

// Each look-up that the library made was shown once, but for one a shard that waits for another.
fn shows_each_once<K, S>(cache: &Loading<K, u64, (), S>) -> usize {
    let made = cache.made_by_the_library() as usize;
    let shown = cache.shown();
    assert!((shown.len()..=shown.len() + cache.shards()).contains(&made), "{made} look-ups, {} shown", shown.len());
    shown.len()
}

#[test]
fn an_adviser_is_shown_what_the_library_is_told_once_and_in_its_order() {
    let exact =
        Cache::sharded_with_hasher(1, &following(1), BuildHasherDefault::default()).unwrap().with_reads(Reads::Exact);
    let (mut random, mut wanted) = (Random(5), vec![]);
    for call in 0..3001 {
        let key = random.below(900);
        let made =
            [Call::Look(key, 0), Call::Get(key, 0), Call::Store(key, 0), Call::Drop(key, 0)][random.below(4) as usize];
        answer(&exact, made, call);
        if let Call::Look(key, _) | Call::Get(key, _) = made {
            wanted.push(exact.hash(&key));
        }
    }
    assert_eq!(exact.shown(), wanted[..wanted.len() / 2 * 2]);
    let shared = Cache::sharded_with_hasher(2, &following(2), BuildHasherDefault::default()).unwrap();
    (0..400).for_each(|key| shared.store(&key, key, 1).unwrap());
    for call in 0..20_000 {
        let key = random.below(if call % 1000 == 0 { 900 } else { 200 });
        answer(&shared, if random.below(2) == 0 { Call::Look(key, 0) } else { Call::Get(key, 0) }, key);
    }
    let (stats, shown) = (shared.stats(), shows_each_once(&shared) as u64);
    // In these tests half of the hits without the lock are told, or a quarter while no entry leaves.
    assert!(shown < (stats.hits + stats.misses) * 3 / 4 && shown > (stats.hits + stats.misses) / 5, "{shown}");
}

#[test]
fn calls_of_two_threads_on_shards_with_one_adviser_end_in_every_order() {
    let cache = || {
        use_stripe(0);
        let cache = Cache::sharded_with_hasher(2, &following(2), BuildHasherDefault::default()).unwrap();
        (0..8).for_each(|key| cache.store_at(&key, key, 1, 0).unwrap());
        (0..80).for_each(|look| assert!(cache.look_at(&(look % 8), 0).unwrap().is_some()));
        cache
    };
    let thread = |own: usize| {
        move |cache: &Cache| {
            use_stripe(own);
            for key in [own as u64, 1 - own as u64, 5] {
                begin_call();
                assert_eq!(cache.look_at(&key, 0).unwrap().as_deref(), Some(&key));
            }
            begin_call();
            answer(cache, Call::Get(90 + own as u64, 0), 1)
        }
    };
    let check = |cache: Cache, answers| {
        assert_eq!(answers, [Some(1), Some(1)]);
        let (stats, numbers, kept) = seen(&cache);
        assert_eq!((stats.hits, stats.misses, kept), (80 + 6, 2, (10, 10)));
        assert_eq!((numbers.hits, numbers.misses, cache.window()), (stats.hits, stats.misses, 51));
        shows_each_once(&cache);
    };
    let orders = every_order(2, cache, [&thread(0), &thread(1)], check);
    assert!(orders > 100, "{orders}");
}

#[test]
fn a_look_up_that_is_refused_is_not_shown() {
    let cache =
        Cache::sharded_with_hasher(1, &Setup { flights: 1, ..following(1) }, BuildHasherDefault::default()).unwrap();
    for key in 0..100 {
        let load = || {
            let refused = cache.get_at(&(key + 1000), 0, || unreachable!("no load opens"));
            assert_eq!(refused, Err(GetError::Refused(Fault::TooManyFlights)));
            Ok((key, 1))
        };
        cache.get_at(&key, 0, load).unwrap();
    }
    assert_eq!((shows_each_once(&cache), cache.stats().refused[Fault::TooManyFlights.place()]), (100, 100));
}

// A key whose equality and clone panic at times.
#[derive(Debug)]
struct Fickle(u64, Arc<AtomicU64>);

impl Fickle {
    fn strike(&self) {
        if self.1.fetch_add(1, SeqCst) % 7 == 6 {
            std::panic::resume_unwind(Box::new("of a key"));
        }
    }
}

impl Hash for Fickle {
    fn hash<H: Hasher>(&self, state: &mut H) {
        state.write_u64(self.0);
    }
}

impl PartialEq for Fickle {
    fn eq(&self, other: &Fickle) -> bool {
        self.strike();
        self.0 == other.0
    }
}

impl Eq for Fickle {}

impl Clone for Fickle {
    fn clone(&self) -> Fickle {
        self.strike();
        Fickle(self.0, self.1.clone())
    }
}

#[test]
fn a_key_that_panics_has_no_look_up_shown_twice_or_left_out() {
    let cache = Loading::<Fickle, u64, ()>::sharded(2, &following(2)).unwrap();
    let (mut random, calls, panics) = (Random(9), Arc::new(AtomicU64::new(0)), AtomicU64::new(0));
    for round in 0..20_000 {
        let key = Fickle(random.below(if round % 50 == 0 { 900 } else { 100 }), calls.clone());
        let call = || match round % 3 {
            0 => cache.look(&key).map(drop).unwrap(),
            1 => cache.get_with(&key, || round).map(drop).unwrap(),
            _ if round % 40 == 2 => cache.store(&key, round, 1).unwrap(),
            _ => cache.get_with(&key, || round).map(drop).unwrap(),
        };
        panics.fetch_add(u64::from(catch_unwind(AssertUnwindSafe(call)).is_err()), SeqCst);
    }
    assert!(shows_each_once(&cache) > 5000 && panics.into_inner() > 1000);
}
