//! Which setups open a cache, and what is said of one that doesn't.
use rookdresser::{BadSetting, Cache, Loading, Name, OpenError, Setting, Setup, Tokens};
use std::sync::Arc;
use std::time::Duration;

const SETUP: Setup = Setup::of(10);

fn opened(setup: &Setup) -> Result<(), OpenError> {
    Loading::<u64, u64, ()>::open(setup).map(drop)
}

fn sharded(shards: usize, setup: &Setup) -> Result<(), OpenError> {
    Loading::<u64, u64, ()>::sharded(shards, setup).map(drop)
}

fn ms(milliseconds: u64) -> Duration {
    Duration::from_millis(milliseconds)
}

fn text(opened: Result<(), OpenError>) -> String {
    opened.expect_err("the setup is bad").to_string()
}

#[test]
fn open_and_check_take_the_same_setups_and_name_what_is_out_of_its_range() {
    assert_eq!((Setup::of(7).window, Setup::default()), (None, Setup::of(1000)));
    for good in [
        Setup::of(1),
        Setup::of(70_000),
        Setup { window: Some(10), ..SETUP },
        Setup { window: Some(10), adaptive: Some(false), ..SETUP },
        Setup { adaptive: Some(false), ..SETUP },
        Setup { adaptive: Some(true), ..Setup::of(64) },
        Setup { flights: 4096, ..SETUP },
        Setup { bound: 1, ..Setup::of(65_536) },
        SETUP.after_write(ms(10)).refresh(ms(9)),
        SETUP.after_write(ms(10)).after_access(ms(10)),
        SETUP.refresh(ms(u64::MAX)),
    ] {
        assert_eq!((good.check(), opened(&good)), (Ok(()), Ok(())));
    }
    for (bad, said) in [
        (Setup::of(0), "entries is 0, and has to be from 1 to 268435456"),
        (Setup::of(300_000_000), "entries is 300000000, and has to be from 1 to 268435456"),
        (Setup { bound: 9, ..Setup::of(70_000) }, "entries is 70000, and has to be from 1 to 65536 if bound is set"),
        (Setup { window: Some(0), ..SETUP }, "window is 0, and has to be from 1 to 10, the entries"),
        (Setup { window: Some(20), ..SETUP }, "window is 20, and has to be from 1 to 10, the entries"),
        (Setup { flights: 0, ..SETUP }, "flights is 0, and has to be from 1 to 4096"),
        (Setup { flights: 4097, ..SETUP }, "flights is 4097, and has to be from 1 to 4096"),
        (Setup { bound: 0, ..SETUP }, "bound is 0, and has to be from 1 to 281474976710656"),
        (Setup { bound: 1 << 49, ..SETUP }, "bound is 562949953421312, and has to be from 1 to 281474976710656"),
        (SETUP.after_write(ms(5)).refresh(ms(5)), "refresh is 5ms, and has to be below after_write, 5ms"),
        (SETUP.after_write(ms(2000)).refresh(ms(9000)), "refresh is 9s, and has to be below after_write, 2s"),
    ] {
        let error = bad.check().expect_err("the setup is bad");
        assert_eq!((error.to_string(), opened(&bad)), (said.to_string(), Err(OpenError::BadSetup(error))));
    }
}

#[test]
fn an_error_has_the_setting_its_value_and_its_range() {
    let bad = Setup { window: Some(20), ..SETUP };
    for error in [
        opened(&bad),
        sharded(2, &bad),
        Cache::<u64, u64>::open(&bad).map(drop),
        Tokens::<u64>::open(&bad).map(drop),
        Tokens::<Name>::open(&bad).map(drop),
    ] {
        let Err(OpenError::BadSetup(BadSetting { setting, value, least, most, .. })) = error else {
            panic!("the setup is bad")
        };
        assert_eq!((setting, value, least, most), (Setting::Window, 20, 1, 10));
    }
    let refresh = SETUP.after_write(ms(5)).refresh(ms(10)).check().unwrap_err();
    assert_eq!((refresh.setting, refresh.value, refresh.least, refresh.most), (Setting::Refresh, 10, 0, 4));
    assert_eq!(OpenError::OutOfMemory.to_string(), "out of memory");
}

#[test]
fn a_cache_of_one_shard_and_each_of_some_shards_has_65_536_entries_at_most() {
    let said = "entries is 65537, and has to be from 1 to 65536";
    let bad = Setup::of(65_537);
    for error in [sharded(2, &bad), Cache::<u64, u64>::open(&bad).map(drop), Tokens::<u64>::open(&bad).map(drop)] {
        assert_eq!(text(error), said);
    }
}

#[test]
fn there_are_from_1_to_4096_shards() {
    for (shards, said) in [
        (0, "shards is 0, and has to be from 1 to 4096"),
        (4097, "shards is 4097, and has to be from 1 to 4096"),
        (1 << 45, "shards is 35184372088832, and has to be from 1 to 4096"),
        (usize::MAX, "shards is 18446744073709551615, and has to be from 1 to 4096"),
    ] {
        assert_eq!(text(sharded(shards, &Setup::of(1))), said);
    }
    // Each of the most shards gets some of the keys.
    for shards in [4096, 4095] {
        let cache = Loading::<u64, u64, ()>::sharded(shards, &Setup { flights: 1, ..Setup::of(1) }).unwrap();
        for key in 0..200_000 {
            cache.store(&key, Arc::new(key), 1).unwrap();
        }
        assert_eq!((cache.shards(), cache.numbers().entries), (shards, shards as u64));
    }
}

#[test]
fn caches_have_a_debug_form_whatever_their_keys_and_values_are() {
    struct Mine;
    let loading = Loading::<u64, Mine, Mine>::sharded(2, &SETUP).unwrap();
    let mut cache = Cache::<u64, Mine>::open(&SETUP).unwrap();
    assert!(cache.put(&7, Mine, 1, 0).unwrap().is_empty());
    let tokens = Tokens::<Name>::open(&SETUP).unwrap();
    assert_eq!(
        format!("{loading:?} {cache:?} {tokens:?}"),
        "Loading { shards: 2, .. } Cache { keys: 1, .. } Tokens { .. }"
    );
}

#[test]
fn a_setup_by_calls_is_the_one_by_fields() {
    let by_calls = Setup::of(600).window(6).adaptive(false).flights(7).bound(8);
    let by_fields = Setup { window: Some(6), adaptive: Some(false), flights: 7, bound: 8, ..Setup::of(600) };
    assert_eq!(by_calls, by_fields);
    let by_fields = Setup { after_write: ms(3), after_access: ms(4), refresh: ms(2), ..SETUP };
    assert_eq!(SETUP.after_write(ms(3)).after_access(ms(4)).refresh(ms(2)), by_fields);
}

#[test]
fn a_duration_counts_in_whole_milliseconds_rounded_up_and_zero_is_never() {
    let least = Duration::from_nanos(1);
    for (duration, ends) in [(least, 1), (ms(1), 1), (ms(1) + least, 2), (Duration::from_secs(60), 60_000)] {
        for setup in [SETUP.after_write(duration), SETUP.after_access(duration)] {
            let cache = Loading::<u64, u64, ()>::open(&setup).unwrap();
            cache.store_at(&1, 7, 1, 0).unwrap();
            assert!(cache.contains_key_at(&1, ends - 1) && !cache.contains_key_at(&1, ends), "{duration:?}");
        }
        let cache = Loading::<u64, u64, ()>::open(&SETUP.refresh(duration)).unwrap();
        cache.store_at(&1, 7, 1, 0).unwrap();
        let got = [ends - 1, ends].map(|now| *cache.get_at(&1, now, || Ok((8, 1))).unwrap());
        assert_eq!(got, [7, 8], "{duration:?}");
    }
    // 2^64 - 1 milliseconds are the longest.
    for (duration, is_there) in
        [(Duration::ZERO, true), (ms(u64::MAX - 1), false), (ms(u64::MAX), false), (Duration::MAX, false)]
    {
        let cache = Loading::<u64, u64, ()>::open(&SETUP.after_write(duration)).unwrap();
        cache.store_at(&1, 7, 1, 0).unwrap();
        assert_eq!(cache.contains_key_at(&1, u64::MAX), is_there, "{duration:?}");
        assert_eq!(cache.contains_key_at(&1, u64::MAX - 1), duration != ms(u64::MAX - 1), "{duration:?}");
    }
    // Both are of ten milliseconds as they are counted.
    let refresh = ms(9) + least;
    assert!(
        SETUP.after_write(ms(10)).refresh(refresh).check().is_err()
            && SETUP.after_write(ms(11)).refresh(refresh).check().is_ok()
    );
}
