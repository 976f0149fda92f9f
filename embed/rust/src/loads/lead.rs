//! A load that this caller makes.
use crate::life::Life;
use crate::listener::Listener;
use crate::loads::flight::{Flight, Outcome};
use crate::loads::waits::Making;
use crate::panics::Panics;
use crate::reads::shared::Shared;
use crate::shard::{AllGone, AllOut};
use crate::table::store::Ended;
use crate::{GetError, Landed};
use std::sync::Arc;
use std::time::{Duration, Instant};

/// A load that this caller makes. If it is dropped before it lands, it lands as failed and those who joined ask again.
pub(crate) struct Lead<'a, K, V, E> {
    pub(crate) listener: &'a Listener<K, V>,
    pub(crate) shard: &'a Shared<K, V, E>,
    pub(crate) id: u64,
    /// Its loader may be asked for now.
    pub(crate) making: Making,
    /// The place of the load among those of the shard.
    pub(crate) load: u32,
    /// The row of the key.
    pub(crate) at: u32,
    /// The moment of the seek.
    pub(crate) now: u64,
    /// What a refresh is to replace.
    pub(crate) old: Option<Arc<V>>,
    /// What left by the seek. It is told once the load has landed, so that a listener may ask for the key.
    pub(crate) left: Option<Box<AllGone<K, V>>>,
    /// When the load began.
    pub(crate) begun: Instant,
}

impl<K, V, E> Lead<'_, K, V, E> {
    /// Closes the load with what the loader returned, and returns what its caller gets.
    pub(crate) fn close(mut self, made: Result<(V, u32, Life), E>) -> Result<Arc<V>, GetError<E>> {
        match made {
            Ok((value, weight, life)) => {
                let (value, old) = (Arc::new(value), self.old.take());
                let panics = self.land(Some((value.clone(), weight, life)), old, || Outcome::Value(value.clone()));
                // It owns nothing more, and has landed.
                std::mem::forget(self);
                panics.checked(Ok(value))
            }
            Err(error) => {
                let (error, old) = (Arc::new(error), self.old.take());
                let mut panics = self.land(None, None, || Outcome::Failed(error.clone()));
                std::mem::forget(self);
                let Some(old) = old else { return panics.checked(Err(GetError::Load(error))) };
                panics.of(|| drop(error));
                panics.checked(Ok(old))
            }
        }
    }

    // Lands the load, tells those who share it, and lets go of what left and of the old value.
    fn land(
        &mut self,
        value: Option<(Arc<V>, u32, Life)>,
        old: Option<Arc<V>>,
        outcome: impl FnOnce() -> Outcome<V, E>,
    ) -> Panics {
        self.making.end();
        let took = self.begun.elapsed();
        let mut landing = self.landed(value, took);
        let mut panics = Panics::default();
        if let Some(flight) = landing.flight.take() {
            flight.tell(outcome(), &mut panics);
            panics.of(|| drop(flight));
        }
        landing.release_into(self.listener, &mut panics);
        panics.of(|| drop(old));
        panics
    }

    /// Closes the load, which took so long, in the cache. Returns who is to be told, and what is to be let go of.
    #[inline(always)]
    pub(crate) fn landed(&mut self, value: Option<(Arc<V>, u32, Life)>, took: Duration) -> Landing<K, V, E> {
        let has_value = value.is_some();
        let mut shard = self.shard.take();
        let load = shard.loads.remove(self.load);
        let (mut all, mut left) = (self.left.take().map_or_else(AllGone::none, |left| *left), AllOut::none());
        let load_of = (self.id, self.at);
        let Ended { landed, value, key } = match value {
            Some(value) => shard.store.land(load_of, value, self.now, &mut left),
            None => shard.store.fail(load_of, self.now, &mut left),
        };
        shard.stats.load_time += took;
        shard.stats.loads += u64::from(has_value);
        shard.stats.failed += u64::from(!has_value);
        shard.stats.loose += u64::from(has_value && !matches!(landed, Landed::Kept(_)));
        all.take_in(shard.give_back(left));
        Landing { flight: load.flight, left: all, value, key }
    }
}

/// What is still to be done once a load has landed, with no lock held.
pub(crate) struct Landing<K, V, E> {
    /// Those who share the load, if anybody does.
    pub(crate) flight: Option<Arc<Flight<V, E>>>,
    left: AllGone<K, V>,
    value: Option<Arc<V>>,
    key: Option<Arc<K>>,
}

impl<K, V, E> Landing<K, V, E> {
    /// Tells the listener what left, and drops all of it.
    #[inline(always)]
    pub(crate) fn release_into(self, listener: &Listener<K, V>, panics: &mut Panics) {
        let Landing { left, value, key, .. } = self;
        listener.release_into(left, panics);
        panics.of(|| drop(value));
        panics.of(|| drop(key));
    }
}

// The loader panicked, its future was dropped, or the load was opened for another key.
impl<K, V, E> Drop for Lead<'_, K, V, E> {
    fn drop(&mut self) {
        let old = self.old.take();
        self.land(None, old, || Outcome::Again).pass_on();
    }
}
