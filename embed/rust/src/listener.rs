//! Who is told what left. No lock is held here.
use crate::panics::Panics;
use crate::shard::{AllGone, Gone};
use crate::table::store::drop_each;

type Function<K, V> = Box<dyn Fn(&Gone<K, V>) + Send + Sync>;

/// A function of the caller's, or none.
pub(crate) struct Listener<K, V>(Option<Function<K, V>>);

impl<K, V> Listener<K, V> {
    pub(crate) fn none() -> Self {
        Listener(None)
    }

    pub(crate) fn of(listener: impl Fn(&Gone<K, V>) + Send + Sync + 'static) -> Self {
        Listener(Some(Box::new(listener)))
    }

    /// Tells what left, and hands it over. If that or a call before panicked, all of it is told and dropped first.
    pub(crate) fn told(&self, left: AllGone<K, V>, mut panics: Panics) -> Vec<Gone<K, V>> {
        self.tell(&left, &mut panics);
        if panics.is_none() {
            return left.into_vec();
        }
        drop_each(left, &mut panics);
        panics.checked(Vec::new())
    }

    /// Tells what left, and drops it.
    #[inline]
    pub(crate) fn release_into(&self, left: AllGone<K, V>, panics: &mut Panics) {
        self.tell(&left, panics);
        drop_each(left, panics);
    }

    /// The same. The first panic is passed on once all is told and dropped.
    #[inline]
    pub(crate) fn release(&self, left: AllGone<K, V>) {
        if !left.is_empty() {
            let mut panics = Panics::default();
            self.release_into(left, &mut panics);
            panics.pass_on();
        }
    }

    #[inline]
    fn tell(&self, left: &AllGone<K, V>, panics: &mut Panics) {
        if let Some(listener) = &self.0 {
            for left in left.iter() {
                panics.of(|| listener(left));
            }
        }
    }
}
