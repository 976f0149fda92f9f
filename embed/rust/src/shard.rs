//! What one lock of a [`Loading`](crate::Loading) guards.
use crate::loads::flight::Flight;
use crate::reads::nodes::{Sealed, Writer};
use crate::reads::notes::Note;
use crate::reads::readers::Readers;
use crate::table::slab::Slab;
use crate::table::store::{AllLeft, Store};
use crate::table::{place, Entry, Place, Values};
use crate::window::Share;
use crate::{Fault, Left, Numbers, OpenError, Setup, Stats, Token};
use std::sync::Arc;

/// What left a [`Loading`](crate::Loading).
pub type Gone<K, V> = Left<Arc<K>, Arc<V>>;

/// The same, of one call.
pub(crate) type AllGone<K, V> = AllLeft<K, Arc<V>>;

/// A load that is open.
pub(crate) struct Load<V, E> {
    number: u64,
    /// Made by the first who joins.
    pub(crate) flight: Option<Arc<Flight<V, E>>>,
}

/// What a call has taken out of a shard. It can be opened once the lock is given back: [`Locked`](crate::reads::shared::Locked).
pub(crate) type AllOut<K, V> = AllLeft<K, Sealed<K, V>>;

// A row keeps nothing of a value but that there is one: readers find it in its node.
impl<K, V> Values<K> for Writer<K, V> {
    type Value = Arc<V>;
    type Kept = ();
    type Out = Sealed<K, V>;

    #[inline]
    fn store(&mut self, of: Entry<'_, K>, value: Arc<V>, _: Option<()>) -> ((), Option<Sealed<K, V>>) {
        ((), self.show(of, value))
    }

    #[inline]
    fn take_out(&mut self, hash: u64, at: u32, (): ()) -> Sealed<K, V> {
        self.take_out(hash, at)
    }

    fn open(&self, left: AllOut<K, V>) -> AllGone<K, V> {
        self.nodes.open(left)
    }
}

pub(crate) struct Shard<K, V, E> {
    pub(crate) store: Store<K, Writer<K, V>>,
    /// The open loads. A row names its key's newest one.
    pub(crate) loads: Slab<Load<V, E>>,
    pub(crate) stats: Stats,
    // How many look-ups the library has made of hits that were told later.
    told: u64,
}

impl<K, V, E> Shard<K, V, E> {
    pub(crate) fn open(setup: &Setup, share: Option<Share>, readers: Readers) -> Result<Self, OpenError> {
        let store = Store::open(setup, share, Writer::of(readers))?;
        Ok(Shard { store, loads: Slab::of(0), stats: Stats::default(), told: 0 })
    }

    /// Looks up the key of a row, or a new key of this hash.
    #[inline]
    pub(crate) fn look(&mut self, at: Option<u32>, hash: u64, now: u64) -> Result<Option<Arc<V>>, Fault> {
        match self.store.look(at, hash, now) {
            Ok(true) => {
                self.stats.hits += 1;
                Ok(at.and_then(|at| self.share(at)))
            }
            Ok(false) => {
                self.stats.misses += 1;
                Ok(None)
            }
            Err(fault) => Err(self.stats.refuse(fault)),
        }
    }

    /// Counts a hit, and returns a share of the value of its token.
    #[inline]
    pub(crate) fn hit(&mut self, token: Token) -> Arc<V> {
        self.stats.hits += 1;
        self.value(token)
    }

    /// A share of the value of a token that the library holds.
    #[inline]
    pub(crate) fn value(&self, token: Token) -> Arc<V> {
        self.share(place(token.token)).expect("a token that is held has its value")
    }

    /// A share of the row's value, if it has one.
    #[inline]
    pub(crate) fn share(&self, at: u32) -> Option<Arc<V>> {
        let reading = self.store.table.values.nodes.read();
        let node = reading.find(self.store.table.row(at).hash, |node| node.at == at)?;
        Some(node.value()?.share())
    }

    /// Whether a look of the row would find this very value.
    pub(crate) fn holds(&mut self, at: u32, value: &Arc<V>, now: u64) -> bool {
        let is_it = self.share(at).is_some_and(|there| Arc::ptr_eq(&there, value));
        is_it && self.store.library.peek(self.store.table.row(at).number, now).is_some()
    }

    /// Tells the library of hits that were made without the lock. Of one whose entry has left, or has expired by the latest moment, it
    /// isn't told: it would count a miss, or take the entry out.
    pub(crate) fn tell(&mut self, notes: &[Note]) {
        let Store { library, table, .. } = &mut self.store;
        let latest = library.latest().get();
        let reading = table.values.nodes.read();
        let is_there = |note: &&Note| {
            let Some(row) = table.get(note.at).filter(|row| row.number == note.number) else { return false };
            let node = reading.find(row.hash, |node| node.at == note.at);
            node.is_some_and(|node| latest < node.terms.until)
        };
        self.told += library.tell(notes.iter().filter(is_there).map(|note| note.number));
    }

    /// Notes the newest load of the row. Returns its place.
    #[inline]
    pub(crate) fn led(&mut self, at: u32, number: u64) -> u32 {
        let load = self.loads.insert(Load { number, flight: None });
        self.store.table.row_mut(at).newest = load;
        load
    }

    /// The newest load of the place, which one more joins.
    pub(crate) fn joined(&mut self, place: &Place<K>) -> Arc<Flight<V, E>> {
        let Place::At(at) = place else { unreachable!("a key that is loaded has a row") };
        let load = &mut self.loads[self.store.table.row(*at).newest];
        load.flight.get_or_insert_with(|| Arc::new(Flight::of(load.number))).clone()
    }

    /// Counts a call that was refused.
    #[inline]
    pub(crate) fn counted<T>(&mut self, made: Result<T, Fault>) -> Result<T, Fault> {
        made.map_err(|fault| self.stats.refuse(fault))
    }

    /// The library's numbers, as if it had heard of no hit that was made without the lock.
    pub(crate) fn numbers(&mut self) -> Numbers {
        let (numbers, told) = (self.store.numbers(), self.told);
        let Numbers { lookups, hits, step, .. } = numbers;
        Numbers { lookups: lookups - told, hits: hits - told, step: step - told, ..numbers }
    }

    pub(crate) fn stats(&self) -> Stats {
        self.stats.with(self.store.causes)
    }
}
