//! Why a `get` has no value.
use crate::Fault;
use std::error::Error;
use std::fmt::{Debug, Display, Formatter, Result};
use std::sync::Arc;

/// Why there is no value.
///
/// ```
/// use rookdresser::{GetError, Loading, Setup};
///
/// let cache = Loading::<String, u64, &str>::open(&Setup::of(100))?;
/// match cache.try_get_with("a", || Err("the source is down")) {
///     Err(GetError::Load(error)) => assert_eq!(*error, "the source is down"),
///     other => unreachable!("{other:?}"),
/// }
/// # Ok::<(), rookdresser::OpenError>(())
/// ```
#[derive(Debug, PartialEq, Eq)]
#[non_exhaustive]
pub enum GetError<E> {
    /// The load failed, for all who shared it.
    Load(Arc<E>),
    /// The cache refused the call.
    Refused(Fault),
    /// A load asked for a key whose load waits for it: its own key, or one that another thread or task loads and that in turn waits
    /// for this load. Nobody would ever wake.
    WaitsForItself,
}

// Not derived, since a shared error need not be `Clone`.
impl<E> Clone for GetError<E> {
    fn clone(&self) -> Self {
        match self {
            GetError::Load(error) => GetError::Load(error.clone()),
            GetError::Refused(fault) => GetError::Refused(*fault),
            GetError::WaitsForItself => GetError::WaitsForItself,
        }
    }
}

impl<E: Display> Display for GetError<E> {
    fn fmt(&self, f: &mut Formatter<'_>) -> Result {
        match self {
            GetError::Load(error) => write!(f, "the load failed: {error}"),
            GetError::Refused(fault) => write!(f, "the cache refused the call: {fault}"),
            GetError::WaitsForItself => f.write_str("a load asked for a key whose load waits for it"),
        }
    }
}

impl<E: Debug + Display> Error for GetError<E> {}
