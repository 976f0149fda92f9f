//! Keys that are compared and made under a lock, since no code of the caller's runs in that.
use std::any::TypeId;
use std::marker::PhantomData;

/// Whether both the type of the keys and the type by which one asks for them are the standard library's numbers, characters,
/// texts or bytes. One of them isn't enough: a type of the caller's may be borrowed from a `String`, and be compared by its code.
#[inline(always)]
pub(crate) fn are_plain<K, Q: ?Sized>() -> bool {
    is_plain::<K>() && is_plain::<Q>()
}

#[inline(always)]
fn is_plain<T: ?Sized>() -> bool {
    let id = id_of::<T>();
    macro_rules! is_one_of {
        ($($plain:ty),*) => { $(id == TypeId::of::<$plain>())||* };
    }
    is_one_of!(u8, u16, u32, u64, u128, usize, i8, i16, i32, i64, i128, isize)
        || is_one_of!(bool, char, str, &str, String, [u8], &[u8], Vec<u8>)
}

// The type's id, with each lifetime in it taken for 'static: `TypeId::of` has none for a type that borrows. So `&'a str` has the
// id of `&'static str`. No value is made of the id: it is compared, and types that differ in lifetimes alone are equally plain.
#[inline(always)]
fn id_of<T: ?Sized>() -> TypeId {
    trait HasId {
        fn id(&self) -> TypeId
        where
            Self: 'static;
    }
    impl<T: ?Sized> HasId for PhantomData<T> {
        fn id(&self) -> TypeId
        where
            Self: 'static,
        {
            TypeId::of::<T>()
        }
    }
    let of: &dyn HasId = &PhantomData::<T>;
    // SAFETY: both sides are a reference to the same trait object, and only the bound on what it borrows changes. What it refers
    // to, a `PhantomData`, holds and borrows nothing, and the reference is used for this one call, which reads no memory by it.
    unsafe { std::mem::transmute::<&dyn HasId, &(dyn HasId + 'static)>(of) }.id()
}

#[cfg(test)]
mod tests {
    use super::are_plain;

    struct Mine;

    #[test]
    fn keys_are_plain_if_both_types_are_the_standard_library_s() {
        fn of_a_borrowed_text<'a>(_: &'a str) -> bool {
            are_plain::<&'a str, &'a str>()
        }
        assert!(are_plain::<u64, u64>() && are_plain::<String, str>() && are_plain::<Vec<u8>, [u8]>());
        assert!(of_a_borrowed_text(&String::from("of this call")));
        assert!(!are_plain::<String, Mine>() && !are_plain::<Mine, str>() && !are_plain::<Mine, Mine>());
        assert!(
            !are_plain::<Box<str>, str>() && !are_plain::<(u64, u64), (u64, u64)>() && !are_plain::<&Mine, &Mine>()
        );
    }
}
