//! Loads that are open: who makes one ([`lead`]), who waits for it ([`flight`]), and which loads wait for which ([`waits`]).
pub(crate) mod flight;
pub(crate) mod lead;
pub(crate) mod waits;
