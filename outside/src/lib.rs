//! The engine seen from outside: its C interface, an implementation of document 01 of its own to hold it against, and
//! generators of maps and of recorded page lists. The programs `outside/fuzz` and `bench` are built on it. Nothing here
//! is taken from the Rattle code or from the Python generators in `tests/`: an error would have to be made twice to
//! stay unseen.

pub mod maps;
pub mod random;
pub mod recordings;
pub mod reference;
pub mod yard;
