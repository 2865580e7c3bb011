//! The base: another build of the library, whose functions were given names of their own so that one program has both.
//! It has the same interface, that of include/yard.h.

interface::calls_of_a_build!(base_yard_check, base_yard_plain, base_yard_df);
