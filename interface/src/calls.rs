//! The calls, declared as `include/yard.h` has them, and wrappers of them on slices. The only unsafe code of this
//! folder.

use crate::{Drawing, Query, Record};

/// The whole check and both searches of a build of the engine, by the names that its functions have.
#[macro_export]
macro_rules! calls_of_a_build {
    ($check:ident, $plain:ident, $df:ident) => {
        extern "C" {
            fn $check(image: *const u8, image_len: usize, answer: *mut u32, answer_len: usize) -> u32;
        }
        $crate::declare_search!($plain);
        $crate::declare_search!($df);

        /// The whole check. Returns 0 or the refusal's number, as all calls but the panel's do.
        pub fn check(image: &[u8], answer: &mut [u32]) -> u32 {
            // SAFETY: each pointer goes with the length of its own slice, and the answer is lent alone.
            unsafe { $check(image.as_ptr(), image.len(), answer.as_mut_ptr(), answer.len()) }
        }

        /// The plain or the DF search on lent tables.
        pub fn search(
            kind: $crate::Search,
            image: &[u8],
            query: $crate::Query,
            tables: $crate::Tables,
            answer: &mut [u32],
        ) -> u32 {
            let call = match kind {
                $crate::Search::Plain => $plain,
                $crate::Search::Df => $df,
            };
            // SAFETY: each pointer goes with the length of its own slice, and the slices cannot overlap.
            unsafe {
                call(
                    image.as_ptr(),
                    image.len(),
                    query.source,
                    query.strip,
                    tables.times.as_mut_ptr(),
                    tables.times.len(),
                    tables.moves.as_mut_ptr(),
                    tables.moves.len(),
                    tables.preds.as_mut_ptr(),
                    tables.preds.len(),
                    tables.marks.as_mut_ptr(),
                    tables.marks.len(),
                    tables.list.as_mut_ptr(),
                    tables.list.len(),
                    answer.as_mut_ptr(),
                    answer.len(),
                )
            }
        }
    };
}

#[doc(hidden)]
#[macro_export]
macro_rules! declare_search {
    ($name:ident) => {
        extern "C" {
            fn $name(
                image: *const u8,
                image_len: usize,
                source: u16,
                length: u16,
                times: *mut u32,
                times_len: usize,
                moves: *mut u16,
                moves_len: usize,
                preds: *mut u16,
                preds_len: usize,
                marks: *mut u8,
                marks_len: usize,
                list: *mut u8,
                list_len: usize,
                answer: *mut u32,
                answer_len: usize,
            ) -> u32;
        }
    };
}

calls_of_a_build!(yard_check, yard_plain, yard_df);

extern "C" {
    fn yard_route(
        preds: *const u16,
        preds_len: usize,
        station: u16,
        out: *mut u16,
        out_len: usize,
        answer: *mut u32,
        answer_len: usize,
    ) -> u32;

    fn yard_panel(image: *const u8, image_len: usize, source: u16, length: u16, station: u16) -> f64;

    fn yard_records(
        image: *const u8,
        image_len: usize,
        records: *mut Record,
        records_len: usize,
        answer: *mut u32,
        answer_len: usize,
    ) -> u32;

    fn yard_write(
        records: *const Record,
        records_len: usize,
        stations: u16,
        pages: u16,
        directory: *const u8,
        directory_len: usize,
        image: *mut u8,
        image_len: usize,
        answer: *mut u32,
        answer_len: usize,
    ) -> u32;

    fn yard_order(
        first: *const u8,
        first_len: usize,
        second: *const u8,
        second_len: usize,
        answer: *mut u32,
        answer_len: usize,
    ) -> u32;

    fn yard_replay(
        list: *const u8,
        list_len: usize,
        pages: usize,
        frames: usize,
        distances: *const u32,
        distances_len: usize,
        threshold: u32,
        answer: *mut u32,
        answer_len: usize,
    ) -> u32;
}

/// The route to a station by the predecessors that a search left.
pub fn route(preds: &[u16], station: u16, out: &mut [u16], answer: &mut [u32]) -> u32 {
    // SAFETY: each pointer goes with the length of its own slice, and the slices cannot overlap.
    unsafe {
        yard_route(
            preds.as_ptr(),
            preds.len(),
            station,
            out.as_mut_ptr(),
            out.len(),
            answer.as_mut_ptr(),
            answer.len(),
        )
    }
}

/// What the panel shows for a station: a time, no route or a refusal, as one float.
pub fn panel(image: &[u8], query: Query, station: u16) -> f64 {
    // SAFETY: the pointer goes with the length of its slice.
    unsafe { yard_panel(image.as_ptr(), image.len(), query.source, query.strip, station) }
}

/// The records of an image, at the front of a lent list.
pub fn records(image: &[u8], list: &mut [Record], answer: &mut [u32]) -> u32 {
    // SAFETY: each pointer goes with the length of its own slice, and the slices cannot overlap.
    unsafe {
        yard_records(image.as_ptr(), image.len(), list.as_mut_ptr(), list.len(), answer.as_mut_ptr(), answer.len())
    }
}

/// The image of records, in a lent buffer.
pub fn write(drawing: Drawing, image: &mut [u8], answer: &mut [u32]) -> u32 {
    // SAFETY: each pointer goes with the length of its own slice, and the slices cannot overlap.
    unsafe {
        yard_write(
            drawing.records.as_ptr(),
            drawing.records.len(),
            drawing.stations,
            drawing.pages,
            drawing.directory.as_ptr(),
            drawing.directory.len(),
            image.as_mut_ptr(),
            image.len(),
            answer.as_mut_ptr(),
            answer.len(),
        )
    }
}

/// Which of two maps is the lesser, or which image is refused.
pub fn order(first: &[u8], second: &[u8], answer: &mut [u32]) -> u32 {
    // SAFETY: each pointer goes with the length of its own slice. The images are only read, and so may be the same or
    // overlap; the answer is lent alone.
    unsafe {
        yard_order(first.as_ptr(), first.len(), second.as_ptr(), second.len(), answer.as_mut_ptr(), answer.len())
    }
}

/// The reads of a recorded page list, with a number of pages and of frames, the distances of pages and the threshold.
pub fn replay(
    list: &[u8],
    pages: usize,
    frames: usize,
    distances: &[u32],
    threshold: u32,
    answer: &mut [u32],
) -> u32 {
    // SAFETY: each pointer goes with the length of its own slice. List and distances are only read, and so may overlap;
    // the answer is lent alone.
    unsafe {
        yard_replay(
            list.as_ptr(),
            list.len(),
            pages,
            frames,
            distances.as_ptr(),
            distances.len(),
            threshold,
            answer.as_mut_ptr(),
            answer.len(),
        )
    }
}
