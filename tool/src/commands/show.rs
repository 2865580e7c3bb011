//! `yard show`: a map as text, in its normal form.

use super::say_refused;
use crate::arguments::Given;
use crate::image::Image;
use crate::refused::Account;
use crate::{engine, files, map_text, Ended, Status, Streams};

pub fn run(given: Given, streams: &mut Streams) -> Ended {
    let path = given.path(0);
    let bytes = files::read_map(path, streams)?;
    match engine::records(&bytes) {
        Err(refusal) => Ok(say_refused(path, &Account::of_image(&bytes, refusal), streams)),
        Ok(records) => {
            streams.output.write_all(map_text::normal(Image::new(&bytes), &records).as_bytes())?;
            Ok(Status::Good)
        }
    }
}
