//! `yard make`: the image of a text.

use crate::arguments::Given;
use crate::{files, map_text, Ended, Failure, Status, Streams};

pub fn run(given: Given, streams: &mut Streams) -> Ended {
    let output = given.output.as_deref().ok_or_else(|| Failure::Usage("-o MAP is missing".to_string()))?;
    let path = given.path(0);
    let text = files::read_text(path, streams)?;
    match map_text::image(&text) {
        Err(mistakes) => Ok(super::say_mistakes(path, &mistakes, streams)),
        Ok(image) => {
            files::write(output, &image, streams)?;
            Ok(Status::Good)
        }
    }
}
