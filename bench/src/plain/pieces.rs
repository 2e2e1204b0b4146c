//! The reader of a sheet text that arrives in pieces: the machine of the reader, each row put into the lent list when it is whole.

use super::reader::Place;
use super::sheet::PLACES;
use gaskeys::raw::{PieceTold, SheetReading};

const NONE: SheetReading =
    SheetReading { stage: 0, row: 0, field: 0, seen: 0, value: 0, first: 0, second: 0 };

pub fn open() -> SheetReading {
    NONE
}

/// 1, 2 with the first bad row.
pub fn read(reading: SheetReading, piece: &[u8], list: &mut [u32]) -> PieceTold {
    if list.len() != PLACES {
        return PieceTold { refusal: 1, row: 0, placed: 0, more: 0, reading };
    }
    match reading.stage {
        0 => go_on(place_of(reading), piece, list),
        2 => accepted(),
        _ => refused(reading.row),
    }
}

/// 1, 2 with the row at which the text ends too soon.
pub fn close(reading: SheetReading, list: &[u32]) -> PieceTold {
    if list.len() != PLACES {
        return PieceTold { refusal: 1, row: 0, placed: 0, more: 0, reading };
    }
    match (reading.stage, reading.row) {
        (0, 1801) | (2, _) => accepted(),
        (_, row) => refused(row),
    }
}

fn go_on(mut place: Place, piece: &[u8], list: &mut [u32]) -> PieceTold {
    for byte in piece {
        place.store(*byte, list);
        if !place.step(*byte) {
            return refused(place.row);
        }
    }
    PieceTold { refusal: 0, row: 0, placed: 0, more: 1, reading: reading_of(&place) }
}

fn accepted() -> PieceTold {
    let reading = SheetReading { stage: 2, ..NONE };
    PieceTold { refusal: 0, row: 0, placed: 0, more: 0, reading }
}

fn refused(row: u32) -> PieceTold {
    let reading = SheetReading { stage: 1, row, ..NONE };
    PieceTold { refusal: 2, row, placed: 1, more: 0, reading }
}

fn place_of(reading: SheetReading) -> Place {
    let SheetReading { row, field, seen, value, first, second, .. } = reading;
    Place { row, field: field.min(3) as u8, value, seen: seen != 0, first, second }
}

fn reading_of(place: &Place) -> SheetReading {
    let Place { row, field, value, seen, first, second } = *place;
    SheetReading { stage: 0, row, field: field as u32, seen: seen as u32, value, first, second }
}
