//! Windowed keys: a reading belongs to the calibration in force on its day.

mod days;
mod keys;
mod moves;

use super::searches::{delete_where, update_where};
use super::*;
use crate::schema_bytes::build::*;
use crate::schema_bytes::records::Key;
use crate::sqlite::names;

pub fn cases() -> Vec<Case> {
    vec![
        days::days_of_a_window(),
        days::shared_days(),
        days::empty_windows(),
        days::null_in_a_window(),
        days::unique_before_24(),
        moves::restrict_keeps_its_readings(),
        moves::restrict_upon_a_deletion(),
        moves::shortened_under_no_action(),
        moves::shortened_under_a_deferred_key(),
        moves::day_given_to_the_next(),
        moves::lengthened_over_an_orphan(),
        moves::moved_under_another_sensor(),
        days::days_with_sign(),
        days::days_are_not_folded(),
        moves::first_day_respelled(),
        days::names_are_folded(),
        keys::match_full_and_the_day(),
        keys::four_columns(),
        keys::row_of_its_own_window(),
        keys::two_windows_of_a_row(),
        moves::twins_by_damage(),
        days::empty_by_damage(),
        moves::changed_again(),
        moves::handed_down(),
        moves::given_by_an_action(),
        moves::found_by_day(),
        keys::end_missing(),
        keys::end_in_the_key(),
        moves::undone(),
    ]
}

/// The key of readings in table 1, (sensor, day), to calibrations in table 0, (sensor, first day).
fn in_force(on_delete: u8, on_update: u8) -> Key {
    windowed(key((1, &[0, 1]), (0, &[0, 1]), on_delete, on_update))
}

/// Calibrations in table 0: sensor, first day, end, and a column in no key. Readings in table 1: sensor
/// and day. J = 16.
fn readings(keys: Vec<Key>) -> Records {
    Records::new(16, vec![table(4, 4, &[3]), table(4, 2, &[])], keys)
}

/// The same under an immediate key alone.
fn under_immediate(on_delete: u8, on_update: u8) -> Records {
    readings(vec![in_force(on_delete, on_update)])
}

/// The same under a deferred key alone.
fn under_deferred(on_delete: u8, on_update: u8) -> Records {
    readings(vec![deferred(in_force(on_delete, on_update))])
}

/// The same with these columns of calibrations folded, as bits.
fn with_folded(mut schema: Records, columns: u8) -> Records {
    schema.tables[0].folded = columns;
    schema
}

/// A sensor's name or a day as the number that has these bytes: the days "A" to "z" are 65 to 122.
fn word(text: &str) -> i64 {
    names::word(text.as_bytes())
}

/// A calibration of a sensor from a day until before another.
fn calibration(sensor: i64, first: i64, end: i64) -> [Value; 4] {
    [sensor, first, end, 0].map(Some)
}

/// A calibration of sensor 7 from a day on, with NULL in its end.
fn without_end(first: i64) -> [Value; 4] {
    [Some(7), Some(first), None, Some(0)]
}

/// A reading of a sensor on a day.
fn reading(sensor: i64, day: i64) -> [Value; 2] {
    [sensor, day].map(Some)
}

/// Enters a calibration of sensor 7.
fn calibrate(row: usize, first: i64, end: i64) -> Step {
    insert(0, row, &calibration(7, first, end))
}

/// Makes a calibration one of sensor 7 with these days.
fn recalibrate(row: usize, first: i64, end: i64) -> Step {
    update(0, row, &calibration(7, first, end))
}

/// Enters a reading of sensor 7.
fn read(row: usize, day: i64) -> Step {
    insert(1, row, &reading(7, day))
}
