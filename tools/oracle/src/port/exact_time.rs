//! Document 01's time differences are exact whole numbers; the published ones overflow. Where one would, the times that the
//! builder subtracts are moved towards the snapshot's, to the nearest whose difference fits, and put back after the update.
//! A moved difference lies at an end of 64 bits and so on the same side of the tolerance as the exact one.

use super::reply::Built;
use crate::case::Update;
use crate::published::apply::{apply, call};
use crate::published::number::{Refusal, attempt};
use crate::spec::table_metadata_builder::TableMetadataBuilder;

/// The time that `update` brings, if the builder will subtract one from it that is too far away.
pub fn far_time(builder: &TableMetadataBuilder, update: &Update) -> Option<i64> {
    let time = update.added()?.timestamp_ms;
    let held = builder.held();
    let log_end = held.snapshot_log.last().map(|entry| entry.timestamp_ms);
    let far = |last: i64| near(time, last) != last;
    let times = [
        log_end,
        builder.own_last_updated_ms(),
        Some(held.last_updated_ms),
    ];
    times.into_iter().flatten().any(far).then_some(time)
}

/// The time nearest to `last` whose difference from `time` fits.
fn near(time: i64, last: i64) -> i64 {
    let away = |difference: i64| i128::from(time) - i128::from(difference);
    let near = i128::from(last).clamp(away(i64::MAX), away(i64::MIN));
    i64::try_from(near).expect("it lies between two times")
}

/// Applies an update that brings `time`, with the times near it.
pub fn apply_near(mut builder: TableMetadataBuilder, update: &Update, time: i64) -> Built {
    let (metadata, own) = builder.steered();
    let log_end = metadata.snapshot_log.len().checked_sub(1);
    let log_time = log_end.map(|end| metadata.snapshot_log[end].timestamp_ms);
    let last_updated_ms = metadata.last_updated_ms;

    *own = own.map(|own| near(time, own));
    metadata.last_updated_ms = near(time, last_updated_ms);
    if let (Some(end), Some(last)) = (log_end, log_time) {
        metadata.snapshot_log[end].timestamp_ms = near(time, last);
    }
    let mut builder = match attempt(|| apply(builder, call(update))) {
        Ok(builder) => builder,
        Err(Refusal::Number(number)) => return Err(number),
        Err(_) => unreachable!("every difference fits, and it adds no schema, order or spec"),
    };

    // The run's own last update is now the snapshot's time.
    let (metadata, _) = builder.steered();
    metadata.last_updated_ms = last_updated_ms;
    if let (Some(end), Some(last)) = (log_end, log_time) {
        metadata.snapshot_log[end].timestamp_ms = last;
    }
    Ok(builder)
}
