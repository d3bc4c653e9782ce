//! The line that tells of a phase.
use std::time::Duration;

/// Writes a line on standard error: what was timed, its phase, how many operations that had, its time, the time of one
/// operation, and the sum of what they answered.
pub fn report(subject: &str, phase: &str, time: Duration, operations: u64, sum: u64) {
    let nanos = time.as_nanos();
    let each = nanos / u128::from(operations.max(1));
    let micros = nanos / 1000;
    let (millis, rest) = (micros / 1000, micros % 1000);
    eprintln!(
        "{subject:<6} {phase:<8} {operations:>8} in {millis:>6}.{rest:03} ms, {each:>6} ns each, sum {sum}"
    );
}
