//! How long clients wait for their replies: a histogram of fixed buckets for each operation, of all requests and of the
//! last minute's.

use std::collections::VecDeque;
use std::time::{Duration, Instant};

use serde_json::{Map, Value};

use crate::counts::operation;

/// The upper bounds of the buckets in seconds. One more bucket has all above.
const BOUNDS: [f64; 21] = [
    1e-5, 2e-5, 5e-5, 1e-4, 2e-4, 5e-4, 1e-3, 2e-3, 5e-3, 0.01, 0.02, 0.05, 0.1, 0.2, 0.5, 1.0, 2.0, 5.0, 10.0, 20.0,
    50.0,
];

/// The last minute: the span that goes on, and so many before it.
const SPANS: usize = 6;
const SPAN: Duration = Duration::from_secs(10);

type Counts = [u64; BOUNDS.len() + 1];

/// The times of one operation's requests. `ends` has the counts at the ends of the last spans, each with the greatest
/// time of its span; with the oldest the last minute begins.
struct Histogram {
    counts: Counts,
    sum: f64,
    greatest: f64,
    ends: VecDeque<(Counts, f64)>,
}

impl Histogram {
    fn new() -> Histogram {
        let counts = Counts::default();
        Histogram { counts, sum: 0.0, greatest: 0.0, ends: VecDeque::from([(counts, 0.0)]) }
    }

    fn end_span(&mut self) {
        self.ends.push_back((self.counts, std::mem::take(&mut self.greatest)));
        if self.ends.len() > SPANS + 1 {
            self.ends.pop_front();
        }
    }

    /// The last minute's requests: how many there were, the times within which half of them and 99 of 100 were
    /// answered, and the greatest time. None if there were none.
    fn lately(&self) -> Option<Value> {
        let before = self.ends[0].0;
        let counts: Vec<u64> = self.counts.iter().zip(before).map(|(now, then)| now - then).collect();
        let greatest = self.ends.iter().skip(1).map(|end| end.1).fold(self.greatest, f64::max);
        let count: u64 = counts.iter().sum();
        let told = |part| rounded(quantile(&counts, part * count as f64, greatest));
        (count > 0).then(
            || serde_json::json!({"count": count, "p50": told(0.5), "p99": told(0.99), "greatest": rounded(greatest)}),
        )
    }

    /// All requests: how many took no longer than each bound, and the sum of their times.
    fn buckets(&self) -> Value {
        let mut total = 0;
        let mut told = Map::new();
        for (place, count) in self.counts.iter().enumerate() {
            total += count;
            let bound = BOUNDS.get(place).map_or("+Inf".into(), |bound| format!("{bound:?}"));
            told.insert(bound, total.into());
        }
        told.insert("sum".into(), rounded(self.sum).into());
        Value::Object(told)
    }
}

/// The time within which so many requests were answered, as if they lay evenly in each bucket.
fn quantile(counts: &[u64], mut wanted: f64, greatest: f64) -> f64 {
    for (place, &count) in counts.iter().enumerate() {
        if count > 0 && count as f64 >= wanted {
            let low = if place > 0 { BOUNDS[place - 1] } else { 0.0 };
            let high = BOUNDS.get(place).copied().unwrap_or(greatest);
            return (low + (high - low) * wanted / count as f64).min(greatest);
        }
        wanted -= count as f64;
    }
    0.0
}

/// Seconds with six digits behind the point.
fn rounded(seconds: f64) -> f64 {
    (seconds * 1e6).round() / 1e6
}

/// The histograms of all operations.
pub struct Latencies {
    by_code: Vec<Histogram>,
    due: Instant,
}

impl Latencies {
    pub fn new(now: Instant) -> Latencies {
        Latencies { by_code: (0..256).map(|_| Histogram::new()).collect(), due: now + SPAN }
    }

    /// Ends the spans that have passed.
    pub fn look(&mut self, now: Instant) {
        if now < self.due {
            return;
        }
        let passed = 1 + ((now - self.due).as_secs() / SPAN.as_secs()) as usize;
        for histogram in &mut self.by_code {
            for _ in 0..passed.min(SPANS + 1) {
                histogram.end_span();
            }
        }
        self.due = now + SPAN;
    }

    /// Counts a request of an operation that took so long.
    pub fn note(&mut self, code: u8, time: Duration) {
        // All that is no operation is counted as one
        let code = if operation(code).is_some() { code } else { 0 };
        let (histogram, seconds) = (&mut self.by_code[code as usize], time.as_secs_f64());
        histogram.counts[BOUNDS.partition_point(|bound| *bound < seconds)] += 1;
        histogram.sum += seconds;
        histogram.greatest = histogram.greatest.max(seconds);
    }

    /// The last minute's times by operation, of those that were asked for in it.
    pub fn lately(&self) -> Value {
        self.told(Histogram::lately)
    }

    /// All times by operation, of those that were ever asked for.
    pub fn buckets(&self) -> Value {
        self.told(|histogram| histogram.counts.iter().any(|count| *count > 0).then(|| histogram.buckets()))
    }

    fn told(&self, by: impl Fn(&Histogram) -> Option<Value>) -> Value {
        let named = |(code, histogram)| Some((operation(code).unwrap_or("other").to_string(), by(histogram)?));
        (0..=255).zip(&self.by_code).filter_map(named).collect()
    }
}

#[cfg(test)]
mod tests {
    use super::*;

    fn histogram(times: &[(f64, u64)]) -> Histogram {
        let mut found = Histogram::new();
        for &(seconds, count) in times {
            found.counts[BOUNDS.partition_point(|bound| *bound < seconds)] += count;
            found.greatest = found.greatest.max(seconds);
        }
        found
    }

    #[test]
    fn times_of_the_last_minute() {
        for (times, half, most, greatest) in [
            (&[(0.003, 1)][..], 0.003, 0.003, 0.003),
            (&[(0.0015, 2), (0.003, 2)], 0.002, 0.003, 0.003),
            (&[(0.0015, 99), (7.0, 1)], 0.001505, 0.002, 7.0),
            (&[(0.0015, 98), (70.0, 2)], 0.00151, 60.0, 70.0),
        ] {
            let told = histogram(times).lately().unwrap();
            let near = |name: &str, seconds: f64| (told[name].as_f64().unwrap() - seconds).abs() < 1e-5;
            assert!(near("p50", half) && near("p99", most) && near("greatest", greatest), "{told}");
        }
    }

    /// The last minute has six spans and the one that goes on.
    #[test]
    fn what_is_older_is_forgotten() {
        let mut found = histogram(&[(3.0, 1)]);
        for _ in 0..SPANS {
            assert_eq!(found.lately().unwrap()["greatest"], 3.0);
            found.end_span();
        }
        assert_eq!(found.lately().unwrap()["count"], 1);
        found.end_span();
        assert!(found.lately().is_none());
        assert_eq!(found.buckets()["5.0"], 1);
    }
}
