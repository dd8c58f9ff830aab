//! Medians and their spread.

#[derive(Clone, Copy, Debug)]
pub struct Spread {
    /// A tenth of the samples lies below it.
    pub low: f64,
    pub median: f64,
    /// A tenth of the samples lies above it.
    pub high: f64,
}

pub fn spread(mut samples: Vec<f64>) -> Spread {
    samples.sort_by(f64::total_cmp);
    let at = |share: f64| samples[((samples.len() - 1) as f64 * share).round() as usize];
    Spread { low: at(0.1), median: at(0.5), high: at(0.9) }
}
