//! Median and quartiles of what was measured, ratios, and their geometric mean.

use std::fmt;

pub struct Spread {
    first: f64,
    pub median: f64,
    third: f64,
}

impl Spread {
    pub fn new(values: &[f64]) -> Self {
        let mut values = values.to_vec();
        values.sort_by(f64::total_cmp);
        let at = |quarters: usize| values[(values.len() - 1) * quarters / 4];
        Spread { first: at(1), median: at(2), third: at(3) }
    }

    /// Of `ours` over `theirs`, round by round, so that both sides of a ratio were measured together.
    pub fn of_ratios(ours: &[f64], theirs: &[f64]) -> Self {
        let ratios: Vec<f64> = ours.iter().zip(theirs).map(|(ours, theirs)| ours / theirs).collect();
        Spread::new(&ratios)
    }

    /// Of the medians of several maps: the geometric mean, and in the places of the quartiles the least and greatest.
    pub fn over_maps(medians: &[f64]) -> Self {
        let logarithms: f64 = medians.iter().map(|median| median.ln()).sum();
        let [first, third] =
            [f64::min, f64::max].map(|of| medians.iter().copied().reduce(of).expect("a map at least"));
        Spread { first, median: (logarithms / medians.len() as f64).exp(), third }
    }
}

impl fmt::Display for Spread {
    fn fmt(&self, out: &mut fmt::Formatter) -> fmt::Result {
        let places = out.precision().unwrap_or(2);
        let Spread { first, median, third } = self;
        write!(out, "{median:.places$} ({first:.places$} to {third:.places$})")
    }
}
