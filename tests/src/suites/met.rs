//! How often situations were met on the areas of each origin.

use crate::counts::Counts;
use crate::report::Report;
use crate::trials::origins::{Origin, ORIGINS};

/// Prints how often each situation was met on the areas on which it is to be seen, and counts a test
/// for each.
pub fn report_met<S: 'static>(
    report: &mut Report,
    (title, least): (&str, usize),
    situations: impl Iterator<Item = &'static (&'static str, &'static [Origin], S)> + Clone,
    met: &[Counts<&'static str>; 3],
) {
    for &(name, origin) in ORIGINS {
        let seen = situations
            .clone()
            .filter(|situation| situation.1.contains(&origin));
        let names: Vec<&str> = seen.map(|situation| situation.0).collect();
        let counts = met[origin as usize].of(&names);
        report.counts(&format!("{} on {}", title, name), least, &counts);
    }
}
