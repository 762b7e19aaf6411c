//! Which stops of the judge are explained: those whose name stands in backquotes in the page on
//! differences.

use crate::counting::Counts;
use crate::report::escaped;
use std::path::{Path, PathBuf};

pub const PAGE: &str = "docs/DIFFERENCES.md";

/// What the oracle says of a stop that it has no name for.
const UNEXPLAINED: &str = "unexplained";

/// The page named by an option, or the one found in this folder or a folder above it.
pub fn find_page(named: Option<&Path>) -> Result<Option<PathBuf>, String> {
    if let Some(page) = named {
        return if page.is_file() {
            Ok(Some(page.to_path_buf()))
        } else {
            Err(format!("no file {}", page.display()))
        };
    }
    let here = std::env::current_dir().map_err(|error| format!("no current folder: {error}"))?;
    Ok(here
        .ancestors()
        .map(|folder| folder.join(PAGE))
        .find(|page| page.is_file()))
}

/// A complaint for each stop that the page does not explain.
pub fn unexplained(counts: &Counts, page: Option<&str>) -> Vec<String> {
    let explained = |name: &str| {
        name != UNEXPLAINED && page.is_some_and(|text| text.contains(&format!("`{name}`")))
    };
    let stops = counts.stops.iter().filter(|(name, _)| !explained(name));
    let complaint = |(name, stop): (&String, &crate::counting::Stop)| {
        format!(
            "the stop {name} is not explained; first met in session {} at: {}",
            stop.session,
            escaped(&stop.line)
        )
    };
    stops.map(complaint).collect()
}

#[cfg(test)]
mod tests {
    use super::*;
    use crate::commands::Mode;

    fn counts_with(stop: &str) -> Counts {
        let mut counts = Counts::default();
        counts.add_answers(
            Mode::Trailscript,
            "small 3",
            b"ask\t1\tge\t1\n",
            format!("1\tstopped\t{stop}\n").as_bytes(),
        );
        counts
    }

    #[test]
    fn a_name_must_stand_in_backquotes() {
        let counts = counts_with("step-past-the-end");
        assert!(unexplained(&counts, Some("see `step-past-the-end` below")).is_empty());
        let complaints = unexplained(&counts, Some("see step-past-the-end below"));
        assert!(
            complaints[0].contains("small 3") && complaints[0].contains("ask\\t1"),
            "{complaints:?}"
        );
        assert_eq!(unexplained(&counts, None).len(), 1);
        assert!(unexplained(&Counts::default(), None).is_empty());
    }

    #[test]
    fn no_page_can_explain_the_unexplained() {
        assert_eq!(
            unexplained(&counts_with(UNEXPLAINED), Some("`unexplained`")).len(),
            1
        );
    }
}
