//! How often strings of each kind stood at each place, so that a run that misses one can fail.

use std::fmt;

use super::{Break, Seen};

/// A string with each of these was to stand at each place often enough.
pub struct StringHits {
    places: &'static [&'static str],
    rows: Vec<(String, Vec<Count>)>,
}

struct Count {
    name: String,
    count: usize,
}

impl StringHits {
    pub fn at(places: &'static [&'static str]) -> StringHits {
        let lengths = ["1 byte", "2 bytes", "3 bytes", "4 bytes"].map(|length| format!("a character of {length}"));
        let breaks = Break::ALL.map(|kind| kind.name().to_string());
        let row = |what: String| {
            let counts = places.iter().map(|place| Count { name: format!("{place}: a string with {what}"), count: 0 });
            let counts = counts.collect();
            (what, counts)
        };
        StringHits { places, rows: lengths.into_iter().chain(breaks).map(row).collect() }
    }

    /// What the strings of one place hold, where only one kind of break or none can decide the answer.
    pub fn hit(&mut self, place: usize, seen: &Seen) {
        let (characters, breaks) = self.rows.split_at_mut(seen.characters.len());
        let (rows, seen) = match seen.breaks.iter().filter(|&&seen| seen).count() {
            0 => (characters, &seen.characters[..]),
            1 => (breaks, &seen.breaks[..]),
            _ => return,
        };
        rows.iter_mut().zip(seen).for_each(|((_, counts), &seen)| counts[place].count += usize::from(seen));
    }

    /// Names that were hit less often.
    pub fn below(&self, least: usize) -> impl Iterator<Item = &str> {
        let counts = self.rows.iter().flat_map(|(_, counts)| counts);
        counts.filter(move |count| count.count < least).map(|count| count.name.as_str())
    }
}

impl fmt::Display for StringHits {
    fn fmt(&self, f: &mut fmt::Formatter) -> fmt::Result {
        for place in self.places {
            write!(f, "{place:>8}  ")?;
        }
        writeln!(f, "of strings with")?;
        for (what, counts) in &self.rows {
            for (count, place) in counts.iter().zip(self.places) {
                write!(f, "{:width$}  ", count.count, width = place.len().max(8))?;
            }
            writeln!(f, "{what}")?;
        }
        Ok(())
    }
}

#[cfg(test)]
mod tests {
    use super::*;

    #[test]
    fn a_string_counts_at_its_place_unless_two_breaks_could_decide() {
        let mut hits = StringHits::at(&["constant", "outer message"]);
        hits.hit(0, &Seen::of("aé".as_bytes()));
        hits.hit(1, &Seen::of(b"a\xED\xA0\x80"));
        hits.hit(1, &Seen::of(b"\x80\xED\xA0\x80"));
        let shown = hits.to_string();
        let lines: Vec<&str> = shown.lines().collect();
        assert_eq!(lines.len(), 12, "{shown}");
        assert_eq!(lines[0], "constant  outer message  of strings with");
        assert_eq!(lines[1], "       1              0  a character of 1 byte");
        assert_eq!(lines[2], "       1              0  a character of 2 bytes");
        assert_eq!(lines[3], "       0              0  a character of 3 bytes");
        assert_eq!(lines[9], "       0              1  a surrogate");
        assert_eq!(hits.below(1).count(), 19);
        assert!(hits.below(1).any(|name| name == "constant: a string with a surrogate"));
        assert!(hits.below(1).all(|name| name != "outer message: a string with a surrogate"));
    }
}
