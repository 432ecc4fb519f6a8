//! How often the cases of a generator reach each thing that they should, for its tests.
use std::collections::BTreeMap;

/// How often each thing is reached, by its name.
pub type Times = BTreeMap<String, usize>;

pub fn note(times: &mut Times, what: impl Into<String>, reached: bool) {
    *times.entry(what.into()).or_insert(0) += usize::from(reached);
}

/// Asserts that there are so many things, and that each is reached five times or more.
pub fn assert_reached(what: &str, times: &Times, names: usize) {
    assert_eq!(times.len(), names);
    for (name, times) in times {
        println!("{what}, {name}: {times}");
        assert!(*times >= 5, "{what}, {name}: {times}");
    }
}
