//! The closure is as strong as it is known to be. The gate runs these tests before the others, of
//! which some would hardly end with a weaker closure.

use rubblewaltz_host::baseline::Bar;
use rubblewaltz_host::files;
use rubblewaltz_host::strength::{archive_closed, baseline_closed, strength};
use rubblewaltz_host::Network;

fn assert_strong(name: &str, close: fn(&Network) -> (u32, Vec<Bar>)) {
    for known in files::answers() {
        let rows = files::network(&known.name);
        let network = rows.network();
        let strength = strength(&network, &close(&network));
        assert_eq!(strength, known.strength, "{name}: {}", known.name);
    }
}

#[test]
fn archive() {
    assert_strong("archive", archive_closed);
}

#[test]
fn baseline() {
    assert_strong("baseline", baseline_closed);
}

/// Also where their numbers would not tell them apart.
#[test]
fn same_arcs() {
    for name in files::names() {
        let rows = files::network(&name);
        let network = rows.network();
        assert!(
            archive_closed(&network) == baseline_closed(&network),
            "{name}"
        );
    }
}
