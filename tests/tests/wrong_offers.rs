//! The wrong versions of offer and commit against the generated scripts and machines, by
//! the simulated machine alone: each is told by those that can tell it, and the right
//! version by none.

use edzl_tests::probe::Probe;
use edzl_tests::probes::group;
use edzl_tests::script::Script;
use edzl_tests::scripts::script;
use edzl_tests::settings;
use edzl_tests::wrong_offers::{Told, Version, WRONG};

// Far fewer than are compared with the programs.
const SCRIPTS: u64 = 300;
const GROUPS: u64 = 40;

// Of these so many must tell each version.
const LEAST: usize = 3;

fn seed() -> u64 {
    settings::number("SEED", settings::SEED)
}

#[test]
fn versions_told_by_scripts() {
    let scripts: Vec<Script> = (0..SCRIPTS).map(|index| script(seed(), index)).collect();
    let telling = |version: Version| scripts.iter().filter(move |one| version.differs_on(one));
    assert_eq!(telling(Version::Right).count(), 0);
    for (name, version, told) in WRONG {
        let scripts = telling(version).count();
        match told {
            Told::ByBoth => assert!(scripts >= LEAST, "{name}: {scripts}"),
            Told::ByMachinesAlone => assert_eq!(scripts, 0, "{name}"),
        }
    }
}

#[test]
fn versions_told_by_machines() {
    let probes: Vec<Probe> = (0..GROUPS).flat_map(|index| group(seed(), index)).collect();
    let differs = |version: Version, probe: &Probe| version.play(probe) != probe.play();
    let telling = |version: Version| probes.iter().filter(move |one| differs(version, one));
    assert_eq!(telling(Version::Right).count(), 0);
    for (name, version, _) in WRONG {
        let probes = telling(version).count();
        assert!(probes >= LEAST, "{name}: {probes}");
    }
}
