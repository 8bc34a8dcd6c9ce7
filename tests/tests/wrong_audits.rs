//! The wrong versions of the audit against the generated inputs, by the simulated audit
//! alone: each gives another line for some of them, and the right version for none.

use edzl_tests::audit::{Audit, audit};
use edzl_tests::audit_inputs::case;
use edzl_tests::settings;
use edzl_tests::wrong_audits::{Version, WRONG};

// No more than are compared with the program.
const INPUTS: u64 = 2_500;

// Of these so many must tell each version.
const LEAST: usize = 3;

#[test]
fn versions_told_by_inputs() {
    let seed = settings::number("SEED", settings::SEED);
    let inputs = (0..INPUTS).map(|index| case(seed, index).text);
    let inputs: Vec<(Vec<u8>, Audit)> = inputs
        .map(|text| {
            let answer = audit(&text);
            (text, answer)
        })
        .collect();
    let told = |version: Version| {
        let differs = |(text, answer): &&(Vec<u8>, Audit)| version.audit(text) != *answer;
        inputs.iter().filter(differs).count()
    };
    assert_eq!(told(Version::Right), 0);
    for (name, version) in WRONG {
        let inputs = told(version);
        assert!(inputs >= LEAST, "{name}: {inputs}");
    }
}
