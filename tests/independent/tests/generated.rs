//! The generator's runs reach every outcome, and what a run leaves alone stays as it was.

use std::collections::BTreeMap;

use independent::generator::{self, random::Random};
use independent::run;

const RUNS: u64 = 4_000;

#[test]
fn every_outcome_is_reached() {
    let mut outcomes = BTreeMap::<u32, u64>::new();
    let mut buffer = vec![0xa5; 100_000];
    for index in 0..RUNS {
        let case = generator::case(&mut Random::of_run(5, index));
        let outcome = match run(&case.input, &mut buffer) {
            Ok(length) => {
                buffer[..length].fill(0xa5);
                0
            }
            Err(refused) => refused.number,
        };
        *outcomes.entry(outcome).or_default() += 1;
        assert!(buffer.iter().all(|byte| *byte == 0xa5));
    }
    assert!(outcomes[&0] >= RUNS / 3, "{outcomes:?}");
    for number in (1..=12).chain([14]) {
        assert!(
            outcomes.get(&number).is_some_and(|times| *times >= 10),
            "{number}: {outcomes:?}"
        );
    }
}

#[test]
fn a_run_is_made_again_alone() {
    for index in [0, 1, 17, 99] {
        let [one, other] = [(); 2].map(|()| generator::case(&mut Random::of_run(5, index)));
        assert!(one.input == other.input && one.room == other.room);
    }
}

#[test]
fn a_shorter_buffer_is_refused_and_kept() {
    let mut refused = 0;
    for index in 0..300 {
        let case = generator::case(&mut Random::of_run(6, index));
        let mut statement = vec![0; 100_000];
        let Ok(length) = run(&case.input, &mut statement) else {
            continue;
        };
        for room in [0, 1, length / 2, length - 1] {
            let mut buffer = vec![0xa5; room];
            assert_eq!(run(&case.input, &mut buffer).unwrap_err().number, 14);
            assert!(buffer.iter().all(|byte| *byte == 0xa5));
        }
        let mut buffer = vec![0xa5; length];
        assert_eq!(run(&case.input, &mut buffer), Ok(length));
        assert_eq!(buffer, statement[..length]);
        refused += 1;
    }
    assert!(refused > 100);
}
