use super::*;
use crate::{deciding, generate, policy, trial};

#[test]
fn the_conditions_of_every_case_decide_as_its_policy_does() {
    let mut rows = 0;
    for case in generate::all_cases() {
        let Ok((policy, readings)) = trial::check(&case.policy, &case.readings) else {
            continue;
        };
        let conditions = Conditions::of_policy(&policy);
        for judgement in deciding::judgements(&policy, &readings) {
            let judgement = judgement.looked_up();
            let decision = judgement.response().decision;
            let mut scratch = conditions.scratch();
            let passed = conditions.pass(judgement.readings(), &mut scratch);
            assert_eq!(passed, Some(decision));
            assert_eq!(conditions.marked(&scratch), [decision]);
            rows += 1;
        }
    }
    assert!(rows > 1000, "{rows}");
}

/// How many lines there are for a policy with so many rounds of sample lines.
#[test]
fn sizes_of_samples() {
    let lines = |rounds| {
        let policy = policy::parse(&generate::decision_policy(rounds)).unwrap();
        Conditions::of_policy(&policy).lines.len()
    };
    assert_eq!([lines(1), lines(4), lines(16)], [34, 157, 649]);
}
