//! Document 01's largest frame.

use compare::calls::Call;
use compare::host::Host;
use compare::model::{Model, Outcome};
use compare::{largest_frame, seeds};

/// 16 updates of 531 records each; one record more is a 17th update.
#[test]
#[cfg_attr(no_sources, ignore = "Rust sources not at hand")]
fn the_longest_metadata() {
    for seed in seeds!(0..20) {
        let (mut host, mut model) = (Host::new(1_536), Model::new());
        let mut call = Call::from(&largest_frame(seed));
        assert_eq!(call.meta.len(), 40 * 8_496);
        let outcome = host.push(&mut model, &call, "the most");
        assert!(matches!(outcome, Outcome::Ready(..)), "{outcome:?}");
        let differs = model.difference(&host.state);
        assert_eq!(differs, None);
        call.meta.extend([1; 1]);
        call.meta.extend([0; 39]);
        let outcome = host.push(&mut model, &call, "one more");
        assert_eq!(outcome, Outcome::Refused([5, 0, 0]));
    }
}
