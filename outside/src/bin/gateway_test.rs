//! Every answer of libgateway.a against the model.

use outside::daemon_cases::{comparisons, lookups};
use outside::gateway;
use outside::random::Random;
use outside::report::Cases;

fn main() {
    let mut cases = Cases::new("gateway_test", 600);
    let wanted = Cases::wanted(32_000);
    let mut random = Random::new(20);
    lookups(&mut cases, wanted / 2, &mut random, &gateway::lookup);
    comparisons(&mut cases, wanted / 2, &mut random, &gateway::compare);
    cases.done("the archive answers as the model does");
}
