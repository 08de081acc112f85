//! A small dosing sequence in Rust: a sibling is refused what the other writes, and gets it once the other has committed. A rinse that is aborted goes on
//! turning the analyzer, which nobody gets until it is quiet. `examples/run` builds and runs it.

use dikothelm::{Answer, Bench, Refusal, State};

const CHECK: u32 = 1;
const SETUP: u32 = 2;
const SAMPLER: u32 = 3;
const RINSE: u32 = 4;
const ANALYZER: u32 = 5;

fn say(what: &str, result: Result<(), Refusal>) {
    let answer = Answer::from(result);
    println!("{what}: {}, {answer}", answer.number());
}

fn say_writer(bench: &Bench) {
    let owners = bench.write_owners(ANALYZER);
    if owners.is_empty() {
        println!("  the analyzer is written by nobody");
    }
    for owner in owners {
        let drains = bench.state(owner) == Some(State::Draining);
        println!("  the analyzer is written by action {owner}{}", if drains { ", which drains" } else { "" });
    }
}

fn main() {
    let mut bench = Bench::new();
    say("the check opens as a top action", bench.open_top(CHECK));
    say("the pump setup opens under it", bench.open_sub(SETUP, CHECK));
    say("the sampler opens beside the setup", bench.open_sub(SAMPLER, CHECK));
    say("the setup writes the analyzer", bench.write(SETUP, ANALYZER));
    say_writer(&bench);
    say("the sampler reads the analyzer", bench.read(SAMPLER, ANALYZER));
    say("the setup commits", bench.commit(SETUP));
    say_writer(&bench);
    say("the sampler reads the analyzer", bench.read(SAMPLER, ANALYZER));
    say("the check commits", bench.commit(CHECK));
    say("the sampler commits", bench.commit(SAMPLER));
    say("the check commits", bench.commit(CHECK));
    say_writer(&bench);
    say("a rinse opens as a top action", bench.open_top(RINSE));
    say("the rinse writes the analyzer", bench.write(RINSE, ANALYZER));
    say("the rinse is aborted", bench.abort(RINSE));
    say_writer(&bench);
    say("the check opens again", bench.open_top(CHECK));
    say("the check reads the analyzer", bench.read(CHECK, ANALYZER));
    say("the analyzer is quiet for the rinse", bench.quiet(RINSE, ANALYZER));
    say_writer(&bench);
    say("the check reads the analyzer", bench.read(CHECK, ANALYZER));
    say("the check commits", bench.commit(CHECK));
}
