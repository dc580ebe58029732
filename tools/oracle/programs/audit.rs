//! `audit`: reads a text of `propose` and writes every point that was drawn for a new trial with a
//! model, with its expected improvement, by the Rust.

use fastrand::Rng;
use history::History;
use leaf_lines::float_to_word;
use optimizer::leaves::{Model, expected_improvement};
use propose_text::{Call, answer_call, output};
use std::io::{self, Read, Write};

const NAMES: &str = "trial index improvement stored point";

/// Makes the call. A line for each point where it makes a new trial with a model.
fn call_lines(call: &Call) -> Vec<Vec<u64>> {
    let may_be_new = call.sampler.is_active() && !call.sampler.has_place(call.trial);
    let word = call.sampler.generator_word();
    answer_call(call);
    if !may_be_new || !call.sampler.has_place(call.trial) {
        return vec![];
    }
    model(call).map_or(vec![], |model| point_lines(call, &model, word))
}

fn model(call: &Call) -> Option<Model> {
    let history = History::read(call.slots, call.history).ok()?;
    call.sampler.model(&history.trials())
}

/// The points drawn from this word on; the stored one is the first that equals what the Rust's search finds.
fn point_lines(call: &Call, model: &Model, word: u64) -> Vec<Vec<u64>> {
    let candidates = call.sampler.candidate_count();
    let columns = model.lengthscales().len();
    let best = model.optimize_acquisition(columns, candidates, &mut Rng::with_seed(word));
    assert!(call.sampler.stores(call.trial, &best), "the point found is not the one stored");
    let points = points(columns, candidates, &mut Rng::with_seed(word));
    let stored = points.iter().position(|point| *point == best);
    let heads = (0..).map(|index| [call.trial, index as u64, u64::from(stored == Some(index))]);
    heads.zip(&points).map(|(head, point)| point_line(head, model, point)).collect()
}

fn points(columns: usize, candidates: usize, rng: &mut Rng) -> Vec<Vec<f64>> {
    (0..candidates).map(|_| (0..columns).map(|_| rng.f64()).collect()).collect()
}

fn point_line([trial, index, stored]: [u64; 3], model: &Model, point: &[f64]) -> Vec<u64> {
    let (mean, std) = model.predict(point);
    let improvement = expected_improvement(mean, std, model.best());
    let head = [trial, index, float_to_word(improvement), stored];
    head.into_iter().chain(point.iter().copied().map(float_to_word)).collect()
}

fn main() -> io::Result<()> {
    let mut text = vec![];
    io::stdin().read_to_end(&mut text)?;
    io::stdout().write_all(&output(&text, NAMES, call_lines))
}
