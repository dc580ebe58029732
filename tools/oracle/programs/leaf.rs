//! `leaf`: answers lines of leaf calls with the stand-ins of document 01 and the Rust.

use arithmetic::generator::{self, Draw};
use arithmetic::{OUT_OF_DOMAIN, Refusal, float};
use history::History;
use leaf_lines::{Answer, Leaf, answer_input, float_to_word, word_to_float};
use optimizer::distribution::Distribution;
use optimizer::leaves::{self, Model};
use optimizer::param::ParamValue;
use records::{DistributionWords, value_words};
use run::MAX_DIMENSIONS;
use training::{Training, floats, is_point, take};

/// The leaves by name. A new leaf is one more line here and a function of its words.
const LEAVES: &[(&str, Leaf)] = &[
    ("next", next),
    ("unit", unit),
    ("whole", whole),
    ("exp", |words| float_leaf(words, float::exp)),
    ("ln", |words| float_leaf(words, float::ln)),
    ("sqrt", |words| float_leaf(words, |x| Ok(float::sqrt(x)))),
    ("round", |words| float_leaf(words, |x| Ok(float::round(x)))),
    ("floor", |words| float_leaf(words, |x| Ok(float::floor(x)))),
    ("distribution", distribution),
    ("equal", equal),
    ("taken", taken),
    ("internal_bounds", internal_bounds),
    ("from_internal", from_internal),
    ("to_internal", to_internal),
    ("sample_random", sample_random),
    ("norm_pdf", |words| float_leaf(words, |x| Ok(leaves::norm_pdf(x)))),
    ("norm_cdf", |words| float_leaf(words, |x| Ok(leaves::norm_cdf(x)))),
    ("expected_improvement", |words| leaf_of_three(words, leaves::expected_improvement)),
    ("matern52", matern52),
    ("to_normalized", |words| leaf_of_three(words, leaves::to_normalized)),
    ("from_normalized", |words| leaf_of_three(words, leaves::from_normalized)),
    ("fit_gp", fit_gp),
    ("predict", predict),
    ("optimize_acquisition", optimize_acquisition),
    ("history", history),
    ("mapping", mapping),
    ("training", training),
    ("run", run::run),
];

fn next(words: &[u64]) -> Option<Answer> {
    let &[state] = words else { return None };
    Some(draw_answer(generator::word(state), |value| value))
}

fn unit(words: &[u64]) -> Option<Answer> {
    let &[state] = words else { return None };
    Some(draw_answer(generator::unit(state), float_to_word))
}

fn whole(words: &[u64]) -> Option<Answer> {
    let &[state, low, high] = words else {
        return None;
    };
    Some(draw_answer(generator::whole(state, low as i64, high as i64), |value| value as u64))
}

/// A leaf from one float to one float.
fn float_leaf(words: &[u64], f: fn(f64) -> Result<f64, Refusal>) -> Option<Answer> {
    let &[x] = words else { return None };
    Some(f(word_to_float(x)).map(|y| vec![float_to_word(y)]))
}

/// A leaf from three floats to one float.
fn leaf_of_three(words: &[u64], f: fn(f64, f64, f64) -> f64) -> Option<Answer> {
    let &[a, b, c] = words else { return None };
    let y = f(word_to_float(a), word_to_float(b), word_to_float(c));
    Some(Ok(vec![float_to_word(y)]))
}

/// A draw's value, the words drawn and the generator's next word.
fn draw_answer<T>(draw: Result<Draw<T>, Refusal>, word: fn(T) -> u64) -> Answer {
    draw.map(|draw| vec![word(draw.value), draw.drawn, draw.next])
}

/// Whether the six words are well-formed: the one leaf of a distribution that refuses none.
fn distribution(words: &[u64]) -> Option<Answer> {
    let d = words.try_into().ok()?;
    Some(Ok(truth(records::distribution(d).is_some())))
}

/// By the Rust's own `==`.
fn equal(words: &[u64]) -> Option<Answer> {
    let (first, second) = words.split_first_chunk()?;
    let (first, second) = (well_formed(first), well_formed(second.try_into().ok()?));
    Some(first.and_then(|first| Ok(truth(first == second?))))
}

/// The value is of the distribution's kind.
fn taken(words: &[u64]) -> Option<Answer> {
    let [d @ .., v]: &[u64; 7] = words.try_into().ok()?;
    let value = records::value(d[0], *v);
    Some(well_formed(d).map(|d| truth(value.is_some_and(|v| records::may_be_taken(&v, &d)))))
}

/// A choice has no bounds and so no words.
fn internal_bounds(words: &[u64]) -> Option<Answer> {
    let d = well_formed(words.try_into().ok()?);
    Some(d.map(|d| match leaves::internal_bounds(&d) {
        Some((low, high)) => vec![float_to_word(low), float_to_word(high)],
        None => vec![],
    }))
}

fn from_internal(words: &[u64]) -> Option<Answer> {
    let [x, d @ ..]: &[u64; 7] = words.try_into().ok()?;
    Some(well_formed(d).and_then(|d| decode(word_to_float(*x), &d)))
}

/// Takes what lies at most 1 outside the internal bounds.
fn decode(x: f64, d: &Distribution) -> Answer {
    let (low, high) = leaves::internal_bounds(d).ok_or(OUT_OF_DOMAIN)?;
    if !(low - 1.0..=high + 1.0).contains(&x) {
        return Err(OUT_OF_DOMAIN);
    }
    Ok(value_words(&leaves::from_internal(x, d)).to_vec())
}

fn to_internal(words: &[u64]) -> Option<Answer> {
    let [kind, v, d @ ..]: &[u64; 8] = words.try_into().ok()?;
    let value = records::value(*kind, *v).ok_or(OUT_OF_DOMAIN);
    Some(well_formed(d).and_then(|d| encode(&value?, &d)))
}

/// The Taken rule is asked where the value is used: not for a choice nor for a mismatched kind.
fn encode(value: &ParamValue, d: &Distribution) -> Answer {
    let used = matches!(
        (value, d),
        (ParamValue::Float(_), Distribution::Float(_)) | (ParamValue::Int(_), Distribution::Int(_))
    );
    if used && !records::may_be_taken(value, d) {
        return Err(OUT_OF_DOMAIN);
    }
    Ok(vec![float_to_word(leaves::to_internal(value, d))])
}

fn sample_random(words: &[u64]) -> Option<Answer> {
    let [state, d @ ..]: &[u64; 7] = words.try_into().ok()?;
    Some(well_formed(d).and_then(|d| draw_value(*state, &d)))
}

/// The value, the words drawn and the generator's next word.
fn draw_value(state: u64, d: &Distribution) -> Answer {
    if state == 0 {
        return Err(OUT_OF_DOMAIN);
    }
    let mut rng = fastrand::Rng::with_seed(state);
    let [kind, value] = value_words(&leaves::sample_random(&mut rng, d));
    Ok(vec![kind, value, rng.drawn(), rng.state()])
}

/// The number of coordinates, two points, the lengthscales and the signal variance.
fn matern52(words: &[u64]) -> Option<Answer> {
    let (&d, rest) = words.split_first()?;
    let (x1, rest) = take(rest, d)?;
    let (x2, rest) = take(rest, d)?;
    let (lengthscales, rest) = take(rest, d)?;
    let &[signal_var] = rest else { return None };
    let (x1, x2, lengthscales) = (floats(x1), floats(x2), floats(lengthscales));
    let k = leaves::matern52(&x1, &x2, &lengthscales, word_to_float(signal_var));
    Some(Ok(vec![float_to_word(k)]))
}

fn fit_gp(words: &[u64]) -> Option<Answer> {
    let (training, []) = Training::read(words)? else { return None };
    Some(training.fit().map(|model| model_words(&model)))
}

/// The best value, the lengthscales, the weights and the factor.
fn model_words(model: &Model) -> Vec<u64> {
    let lists = [&[model.best()], model.lengthscales(), model.weights(), &model.factor()];
    lists.concat().into_iter().map(float_to_word).collect()
}

/// The training data and then a point.
fn predict(words: &[u64]) -> Option<Answer> {
    let (training, rest) = Training::read(words)?;
    let (point, []) = take(rest, training.columns())? else { return None };
    Some(training.fit().and_then(|model| prediction(&model, &floats(point))))
}

fn prediction(model: &Model, point: &[f64]) -> Answer {
    if !is_point(point) {
        return Err(OUT_OF_DOMAIN);
    }
    let (mean, std) = model.predict(point);
    Ok(vec![float_to_word(mean), float_to_word(std)])
}

/// The training data, the number of candidates and the generator's word.
fn optimize_acquisition(words: &[u64]) -> Option<Answer> {
    let (training, &[candidates, state]) = Training::read(words)? else { return None };
    Some(training.fit().and_then(|model| search(&model, candidates, state)))
}

/// The point found and the generator's next word.
fn search(model: &Model, candidates: u64, state: u64) -> Answer {
    if state == 0 {
        return Err(OUT_OF_DOMAIN);
    }
    let mut rng = fastrand::Rng::with_seed(state);
    let columns = model.lengthscales().len();
    let point = model.optimize_acquisition(columns, candidates as usize, &mut rng);
    Ok(point.into_iter().map(float_to_word).chain([rng.state()]).collect())
}

/// The slots and then the words of a history: the number of its rows.
fn history(words: &[u64]) -> Option<Answer> {
    let (&slots, words) = words.split_first()?;
    Some(History::read(slots, words).map(|history| vec![history.rows() as u64]))
}

/// Two words for each dimension: 1 and the id, or 0 and 0.
fn mapping(words: &[u64]) -> Option<Answer> {
    let input = dimensions_and_history(words)?;
    Some(input.map(|(dimensions, history)| {
        let ids = match history.first_recent() {
            Some(trial) => leaves::establish_param_mapping(&trial, &dimensions),
            None => vec![None; dimensions.len()],
        };
        ids.into_iter().flat_map(|id| id.map_or([0, 0], |id| [1, id.into()])).collect()
    }))
}

/// The numbers of rows and of columns, the coordinates row after row, and the values.
fn training(words: &[u64]) -> Option<Answer> {
    let input = dimensions_and_history(words)?;
    Some(input.map(|(dimensions, history)| {
        let (x, y) = leaves::build_training_data(&history.trials(), &dimensions);
        let columns = dimensions.iter().filter(|d| is_continuous(d)).count();
        let numbers = x.concat().into_iter().chain(y.iter().copied());
        [y.len() as u64, columns as u64].into_iter().chain(numbers.map(float_to_word)).collect()
    }))
}

fn is_continuous(d: &Distribution) -> bool {
    !matches!(d, Distribution::Categorical(_))
}

/// The slots, the number of dimensions, their distributions and the words of a history, or the
/// refusal; none where there are fewer words than the dimensions have. 11 comes before 3.
fn dimensions_and_history(words: &[u64]) -> Option<Result<(Vec<Distribution>, History), Refusal>> {
    let &[slots, count, ref rest @ ..] = words else { return None };
    let (dimensions, history) = take(rest, count.checked_mul(6)?)?;
    let dimensions = dimension_list(count, dimensions);
    Some(dimensions.and_then(|dimensions| Ok((dimensions, History::read(slots, history)?))))
}

fn dimension_list(count: u64, words: &[u64]) -> Result<Vec<Distribution>, Refusal> {
    if count > MAX_DIMENSIONS as u64 {
        return Err(OUT_OF_DOMAIN);
    }
    let (dimensions, _) = words.as_chunks();
    dimensions.iter().map(well_formed).collect()
}

fn well_formed(words: &DistributionWords) -> Result<Distribution, Refusal> {
    records::distribution(words).ok_or(OUT_OF_DOMAIN)
}

/// 1 for true, 0 for false.
fn truth(holds: bool) -> Vec<u64> {
    vec![u64::from(holds)]
}

fn main() -> std::io::Result<()> {
    answer_input(LEAVES)
}
