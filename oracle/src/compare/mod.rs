//! Runs the proved code beside the Rust, layer by layer.

mod bank;
mod floors;
mod house;
mod leaves;
mod narrow;
mod peak;
mod phase;
mod runs;
mod setup;
mod weights;

/// What a run depends on.
#[derive(Clone, Copy, Debug)]
pub struct Settings {
    pub seed: u64,
    pub count: u64,
}

/// The first difference, after how many cases, in its smallest form.
#[derive(Debug)]
pub struct Difference {
    pub compared: u64,
    pub report: String,
}

/// A layer's comparison: how many cases agreed.
type Layer = fn(&Settings) -> Result<u64, Difference>;

/// Every layer, leaves first.
const LAYERS: [(&str, Layer); 12] = [
    ("exp", leaves::exp),
    ("leaves", leaves::others),
    ("narrow", narrow::narrow),
    ("widen", narrow::widen),
    ("peak_abs", peak::run),
    ("peak_phase", phase::run),
    ("peaks_abs", runs::run),
    ("weights", weights::run),
    ("house", house::run),
    ("settings", setup::run),
    ("floors", floors::run),
    ("bank", bank::run),
];

/// Run the named layer, or all; true where every answer was the same.
pub fn compare(only: Option<&str>, settings: &Settings) -> Result<bool, String> {
    let chosen: Vec<_> = LAYERS
        .iter()
        .filter(|(name, _)| only.is_none_or(|o| o == *name))
        .collect();
    if chosen.is_empty() {
        let known = LAYERS.map(|(name, _)| name).join(", ");
        return Err(format!("no such layer; there are {known}"));
    }
    let mut passed = true;
    for (name, layer) in chosen {
        let outcome = layer(settings);
        passed &= outcome.is_ok();
        println!("{}", line(name, settings.seed, &outcome).trim_end());
    }
    Ok(passed)
}

/// A layer's line, and the report of a difference below it.
fn line(name: &str, seed: u64, outcome: &Result<u64, Difference>) -> String {
    match outcome {
        Ok(n) => format!("layer {name}: {n} compared, 0 differences, seed {seed}"),
        Err(Difference { compared, report }) => {
            format!("layer {name}: {compared} compared, 1 difference, seed {seed}\n{report}")
        }
    }
}

/// A float as a reader wants it: its bits and its decimal form.
fn shown(bits: u64) -> String {
    format!("{bits:016x} ({:?})", f64::from_bits(bits))
}
