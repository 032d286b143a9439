//! The files of our constant tables: the literals of the matched filter's taps and derivatives, and
//! the bit patterns that the definitions have.

use crate::dsp::{root_raised_cosine, ClockRecovery};
use crate::helpers::bits32;
use crate::taps::in_order;

const PATTERNS_A_LINE: usize = 11;

pub fn run(words: &[&str]) -> Result<(), String> {
    let text = match words {
        ["source"] => source(),
        ["bits"] => bits(),
        _ => return Err("tables source or tables bits".into()),
    };
    print!("{text}");
    Ok(())
}

fn taps() -> Vec<f32> {
    root_raised_cosine(1024, 128.0, 32.0)
}

/// crates/taps/src/table.rt
fn source() -> String {
    let derivatives = in_order(&ClockRecovery::new().derivatives, 1025);
    format!(
        "// The 1,025 matched-filter taps and their derivatives, printed by the oracle.\n\
         {}{}",
        constant("TAPS", &taps()),
        constant("DERIVATIVES", &derivatives)
    )
}

fn constant(name: &str, values: &[f32]) -> String {
    let rows: String = values.iter().map(|v| format!("    {v:?},\n")).collect();
    format!(
        "\npub const {name}: [f32; {}] = [\n{rows}];\n",
        values.len()
    )
}

/// crates/taps/specs/TapBits.antt
fn bits() -> String {
    let taps = taps();
    let rows: Vec<String> = taps.chunks(PATTERNS_A_LINE).map(row).collect();
    format!(
        "-- The matched filter's 1,025 taps, and the factor of their derivatives, as bit patterns \
         of f32: printed by the oracle, as are the literals of src/table.rt. Definitions only.\n\
         use Prim.Native.Nat.{{ℕ}}\n\
         use mathlib.Core.List.{{List, [], _∷_}}\n\
         \n\
         unfoldable pub tapBits : List ℕ\n\
         tapBits =\n{} []\n\
         \n\
         -- 32 over the sum of the sizes of all differences\n\
         unfoldable pub factorBits : ℕ\n\
         factorBits = 0x{:08x}\n",
        rows.join("\n"),
        bits32(factor(&taps))
    )
}

fn row(values: &[f32]) -> String {
    let patterns: Vec<String> = values
        .iter()
        .map(|v| format!("0x{:08x} ∷", bits32(*v)))
        .collect();
    format!("    {}", patterns.join(" "))
}

/// As the upstream scales the derivatives.
fn factor(taps: &[f32]) -> f32 {
    let sum: f32 = taps
        .windows(3)
        .map(|w| (w[2] - w[0]).abs())
        .fold(0.0, |s, d| s + d);
    32.0 / sum
}
