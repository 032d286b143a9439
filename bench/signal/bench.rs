// What bench.rattle does, with the upstream's view and equalizer; bench/part puts what it includes beside it.

include!("shared.rs");

use equalizer::Equalizer;
use signal::SignalView;

fn symbols() -> [Complex32; 1024] {
    let (xs, ys) = (numbers_from(1), numbers_from(2));
    std::array::from_fn(|i| Complex32 {
        real: xs[i],
        imaginary: ys[i],
    })
}

fn pushes(rounds: u64) -> u64 {
    let mut view = SignalView::default();
    let symbols = symbols();
    for _ in 0..rounds {
        for symbol in &symbols[..1000] {
            view.push(Some(*symbol));
        }
    }
    let (_, error) = view.read(&mut [Complex32::default(); 1024]);
    mixed(0, error.to_bits())
}

fn reads(rounds: u64) -> u64 {
    let mut view = SignalView::default();
    let symbols = symbols();
    let mut output = [Complex32::default(); 1024];
    let mut h = 0;
    for round in 0..rounds {
        let i = (round % 1024) as usize;
        view.push(Some(symbols[i]));
        let (_, error) = view.read(&mut output);
        let point = output[i / 2];
        let part = if i % 2 == 0 { point.real } else { point.imaginary };
        h = mixed32(mixed(h, error.to_bits()), part);
    }
    h
}

fn steps(rounds: u64) -> u64 {
    let xs = numbers_from(1);
    let mut equalizer = Equalizer::default();
    let row = |from: usize| {
        std::array::from_fn(|i| Complex32 {
            real: xs[4 * i + from],
            imaginary: xs[4 * i + from + 1],
        })
    };
    let (mut input, derivatives) = (row(0), row(2));
    let mut h = 0;
    for _ in 0..rounds {
        let (_, timing) = equalizer.process(&input, &derivatives, true);
        input[3].real = timing;
        h = mixed32(h, timing);
    }
    h
}

fn main() {
    let mut line = String::new();
    std::io::stdin().read_line(&mut line).unwrap();
    let h = match line.trim() {
        "push" => pushes(40000),
        "read" => reads(400000),
        _ => steps(4000000),
    };
    println!("{h:016x}");
}
