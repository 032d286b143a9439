// What bench.rattle does, with the first half of the upstream's `Resampler::process`; bench/part puts
// what it includes beside it.

include!("shared.rs");

struct Decimator {
    decimation: usize,
    integrators: [i64; 6],
    delays: [i64; 6],
    cic_scale: f64,
    counter: usize,
}

include!("half.rs");

fn main() {
    let mut line = String::new();
    std::io::stdin().read_line(&mut line).unwrap();
    let decimation: usize = line.trim().parse().unwrap();
    let d = decimation as f64;
    let mut s = 1;
    let samples: Vec<f32> = (0..8192)
        .map(|_| {
            s = mixed(s, 12345);
            unit(s)
        })
        .collect();
    let mut decimator = Decimator {
        decimation,
        integrators: [0; 6],
        delays: [0; 6],
        cic_scale: 1.0 / (32768.0 * d * d * d),
        counter: 0,
    };
    let mut out = vec![0.0_f32; 8192];
    for _ in 0..20000 {
        let mut k = 0;
        for pair in samples.chunks_exact(2) {
            let sample = Complex32 {
                real: pair[0],
                imaginary: pair[1],
            };
            decimator.process(sample, &mut |v: Complex32| {
                out[2 * k] = v.real;
                out[2 * k + 1] = v.imaginary;
                k += 1;
            });
        }
    }
    let digest = out.iter().fold(0, |h, x| mixed(h, x.to_bits() as u64));
    print!("{digest:016x}");
}
