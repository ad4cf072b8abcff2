// Writes src/vectors.rt: what Rust itself answers, around every border of narrowing, clamping and the total order.
//   rustc make_vectors.rs && ./make_vectors > src/vectors.rt

// As in tonekit-decode's lib.rs.
const LOG_CLAMP: f64 = 1e6;

fn clamp_log(v: f64) -> f32 {
    if v.is_nan() {
        -LOG_CLAMP as f32
    } else {
        v.clamp(-LOG_CLAMP, LOG_CLAMP) as f32
    }
}

fn borders() -> Vec<f64> {
    let tiny = f64::from(f32::from_bits(1));
    let normal = f64::from(f32::MIN_POSITIVE);
    let step = f64::from(f32::EPSILON);
    let largest = f64::from(f32::MAX);
    vec![
        0.0,
        f64::MIN_POSITIVE,
        tiny / 4.0,
        tiny / 2.0, // a tie to zero
        tiny,
        tiny * 1.5, // a tie to 2, up
        tiny * 2.5, // a tie to 2, down
        tiny * 4194303.5,
        tiny * 4194304.5,
        normal - tiny, // the largest subnormal
        normal - tiny / 2.0,
        normal,
        normal + tiny / 2.0,
        normal * 2.0 - tiny / 2.0,
        0.1,
        1.0 - step / 4.0, // a tie that carries into the exponent
        1.0,
        1.0 + step / 2.0,
        1.0 + step * 1.5,
        2.0 - step / 2.0,
        3.0e-7,
        999999.96875, // a tie just under the clamp
        1000000.0,
        1000000.03125,
        1000000.5,
        16777217.0,
        16777219.0,
        largest,
        largest + 2f64.powi(103), // half a step over: a tie to the infinity
        2f64.powi(128),
        f64::MAX,
    ]
}

// Each border with the f64 below and above it, and all with both signs.
fn given() -> Vec<f64> {
    let mut all = vec![f64::INFINITY, f64::NEG_INFINITY];
    for v in borders() {
        for bits in v.to_bits().saturating_sub(1)..=v.to_bits() + 1 {
            let near = f64::from_bits(bits);
            if !near.is_nan() {
                all.push(near);
                all.push(-near);
            }
        }
    }
    all
}

fn list(name: &str, about: &str, values: &[u64]) {
    println!("\n// {about}\npub const {name}: [u64; {}] = [", values.len());
    for v in values {
        println!("    {v:#x},");
    }
    println!("];");
}

fn main() {
    let mut given = given();
    given.sort_by(f64::total_cmp);
    given.dedup_by(|a, b| a.to_bits() == b.to_bits());
    let mut ordered: Vec<f32> = given.iter().map(|&v| v as f32).collect();
    ordered.sort_by(f32::total_cmp);
    ordered.dedup_by(|a, b| a.to_bits() == b.to_bits());
    let bits = |v: f32| u64::from(v.to_bits());
    let narrow: Vec<_> = given.iter().flat_map(|&v| [v.to_bits(), bits(v as f32)]).collect();
    given.retain(|v| v.abs() > 3.0 || *v == 0.0);
    given.push(f64::NAN);
    let clamp: Vec<_> = given.iter().flat_map(|&v| [v.to_bits(), bits(clamp_log(v))]).collect();
    let widen: Vec<_> = ordered.iter().flat_map(|&v| [bits(v), f64::from(v).to_bits()]).collect();
    let order: Vec<_> = ordered.iter().map(|&v| bits(v)).collect();
    println!("// Bit patterns, made by Rust: `rustc make_vectors.rs && ./make_vectors > src/vectors.rt`, rustc 1.95.0.");
    list("NARROW", "In pairs: an f64 around a border, and the f32 that `as f32` makes of it.", &narrow);
    list("CLAMP", "In pairs: an f64, at last a NaN, and the f32 that `clamp_log` makes of it.", &clamp);
    list("WIDEN", "In pairs: an f32, and the f64 that `f64::from` makes of it.", &widen);
    list("ORDER", "f32 values, ascending by `f32::total_cmp`.", &order);
}
