// The kernels of crates/bench_kernels in plain Rust: the same words, the same sum.

fn residuals() -> [i32; 160] {
    let mut seed: i32 = 1;
    let mut block = [0; 160];
    for place in &mut block {
        seed = seed.wrapping_mul(1103515245).wrapping_add(12345);
        *place = seed >> 20;
    }
    block
}

#[inline]
fn sum<const N: usize>(coeffs: &[i32; N], values: &[i32]) -> i64 {
    coeffs.iter().zip(values).map(|(&c, &v)| i64::from(c) * i64::from(v)).sum()
}

/// The latest outputs and differences of a channel, the latest first.
struct Past {
    outputs: [i32; 8],
    differences: [i32; 4],
}

/// The latest values before a block, the oldest first.
fn put_before(values: &[i32], line: &mut [i32; 176]) {
    for (i, &value) in values.iter().enumerate() {
        line[15 - i] = value;
    }
}

/// The last values of a line, the latest first.
fn put_back(line: &[i32], values: &mut [i32]) {
    for (value, &from) in values.iter_mut().zip(line.iter().rev()) {
        *value = from;
    }
}

/// A block by coefficients of which the first belongs to the oldest value.
#[inline(never)]
fn restore<const M: usize, const K: usize>(past: &mut Past, fir: &[i32; M], iir: &[i32; K], step: u32, block: &mut [i32]) {
    let (mut outputs, mut differences) = ([0; 176], [0; 176]);
    let end = 16 + block.len();
    put_before(&past.outputs, &mut outputs);
    put_before(&past.differences, &mut differences);
    outputs[16..end].copy_from_slice(block);
    for i in 16..end {
        let prediction = (sum(fir, &outputs[i - M..i]) + sum(iir, &differences[i - K..i])) >> 6;
        let output = (((prediction + i64::from(outputs[i])) >> step) << step) as i32;
        outputs[i] = output;
        differences[i] = (i64::from(output) - prediction) as i32;
    }
    block.copy_from_slice(&outputs[16..end]);
    put_back(&outputs[..end], &mut past.outputs);
    put_back(&differences[..end], &mut past.differences);
}

/// Filters of other orders have zeros in front.
fn restored<const M: usize, const K: usize>(fir: [i32; M], iir: [i32; K], step: u32, count: u32) -> i32 {
    let from = residuals();
    let mut past = Past { outputs: [0; 8], differences: [0; 4] };
    let mut all: i32 = 0;
    for _ in 0..count {
        let mut block = from;
        restore(&mut past, &std::hint::black_box(fir), &std::hint::black_box(iir), step, &mut block);
        all = all.wrapping_add(block[159]);
    }
    all
}

#[inline(never)]
fn put(weights: &[i32; 6], dest: usize, step: u32, index: usize, frames: &mut [[i32; 10]], bypass: &[u8]) {
    for (frame, bits) in frames.iter_mut().zip(bypass) {
        let sum: i64 = weights.iter().zip(frame.iter()).map(|(&w, &v)| i64::from(w) * i64::from(v)).sum();
        frame[dest] = ((((sum >> 14) >> step) << step) + i64::from((bits >> index) & 1)) as i32;
    }
}

fn matrixed(step: u32, count: u32) -> i32 {
    let weights = [8192, -11585, 3000, -5793, 4096, 1000];
    let bypass = [0; 160];
    let from = residuals();
    let mut frames = [[0; 10]; 160];
    let mut all: i32 = 0;
    for i in 0..160 {
        frames[i] = [from[i]; 10];
    }
    for _ in 0..count {
        put(&std::hint::black_box(weights), std::hint::black_box(0), step, std::hint::black_box(0), &mut frames, &bypass);
        all = all.wrapping_add(frames[159][0]);
    }
    all
}

fn main() {
    let words: Vec<String> = std::env::args().skip(1).collect();
    let step = words[1].parse::<u32>().unwrap() & 15;
    let count = words[2].parse::<u32>().unwrap();
    let all = match words[0].as_str() {
        "matrix6" => matrixed(step, count),
        "fir8" => restored([8, 7, 6, 5, 4, 3, 2, 1], [], step, count),
        "fir4" => restored([1, 3, -1, 2], [], step, count),
        "fir2" => restored([-1, 2], [], step, count),
        "fir8iir4" => restored([8, 7, 6, 5, 4, 3, 2, 1], [1, -2, 3, 4], step, count),
        "fir4iir2" => restored([1, 3, -1, 2], [0, 0, -2, 4], step, count),
        _ => restored([-4, 8], [0, 0, 0, -2], step, count),
    };
    println!("{all}");
}
