// The block calls of crates/mlp_pcm in plain Rust: the same words, the same sum.

struct Frames {
    channels: u8,
    count: usize,
    rows: [[i32; 8]; 160],
}

struct Bytes {
    count: usize,
    bytes: [u8; 3840],
}

/// A sample of so many bytes, as one of 24 bits.
#[inline]
fn sample<const WIDTH: usize>(bytes: &[u8]) -> i32 {
    let mut word = [0; 4];
    word[4 - WIDTH..].copy_from_slice(bytes);
    i32::from_le_bytes(word) >> 8
}

#[inline]
fn unpack_as<const WIDTH: usize>(bytes: &[u8], low_bits: i32, out: &mut Frames) -> Result<(), u32> {
    for frame in bytes.chunks_exact(usize::from(out.channels) * WIDTH) {
        let row = &mut out.rows[out.count];
        *row = [0; 8];
        let mut all = 0;
        for (place, piece) in row.iter_mut().zip(frame.chunks_exact(WIDTH)) {
            *place = sample::<WIDTH>(piece);
            all |= *place;
        }
        if all & low_bits != 0 {
            return Err(out.count as u32);
        }
        out.count += 1;
    }
    Ok(())
}

#[inline(never)]
fn unpack(bytes: &[u8], width: u8, depth: u8, channels: u8, out: &mut Frames) -> Result<(), u32> {
    out.channels = channels;
    out.count = 0;
    let low_bits = (1 << (24 - depth)) - 1;
    match width {
        2 => unpack_as::<2>(bytes, low_bits, out),
        _ => unpack_as::<3>(bytes, low_bits, out),
    }
}

#[inline]
fn pack_as<const WIDTH: usize>(frames: &Frames, low_bits: i32, out: &mut Bytes) -> Result<(), u32> {
    let size = usize::from(frames.channels) * WIDTH;
    let rows = &frames.rows[..frames.count];
    for (frame, (row, bytes)) in rows.iter().zip(out.bytes.chunks_exact_mut(size)).enumerate() {
        let mut all = 0;
        for (sample, piece) in row.iter().zip(bytes.chunks_exact_mut(WIDTH)) {
            piece.copy_from_slice(&sample.to_le_bytes()[3 - WIDTH..3]);
            all |= sample;
        }
        if all & low_bits != 0 {
            return Err(frame as u32);
        }
    }
    out.count = rows.len() * size;
    Ok(())
}

#[inline(never)]
fn pack(frames: &Frames, bits: u8, out: &mut Bytes) -> Result<(), u32> {
    out.count = 0;
    match bits {
        16 => pack_as::<2>(frames, 0xFF, out),
        _ => pack_as::<3>(frames, 0, out),
    }
}

fn noise() -> [u8; 3840] {
    let mut seed: u32 = 1;
    let mut bytes = [0; 3840];
    for place in &mut bytes {
        seed = seed.wrapping_mul(1664525).wrapping_add(1013904223);
        *place = (seed >> 24) as u8;
    }
    bytes
}

fn main() {
    let words: Vec<String> = std::env::args().skip(1).collect();
    let width = if words[1] == "16" { 2 } else { 3 };
    let channels = words[2].parse::<u8>().unwrap().clamp(1, 8);
    let count = words[3].parse::<u32>().unwrap();
    let bytes = noise();
    let block = &bytes[..160 * usize::from(channels) * usize::from(width)];
    let mut frames = Frames { channels, count: 0, rows: [[0; 8]; 160] };
    let mut out = Bytes { count: 0, bytes: [0; 3840] };
    let mut sum: i32 = 0;
    if words[0] == "pack" {
        unpack(block, width, width * 8, channels, &mut frames).unwrap();
        for _ in 0..count {
            pack(&frames, width * 8, &mut out).unwrap();
            sum = sum.wrapping_add(out.count as i32).wrapping_add(i32::from(out.bytes[out.count - 1]));
        }
    } else {
        for _ in 0..count {
            unpack(block, width, width * 8, channels, &mut frames).unwrap();
            sum = sum.wrapping_add(frames.rows[frames.count - 1][0]);
        }
    }
    println!("{sum}");
}
