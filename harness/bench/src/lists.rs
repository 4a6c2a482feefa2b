//! Event lists of a train that gathers speed along points 100 m from each other.

/// So many samples and points, a train of 250 m, places enough.
pub fn even(samples: usize, points: usize) -> Vec<u8> {
    let last = (points - 1) as f64 * 100.0;
    let mut item = 250.0_f64.to_le_bytes().to_vec();
    item.extend((samples as u32).to_le_bytes());
    for k in 0..samples {
        let part = k as f64 / (samples - 1) as f64;
        let offset = 250.0_f64.min(last / 2.0) + part * part * (last - 1.0 - 250.0_f64.min(last / 2.0));
        for x in [part * 1e6, offset, 1.0 + part * 20.0] {
            item.extend(x.to_le_bytes());
        }
    }
    item.extend((points as u32).to_le_bytes());
    for k in 0..points {
        item.extend((k as f64 * 100.0).to_le_bytes());
        item.extend((if k + 1 < points { k as u32 + 1 } else { 0 }).to_le_bytes());
    }
    item.extend((2 * points as u32).to_le_bytes());
    item
}

/// The accepted ones of the first random lists that the comparisons use.
pub fn accepted(n: u64) -> Vec<Vec<u8>> {
    (0..n).map(|k| generator::events(1, k)).filter(|item| reference::events(item).starts_with(b"events")).collect()
}

/// The accepted ones of the first random tables that the comparisons use.
pub fn accepted_tables(n: u64) -> Vec<Vec<u8>> {
    let mut tables = generator::Tables::new(1);
    (0..n).map(|k| tables.table(k)).filter(|item| reference::table(item).starts_with(b"nodes")).collect()
}
