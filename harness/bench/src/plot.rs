//! Times over sizes, as text: both axes by tenfold steps.

/// So many characters to a tenfold, across and down.
const ACROSS: f64 = 18.0;
const DOWN: f64 = 5.0;

/// One measured size: how large, ours and theirs in milliseconds.
pub type Measured = (f64, f64, f64);

/// The exponent by which the times grow from one size to another.
pub fn exponent(from: (f64, f64), to: (f64, f64)) -> f64 {
    (to.1 / from.1).ln() / (to.0 / from.0).ln()
}

/// A plot of both times: `o` is ours, `r` the reference's, `*` both.
pub fn plot(what: &str, rows: &[Measured]) -> String {
    let times = rows.iter().flat_map(|row| [row.1, row.2]);
    let least = times.clone().fold(f64::INFINITY, f64::min).log10().floor();
    let most = times.fold(0.0, f64::max).log10().ceil();
    let first = rows[0].0.log10().floor();
    let column = |size: f64| ((size.log10() - first) * ACROSS).round() as usize;
    let line = |time: f64| ((most - time.log10()) * DOWN).round() as usize;
    let mut page = vec![vec![' '; column(rows[rows.len() - 1].0) + 2]; line(10f64.powf(least)) + 1];
    for (size, ours, theirs) in rows {
        page[line(*theirs)][column(*size)] = 'r';
        let cell = &mut page[line(*ours)][column(*size)];
        *cell = if *cell == 'r' { '*' } else { 'o' };
    }
    let mut text = format!("{what}: ms over nodes (o ours, r the reference's)\n");
    for (k, row) in page.iter().enumerate() {
        let tick = most - k as f64 / DOWN;
        let label = if tick.fract() == 0.0 { format!("{:>8}", 10f64.powf(tick)) } else { " ".repeat(8) };
        text += &format!("{label} |{}\n", row.iter().collect::<String>().trim_end());
    }
    let mut axis = vec![b'-'; page[0].len()];
    let sizes: Vec<String> = rows.iter().map(|row| format!("{}", row.0)).collect();
    rows.iter().for_each(|row| axis[column(row.0)] = b'+');
    text + &format!("{:>8} +{}\n{:>10}nodes {}\n", "", String::from_utf8(axis).unwrap(), "", sizes.join(", "))
}
