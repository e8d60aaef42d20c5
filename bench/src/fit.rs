//! Which order of growth figures have.

/// The nearest curve a + b f(n).
#[derive(Clone, Copy)]
pub struct Order {
    pub name: &'static str,
    /// Root mean square of what the figures are off, as a part of their mean.
    pub distance: f64,
    /// b: nanoseconds for one more, or for one more f(n).
    pub slope: f64,
}

/// A name, and f.
type Form = (&'static str, fn(f64) -> f64);

const ORDERS: [Form; 3] = [
    ("linear", |size| size),
    ("n log n", |size| size * (size + 1.0).log2()),
    ("quadratic", |size| size * size),
];

/// Where the nearest line rises by no more than this part of the mean, from the first figure to the last, figures are constant.
const CONSTANT: f64 = 0.05;
/// Another order than linear has to be this part as far, and linear further than this, since over a short range the orders look alike.
const NEARER: f64 = 0.5;
const FAR: f64 = 0.02;

pub fn order(sizes: &[f64], times: &[f64]) -> Order {
    let [linear, above @ ..] = ORDERS.map(|(name, f)| nearest(name, f, sizes, times));
    let range = sizes.iter().copied().fold(0.0, f64::max) - sizes[0];
    if linear.slope * range <= CONSTANT * mean(times) {
        return nearest("constant", |_| 0.0, sizes, times);
    }
    let most = if linear.distance > FAR { NEARER * linear.distance } else { 0.0 };
    let nearer = above.into_iter().filter(|order| order.distance < most);
    nearer.min_by(|one, other| one.distance.total_cmp(&other.distance)).unwrap_or(linear)
}

fn nearest(name: &'static str, f: fn(f64) -> f64, sizes: &[f64], times: &[f64]) -> Order {
    let grown: Vec<f64> = sizes.iter().map(|&size| f(size)).collect();
    let (middle, mean) = (mean(&grown), mean(times));
    let pairs = || grown.iter().zip(times);
    let together: f64 = pairs().map(|(f, time)| (f - middle) * (time - mean)).sum();
    let alone: f64 = grown.iter().map(|f| (f - middle).powi(2)).sum();
    let slope = if alone > 0.0 { together / alone } else { 0.0 };
    let off = |(f, time): (&f64, &f64)| (time - mean - slope * (f - middle)).powi(2);
    let distance = (pairs().map(off).sum::<f64>() / times.len() as f64).sqrt() / mean;
    Order { name, distance, slope }
}

fn mean(values: &[f64]) -> f64 {
    values.iter().sum::<f64>() / values.len() as f64
}

#[cfg(test)]
mod tests {
    use super::*;

    fn name(time: fn(f64) -> f64) -> &'static str {
        let sizes = [1.0, 32.0, 64.0, 96.0, 128.0, 160.0, 192.0, 224.0, 255.0];
        order(&sizes, &sizes.map(time)).name
    }

    #[test]
    fn each_order() {
        assert_eq!(name(|_| 7.0), "constant");
        assert_eq!(name(|size| 1_000.0 + 0.1 * size), "constant");
        assert_eq!(name(|size| 1_000.0 - size), "constant");
        assert_eq!(name(|size| 1_000.0 + 30.0 * size), "linear");
        assert_eq!(name(|size| 100.0 + 2.0 * size * (size + 1.0).log2()), "n log n");
        assert_eq!(name(|size| 1_000.0 + size * size), "quadratic");
    }

    /// A little noise does not make a line another order, and one figure that is off makes no line.
    #[test]
    fn noise_is_no_order() {
        assert_eq!(name(|size| 1_000.0 + 30.0 * size + 40.0 * (size * 7.0).sin()), "linear");
        assert_eq!(name(|size| if size == 128.0 { 1_200.0 } else { 1_000.0 }), "constant");
    }

    #[test]
    fn slopes() {
        let sizes = [0.0, 1.0, 2.0, 3.0];
        let found = order(&sizes, &sizes.map(|size| 5.0 + 2.0 * size));
        assert!((found.slope - 2.0).abs() < 1e-9 && found.distance < 1e-9);
    }
}
