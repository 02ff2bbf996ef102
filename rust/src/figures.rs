//! What the calls say of a box: a figure, where it is reached, and the limit that it was asked for with.
//!
//! A figure over combinations covers those of at most `limit` outputs: with `limit` below m it is not the
//! figure over all of them.

/// The nonlinearity of an S-box: the least number of inputs at which a combination (component function) of
/// at most `limit` outputs differs from an affine function. Combination `c` and w·x XOR b are the first
/// pair that differs at so few. The linearity is 2^n − 2 × `figure`.
#[derive(Clone, Copy, Debug, PartialEq, Eq, Hash)]
#[allow(missing_docs)] // said above
pub struct Nonlinearity {
    pub figure: u32,
    pub c: u32,
    pub w: u32,
    pub b: u32,
    pub limit: u32,
}

/// The differential uniformity, the largest cell of the XOR table (DDT): `figure` inputs x have S(x) XOR
/// S(x XOR a) = beta; first by `a`, then by `beta`.
#[derive(Clone, Copy, Debug, PartialEq, Eq, Hash)]
#[allow(missing_docs)] // said above
pub struct LargestCell {
    pub figure: u32,
    pub a: u32,
    pub beta: u32,
}

/// The absolute indicator: the largest magnitude of the autocorrelation r(s), the sum over x of +1 where
/// combination `c` is equal at x and x XOR s and −1 elsewhere, over the combinations of at most `limit`
/// outputs; the first combination and s that have it.
#[derive(Clone, Copy, Debug, PartialEq, Eq, Hash)]
#[allow(missing_docs)] // said above
pub struct Autocorrelation {
    pub figure: u32,
    pub c: u32,
    pub s: u32,
    pub limit: u32,
}

/// The dynamic distance of order (`limit`, `flips`), which measures SAC and BIC, doubled so that it is a
/// whole number: the largest difference between 2^(n−1) and the number of inputs at which combination `c`
/// changes when the bits of `d` are flipped, over combinations of at most `limit` outputs and at most
/// `flips` flipped bits; the first c and d.
#[derive(Clone, Copy, Debug, PartialEq, Eq, Hash)]
#[allow(missing_docs)] // said above
pub struct DynamicDistance {
    pub figure: u32,
    pub c: u32,
    pub d: u32,
    pub limit: u32,
    pub flips: u32,
}

/// The least algebraic degree (Sage's `min_degree`) of a combination (component function) of at most
/// `limit` outputs, and the first that has it.
#[derive(Clone, Copy, Debug, PartialEq, Eq, Hash)]
#[allow(missing_docs)] // said above
pub struct Degree {
    pub figure: u32,
    pub c: u32,
    pub limit: u32,
}

/// The smallest swap of two different rows that raises the nonlinearity over all combinations: the two
/// inputs, and the nonlinearity afterwards.
#[derive(Clone, Copy, Debug, PartialEq, Eq, Hash)]
#[allow(missing_docs)] // said above
pub struct RaisingSwap {
    pub low: u32,
    pub high: u32,
    pub nonlinearity: u32,
}

/// The nonlinearity of a sum (XOR) of S-boxes, over the combinations of at most `limit` outputs. The mask
/// of the affine function consists of `masks`, one for each box, with that of box 1 in the lowest bits.
#[derive(Clone, Debug, PartialEq, Eq, Hash)]
#[allow(missing_docs)] // said above
pub struct SumNonlinearity {
    pub figure: u32,
    pub c: u32,
    pub masks: Vec<u32>,
    pub b: u32,
    pub limit: u32,
}
