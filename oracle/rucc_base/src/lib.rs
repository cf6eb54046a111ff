//! A stand-in for the crate of this name: what the original sources use of it and no more.

/// Floating point.
pub mod float {
    /// A floating point format. Only a data layout names the last one, and none is asked for here.
    #[derive(Debug, Clone, Copy, PartialEq, Eq)]
    pub enum Format {
        Single,
        Double,
        X87Extended,
        Quad,
        DoubleDouble,
    }
}
