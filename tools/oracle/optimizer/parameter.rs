//! Parameter ids, given by the caller: the Rust's own come from a counter.

impl From<u64> for ParamId {
    fn from(id: u64) -> Self {
        Self(id)
    }
}

impl From<ParamId> for u64 {
    fn from(id: ParamId) -> Self {
        id.0
    }
}
