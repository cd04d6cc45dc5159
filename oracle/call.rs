//! The calls on the retained table alone.

#[derive(Clone, Copy, Debug, PartialEq, Eq)]
pub enum Call {
    /// Programme start: nothing is retained, and there is no doubt.
    Start,
    /// Nothing is retained, and there is doubt.
    Reset,
    /// A gap notice: there is doubt.
    Gap,
}

pub const CALLS: [Call; 3] = [Call::Start, Call::Reset, Call::Gap];
