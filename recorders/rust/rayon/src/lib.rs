//! `rayon::join`, recorded.

/// By rayon's pool.
pub struct Rayon;

impl hhrec::Join for Rayon {
    fn both<A, B, RA, RB>(a: A, b: B) -> (RA, RB)
    where
        A: FnOnce() -> RA + Send,
        B: FnOnce() -> RB + Send,
        RA: Send,
        RB: Send,
    {
        rayon::join(a, b)
    }
}

/// Replaces `rayon::join`.
pub fn join<A, B, RA, RB>(a: A, b: B) -> (RA, RB)
where
    A: FnOnce() -> RA + Send,
    B: FnOnce() -> RB + Send,
    RA: Send,
    RB: Send,
{
    hhrec::join_by::<Rayon, A, B, RA, RB>(a, b)
}
