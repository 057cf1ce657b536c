//! Memory for what is large is asked for before it is used: where there is none, words say how much and for what.

/// An empty buffer with room for a length.
pub fn empty<T>(len: usize, what: &str, advice: &str) -> Result<Vec<T>, String> {
    let mut buffer = Vec::new();
    let bytes = len.saturating_mul(size_of::<T>());
    let room = buffer.try_reserve_exact(len);
    room.map_err(|_| format!("there is no memory for {what}, {bytes} bytes; {advice}"))?;
    Ok(buffer)
}

/// A buffer of zeros.
pub fn zeros<T: Copy + Default>(len: usize, what: &str, advice: &str) -> Result<Vec<T>, String> {
    let mut buffer = empty(len, what, advice)?;
    buffer.resize(len, T::default());
    Ok(buffer)
}

/// Brings a buffer that is used again to a length. What it holds then is anything.
pub fn fit<T: Copy + Default>(buffer: &mut Vec<T>, len: usize, what: &str, advice: &str) -> Result<(), String> {
    if buffer.capacity() < len {
        // The old one goes first, so that there are never two.
        *buffer = Vec::new();
        *buffer = empty(len, what, advice)?;
    }
    buffer.resize(len, T::default());
    Ok(())
}
