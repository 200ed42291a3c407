//! Newness of sequence numbers.

#[derive(Clone, Copy, Debug, PartialEq, Eq)]
pub enum Newness {
    Newer,
    OldOrSame,
    Invalid,
}

/// Judges a received number by the last one.
pub fn judge(last: Option<u16>, received: u16) -> Newness {
    let Some(last) = last else {
        return Newness::Newer;
    };
    match received.wrapping_sub(1).wrapping_sub(last) {
        0..=16_383 => Newness::Newer,
        49_153.. => Newness::OldOrSame,
        _ => Newness::Invalid,
    }
}

/// Judges a received number; a newer one becomes the last.
pub fn note(last: &mut Option<u16>, received: u16) -> Newness {
    let newness = judge(*last, received);
    if newness == Newness::Newer {
        *last = Some(received);
    }
    newness
}
