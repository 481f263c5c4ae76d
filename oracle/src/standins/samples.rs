//! Stands in for the original's samples.rs, which is not published here: a sample's
//! head with a body that has a length and no bytes.

use crate::opl2::AdLibInstrument;
use std::ops::Deref;

/// A body of a given length. Only the mixer would read its bytes, and it never runs.
pub struct Body {
    pub frames: usize,
}

impl Body {
    pub fn len(&self) -> usize {
        self.frames
    }

    pub fn is_empty(&self) -> bool {
        self.frames == 0
    }
}

impl Deref for Body {
    type Target = [i16];

    fn deref(&self) -> &[i16] {
        &[]
    }
}

pub struct SampleBody {
    pub pcm: Body,
    pub pcm_right: Option<Body>,
    pub loop_start: u32,
    pub loop_end: u32,
    pub looped: bool,
    pub volume: u8,
    pub c5_speed: u32,
    pub adlib: Option<AdLibInstrument>,
}

impl SampleBody {
    /// The flag alone: the original asks for a usable loop where it needs one.
    pub fn is_looped(&self) -> bool {
        self.looped
    }
}
