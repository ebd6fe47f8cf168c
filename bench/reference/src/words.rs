//! The words of a line: numbers and devices.

use crate::device::{Any, Map, Patch, Projector, Trail};
use crate::hex;

const MOST_DIGITS: usize = 10;
const MOST_LAYERS: usize = 8;

/// A decimal number without sign.
pub fn number(word: &[u8]) -> Option<u64> {
    if word.is_empty() || word.len() > MOST_DIGITS {
        return None;
    }
    word.iter().try_fold(0, |value, digit| digit.is_ascii_digit().then(|| value * 10 + u64::from(digit - b'0')))
}

enum Layer {
    Trail,
    Patch(Map),
}

/// A device as it is written, with its layers, the outermost first.
pub struct Written {
    layers: Vec<Layer>,
    replies: Vec<u8>,
}

impl Written {
    pub fn read(word: &[u8]) -> Option<Written> {
        let mut layers = Vec::new();
        let mut rest = word;
        while let Some(slash) = rest.iter().position(|&byte| byte == b'/') {
            if layers.len() == MOST_LAYERS {
                return None;
            }
            layers.push(match &rest[..slash] {
                b"trail" => Layer::Trail,
                layer => Layer::Patch(hex::decode(layer.strip_prefix(b"patch=")?)?.try_into().ok()?),
            });
            rest = &rest[slash + 1..];
        }
        let replies = match rest.strip_prefix(b"projector")? {
            [] => Vec::new(),
            [b':', digits @ ..] => hex::decode(digits)?,
            _ => return None,
        };
        Some(Written { layers, replies })
    }

    /// The device itself; none where a map breaks its rule.
    pub fn build(self) -> Option<Any> {
        let bottom = Any::Projector(Projector::new(self.replies));
        self.layers.into_iter().rev().try_fold(bottom, |below, layer| {
            Some(match layer {
                Layer::Trail => Any::Trail(Box::new(Trail::new(below))),
                Layer::Patch(map) => Any::Patch(Box::new(Patch::new(map, below)?)),
            })
        })
    }
}
