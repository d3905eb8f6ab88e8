//! A failing text made small: parts are left out for as long as it still fails.

use std::time::{Duration, Instant};

pub fn smallest(mut text: Vec<u8>, time: Duration, mut fails: impl FnMut(&[u8]) -> bool) -> Vec<u8> {
    let start = Instant::now();
    let mut width = text.len().next_power_of_two();
    while width > 0 {
        let mut at = 0;
        let before = text.len();
        while at < text.len() {
            if start.elapsed() > time {
                return text;
            }
            let end = (at + width).min(text.len());
            let shorter = [&text[..at], &text[end..]].concat();
            if fails(&shorter) {
                text = shorter;
            } else {
                at = end;
            }
        }
        // a pass that helped is tried again at its width
        if text.len() == before {
            width /= 2;
        }
    }
    text
}
