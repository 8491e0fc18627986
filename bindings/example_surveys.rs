//! What is surveyed, from Rust: the octagon round a tape of points, and the octagon about a tree.
use crate::koxirmeta as kx;
use crate::koxirmeta::{Bounds, Refusal};
use crate::{refused, show, show_bounds};

/// Writes the octagon that a call gave, and its outline, or the refusal.
fn show_both(what: &str, answer: Result<Bounds, Refusal>) {
    match answer {
        Err(why) => refused(what, why),
        Ok(b) => {
            show_bounds(what, &b);
            show("its outline", Ok(b));
        }
    }
}

fn survey(what: &str, tape: &[f64]) {
    show_both(what, kx::enclose(tape));
}

/// An irregular plot, from its lowest corner round; a point that was not measured; tapes that end early; and the edge of the map.
pub fn tapes() {
    let plot = [12.3, -4.875, 17.62, -4.4, 21.125, -1.07, 22.09, 3.7, 19.84, 8.33, 14.6, 10.95, 9.4, 9.2, 6.375, 5.05, 7.9, -1.375];
    survey("surveyed plot", &plot);
    survey("a point that was not measured", &[12.3, -4.875, 17.62, f64::NAN, 500100.5, 3.7]);
    survey("a point off the map", &[12.3, -4.875, 500000.125, -4.4, f64::INFINITY, 3.7]);
    survey("nine numbers", &plot[..9]);
    survey("no point", &[]);
    survey("a point at the edge of the map", &[500000.0625, -500000.125]);
}

fn tree(x: i32, y: i32, radius: u32) {
    show_both(&format!("tree ({x},{y}) radius {radius}"), kx::clearance(x, y, radius));
}

/// A tree whose numbers all differ, and small ones; two that touch the map's edges, and one past each; the widest, and wider ones;
/// and centres off the map, the ends of 32 bits among them.
pub fn trees() {
    tree(131, -58, 17);
    tree(-3, 7, 0);
    tree(4, -9, 3);
    tree(-12, 8, 5);
    tree(1999983, -1999983, 17);
    tree(1999984, -1999983, 17);
    tree(1999983, -1999984, 17);
    tree(-1999983, 1999983, 17);
    tree(-1999984, 1999983, 17);
    tree(-1999983, 1999984, 17);
    tree(-6, 2, 255);
    tree(-6, 2, 256);
    tree(-6, 2, u32::MAX);
    tree(2000001, -6, 0);
    tree(2, -2000001, 256);
    tree(i32::MIN, i32::MAX, 255);
    tree(i32::MIN, i32::MAX, 256);
    tree(i32::MAX, i32::MIN, 255);
    tree(i32::MAX, i32::MIN, 256);
}
