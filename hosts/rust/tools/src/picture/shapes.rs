//! The shapes that the picture and its legend share. Their colours are the styles of the group around them.

use super::layout::TINY;
use super::svg::{text_width, Anchor, Px, Svg};

/// The line of an arrow straight from one lane to another, with its tail and its head.
pub fn arrow_shape(svg: &mut Svg, x: Px, from: Px, to: Px) {
    let down = if from < to { 1 } else { -1 };
    let neck = to - 6 * down;
    svg.path("line", &format!("M{} {}V{}", x, from, neck));
    svg.path(
        "tail",
        &format!("M{} {}h4v{}h-4z", x - 2, from - 2 * down, 4 * down),
    );
    head_shape(svg, x, to, down);
}

/// An arrow's head at a point, downwards or upwards.
fn head_shape(svg: &mut Svg, x: Px, y: Px, down: Px) {
    let path = format!("M{} {}l-4 {}h8z", x, y, -7 * down);
    svg.path("head", &path);
}

/// An arrow from a lane to itself.
pub fn loop_shape(svg: &mut Svg, x: Px, y: Px, width: Px, height: Px) {
    let path = format!(
        "M{} {}C{} {} {} {} {} {}",
        x - 2,
        y,
        x - width,
        y - height,
        x + width,
        y - height,
        x + 1,
        y - 5
    );
    svg.path("line", &path);
    head_shape(svg, x + 1, y, 1);
}

/// The sign of a notice around a point: a tick for a reply, a cross for a timeout.
pub fn notice_shape(svg: &mut Svg, reply: bool, x: Px, y: Px) {
    let path = if reply {
        format!("M{} {}l3 4l4 -8", x - 3, y)
    } else {
        format!("M{} {}l6 7m0 -7l-6 7", x - 3, y - 3)
    };
    svg.path("line", &path);
}

/// The mark of a refusal around a point, with its number; turned where the column is narrow.
pub fn refusal_shape(svg: &mut Svg, x: Px, y: Px, number: &str, width: Px) {
    let across = text_width(number.len(), TINY);
    if across + 4 <= width {
        svg.rectangle("mark", x - across / 2 - 2, y - 7, across + 4, 14);
        svg.text("number", x, y + 3, TINY, Anchor::Middle, number);
    } else {
        svg.rectangle("mark", x - 4, y - 7, 8, 14);
        svg.text("number", x + 3, y + across / 2, TINY, Anchor::Up, number);
    }
}

/// The sign of bytes that are no telegram yet, around a point.
pub fn pending_shape(svg: &mut Svg, x: Px, y: Px) {
    svg.path("pending", &format!("M{} {}l3 3l3 -3l-3 -3z", x - 3, y));
}

/// The sign on a lane that its station was heard here for the last time: a ring around a point.
pub fn last_heard_shape(svg: &mut Svg, x: Px, y: Px) {
    let path = format!("M{} {}a4 4 0 1 0 8 0a4 4 0 1 0 -8 0z", x - 4, y);
    svg.path("ring", &path);
}

/// The end of the lane of a station that is out of the ring: a bar across it.
pub fn lane_end_shape(svg: &mut Svg, x: Px, y: Px) {
    svg.rectangle("bar-across", x - 2, y - 8, 4, 16);
}
