//! The styles, and the legend that shows them.

use super::arrows::{Kind, KINDS};
use super::layout::{LABEL, MARGIN};
use super::shapes::{
    arrow_shape, lane_end_shape, last_heard_shape, notice_shape, pending_shape, refusal_shape,
};
use super::svg::{text_width, Anchor, Px, Svg};
use amsulfezd::answer::{State, STATES};

/// The style sheet. The colour of an arrow is its kind's. What has the class `alarm` is red, and nothing else is.
pub const STYLE: &str = "\
text{fill:#222}
.paper{fill:#fff}
.name{font-weight:bold}
.faint{fill:#777}
.line{fill:none;stroke:currentColor;stroke-width:1.5}
.head,.tail{fill:currentColor}
.own{stroke:#444;stroke-width:1.5;fill:none}
.present{stroke:#a0a0a0;fill:none}
.silent{stroke:#808080;stroke-dasharray:2 4;fill:none}
.column{fill:#1b4fa8;fill-opacity:0}
.column:hover{fill-opacity:.09}
.busy{fill:#888;fill-opacity:.3}
.bar{fill:#b8b8b8}
.long{fill:#6b6b6b}
.gap{stroke:#b8b8b8;stroke-dasharray:1 4;fill:none}
.block{stroke:#fff}
.Offline{fill:#c4c4c4}
.ListenToken{fill:#d3e9fb}
.ActiveIdle{fill:#86bdf0}
.UseToken{fill:#74d083}
.AwaitDataResponse{fill:#d7b4f7}
.PassToken{fill:#ffe370}
.CheckTokenPass{fill:#fdf3c0}
.AwaitStatusResponse{fill:#d6c3a0}
.PassiveIdle{fill:#bfe3dc}
.plain{fill:#e9edf1}
.token{color:#1b4fa8}
.token .line{stroke-width:3}
.status-request{color:#8f6f00}
.application{color:#8e24aa}
.application .line{stroke-width:2}
.request{color:#7a5230}
.response{color:#00796b}
.confirmation{color:#5c8a00}
.unread .line,.refused .line{stroke-dasharray:3 2}
.refused{opacity:.55}
.reply{color:#1e8e3e}
.reply .line,.timeout .line{stroke-width:2.5}
.pending{fill:#fff;stroke:#555}
.mark,.bar-across,.swatch{fill:currentColor}
.number{fill:#fff;font-weight:bold}
.leader{fill:none;stroke:currentColor;stroke-dasharray:4 3}
.ring{fill:#fff;stroke:currentColor;stroke-width:1.5}
.label{fill:currentColor;font-weight:bold}
.last-heard{color:#555}
.note{color:#4b2fa0}
.alarm{color:#d00000}
.alarm.block{fill:#ff9d94}
.alarm.back{fill:#d00000}
.alarm.gap{stroke:#d00000}
.ending{stroke:currentColor;stroke-width:2;stroke-dasharray:5 3;fill:none}
";

/// The style of a state. Only the claim of a lost token is an alarm.
pub fn state_class(state: State) -> String {
    let alarm = if state == State::ClaimToken {
        " alarm"
    } else {
        ""
    };
    format!("{:?}{}", state, alarm)
}

/// What a sample of the legend shows.
#[derive(Debug, Clone, Copy, PartialEq, Eq)]
enum Sample {
    State(State),
    Arrow(Kind),
    Dashed,
    Lost,
    OwnAddress,
    Present,
    Silent,
    LastHeard,
    Left,
    Ours,
    Note,
    Reply,
    Timeout,
    Refusal,
    Pending,
    Busy,
    Bar(&'static str),
    Alarm,
}

impl Sample {
    /// Whether a picture has what it shows.
    fn is_in(self, svg: &Svg) -> bool {
        match self {
            Sample::State(state) => svg.has(&format!("{:?}", state)),
            Sample::Arrow(kind) => svg.has(kind.class()),
            Sample::Dashed => svg.has("unread") || svg.has("refused"),
            Sample::Lost => svg.has("lost"),
            Sample::OwnAddress => svg.has("own-address"),
            Sample::Present => svg.has("present"),
            Sample::Silent => svg.has("silent"),
            Sample::LastHeard => svg.has("last-heard"),
            Sample::Left => svg.has("left"),
            Sample::Ours => svg.has("ours"),
            Sample::Note => svg.has("note"),
            Sample::Reply => svg.has("reply"),
            Sample::Timeout => svg.has("timeout"),
            Sample::Refusal => svg.has("mark"),
            Sample::Pending => svg.has("pending"),
            Sample::Busy => svg.has("busy"),
            Sample::Bar(class) => svg.has(class),
            Sample::Alarm => svg.has("alarm"),
        }
    }
}

/// The samples with their words, in groups with a name.
fn groups() -> Vec<(&'static str, Vec<(Sample, String)>)> {
    let states = STATES.iter();
    let states = states.map(|&state| (Sample::State(state), format!("{:?}", state)));
    let kinds = KINDS.iter().map(|&kind| {
        let words = format!("{} {}", kind.letter(), kind.words());
        (Sample::Arrow(kind), words)
    });
    let worded = |samples: &[(Sample, &str)]| -> Vec<(Sample, String)> {
        let samples = samples.iter();
        samples
            .map(|&(sample, words)| (sample, words.to_string()))
            .collect()
    };
    vec![
        ("state", states.collect()),
        (
            "telegram",
            kinds
                .chain(worded(&[
                    (
                        Sample::Dashed,
                        "dashed: not looked at, or in a refused record",
                    ),
                    (Sample::Lost, "lost: it met another"),
                    (Sample::OwnAddress, "from our own address: a collision"),
                ]))
                .collect(),
        ),
        (
            "lane",
            worded(&[
                (Sample::Present, "station on the bus"),
                (Sample::Silent, "named, but not heard"),
                (Sample::LastHeard, "last heard"),
                (Sample::Left, "out of the ring: took none of three tokens"),
            ]),
        ),
        (
            "mark",
            worded(&[
                (Sample::Note, "note beside the trace"),
                (Sample::Ours, "we claim a lost token, or give way"),
                (Sample::Refusal, "refused, with the number"),
                (Sample::Reply, "an application got its reply"),
                (Sample::Timeout, "an application's time ran out"),
                (Sample::Pending, "bytes pending, no telegram yet"),
                (Sample::Busy, "a transmission is going on"),
                (Sample::Alarm, "red: an alarm; all else is ordinary"),
            ]),
        ),
        (
            "time",
            worded(&[
                (
                    Sample::Bar("bar"),
                    "since the poll before, a step for each factor of 10",
                ),
                (Sample::Bar("long"), "at least 10 times the median"),
                (Sample::Bar("back"), "the clock goes back"),
            ]),
        ),
    ]
}

/// The height of a line of the legend.
const LINE: Px = 20;
/// The width of a sample.
const SAMPLE: Px = 22;
/// The width of a group's name.
const GROUP: Px = 66;

/// Draws the legend of what a picture has, from `top` on in lines of this width, and gives where it ends.
pub fn draw_legend(svg: &mut Svg, top: Px, width: Px) -> Px {
    let mut groups = groups();
    for (_, samples) in &mut groups {
        samples.retain(|(sample, _)| sample.is_in(svg));
    }
    groups.retain(|(_, samples)| !samples.is_empty());
    svg.open("g", "legend", &[]);
    let mut y = top;
    for (name, samples) in groups {
        svg.text("faint", MARGIN, y + 13, LABEL, Anchor::Start, name);
        let mut x = MARGIN + GROUP;
        for (sample, words) in samples {
            let needed = SAMPLE + text_width(words.chars().count(), LABEL);
            if x + needed > width - MARGIN {
                x = MARGIN + GROUP;
                y += LINE;
            }
            draw_sample(svg, sample, x, y);
            svg.text("", x + SAMPLE, y + 13, LABEL, Anchor::Start, &words);
            x += needed + 16;
        }
        y += LINE;
    }
    svg.close("g");
    y
}

/// Draws one sample inside a box of 16 by 18.
fn draw_sample(svg: &mut Svg, sample: Sample, x: Px, y: Px) {
    let (middle, line) = (x + 8, y + 9);
    let arrow = |svg: &mut Svg| arrow_shape(svg, middle, y + 1, y + 17);
    let across = |svg: &mut Svg, class: &str, to: Px| {
        svg.path(class, &format!("M{} {}H{}", x, line, to));
    };
    let leader = |svg: &mut Svg| svg.path("leader", &format!("M{} {}V{}", middle, y + 1, y + 17));
    match sample {
        Sample::State(state) => {
            let class = format!("block {}", state_class(state));
            svg.rectangle(&class, x, y + 3, 16, 12);
        }
        Sample::Arrow(kind) => grouped(svg, kind.class(), arrow),
        Sample::Dashed => grouped(svg, "response unread", arrow),
        Sample::Lost => grouped(svg, "token lost alarm", |svg| {
            arrow(svg);
            notice_shape(svg, false, middle, line);
        }),
        Sample::OwnAddress => grouped(svg, "own-address alarm", arrow),
        Sample::Present => across(svg, "present", x + 16),
        Sample::Silent => across(svg, "silent", x + 16),
        Sample::LastHeard => grouped(svg, "last-heard", |svg| {
            across(svg, "present", middle);
            last_heard_shape(svg, middle, line);
        }),
        Sample::Left => grouped(svg, "left alarm", |svg| {
            across(svg, "silent", middle);
            lane_end_shape(svg, middle, line);
        }),
        Sample::Ours => grouped(svg, "ours alarm", leader),
        Sample::Note => grouped(svg, "note", leader),
        Sample::Reply => grouped(svg, "reply", |svg| notice_shape(svg, true, middle, line)),
        Sample::Timeout => grouped(svg, "timeout alarm", |svg| {
            notice_shape(svg, false, middle, line)
        }),
        Sample::Refusal => grouped(svg, "alarm", |svg| {
            refusal_shape(svg, middle, line, "12", 16)
        }),
        Sample::Pending => pending_shape(svg, middle, line),
        Sample::Busy => svg.rectangle("busy", x, y + 3, 16, 12),
        Sample::Bar("back") => svg.rectangle("back alarm", x + 5, y + 3, 6, 12),
        Sample::Bar(class) => svg.rectangle(class, x + 5, y + 3, 6, 12),
        Sample::Alarm => grouped(svg, "alarm", |svg| {
            svg.rectangle("swatch", x, y + 3, 16, 12);
        }),
    }
}

/// Draws inside a group with this class.
fn grouped(svg: &mut Svg, class: &str, draw: impl FnOnce(&mut Svg)) {
    svg.open("g", class, &[]);
    draw(svg);
    svg.close("g");
}
