//! The take as a picture: what is heard, the position, and the completion interrupts on one time axis, and a closer look at the start; where the host stalled, also how it
//! caught up.
use crate::checks::{count, milliseconds, number_of};
use crate::guest::FRAME;
use crate::session::{Advance, CatchingUp, Stall, TICK, Take};
use std::fmt::Write;

const WIDTH: f64 = 1200.0;
const HEIGHT: f64 = 930.0;
/// What a stall's panel adds to it.
const STALL_HEIGHT: f64 = 300.0;
/// The picture's left and right ends of all panels.
const LEFT: f64 = 92.0;
const RIGHT: f64 = 1176.0;

const TEXT: &str = "#2b2b2b";
const FAINT: &str = "#e4e4e4";
const SIDES: [&str; 2] = ["#3a6ea5", "#6fa3d3"];
const POSITION: &str = "#c0392b";
const INTERRUPT: &str = "#1e8449";
const READ: &str = "#7d5ba6";
const PUT: &str = "#9a9a9a";
const DEFERRED: &str = "#d98e32";
const STALL: &str = "#fbecd5";
const CAUGHT_UP: &str = "#117a8b";

/// A rectangle with an axis from left to right, of seconds or of calls, and another.
struct Panel {
    top: f64,
    bottom: f64,
    start: f64,
    end: f64,
    low: f64,
    high: f64,
}

impl Panel {
    fn x(&self, place: f64) -> f64 {
        LEFT + (place - self.start) / (self.end - self.start) * (RIGHT - LEFT)
    }

    fn y(&self, value: f64) -> f64 {
        self.bottom - (value - self.low) / (self.high - self.low) * (self.bottom - self.top)
    }

    fn frame(&self, svg: &mut String) {
        let (width, height) = (RIGHT - LEFT, self.bottom - self.top);
        line(svg, &format!("<rect x='{LEFT}' y='{}' width='{width}' height='{height}' fill='none' stroke='#b8b8b8'/>", self.top));
    }

    /// Lines and numbers from left to right, every `step` seconds or calls; `scale` makes them into what the axis shows.
    fn level_axis(&self, svg: &mut String, step: f64, scale: f64, numbers: bool) {
        let mut index = 0.0;
        while index * step <= self.end + 1e-9 {
            let (place, x) = (index * step, self.x(index * step));
            line(svg, &format!("<path d='M{x:.1} {}V{}' stroke='{FAINT}'/>", self.top, self.bottom));
            if numbers {
                text(svg, x, self.bottom + 17.0, "middle", 12, &format!("{}", (place * scale * 1000.0).round() / 1000.0));
            }
            index += 1.0;
        }
    }

    /// The time of a stall, where the take has one; what is drawn later lies over it.
    fn band(&self, svg: &mut String, stall: Option<Stall>) {
        let Some(stall) = stall else { return };
        let [start, end] = [stall.start, stall.end()].map(|time| self.x(seconds(time)));
        let (width, height) = ((end - start).max(2.0), self.bottom - self.top);
        line(svg, &format!("<rect x='{start:.1}' y='{}' width='{width:.1}' height='{height}' fill='{STALL}'/>", self.top));
    }

    fn value_axis(&self, svg: &mut String, values: &[f64], name: impl Fn(f64) -> String) {
        for &value in values {
            let y = self.y(value);
            line(svg, &format!("<path d='M{LEFT} {y:.1}H{RIGHT}' stroke='{FAINT}'/>"));
            text(svg, LEFT - 8.0, y + 4.0, "end", 12, &name(value));
        }
    }

    fn title(&self, svg: &mut String, title: &str) {
        text(svg, LEFT, self.top - 9.0, "start", 14, title);
    }

    /// What the upright axis shows, written along it.
    fn unit(&self, svg: &mut String, unit: &str) {
        let y = (self.top + self.bottom) / 2.0;
        line(
            svg,
            &format!("<text transform='translate(24 {y:.0}) rotate(-90)' text-anchor='middle' font-size='12' fill='{TEXT}'>{unit}</text>"),
        );
    }

    /// A line that keeps each value until the next.
    fn steps(&self, svg: &mut String, points: impl Iterator<Item = (f64, f64)>, colour: &str, width: f64) {
        let mut path = String::new();
        let mut last = None;
        for (time, value) in points.filter(|&(time, _)| time <= self.end) {
            let (x, y) = (self.x(time), self.y(value));
            match last {
                None => write!(path, "M{x:.1} {y:.1}"),
                Some(before) if before == y => continue,
                Some(_) => write!(path, "H{x:.1}V{y:.1}"),
            }
            .expect("a string takes everything");
            last = Some(y);
        }
        line(svg, &format!("<path d='{path}H{RIGHT}' fill='none' stroke='{colour}' stroke-width='{width}' stroke-linejoin='round'/>"));
    }
}

fn line(svg: &mut String, text: &str) {
    svg.push_str(text);
    svg.push('\n');
}

fn text(svg: &mut String, x: f64, y: f64, anchor: &str, size: u32, text: &str) {
    line(svg, &format!("<text x='{x:.1}' y='{y:.1}' text-anchor='{anchor}' font-size='{size}' fill='{TEXT}'>{text}</text>"));
}

/// How a legend shows what it names.
enum Sample {
    Line(&'static str),
    Mark(&'static str),
    Ring(&'static str),
    Bar(&'static str),
}

/// A sample and its name; gives the place of the next one.
fn key(svg: &mut String, x: f64, y: f64, sample: Sample, name: &str) -> f64 {
    let middle = y - 4.0;
    match sample {
        Sample::Line(colour) => line(svg, &format!("<path d='M{x:.0} {middle}h22' stroke='{colour}' stroke-width='3'/>")),
        Sample::Mark(colour) => line(svg, &format!("<path d='M{:.0} {}v14' stroke='{colour}' stroke-width='2'/>", x + 14.0, middle - 7.0)),
        Sample::Ring(colour) => ring(svg, x + 14.0, middle, colour),
        Sample::Bar(colour) => {
            line(svg, &format!("<rect x='{:.0}' y='{}' width='12' height='14' fill='{colour}'/>", x + 8.0, middle - 7.0))
        }
    }
    text(svg, x + 28.0, y, "start", 12, name);
    x + 28.0 + 6.4 * name.len() as f64 + 22.0
}

fn ring(svg: &mut String, x: f64, y: f64, colour: &str) {
    line(svg, &format!("<circle cx='{x:.1}' cy='{y:.1}' r='4.5' fill='white' stroke='{colour}' stroke-width='2'/>"));
}

fn seconds(nanoseconds: u64) -> f64 {
    nanoseconds as f64 / 1e9
}

fn thousands(bytes: usize) -> f64 {
    (bytes / FRAME) as f64 / 1000.0
}

pub fn draw(take: &Take) -> String {
    let end = take.advances.last().map_or(1.0, |advance| seconds(advance.time)).max(0.3);
    let catching_up = take.catching_up();
    let height = HEIGHT + catching_up.as_ref().map_or(0.0, |_| STALL_HEIGHT);
    let mut svg = String::new();
    line(
        &mut svg,
        &format!(
            "<svg xmlns='http://www.w3.org/2000/svg' width='{WIDTH}' height='{height}' viewBox='0 0 {WIDTH} {height}' \
             font-family='DejaVu Sans, Helvetica, Arial, sans-serif'>"
        ),
    );
    line(&mut svg, "<title>A drum pattern played through the proved HDA device</title>");
    line(&mut svg, &format!("<rect width='{WIDTH}' height='{height}' fill='white'/>"));
    text(&mut svg, LEFT, 32.0, "start", 20, "A drum pattern played through the proved HDA device");
    let about = format!(
        "{} kHz, 16-bit stereo; ring of {} descriptors of {} frames, each interrupts at its end; the host pulls {} frames at a time and holds {} downstream",
        f64::from(take.rate) / 1000.0,
        take.ring.periods,
        count(take.ring.period / FRAME),
        take.host.frames,
        count(take.host.downstream / FRAME)
    );
    text(&mut svg, LEFT, 53.0, "start", 12, &about);
    waveform(&mut svg, take, end);
    positions(&mut svg, take, end);
    start(&mut svg, take);
    if let Some(catching_up) = catching_up {
        falling(&mut svg, take, &catching_up);
    }
    line(&mut svg, "</svg>");
    svg
}

/// The frames that are heard by a time. In a stall these are the ones that the host still holds, then none; when it catches up they are all at once those that were late.
fn heard(take: &Take, time: f64) -> f64 {
    let rate = f64::from(take.rate);
    let first = seconds(take.host.due(take.rate, 0)) + (take.host.downstream / FRAME) as f64 / rate;
    let frames = (time - first) * rate;
    match take.catching_up() {
        Some(CatchingUp { stall, tick, .. }) if time < seconds(stall.end()) => frames.min((tick.pulled / FRAME) as f64),
        Some(catching_up) => frames - catching_up.late(take.rate) as f64,
        None => frames,
    }
}

/// Left over right, each frame at the time when it is heard.
fn waveform(svg: &mut String, take: &Take, end: f64) {
    for (side, name) in ["left", "right"].into_iter().enumerate() {
        let top = 92.0 + 94.0 * side as f64;
        let panel = Panel { top, bottom: top + 86.0, start: 0.0, end, low: -1.2, high: 1.2 };
        panel.band(svg, take.stall);
        panel.level_axis(svg, 0.5, 1.0, false);
        panel.value_axis(svg, &[-1.0, 0.0, 1.0], |value| format!("{value}"));
        panel.unit(svg, name);
        let samples: Vec<f64> = take
            .pulled
            .chunks_exact(FRAME)
            .map(|frame| f64::from(i16::from_le_bytes([frame[2 * side], frame[2 * side + 1]])) / 32_768.0)
            .collect();
        // One upright stroke for each unit of width, from the least to the greatest sample in it.
        let mut path = String::new();
        for column in LEFT as usize..RIGHT as usize {
            let frame = |x: f64| heard(take, (x - LEFT) / (RIGHT - LEFT) * end).clamp(0.0, samples.len() as f64) as usize;
            let part = &samples[frame(column as f64)..frame(column as f64 + 1.0)];
            if part.is_empty() {
                continue;
            }
            let (low, high) = part.iter().fold((1.0, -1.0), |(low, high): (f64, f64), &sample| (low.min(sample), high.max(sample)));
            let (top, bottom) = (panel.y(high), panel.y(low));
            write!(path, "M{}.5 {:.1}V{:.1}", column, top - 0.4, bottom + 0.4).expect("a string takes everything");
        }
        line(svg, &format!("<path d='{path}' stroke='{}' stroke-width='1'/>", SIDES[side]));
        panel.frame(svg);
        if side == 0 {
            panel.title(svg, "What is heard (amplitude; full scale is 1)");
        }
    }
}

/// The position, and below it a mark for each completion interrupt.
fn positions(svg: &mut String, take: &Take, end: f64) {
    let frames = take.advances.last().map_or(1.0, |advance| thousands(advance.position));
    let panel = Panel { top: 314.0, bottom: 514.0, start: 0.0, end, low: 0.0, high: frames * 1.04 };
    panel.band(svg, take.stall);
    panel.level_axis(svg, 0.5, 1.0, false);
    // Those of whole seconds of sound.
    let values: Vec<f64> = (0..).map(|second| f64::from(second * take.rate) / 1000.0).take_while(|value| *value <= panel.high).collect();
    panel.value_axis(svg, &values, |value| format!("{value}"));
    panel.unit(svg, "thousand frames");
    panel.steps(svg, take.advances.iter().map(|advance| (seconds(advance.time), thousands(advance.position))), POSITION, 2.0);
    panel.frame(svg);
    panel.title(svg, "Reported position and completion interrupts");
    let strip = Panel { top: 514.0, bottom: 542.0, start: 0.0, end, low: 0.0, high: 1.0 };
    strip.band(svg, take.stall);
    strip.level_axis(svg, 0.5, 1.0, true);
    let marks: String = take.completions.iter().map(|(time, _)| format!("M{:.1} 520v16", strip.x(seconds(*time)))).collect();
    line(svg, &format!("<path d='{marks}' stroke='{INTERRUPT}' stroke-width='1.4'/>"));
    strip.frame(svg);
    text(svg, (LEFT + RIGHT) / 2.0, 579.0, "middle", 12, "machine time since the stream was started (s)");
    let x = key(svg, LEFT + 16.0, 338.0, Sample::Line(POSITION), "position (LPIB, unwrapped)");
    key(svg, x, 338.0, Sample::Mark(INTERRUPT), &format!("completion interrupt (below, {} of them)", take.completions.len()));
    if let Some(catching_up) = take.catching_up() {
        // Under the line, which has risen by a second's frames and goes on to rise.
        text(svg, panel.x(seconds(catching_up.stall.end())) + 8.0, 504.0, "start", 12, &stalled(take, &catching_up));
    }
}

/// What a stall did to the sound's time.
fn stalled(take: &Take, catching_up: &CatchingUp) -> String {
    let stall = format!("stall: {} ms without a pull", count((catching_up.stall.length / 1_000_000) as usize));
    match catching_up.late(take.rate) {
        0 => format!("{stall}, then on time again"),
        late => format!("{stall}, from then on {} ms later", milliseconds(late, take.rate)),
    }
}

/// The first quarter of a second: who is where.
fn start(svg: &mut String, take: &Take) {
    let end = 0.25;
    let shown = take.advances.iter().take_while(|advance| seconds(advance.time) <= end);
    let high = shown.clone().map(|advance| thousands(advance.put)).fold(1.0, f64::max);
    let panel = Panel { top: 634.0, bottom: 874.0, start: 0.0, end, low: 0.0, high: high * 1.04 };
    panel.level_axis(svg, 0.025, 1000.0, true);
    // Every two thousand, or a multiple of it where that would be more than ten or so.
    let step = 2.0 * (panel.high / 20.0).ceil();
    let values: Vec<f64> = (0..).map(|index| f64::from(index) * step).take_while(|value| *value <= panel.high).collect();
    panel.value_axis(svg, &values, |value| format!("{value}"));
    panel.unit(svg, "thousand frames");
    let mut line_of = |of: fn(&Advance) -> usize, colour, width| {
        panel.steps(svg, shown.clone().map(|advance| (seconds(advance.time), thousands(of(advance)))), colour, width);
    };
    line_of(|advance| advance.put, PUT, 1.6);
    line_of(|advance| advance.read, READ, 1.6);
    line_of(|advance| advance.position, POSITION, 2.0);
    for (time, position) in take.completions.iter().filter(|(time, _)| seconds(*time) <= end) {
        ring(svg, panel.x(seconds(*time)), panel.y(thousands(*position)), INTERRUPT);
    }
    panel.frame(svg);
    panel.title(svg, "The start: what the guest has put in, what the device has read of it, and the position that it reports");
    let tick = format!("machine time (ms); a tick of the timer every {} ms", TICK / 1_000_000);
    text(svg, (LEFT + RIGHT) / 2.0, 911.0, "middle", 12, &tick);
    let mut x = LEFT + 16.0;
    for (sample, name) in [
        (Sample::Line(PUT), "put into the ring by the guest"),
        (Sample::Line(READ), "read by the device"),
        (Sample::Line(POSITION), "position"),
        (Sample::Ring(INTERRUPT), "completion interrupt served"),
    ] {
        x = key(svg, x, 657.0, sample, name);
    }
}

/// The deferred frames over the calls of the catching up, and the bound above them.
fn falling(svg: &mut String, take: &Take, catching_up: &CatchingUp) {
    let CatchingUp { tick, calls, .. } = catching_up;
    let (pull, last) = (take.host.frames, calls.len() as f64);
    let highest = tick.deferred.max(pull) as f64;
    let panel = Panel { top: 966.0, bottom: 1174.0, start: -0.5, end: last + 0.5, low: 0.0, high: highest * 1.06 };
    panel.level_axis(svg, 1.0, 1.0, true);
    // Five at most, so that a pull is a multiple or a part of what is between them.
    let step = (6..).map(|power| f64::from(1 << power)).find(|step| highest / step <= 4.0).expect("steps grow");
    let values: Vec<f64> = (0..).map(|index| f64::from(index) * step).take_while(|value| *value <= panel.high).collect();
    panel.value_axis(svg, &values, |value| count(value as usize));
    panel.unit(svg, "frames");
    bars(svg, &panel, [tick].into_iter().chain(*calls).map(|advance| advance.deferred as f64));
    panel.frame(svg);
    panel.title(svg, &format!("After the stall: a pull of {pull} frames and an advance by 0 ns in turn, until no whole frame is deferred"));
    text(svg, (LEFT + RIGHT) / 2.0, 1211.0, "middle", 12, "calls of advance since the stall");
    if tick.deferred == 0 {
        text(svg, panel.x(0.0), 1070.0, "middle", 14, "nothing was deferred: the queue had room for all that was due");
    } else {
        fallen(svg, &panel, take, catching_up);
    }
}

/// The bound, which falls by a pull with each call, and where nothing is left.
fn fallen(svg: &mut String, panel: &Panel, take: &Take, catching_up: &CatchingUp) {
    let CatchingUp { tick, calls, .. } = catching_up;
    let (deferred, pull, x) = (tick.deferred as f64, take.host.frames, panel.x(calls.len() as f64));
    let [start, end] = [(0.0, deferred), (deferred / pull as f64, 0.0)].map(|(call, value)| (panel.x(call), panel.y(value)));
    line(svg, &format!("<path d='M{:.1} {:.1}L{:.1} {:.1}' stroke='{TEXT}'/>", start.0, start.1, end.0, end.1));
    line(svg, &format!("<path d='M{x:.1} 1100V{}' stroke='{CAUGHT_UP}' stroke-width='2'/>", panel.bottom));
    ring(svg, x, panel.bottom, CAUGHT_UP);
    text(svg, x - 8.0, 1110.0, "end", 14, &format!("caught up after {}", number_of(calls.len(), "call")));
    let (frames, sound) = (count(tick.deferred), milliseconds(tick.deferred, take.rate));
    let x = key(svg, LEFT + 430.0, 990.0, Sample::Bar(DEFERRED), &format!("deferred; at first {frames} frames, {sound} ms of sound"));
    key(svg, x, 990.0, Sample::Line(TEXT), &format!("bound: {frames} - {pull} for each call"));
}

/// A bar for each value, from 0 on.
fn bars(svg: &mut String, panel: &Panel, values: impl Iterator<Item = f64>) {
    let width = (0.6 * (panel.x(1.0) - panel.x(0.0))).min(24.0);
    for (place, value) in values.enumerate() {
        let (x, y) = (panel.x(place as f64) - width / 2.0, panel.y(value));
        line(svg, &format!("<rect x='{x:.1}' y='{y:.1}' width='{width:.1}' height='{:.1}' fill='{DEFERRED}'/>", panel.bottom - y));
    }
}
