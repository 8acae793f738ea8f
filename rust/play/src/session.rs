//! A take: guest, device and host on one clock.
use crate::bus::{Bus, Outcome};
use crate::format::Format;
use crate::guest::{self, FRAME, Guest, RING, Ring};

/// Nanoseconds between two timer ticks.
pub const TICK: u64 = 1_000_000;

/// The host's side of a take.
#[derive(Clone, Copy)]
pub struct Host {
    /// Frames of a pull.
    pub frames: usize,
    /// Frames that are due when the first pull is: more than it asks for, so that the queue has them, and fewer than the queue holds.
    pub lead: usize,
    /// Bytes between a pull and the ear.
    pub downstream: usize,
}

impl Host {
    /// When a pull is due at a rate, in nanoseconds.
    pub fn due(self, rate: u32, pull: usize) -> u64 {
        lasting(self.lead + pull * self.frames, rate)
    }
}

/// The nanoseconds that so many frames last.
pub fn lasting(frames: usize, rate: u32) -> u64 {
    frames as u64 * 1_000_000_000 / u64::from(rate)
}

/// The whole frames that are due after so many nanoseconds.
pub fn due_after(nanos: u64, rate: u32) -> usize {
    (nanos * u64::from(rate) / 1_000_000_000) as usize
}

/// A time in which the host does not pull, in whole ticks of the timer.
#[derive(Clone, Copy, Debug, PartialEq, Eq)]
pub struct Stall {
    /// Nanoseconds since the stream was started.
    pub start: u64,
    pub length: u64,
}

impl Stall {
    /// When the host pulls again.
    pub fn end(self) -> u64 {
        self.start + self.length
    }

    fn has(self, time: u64) -> bool {
        (self.start..self.end()).contains(&time)
    }
}

/// What stood where after a call of `advance`, in bytes since the start.
#[derive(Clone, Copy)]
pub struct Advance {
    /// The nanoseconds that the call let pass: those of a tick, or none while the host catches up.
    pub nanos: u64,
    /// The time after it.
    pub time: u64,
    /// Laid into the ring by the guest.
    pub put: usize,
    /// Read by the device.
    pub read: usize,
    /// Due and not read, in whole frames.
    pub deferred: usize,
    /// Pulled by the host before this call.
    pub pulled: usize,
    /// The position that the guest read, unwrapped.
    pub position: usize,
}

/// All that happened.
pub struct Take {
    /// What the guest chose.
    pub format: Format,
    /// Frames a second, as the host learned them from the device.
    pub rate: u32,
    pub ring: Ring,
    pub host: Host,
    pub stall: Option<Stall>,
    pub sound: usize,
    pub put: Vec<u8>,
    pub pulled: Vec<u8>,
    /// Read by the device and not pulled when the guest stopped.
    pub queued: Vec<u8>,
    pub advances: Vec<Advance>,
    /// When each completion interrupt was served, and the position that its handler read.
    pub completions: Vec<(u64, usize)>,
    pub commands: usize,
    pub responses: usize,
    pub messages: usize,
    /// Pulls that got fewer frames than they asked for.
    pub short: usize,
}

impl Take {
    /// Ticks of the timer.
    pub fn ticks(&self) -> usize {
        self.advances.iter().filter(|advance| advance.nanos != 0).count()
    }

    /// How the host caught up; none where it did not stall, or the take ended before.
    pub fn catching_up(&self) -> Option<CatchingUp<'_>> {
        let stall = self.stall?;
        let end = self.advances.iter().position(|advance| advance.time == stall.end())?;
        let (before, after) = self.advances.split_at(end + 1);
        let calls = after.iter().take_while(|advance| advance.nanos == 0).count();
        Some(CatchingUp { stall, tick: before[end], calls: &after[..calls] })
    }
}

/// A stall that is over.
pub struct CatchingUp<'take> {
    pub stall: Stall,
    /// The tick at which the host pulls again, before it does.
    pub tick: Advance,
    /// The calls that let no time pass, each after a pull.
    pub calls: &'take [Advance],
}

impl CatchingUp<'_> {
    /// The frames by which the device reads later than before, since it could not defer all that was due.
    pub fn late(&self, rate: u32) -> usize {
        due_after(self.tick.time, rate).saturating_sub(self.tick.read / FRAME + self.tick.deferred)
    }
}

/// Guest, device and host at work.
struct Session {
    bus: Bus,
    guest: Guest,
    host: Host,
    rate: u32,
    now: u64,
    advances: Vec<Advance>,
    completions: Vec<(u64, usize)>,
    pulled: Vec<u8>,
    pulls: usize,
    short: usize,
    /// By how many nanoseconds the device reads later than at first, and the host pulls later with it.
    late: u64,
}

impl Session {
    /// The guest runs its stream, and the host learns the rate.
    fn start(sound: &[u8], format: Format, ring: Ring, host: Host) -> Outcome<Self> {
        let mut bus = Bus::new(RING + ring.bytes());
        bus.set_downstream(host.downstream as u32)?;
        let mut guest = guest::start(&mut bus, format, ring, sound)?;
        guest.run(&mut bus)?;
        let rate = bus.rate().ok_or("the stream runs, and the host sees none that is open")?;
        let (advances, completions, pulled) = (Vec::new(), Vec::new(), Vec::new());
        Ok(Self { bus, guest, host, rate, now: 0, advances, completions, pulled, pulls: 0, short: 0, late: 0 })
    }

    /// Time passes; the guest serves its interrupts and looks at the position.
    fn advance(&mut self, nanos: u64) -> Outcome<()> {
        self.now += nanos;
        self.bus.advance(nanos)?;
        self.guest.serve(&mut self.bus)?;
        let served = &self.guest.completions[self.completions.len()..];
        self.completions.extend(served.iter().map(|&position| (self.now, position)));
        let position = self.guest.look(&mut self.bus)?;
        self.advances.push(Advance {
            nanos,
            time: self.now,
            put: self.guest.put.len(),
            read: self.read(),
            deferred: self.bus.deferred(),
            pulled: self.pulled.len(),
            position,
        });
        Ok(())
    }

    /// The bytes that the device has read.
    fn read(&self) -> usize {
        self.pulled.len() + self.bus.queued().len()
    }

    fn pull(&mut self) -> Outcome<()> {
        let asked = self.host.frames * FRAME;
        let bytes = self.bus.pull(asked)?;
        self.short += usize::from(bytes.len() < asked);
        self.pulled.extend(bytes);
        self.pulls += 1;
        Ok(())
    }

    /// The pulls that are due before the next tick.
    fn pull_due(&mut self) -> Outcome<()> {
        while self.host.due(self.rate, self.pulls) + self.late < self.now + TICK {
            self.pull()?;
        }
        Ok(())
    }

    /// A pull and a call that lets no time pass, again and again until no whole frame is deferred. The pulls are those that were due in the stall. Where more was due
    /// than could be deferred, the device reads the rest later, and the pulls that follow are due later by as much.
    fn catch_up(&mut self) -> Outcome<()> {
        while self.bus.deferred() != 0 {
            let before = self.bus.deferred();
            self.pull()?;
            self.advance(0)?;
            if self.bus.deferred() >= before {
                return Err(format!("{before} frames stay deferred, though the host pulls"));
            }
        }
        self.late = lasting(due_after(self.now, self.rate).saturating_sub(self.read() / FRAME), self.rate);
        Ok(())
    }
}

/// Plays `sound` until the position has passed its end.
pub fn play(sound: &[u8], format: Format, ring: Ring, host: Host, stall: Option<Stall>, mut progress: impl FnMut(usize)) -> Outcome<Take> {
    let mut session = Session::start(sound, format, ring, host)?;
    // Twice the time that the sound lasts, and a second, besides the stall.
    let limit = 2 * lasting(sound.len() / FRAME, session.rate) + 1_000_000_000 + stall.map_or(0, |stall| stall.length);
    while session.guest.position < sound.len() {
        if session.now > limit {
            return Err(format!("the position stands at byte {} of {}", session.guest.position, sound.len()));
        }
        session.advance(TICK)?;
        if stall.is_some_and(|stall| stall.end() == session.now) {
            session.catch_up()?;
        }
        if !stall.is_some_and(|stall| stall.has(session.now)) {
            session.pull_due()?;
        }
        progress(session.guest.position);
    }
    let Session { mut bus, mut guest, rate, advances, completions, pulled, short, .. } = session;
    let queued = bus.queued().to_vec();
    guest.stop(&mut bus)?;
    guest.serve(&mut bus)?;
    Ok(Take {
        format,
        rate,
        ring,
        host,
        stall,
        sound: sound.len(),
        put: guest.put,
        pulled,
        queued,
        advances,
        completions,
        commands: guest.commands,
        responses: guest.responses.len(),
        messages: guest.messages,
        short,
    })
}
