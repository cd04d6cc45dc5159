//! Demand 3's events: what two decoders get of one programme, of which the second misses payloads.
//! The names are those of `Events` in the definitions.

use oracle::call::Call;
use oracle::random::Random;

/// A gap notice, or a reset, which counts as a gap.
const WARNINGS: [Call; 2] = [Call::Gap, Call::Reset];

#[derive(Clone, Copy, Debug, PartialEq, Eq)]
pub enum Event {
    /// A programme start, to both.
    Starts,
    /// A payload, to both.
    Heard,
    /// A payload, to the first alone.
    Missed,
    /// A warning, to the second alone.
    Warns(Call),
    WarnsBoth(Call),
}

/// Whether the second can know that it missed something.
#[derive(Clone, Copy, Debug, Default, PartialEq, Eq)]
pub enum Following {
    /// It got a warning since the last payload that both heard.
    Warned,
    /// It missed a payload unwarned, and got no warning since.
    Astray,
    /// Neither.
    #[default]
    Abreast,
}

impl Following {
    pub fn after(self, event: Event) -> Following {
        match (self, event) {
            (_, Event::Starts) => Following::Abreast,
            (_, Event::Warns(_) | Event::WarnsBoth(_)) => Following::Warned,
            (Following::Warned, Event::Heard) => Following::Abreast,
            (Following::Abreast, Event::Missed) => Following::Astray,
            _ => self,
        }
    }
}

/// What comes with the next payload. Mostly a warning that is owed is given before both hear one.
pub fn drawn(random: &mut Random, following: Following) -> Vec<Event> {
    let turns = if following == Following::Abreast {
        3
    } else {
        2
    };
    let payload = if random.once_in(turns) {
        Event::Missed
    } else {
        Event::Heard
    };
    let owed = following == Following::Astray && payload == Event::Heard;
    let mut events = Vec::new();
    if owed && !random.once_in(8) {
        events.push(drawn_warning(random));
    } else if random.once_in(5) {
        let warning = drawn_warning(random);
        events.push(random.pick(&[warning, warning, warning, Event::Starts]));
    }
    events.push(payload);
    if payload == Event::Missed && random.once_in(3) {
        // In place of the payload.
        events.push(Event::Warns(random.pick(&WARNINGS)));
    }
    events
}

fn drawn_warning(random: &mut Random) -> Event {
    let call = random.pick(&WARNINGS);
    random.pick(&[Event::Warns(call), Event::WarnsBoth(call)])
}
