//! Calls on the state of a pipe, and packs in parts.

use super::{alone, entry_words, pattern_words, safe_entry_words, Compare, Function, Wanted};
use crate::plain::pack::walk;
use crate::plain::pipe::{Event, State, LIMIT};
use vof::raw::{self, PIPE_STATE};
use vof::{Entry, Pipe, Refusal};

impl Compare {
    /// A call on a pipe's state of these numbers, with so many more behind them: the answer, what the lent
    /// words get, and what the state is then. None: all of it keeps its content.
    fn on_state(
        &mut self,
        function: Function,
        inputs: &[&[u8]],
        wanted: (u64, Vec<u64>, Option<&State>),
        (state, more): (&[u64], usize),
        room: usize,
        call: impl Fn(&mut [u64], &mut [u64]) -> u64,
    ) -> Vec<u64> {
        let (right, told, after) = wanted;
        let before = [state, &pattern_words(more)].concat();
        let (mut state, mut words) = (before.clone(), pattern_words(room));
        let mut right_words = words.clone();
        right_words[..told.len()].copy_from_slice(&told);
        let answer = call(&mut state, &mut words);
        self.called(function, right);
        let left = match after {
            None => state == before,
            Some(after) => {
                State::from_words(&state).as_ref() == Some(after)
                    && state[PIPE_STATE..] == before[PIPE_STATE..]
            }
        };
        if answer != right || words != right_words || !left {
            let proved = format!("{answer} {words:x?} {state:x?}");
            let plain = format!("{right} {right_words:x?} {after:x?}");
            let told = format!("state {before:x?}\n  proved {proved}\n  plain  {plain}");
            self.fail(&format!("{function:?}"), inputs, told);
        }
        state
    }

    /// A fresh state, in memory of several lengths.
    pub fn pipe_start(&mut self) -> Vec<u64> {
        self.inputs += 1;
        let (fresh, exact) = (State::new(), PIPE_STATE);
        let call = |state: &mut [u64], _: &mut [u64]| raw::pipe_start(state);
        let mut left = Vec::new();
        for length in [0, 1, exact - 1, exact + 5, exact] {
            let wanted = match length < exact {
                true => (19, Vec::new(), None),
                false => (0, Vec::new(), Some(&fresh)),
            };
            left = self.on_state(Function::PipeStart, &[], wanted, (&[], length), 0, call);
        }
        left
    }

    /// A part handed over in this state. Gives the state afterwards, and what is told.
    pub fn pipe_take(
        &mut self,
        state: &[u64],
        part: &[u8],
    ) -> (Vec<u64>, Result<(usize, Event), Refusal>) {
        self.inputs += 1;
        let plain = State::from_words(state).map(|state| state.take(part));
        let (right, told, after, outcome) = match &plain {
            None => (20, Vec::new(), None, Err(alone(20))),
            Some((after, Err(refusal))) => {
                let right = Wanted::refused(*refusal).answer;
                (right, Vec::new(), Some(after), Err(*refusal))
            }
            Some((after, Ok(told))) => (0, event_words(told), Some(after), Ok(*told)),
        };
        let call = |state: &mut [u64], told: &mut [u64]| raw::pipe_take(state, part, told);
        let mut left = Vec::new();
        // One that is too short stays so.
        let whole = usize::from(state.len() >= PIPE_STATE);
        for (room, more) in [(0, 0), (5, whole), (9, 4 * whole), (6, 0)] {
            let wanted = match told.len() > room {
                true => (19, Vec::new(), None),
                false => (right, told.clone(), after),
            };
            left = self.on_state(
                Function::PipeTake,
                &[part],
                wanted,
                (state, more),
                room,
                call,
            );
        }
        (left, outcome)
    }

    /// The end announced in this state. Gives the state afterwards, and the verdict.
    pub fn pipe_end(&mut self, state: &[u64]) -> (Vec<u64>, Result<u64, Refusal>) {
        self.inputs += 1;
        let plain = State::from_words(state).map(|state| state.end());
        let (right, after, outcome) = match &plain {
            None => (20, None, Err(alone(20))),
            Some((after, Err(refusal))) => {
                (Wanted::refused(*refusal).answer, Some(after), Err(*refusal))
            }
            Some((after, Ok(records))) => (256 * records, Some(after), Ok(*records)),
        };
        let call = |state: &mut [u64], _: &mut [u64]| raw::pipe_end(state);
        let mut left = Vec::new();
        let whole = usize::from(state.len() >= PIPE_STATE);
        for more in [3 * whole, 0] {
            let wanted = (right, Vec::new(), after);
            left = self.on_state(Function::PipeEnd, &[], wanted, (state, more), 0, call);
        }
        (left, outcome)
    }

    /// A pack in parts that end at these places, and then the rest, from this state on: the records, and
    /// the verdict. What a call did not take is handed over again.
    pub fn session(
        &mut self,
        mut state: Vec<u64>,
        pack: &[u8],
        ends: &[usize],
    ) -> (Vec<Entry>, Result<u64, Refusal>) {
        let (mut records, mut at) = (Vec::new(), 0);
        for &end in ends.iter().chain([&pack.len()]) {
            // An empty part is handed over too.
            loop {
                let (left, told) = self.pipe_take(&state, &pack[at..end]);
                state = left;
                let Ok((taken, event)) = told else { break };
                at += taken;
                match event {
                    Event::Complete(record) => records.push(record),
                    Event::Wanted | Event::Ended => break,
                }
                if at == end {
                    break;
                }
            }
        }
        let (mut state, verdict) = self.pipe_end(&state);
        for part in [&[][..], pack] {
            state = self.pipe_take(&state, part).0;
            state = self.pipe_end(&state).0;
        }
        (records, verdict)
    }

    /// A pack in parts that end at these places, and then the rest: its records and the verdict are those of
    /// the whole.
    pub fn pipe(&mut self, pack: &[u8], ends: &[usize]) {
        let (entries, ending) = walk(pack, LIMIT);
        let verdict = ending.map(|()| entries.len() as u64);
        let wanted: Vec<[u64; 4]> = entries.iter().map(entry_words).collect();
        let fresh = self.pipe_start();
        let (records, told) = self.session(fresh, pack, ends);
        let words = records.iter().map(safe_entry_words);
        let same = words.eq(wanted.iter().copied()) && told == verdict;
        self.hold("a pack in parts is the whole", &[pack], same);
        let (mut pipe, mut records, mut refusal, mut at) = (Pipe::new(), Vec::new(), None, 0);
        for &end in ends.iter().chain([&pack.len()]) {
            for record in pipe.feed(&pack[at..end]) {
                match record {
                    Ok(record) => records.push(safe_entry_words(&record)),
                    Err(told) => refusal = Some(told),
                }
            }
            at = end;
        }
        let met = refusal.is_none_or(|refusal| verdict == Err(refusal));
        let same = records == wanted && met && pipe.end() == verdict;
        self.hold("the safe pipe", &[pack], same);
        let (mut records, mut streamed) = (Vec::new(), None);
        for told in vof::stream(pack) {
            match told {
                Ok(record) => records.push(safe_entry_words(&record)),
                Err(error) => streamed = error.get_ref().and_then(|it| it.downcast_ref().copied()),
            }
        }
        let same = records == wanted && streamed == verdict.err();
        self.hold("the safe stream", &[pack], same);
    }
}

/// What a pipe tells.
fn event_words(&(taken, event): &(usize, Event)) -> Vec<u64> {
    let (number, record) = match event {
        Event::Wanted => (0, [0; 4]),
        Event::Complete(record) => (1, safe_entry_words(&record)),
        Event::Ended => (2, [0; 4]),
    };
    [&[taken as u64, number][..], &record].concat()
}
