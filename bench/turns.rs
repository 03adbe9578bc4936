// Turns at a lock of the standard library with the same fairness: whoever asked first is next, by tickets under a Mutex
// with a Condvar. Two threads take so many turns in all, half of them in each. It prints how many were counted.
use std::sync::{Condvar, Mutex};

struct State {
    next: u64,
    serving: u64,
    value: Option<u64>,
}

struct Turns {
    state: Mutex<State>,
    moved: Condvar,
}

impl Turns {
    fn take(&self) -> u64 {
        let mut state = self.state.lock().unwrap();
        let ticket = state.next;
        state.next += 1;
        while state.serving != ticket {
            state = self.moved.wait(state).unwrap();
        }
        state.value.take().unwrap()
    }

    fn give(&self, value: u64) {
        let mut state = self.state.lock().unwrap();
        state.value = Some(value);
        state.serving += 1;
        drop(state);
        self.moved.notify_all();
    }
}

fn main() {
    let count: u64 = std::env::args().nth(1).unwrap().parse().unwrap();
    let turns = Turns {
        state: Mutex::new(State { next: 0, serving: 0, value: Some(0) }),
        moved: Condvar::new(),
    };
    std::thread::scope(|scope| {
        for _ in 0..2 {
            scope.spawn(|| {
                for _ in 0..count / 2 {
                    let value = turns.take();
                    turns.give(value + 1);
                }
            });
        }
    });
    println!("turns {}", turns.take());
}
