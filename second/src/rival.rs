//! The most packets any rival scheduler can have sent, found by going through all
//! its schedules. For tiny switches of model 1 (CIOQ) only.
//!
//! The rival has the same arrivals, capacities and speedup. It may
//!
//! 1. accept an arrival where there is room, or refuse it though there is room;
//! 2. in each cycle make any set of moves with at most one packet out of each input
//!    port and at most one into each output queue, each from a queue that is not
//!    empty into one with room;
//! 3. then send at most one packet from each output queue, or hold it back;
//! 4. discard packets from any queue at any moment.
//!
//! A switch is known by its queue lengths, and what a rival can still do depends on
//! these alone. So the search keeps, for each moment, the reachable states and for
//! each state the most that can have been sent on any way to it (the memo), and
//! goes from moment to moment, breadth first.
//!
//! # Freedoms that can be left out
//!
//! Refusing with room, holding back and discarding never help. Take any schedule S
//! with them. Let S' refuse only where there is no room, discard nothing, send from
//! every queue that is not empty, and in each cycle make those moves of S whose
//! output queue has room in S'. For all i, j and at all times
//!
//! - (a) input queue (i, j) of S' is at least as long as that of S;
//! - (b) sent from j plus length of output queue j in S' is at least that in S;
//! - (c) sent from j in S' is at least that in S.
//!
//! Arrival: where S accepts and S' does not, the queue of S' is full, so (a) stays.
//! Discarding only makes the side of S smaller. Move (i, j) of S: by (a) S' has a
//! packet there. If output queue j of S' has room, both move and nothing changes. If
//! it is full, S' keeps its packet, so (a) stays, and its output queue is at least as
//! long as any, so (c) gives (b). Sending leaves (b) as it is. Where S sends from j
//! and S' has sent as many before, (b) says that queue j of S' is not empty either,
//! so S' sends and (c) stays; where S' has sent more before, (c) stays anyway.
//! The moves of S' are among those of S, so S' is a legal schedule, and by (c) it has
//! sent at least as many at the end of every slot.
//!
//! The choice of moves is not cut down: every set of moves is tried, the empty one and
//! those that could be larger too. A packet moved early can fill an output queue
//! against another input, so the argument above does not carry over to them.
//!
//! `Freedoms::All` searches with every freedom, for the test that both agree.

use crate::limits::CIOQ;
use crate::trace::{self, Trace};
use std::collections::BTreeMap;

/// Which freedoms the search gives the rival.
#[derive(Clone, Copy, Debug, PartialEq, Eq)]
pub enum Freedoms {
    /// 1 to 4 in full.
    All,
    /// Only the choice of moves, which is enough for the most sent (see above).
    Moves,
}

/// The lengths of the rival's queues: input [i][j] and output [j].
#[derive(Clone, PartialEq, Eq, PartialOrd, Ord)]
struct State {
    input: Vec<Vec<u16>>,
    output: Vec<u16>,
}

/// The reachable states of one moment, each with the most sent on a way to it.
type Moment = BTreeMap<State, u32>;

/// The capacities, as they stand in the trace.
struct Capacities {
    input: Vec<Vec<u16>>,
    output: Vec<u16>,
}

/// The most packets a rival can have sent at the end of each slot. For a trace of
/// model 1 that has been read.
pub fn most_sent(trace: &Trace, freedoms: Freedoms) -> Vec<u32> {
    assert_eq!(trace.model, CIOQ, "the rival is for model 1 only");
    let n = trace.ports as usize;
    let capacities = capacities(trace);
    let empty = State {
        input: vec![vec![0; n]; n],
        output: vec![0; n],
    };
    let mut moment = Moment::new();
    reach(&mut moment, empty, 0);
    let mut most = Vec::new();
    for arrivals in trace::arrivals_of_slots(trace) {
        for (i, j) in arrivals {
            moment = arrival(moment, &capacities, i, j, freedoms);
            moment = discards(moment, n, freedoms);
        }
        for _ in 0..trace.speedup {
            moment = cycle(moment, &capacities, n);
            moment = discards(moment, n, freedoms);
        }
        moment = sending(moment, n, freedoms);
        moment = discards(moment, n, freedoms);
        most.push(*moment.values().max().expect("some state is reachable"));
    }
    most
}

/// The limit on the rival: three times what greedy has sent and twice what greedy
/// holds in its output queues (document 01, C7: the limit is 9).
pub fn limit(sent: u32, held_in_outputs: u32) -> u32 {
    3 * sent + 2 * held_in_outputs
}

/// Takes the capacities out of the trace: N x N input queues, then N output queues.
fn capacities(trace: &Trace) -> Capacities {
    let n = trace.ports as usize;
    let mut input = vec![vec![0; n]; n];
    let mut output = vec![0; n];
    for i in 0..n {
        for j in 0..n {
            input[i][j] = trace.capacities[i * n + j];
        }
    }
    for j in 0..n {
        output[j] = trace.capacities[n * n + j];
    }
    Capacities { input, output }
}

/// Notes that a state is reachable with so many sent; the greater number stays.
fn reach<S: Ord>(moment: &mut BTreeMap<S, u32>, state: S, sent: u32) {
    let most = moment.entry(state).or_insert(sent);
    if *most < sent {
        *most = sent;
    }
}

/// Freedom 1: one arrival, accepted only with room, or refused though there is room.
fn arrival(now: Moment, capacities: &Capacities, i: usize, j: usize, freedoms: Freedoms) -> Moment {
    let mut next = Moment::new();
    for (state, sent) in now {
        let room = state.input[i][j] < capacities.input[i][j];
        if room {
            let mut accepted = state.clone();
            accepted.input[i][j] += 1;
            reach(&mut next, accepted, sent);
        }
        if !room || freedoms == Freedoms::All {
            reach(&mut next, state, sent);
        }
    }
    next
}

/// Freedom 2: one cycle. Input after input, each gives up no packet or one of its
/// packets for an output queue that has room and that got none in this cycle.
fn cycle(now: Moment, capacities: &Capacities, n: usize) -> Moment {
    // the states within the cycle know which output queues got a packet
    let mut partial: BTreeMap<(State, Vec<bool>), u32> = BTreeMap::new();
    for (state, sent) in now {
        reach(&mut partial, (state, vec![false; n]), sent);
    }
    for i in 0..n {
        let mut next = BTreeMap::new();
        for ((state, taken), sent) in partial {
            for j in 0..n {
                let not_empty = state.input[i][j] > 0;
                let room = state.output[j] < capacities.output[j];
                if not_empty && room && !taken[j] {
                    let mut moved = state.clone();
                    moved.input[i][j] -= 1;
                    moved.output[j] += 1;
                    let mut now_taken = taken.clone();
                    now_taken[j] = true;
                    reach(&mut next, (moved, now_taken), sent);
                }
            }
            reach(&mut next, (state, taken), sent);
        }
        partial = next;
    }
    let mut after = Moment::new();
    for ((state, _), sent) in partial {
        reach(&mut after, state, sent);
    }
    after
}

/// Freedom 3: each output queue that is not empty sends one packet, or holds back.
fn sending(now: Moment, n: usize, freedoms: Freedoms) -> Moment {
    let mut moment = now;
    for j in 0..n {
        let mut next = Moment::new();
        for (state, sent) in moment {
            let not_empty = state.output[j] > 0;
            if not_empty {
                let mut after = state.clone();
                after.output[j] -= 1;
                reach(&mut next, after, sent + 1);
            }
            if !not_empty || freedoms == Freedoms::All {
                reach(&mut next, state, sent);
            }
        }
        moment = next;
    }
    moment
}

/// Freedom 4: any number of packets discarded from each queue. Called after each
/// arrival, cycle and sending phase. That is every moment that matters: within a
/// cycle or a sending phase each queue is touched at most once (a move touches one
/// input queue and one output queue that no other move touches), so a discard there
/// can as well be done just before or just after.
fn discards(now: Moment, n: usize, freedoms: Freedoms) -> Moment {
    if freedoms != Freedoms::All {
        return now;
    }
    let mut moment = now;
    for i in 0..n {
        for j in 0..n {
            let mut next = Moment::new();
            for (state, sent) in moment {
                for length in 0..=state.input[i][j] {
                    let mut left = state.clone();
                    left.input[i][j] = length;
                    reach(&mut next, left, sent);
                }
            }
            moment = next;
        }
    }
    for j in 0..n {
        let mut next = Moment::new();
        for (state, sent) in moment {
            for length in 0..=state.output[j] {
                let mut left = state.clone();
                left.output[j] = length;
                reach(&mut next, left, sent);
            }
        }
        moment = next;
    }
    moment
}
