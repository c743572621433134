//! The switch value: what it holds, how a new one is made, its image in words,
//! and refusal 13.

use crate::limits::*;
use crate::trace;
use crate::Refusal;

/// A number for each pair of ports: [i][j] is input i, output j.
pub type Pairs = [[u32; 16]; 16];

/// The number of words in a switch's image.
pub const WORDS: usize = 1066;

/// A switch. Any numbers whatever may stand here; `allowed` tells refusal 13.
#[derive(Clone, Copy, Debug, PartialEq, Eq)]
pub struct Switch {
    pub model: u32,
    pub order: u32,
    pub ports: u32,
    pub speedup: u32,
    /// The slot number.
    pub slot: u32,
    pub arrived: u32,
    pub dropped: u32,
    pub crossed: u32,
    pub outmoved: u32,
    pub sent: u32,
    pub input_capacity: Pairs,
    pub output_capacity: [u32; 16],
    pub crosspoint_capacity: Pairs,
    pub input_length: Pairs,
    pub output_length: [u32; 16],
    pub crosspoint_length: Pairs,
}

/// The switch with every number in it 0, which goes with a refused making.
pub const ZERO: Switch = Switch {
    model: 0,
    order: 0,
    ports: 0,
    speedup: 0,
    slot: 0,
    arrived: 0,
    dropped: 0,
    crossed: 0,
    outmoved: 0,
    sent: 0,
    input_capacity: [[0; 16]; 16],
    output_capacity: [0; 16],
    crosspoint_capacity: [[0; 16]; 16],
    input_length: [[0; 16]; 16],
    output_length: [0; 16],
    crosspoint_length: [[0; 16]; 16],
};

impl Switch {
    /// "A new switch is made from a trace's header and capacities, or refused by
    /// 1 to 11 with every number in it 0." Slot number 0, all queues empty.
    pub fn new(bytes: &[u8]) -> (Switch, Option<Refusal>) {
        match trace::read(bytes) {
            Ok(trace) => (Switch::of_trace(&trace), None),
            Err(refusal) => (ZERO, Some(refusal)),
        }
    }

    /// The new switch of a trace that has been read. The capacities stand in file
    /// order: input by input with outputs ascending, output queues, crosspoints.
    pub fn of_trace(trace: &trace::Trace) -> Switch {
        let n = trace.ports as usize;
        let mut switch = ZERO;
        switch.model = trace.model;
        switch.order = trace.order;
        switch.ports = trace.ports;
        switch.speedup = trace.speedup;
        let mut at = 0;
        for i in 0..n {
            for j in 0..n {
                switch.input_capacity[i][j] = u32::from(trace.capacities[at]);
                at += 1;
            }
        }
        for j in 0..n {
            switch.output_capacity[j] = u32::from(trace.capacities[at]);
            at += 1;
        }
        if trace.model == CROSSBAR {
            for i in 0..n {
                for j in 0..n {
                    switch.crosspoint_capacity[i][j] = u32::from(trace.capacities[at]);
                    at += 1;
                }
            }
        }
        switch
    }

    /// The packets held in all queues ("Counts and draining").
    pub fn held(&self) -> u64 {
        self.held_in_inputs() + self.held_in_outputs() + self.held_in_crosspoints()
    }

    /// The packets held in the input queues.
    pub fn held_in_inputs(&self) -> u64 {
        sum_of_pairs(&self.input_length)
    }

    /// The packets held in the output queues.
    pub fn held_in_outputs(&self) -> u64 {
        let mut sum = 0;
        for j in 0..16 {
            sum += u64::from(self.output_length[j]);
        }
        sum
    }

    /// The packets held in the crosspoints.
    pub fn held_in_crosspoints(&self) -> u64 {
        sum_of_pairs(&self.crosspoint_length)
    }

    /// Is this an allowed switch? Exactly where it is not, refusal 13 is given.
    pub fn allowed(&self) -> bool {
        // "model, order, ports, speedup ... not allowed"
        if !model_allowed(self.model)
            || !order_allowed(self.order)
            || !ports_allowed(self.ports)
            || !speedup_allowed(self.speedup)
        {
            return false;
        }
        // "a used capacity not allowed, a queue above capacity, a number other
        // than 0 in a place that N or the model does not use"
        let n = self.ports as usize;
        for i in 0..16 {
            for j in 0..16 {
                let used = i < n && j < n;
                if !queue_allowed(used, self.input_capacity[i][j], self.input_length[i][j]) {
                    return false;
                }
                let used = used && self.model == CROSSBAR;
                let capacity = self.crosspoint_capacity[i][j];
                let length = self.crosspoint_length[i][j];
                if !queue_allowed(used, capacity, length) {
                    return false;
                }
            }
        }
        for j in 0..16 {
            let used = j < n;
            if !queue_allowed(used, self.output_capacity[j], self.output_length[j]) {
                return false;
            }
        }
        // "arrived above 4,096, slot number above 8,192"
        if self.arrived > MOST_ARRIVALS || self.slot > MOST_SLOT_NUMBER {
            return false;
        }
        // "or one of these broken": the sums are true sums, never cut to 32 bits.
        let arrived = u64::from(self.arrived);
        let dropped = u64::from(self.dropped);
        let crossed = u64::from(self.crossed);
        let outmoved = u64::from(self.outmoved);
        let sent = u64::from(self.sent);
        arrived == dropped + sent + self.held()
            && crossed == sent + self.held_in_outputs() + self.held_in_crosspoints()
            && outmoved == sent + self.held_in_outputs()
    }

    /// The image of 1,066 words: ten head words, then 256 input, 16 output and 256
    /// crosspoint capacities, then as many lengths; queue (i, j) at i x 16 + j.
    pub fn to_words(&self) -> [u32; WORDS] {
        let mut words = vec![
            self.model,
            self.order,
            self.ports,
            self.speedup,
            self.slot,
            self.arrived,
            self.dropped,
            self.crossed,
            self.outmoved,
            self.sent,
        ];
        words.extend(self.input_capacity.concat());
        words.extend(self.output_capacity);
        words.extend(self.crosspoint_capacity.concat());
        words.extend(self.input_length.concat());
        words.extend(self.output_length);
        words.extend(self.crosspoint_length.concat());
        let mut image = [0; WORDS];
        image.copy_from_slice(&words);
        image
    }

    /// The switch of an image. Any words are taken and kept exactly.
    pub fn from_words(words: &[u32; WORDS]) -> Switch {
        let mut switch = ZERO;
        switch.model = words[0];
        switch.order = words[1];
        switch.ports = words[2];
        switch.speedup = words[3];
        switch.slot = words[4];
        switch.arrived = words[5];
        switch.dropped = words[6];
        switch.crossed = words[7];
        switch.outmoved = words[8];
        switch.sent = words[9];
        for i in 0..16 {
            for j in 0..16 {
                let place = i * 16 + j;
                switch.input_capacity[i][j] = words[10 + place];
                switch.crosspoint_capacity[i][j] = words[282 + place];
                switch.input_length[i][j] = words[538 + place];
                switch.crosspoint_length[i][j] = words[810 + place];
            }
        }
        switch.output_capacity.copy_from_slice(&words[266..282]);
        switch.output_length.copy_from_slice(&words[794..810]);
        switch
    }
}

/// Refusal 13's part about one queue: a used one has an allowed capacity and is
/// not above it; one that N or the model does not use has 0 in both places.
fn queue_allowed(used: bool, capacity: u32, length: u32) -> bool {
    if used {
        capacity_allowed(capacity) && length <= capacity
    } else {
        capacity == 0 && length == 0
    }
}

/// The sum of the numbers for all pairs of ports.
fn sum_of_pairs(pairs: &Pairs) -> u64 {
    let mut sum = 0;
    for i in 0..16 {
        for j in 0..16 {
            sum += u64::from(pairs[i][j]);
        }
    }
    sum
}
