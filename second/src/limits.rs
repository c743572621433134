//! The numbers that document 01 allows.

/// Model word: combined input and output queued switch.
pub const CIOQ: u32 = 1;
/// Model word: buffered crossbar.
pub const CROSSBAR: u32 = 2;

/// Order word 0, the house order, which means lowest first.
pub const HOUSE_ORDER: u32 = 0;
/// Order word 1, lowest first.
pub const LOWEST_FIRST: u32 = 1;
/// Order word 2, rotating.
pub const ROTATING: u32 = 2;

/// Ports N: 1 to 16.
pub const MOST_PORTS: u32 = 16;
/// Speedup: 1 to 16.
pub const MOST_SPEEDUP: u32 = 16;
/// Slots of a trace: 0 to 4,096.
pub const MOST_SLOTS: u32 = 4096;
/// Arrivals of a trace, and of a switch's history: 0 to 4,096.
pub const MOST_ARRIVALS: u32 = 4096;
/// A capacity: 1 to 1,024.
pub const MOST_CAPACITY: u32 = 1024;
/// A drain's limit: 0 to 4,096.
pub const MOST_DRAIN: u32 = 4096;
/// A switch's slot number: 0 to 8,192.
pub const MOST_SLOT_NUMBER: u32 = 8192;

/// Is the model word allowed? (the header's table)
pub fn model_allowed(model: u32) -> bool {
    model == CIOQ || model == CROSSBAR
}

/// Is the order word allowed? (the header's table)
pub fn order_allowed(order: u32) -> bool {
    order == HOUSE_ORDER || order == LOWEST_FIRST || order == ROTATING
}

/// Is the number of ports allowed? (the header's table)
pub fn ports_allowed(ports: u32) -> bool {
    (1..=MOST_PORTS).contains(&ports)
}

/// Is the speedup allowed? (the header's table)
pub fn speedup_allowed(speedup: u32) -> bool {
    (1..=MOST_SPEEDUP).contains(&speedup)
}

/// Is the capacity allowed? ("Each is 1 to 1,024")
pub fn capacity_allowed(capacity: u32) -> bool {
    (1..=MOST_CAPACITY).contains(&capacity)
}
