//! Timing diagrams: they are well-formed, and what they show is read back and compared with the listing.

#[path = "../reading/diagram.rs"]
mod diagram;
mod drawn;
mod faults;
#[path = "../reading/finished.rs"]
mod finished;
mod head;
mod names;
mod rooms;
#[path = "../reading/shown.rs"]
mod shown;
mod sizes;
mod ticks;
mod whole;
#[path = "../reading/xml.rs"]
mod xml;
