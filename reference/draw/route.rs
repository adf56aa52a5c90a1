//! A route as the words of its place say it, and what of it breaks the rules.
use crate::limits::{LAST_METRIC, LAST_PORT, PAYLOAD};

pub struct Route {
    pub place: usize,
    pub address: u32,
    pub length: u32,
    pub hop: String,
    pub origin: String,
    pub faults: Vec<String>,
}

/// The mask of a length, bit by bit, so that no length needs a shift of 32.
pub fn mask(length: u32) -> u32 {
    (0..length.min(32)).fold(0, |ones, bit| ones | 0x8000_0000 >> bit)
}

fn dotted(address: u32) -> String {
    address.to_be_bytes().map(|byte| byte.to_string()).join(".")
}

impl Route {
    pub fn read(place: usize, row: &[u32]) -> Route {
        let (address, length) = (row[PAYLOAD], row[PAYLOAD + 1]);
        let (hop, hop_fault) = hop(row[0], row[1], row[2]);
        let (origin, origin_fault) = origin(row[3], row[4]);
        let faults = [prefix_fault(address, length), hop_fault, origin_fault].into_iter().flatten().collect();
        Route { place, address, length, hop, origin, faults }
    }

    pub fn prefix(&self) -> String {
        format!("{}/{}", dotted(self.address), self.length)
    }

    /// The routes of one address hang together, longest first.
    pub fn fault_behind(&self, before: &Route) -> Option<String> {
        if self.address != before.address {
            Some("another address than the route before it".to_string())
        } else if self.length >= before.length {
            Some("not shorter than the route before it".to_string())
        } else {
            None
        }
    }
}

fn prefix_fault(address: u32, length: u32) -> Option<String> {
    if length > 32 {
        Some("a length above 32".to_string())
    } else if address & !mask(length) != 0 {
        Some("a set bit past the length".to_string())
    } else {
        None
    }
}

/// The hop as the console says it, and what is wrong with it.
fn hop(kind: u32, port: u32, gateway: u32) -> (String, Option<String>) {
    let port_fault = (port > LAST_PORT).then(|| format!("a port above {LAST_PORT}"));
    match kind {
        1 => (format!("direct {port}"), port_fault),
        2 => {
            let gateway_fault = (gateway == 0).then(|| "a gateway of 0.0.0.0".to_string());
            (format!("via {port} {}", dotted(gateway)), port_fault.or(gateway_fault))
        }
        3 => ("reject".to_string(), None),
        _ => (format!("hop of kind {kind}"), Some("no such kind of hop".to_string())),
    }
}

/// The origin as the console says it, and what is wrong with it. A fixed one does not look at its metric.
fn origin(origin: u32, metric: u32) -> (String, Option<String>) {
    match origin {
        0 => ("fixed 0".to_string(), None),
        1 => {
            let good = (1..=LAST_METRIC).contains(&metric);
            let fault = (!good).then(|| format!("a metric outside 1 to {LAST_METRIC}"));
            (format!("learned {metric}"), fault)
        }
        _ => (format!("of origin {origin}"), Some("no such origin".to_string())),
    }
}
