//! The route table of the host bsdi: filled, walked, asked, changed in trials, and told what a neighbour has learned.

use std::net::Ipv4Addr;

use rishavand::{words_for, Hop, Pool, Prefix, Refusal, Route, LAST_METRIC};

const LE0: u32 = 0;
const SL0: u32 = 1;
const LO0: u32 = 2;
const GATEWAY: Ipv4Addr = Ipv4Addr::new(140, 252, 13, 33);
const BY_GATEWAY: Hop = Hop::Via {
    port: LE0,
    gateway: GATEWAY,
};

fn bsdi() -> [Route; 11] {
    let direct = |address: [u8; 4], length, port| {
        Route::new(Prefix::new(address, length), Hop::Direct { port })
    };
    let via = |prefix| Route::new(prefix, BY_GATEWAY);
    [
        via(Prefix::DEFAULT),
        Route::new(Prefix::new([127, 0, 0, 0], 8), Hop::Reject),
        direct([127, 0, 0, 1], 32, LO0),
        via(Prefix::host([128, 32, 33, 5])),
        direct([140, 252, 13, 32], 27, LE0),
        direct([140, 252, 13, 33], 32, LE0),
        direct([140, 252, 13, 34], 32, LE0),
        direct([140, 252, 13, 35], 32, LO0),
        direct([140, 252, 13, 65], 32, SL0),
        direct([224, 0, 0, 0], 8, LE0),
        direct([224, 0, 0, 1], 32, LE0),
    ]
}

fn lookup(pool: &Pool, destination: [u8; 4]) {
    let address = Ipv4Addr::from(destination);
    match pool.lookup(destination) {
        Some(route) => println!("{address} by {route}"),
        None => println!("{address} by nothing"),
    }
}

fn tell(answer: Result<(), Refusal>) {
    match answer {
        Ok(()) => println!("done"),
        Err(refusal) => println!("{refusal}"),
    }
}

fn list(pool: &Pool, capacity: u32) {
    println!("routes {} of {capacity}", capacity - pool.room());
    for route in pool.routes() {
        println!("{route}");
    }
}

fn trials(pool: &mut Pool) -> Result<(), Refusal> {
    println!("a trial without the default route, dropped");
    let mut trial = pool.trial()?;
    trial.delete(Prefix::DEFAULT)?;
    lookup(&trial, [10, 1, 2, 3]);
    drop(trial);
    lookup(pool, [10, 1, 2, 3]);

    println!("a trial with 127.0.0.0/24, stepped back once and kept");
    let mut trial = pool.trial()?;
    trial.add(Route::new(Prefix::new([127, 0, 0, 0], 24), BY_GATEWAY))?;
    trial.delete(Prefix::DEFAULT)?;
    trial.step_back()?;
    trial.keep();
    lookup(pool, [127, 0, 0, 2]);
    lookup(pool, [127, 0, 2, 3]);
    lookup(pool, [10, 1, 2, 3]);
    Ok(())
}

fn neighbour(pool: &mut Pool) -> Result<(), Refusal> {
    println!("what a neighbour says of 127.0.0.0/24, which is fixed, and of 10.0.0.0/8");
    let fixed = Prefix::new([127, 0, 0, 0], 24);
    tell(pool.change(Route::learned(fixed, BY_GATEWAY, 3)));
    tell(pool.delete_learned(fixed));
    pool.delete(fixed)?;
    let ten = Prefix::new([10, 0, 0, 0], 8);
    tell(pool.add(Route::learned(ten, BY_GATEWAY, LAST_METRIC + 1)));
    tell(pool.add(Route::learned(ten, BY_GATEWAY, 3)));
    lookup(pool, [10, 1, 2, 3]);
    tell(pool.change(Route::learned(ten, BY_GATEWAY, 2)));
    lookup(pool, [10, 1, 2, 3]);
    tell(pool.delete_learned(ten));
    lookup(pool, [10, 1, 2, 3]);
    Ok(())
}

fn main() -> Result<(), Refusal> {
    let capacity = 12;
    let mut words = vec![0; words_for(capacity).ok_or(Refusal::BadCapacity)?];
    let mut pool = Pool::fresh(&mut words, capacity)?;
    // The table keeps its own order, whatever the order of the adds.
    for route in bsdi().into_iter().rev() {
        pool.add(route)?;
    }
    list(&pool, capacity);
    lookup(&pool, [127, 0, 0, 2]);
    lookup(&pool, [140, 252, 13, 60]);
    lookup(&pool, [10, 1, 2, 3]);
    trials(&mut pool)?;
    list(&pool, capacity);
    tell(pool.add(Route::new(Prefix::new([10, 0, 0, 0], 8), Hop::Reject)));
    neighbour(&mut pool)
}
