//! Where a route came from, seen through the types of this crate.

use rishavand::{size, Hop, Origin, Pool, Prefix, Refusal, Route, LAST_METRIC, MOST_CHANGES};

const ONE: Hop = Hop::Direct { port: 1 };

fn ten() -> Prefix {
    Prefix::new([10, 0, 0, 0], 8)
}

fn eleven() -> Prefix {
    Prefix::new([11, 0, 0, 0], 8)
}

/// Refused, and not a word of the pool is another.
fn refused(pool: &mut Pool, call: impl FnOnce(&mut Pool) -> Result<(), Refusal>, due: Refusal) {
    let before = pool.words().to_vec();
    assert_eq!(call(pool), Err(due));
    assert_eq!(pool.words(), before);
}

#[test]
fn every_origin_comes_back_as_it_went_in() {
    let mut words = [0; size(3)];
    let mut pool = Pool::fresh(&mut words, 3).unwrap();
    let routes = [
        Route::learned(Prefix::DEFAULT, ONE, 1),
        Route::new(ten(), Hop::Reject),
        Route::learned(eleven(), Hop::Reject, LAST_METRIC),
    ];
    for route in routes {
        pool.add(route).unwrap();
    }
    assert_eq!(pool.routes().collect::<Vec<_>>(), routes);
    assert_eq!(pool.lookup([12, 0, 0, 0]), Some(routes[0]));
    assert_eq!(pool.lookup([10, 0, 0, 0]), Some(routes[1]));
    assert_eq!(pool.lookup([11, 0, 0, 0]), Some(routes[2]));
    assert_eq!(pool.next_after(ten()), Ok(Some(routes[2])));
}

#[test]
fn metrics_run_from_1_to_the_last() {
    let mut words = [0; size(2)];
    let mut pool = Pool::fresh(&mut words, 2).unwrap();
    pool.add(Route::learned(ten(), ONE, 1)).unwrap();
    for metric in [0, LAST_METRIC + 1, u32::MAX] {
        let [held, other] = [ten(), eleven()].map(|prefix| Route::learned(prefix, ONE, metric));
        refused(&mut pool, |p| p.add(other), Refusal::BadMetric);
        refused(&mut pool, |p| p.change(held), Refusal::BadMetric);
    }
    for metric in 1..=LAST_METRIC {
        let route = Route::learned(ten(), Hop::Reject, metric);
        pool.change(route).unwrap();
        assert_eq!(pool.lookup([10, 0, 0, 0]), Some(route));
    }
}

#[test]
fn a_learner_leaves_a_fixed_route_alone() {
    let mut words = [0; size(2)];
    let mut pool = Pool::fresh(&mut words, 2).unwrap();
    pool.add(Route::learned(ten(), ONE, 3)).unwrap();
    pool.change(Route::new(ten(), ONE)).unwrap();
    assert_eq!(pool.lookup([10, 0, 0, 0]), Some(Route::new(ten(), ONE)));
    let learned = Route::learned(ten(), ONE, 1);
    refused(&mut pool, |p| p.change(learned), Refusal::RouteIsFixed);
    refused(
        &mut pool,
        |p| p.delete_learned(ten()),
        Refusal::RouteIsFixed,
    );
    pool.delete(ten()).unwrap();
    pool.add(learned).unwrap();
    pool.delete_learned(ten()).unwrap();
    pool.add(learned).unwrap();
    pool.delete(ten()).unwrap();
    assert_eq!(pool.room(), 2);
}

#[test]
fn learned_calls_are_refused_in_order() {
    let mut words = [0; size(1)];
    let mut pool = Pool::fresh(&mut words, 1).unwrap();
    pool.add(Route::new(ten(), ONE)).unwrap();
    let nowhere = Hop::Via {
        port: 0,
        gateway: [0, 0, 0, 0].into(),
    };
    let bad = Prefix::new([10, 0, 0, 1], 8);
    let cases = [
        (Route::learned(bad, nowhere, 0), [Refusal::BadPrefix; 2]),
        (Route::learned(ten(), nowhere, 0), [Refusal::BadHop; 2]),
        (Route::learned(ten(), ONE, 0), [Refusal::BadMetric; 2]),
        (Route::learned(eleven(), ONE, 0), [Refusal::BadMetric; 2]),
        (
            Route::learned(ten(), ONE, 1),
            [Refusal::AlreadyThere, Refusal::RouteIsFixed],
        ),
        (
            Route::learned(eleven(), ONE, 1),
            [Refusal::TableFull, Refusal::NotThere],
        ),
    ];
    for (route, [add, change]) in cases {
        refused(&mut pool, |p| p.add(route), add);
        refused(&mut pool, |p| p.change(route), change);
    }
    let deletes = [
        (bad, Refusal::BadPrefix),
        (eleven(), Refusal::NotThere),
        (ten(), Refusal::RouteIsFixed),
    ];
    for (prefix, due) in deletes {
        refused(&mut pool, |p| p.delete_learned(prefix), due);
    }
}

#[test]
fn a_trial_gives_the_origins_back() {
    let mut words = [0; size(2)];
    let mut pool = Pool::fresh(&mut words, 2).unwrap();
    let held = [
        Route::learned(ten(), ONE, 3),
        Route::new(eleven(), Hop::Reject),
    ];
    for route in held {
        pool.add(route).unwrap();
    }
    let mut trial = pool.trial().unwrap();
    trial.change(Route::new(ten(), ONE)).unwrap();
    assert_eq!(trial.delete_learned(ten()), Err(Refusal::RouteIsFixed));
    trial.step_back().unwrap();
    assert_eq!(trial.lookup([10, 0, 0, 0]), Some(held[0]));
    trial.delete_learned(ten()).unwrap();
    trial.add(Route::learned(ten(), Hop::Reject, 9)).unwrap();
    trial.delete(eleven()).unwrap();
    trial.add(Route::learned(eleven(), ONE, 2)).unwrap();
    drop(trial);
    assert_eq!(pool.routes().collect::<Vec<_>>(), held);
}

#[test]
fn a_fixed_route_is_told_before_a_full_trial() {
    let mut words = [0; size(1)];
    let mut pool = Pool::fresh(&mut words, 1).unwrap();
    pool.add(Route::new(ten(), ONE)).unwrap();
    let mut trial = pool.trial().unwrap();
    for _ in 0..MOST_CHANGES {
        trial.change(Route::new(ten(), ONE)).unwrap();
    }
    let learned = Route::learned(ten(), ONE, 1);
    assert_eq!(trial.change(learned), Err(Refusal::RouteIsFixed));
    assert_eq!(trial.delete_learned(ten()), Err(Refusal::RouteIsFixed));
    assert_eq!(trial.delete(ten()), Err(Refusal::TrialFull));
}

#[test]
fn origins_are_printed_as_in_the_listing() {
    assert_eq!(Origin::Fixed.to_string(), "fixed 0");
    let learned = Route::learned(ten(), ONE, 3);
    assert_eq!(learned.origin, Origin::Learned { metric: 3 });
    assert_eq!(learned.to_string(), "10.0.0.0/8 direct 1 learned 3");
    assert_eq!(
        Refusal::BadMetric.to_string(),
        format!("16: learned metric 0 or above {LAST_METRIC}")
    );
    assert_eq!(
        Refusal::RouteIsFixed.to_string(),
        "15: a learned change or delete aimed at a fixed route"
    );
}
