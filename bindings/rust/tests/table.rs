//! The rules, seen through the types of this crate.

use rishavand::{
    mask_length, size, words_for, Hop, Pool, Prefix, Refusal, Route, LARGEST_CAPACITY, LAST_PORT,
    MOST_CHANGES, MOST_WORDS,
};

const ONE: Hop = Hop::Direct { port: 1 };

fn to(address: [u8; 4], length: u32, hop: Hop) -> Route {
    Route::new(Prefix::new(address, length), hop)
}

fn ten(hop: Hop) -> Route {
    to([10, 0, 0, 0], 8, hop)
}

#[test]
fn words_follow_the_formula() {
    for capacity in 1..=LARGEST_CAPACITY {
        assert_eq!(words_for(capacity), Some(size(capacity)));
    }
    assert_eq!(words_for(LARGEST_CAPACITY), Some(MOST_WORDS));
    assert_eq!(words_for(0), None);
    assert_eq!(words_for(LARGEST_CAPACITY + 1), None);
    assert_eq!(words_for(u32::MAX), None);
}

#[test]
fn fresh_refuses_in_order() {
    assert_eq!(Pool::fresh(&mut [], 0).err(), Some(Refusal::BadCapacity));
    assert_eq!(
        Pool::fresh(&mut [], LARGEST_CAPACITY + 1).err(),
        Some(Refusal::BadCapacity)
    );
    assert_eq!(Pool::fresh(&mut [], 1).err(), Some(Refusal::ShortBuffer));
    assert_eq!(
        Pool::fresh(&mut [7; size(1) - 1], 1).err(),
        Some(Refusal::ShortBuffer)
    );
    assert!(Pool::fresh(&mut [7; size(1)], 1).is_ok());
}

#[test]
fn words_past_the_pool_stay() {
    let mut words = [7; size(1) + 6];
    let mut pool = Pool::fresh(&mut words, 1).unwrap();
    pool.add(ten(ONE)).unwrap();
    assert_eq!(words[size(1)..], [7; 6]);
}

#[test]
fn only_a_sound_pool_is_opened() {
    assert_eq!(Pool::open(&mut []).err(), Some(Refusal::NotSound));
    let mut words = [0; size(2)];
    assert_eq!(Pool::open(&mut words).err(), Some(Refusal::NotSound));
    Pool::fresh(&mut words, 2).unwrap().add(ten(ONE)).unwrap();
    assert_eq!(
        Pool::open(&mut words).unwrap().lookup([10, 9, 9, 9]),
        Some(ten(ONE))
    );
    words[1] = 2;
    assert_eq!(Pool::open(&mut words).err(), Some(Refusal::NotSound));
}

#[test]
fn every_kind_of_hop_comes_back_as_it_went_in() {
    let mut words = [0; MOST_WORDS];
    let mut pool = Pool::fresh(&mut words, 3).unwrap();
    let via = Hop::Via {
        port: LAST_PORT,
        gateway: [10, 0, 0, 1].into(),
    };
    let routes = [
        to([0, 0, 0, 0], 0, via),
        to([10, 0, 0, 0], 8, Hop::Direct { port: 0 }),
        to([10, 0, 0, 7], 32, Hop::Reject),
    ];
    for route in routes {
        pool.add(route).unwrap();
    }
    assert_eq!(pool.routes().collect::<Vec<_>>(), routes);
    assert_eq!(pool.lookup([11, 0, 0, 0]), Some(routes[0]));
    assert_eq!(pool.lookup([10, 0, 0, 8]), Some(routes[1]));
    assert_eq!(pool.lookup([10, 0, 0, 7]), Some(routes[2]));
}

#[test]
fn adds_are_refused_in_order() {
    let mut words = [0; MOST_WORDS];
    let mut pool = Pool::fresh(&mut words, 1).unwrap();
    let bad = Hop::Direct {
        port: LAST_PORT + 1,
    };
    let nowhere = Hop::Via {
        port: 0,
        gateway: [0, 0, 0, 0].into(),
    };
    pool.add(ten(ONE)).unwrap();
    assert_eq!(pool.room(), 0);
    let cases = [
        (to([10, 0, 0, 0], 33, bad), Refusal::BadPrefix),
        (to([10, 0, 0, 1], 8, bad), Refusal::BadPrefix),
        (ten(bad), Refusal::BadHop),
        (ten(nowhere), Refusal::BadHop),
        (ten(ONE), Refusal::AlreadyThere),
        (to([11, 0, 0, 0], 8, ONE), Refusal::TableFull),
    ];
    for (route, refusal) in cases {
        let before = pool.words().to_vec();
        assert_eq!(pool.add(route), Err(refusal), "{route}");
        assert_eq!(pool.words(), before, "{route}");
    }
    assert_eq!(
        pool.delete(Prefix::new([11, 0, 0, 0], 8)),
        Err(Refusal::NotThere)
    );
    assert_eq!(
        pool.change(to([11, 0, 0, 0], 8, ONE)),
        Err(Refusal::NotThere)
    );
    pool.change(ten(Hop::Reject)).unwrap();
    assert_eq!(pool.lookup([10, 0, 0, 0]), Some(ten(Hop::Reject)));
    pool.delete(ten(ONE).prefix).unwrap();
    assert_eq!(pool.lookup([10, 0, 0, 0]), None);
    assert_eq!(pool.room(), 1);
}

#[test]
fn the_walk_goes_on_after_any_prefix() {
    let mut words = [0; MOST_WORDS];
    let mut pool = Pool::fresh(&mut words, 2).unwrap();
    assert_eq!(pool.routes().next(), None);
    pool.add(ten(ONE)).unwrap();
    let next = |p| pool.next_after(p);
    assert_eq!(next(Prefix::DEFAULT), Ok(Some(ten(ONE))));
    assert_eq!(next(Prefix::host([10, 0, 0, 0])), Ok(Some(ten(ONE))));
    assert_eq!(next(ten(ONE).prefix), Ok(None));
    assert_eq!(
        next(Prefix::new([10, 0, 0, 0], 33)),
        Err(Refusal::BadPrefix)
    );
}

#[test]
fn a_dropped_trial_takes_all_back() {
    let mut words = [0; MOST_WORDS];
    let mut pool = Pool::fresh(&mut words, 2).unwrap();
    pool.add(ten(ONE)).unwrap();
    let mut trial = pool.trial().unwrap();
    trial.change(ten(Hop::Reject)).unwrap();
    trial.add(to([11, 0, 0, 0], 8, ONE)).unwrap();
    trial.delete(ten(ONE).prefix).unwrap();
    assert_eq!(trial.lookup([10, 0, 0, 0]), None);
    trial.step_back().unwrap();
    assert_eq!(trial.lookup([10, 0, 0, 0]), Some(ten(Hop::Reject)));
    drop(trial);
    assert_eq!(pool.routes().collect::<Vec<_>>(), [ten(ONE)]);
    assert!(pool.trial().is_ok());
}

#[test]
fn a_panic_takes_a_trial_back_too() {
    let mut words = [0; MOST_WORDS];
    let mut pool = Pool::fresh(&mut words, 2).unwrap();
    let stopped = std::panic::catch_unwind(std::panic::AssertUnwindSafe(|| {
        let mut trial = pool.trial().unwrap();
        trial.add(ten(ONE)).unwrap();
        panic!("in the middle of a trial");
    }));
    assert!(stopped.is_err());
    assert_eq!(pool.lookup([10, 0, 0, 0]), None);
}

#[test]
fn a_kept_trial_stays() {
    let mut words = [0; MOST_WORDS];
    let mut pool = Pool::fresh(&mut words, 2).unwrap();
    let mut trial = pool.trial().unwrap();
    assert_eq!(trial.step_back(), Err(Refusal::NothingStanding));
    trial.add(ten(ONE)).unwrap();
    trial.keep();
    assert_eq!(pool.lookup([10, 0, 0, 0]), Some(ten(ONE)));
    assert_eq!(pool.resume_trial().err(), Some(Refusal::NoTrial));
}

#[test]
fn a_full_trial_takes_no_further_change() {
    let mut words = [0; MOST_WORDS];
    let mut pool = Pool::fresh(&mut words, 1).unwrap();
    pool.add(ten(ONE)).unwrap();
    let mut trial = pool.trial().unwrap();
    for _ in 0..MOST_CHANGES {
        trial.change(ten(ONE)).unwrap();
    }
    assert_eq!(trial.change(ten(ONE)), Err(Refusal::TrialFull));
    trial.step_back().unwrap();
    assert_eq!(trial.change(ten(ONE)), Ok(()));
}

#[test]
fn a_trial_that_was_left_open_is_resumed() {
    let mut words = [0; MOST_WORDS];
    let mut pool = Pool::fresh(&mut words, 1).unwrap();
    let mut trial = pool.trial().unwrap();
    trial.add(ten(ONE)).unwrap();
    std::mem::forget(trial);
    let mut again = Pool::open(&mut words).unwrap();
    assert_eq!(again.trial().err(), Some(Refusal::TrialIsOpen));
    again.resume_trial().unwrap().back_out();
    assert_eq!(again.lookup([10, 0, 0, 0]), None);
}

#[test]
fn masks_are_measured() {
    assert_eq!(mask_length([255, 255, 255, 224]), Ok(27));
    assert_eq!(mask_length([0, 0, 0, 0]), Ok(0));
    assert_eq!(mask_length([255, 255, 255, 255]), Ok(32));
    assert_eq!(mask_length([255, 0, 255, 0]), Err(Refusal::BadPrefix));
    assert_eq!(
        Prefix::with_mask([10, 0, 0, 0], [255, 0, 0, 0]),
        ten(ONE).prefix
    );
}

#[test]
fn a_mask_with_a_hole_is_refused_by_each_call() {
    let holed = Prefix::with_mask([10, 0, 0, 0], [255, 0, 255, 0]);
    let mut words = vec![0; words_for(4).unwrap()];
    let mut pool = Pool::fresh(&mut words, 4).unwrap();
    let route = Route::new(holed, Hop::Reject);
    assert_eq!(pool.add(route), Err(Refusal::BadPrefix));
    assert_eq!(pool.change(route), Err(Refusal::BadPrefix));
    assert_eq!(pool.delete(holed), Err(Refusal::BadPrefix));
}

#[test]
fn a_refusal_says_its_number() {
    assert_eq!(Refusal::BadCapacity.number(), 1);
    assert_eq!(Refusal::BadMetric.number(), 16);
    assert_eq!(Refusal::NoTrial.to_string(), "11: no trial is open");
    assert_eq!(
        Refusal::BadCapacity.to_string(),
        format!("1: capacity 0 or above {LARGEST_CAPACITY}")
    );
}
