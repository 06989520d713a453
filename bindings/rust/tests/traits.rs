//! What the types promise, without a call.

use cqs::{
    BadNumber, Barrier, BarrierConfig, BarrierWait, CountDown, Item, Latch, LatchConfig, MakeError,
    Mutex, MutexConfig, MutexGuard, NoneFree, OwnedItem, OwnedMutexGuard, OwnedPermit, Permit,
    Pool, PoolConfig, Semaphore, SemaphoreConfig, TimeoutError, WaitError, pass,
};
use std::cell::Cell;
use std::error::Error;
use std::fmt::Debug;
use std::sync::Arc;

fn may_go<T: Send>() {}
fn may_be_shared<T: Send + Sync>() {}
fn may_be_shown<T: Debug>() {}
fn is_error<T: Error + Send + Sync + 'static>() {}
fn may_go_value<T: Send>(_: &T) {}

#[test]
fn they_cross_threads() {
    may_be_shared::<Semaphore>();
    may_be_shared::<Permit<'_>>();
    may_be_shared::<OwnedPermit>();
    may_be_shared::<Mutex<u32>>();
    may_be_shared::<Mutex<Cell<u32>>>();
    may_be_shared::<MutexGuard<'_, u32>>();
    may_be_shared::<OwnedMutexGuard<u32>>();
    may_go::<MutexGuard<'_, Cell<u32>>>();
    may_be_shared::<Pool<Cell<u32>>>();
    may_be_shared::<Item<'_, u32>>();
    may_be_shared::<OwnedItem<u32>>();
    may_be_shared::<Latch>();
    may_be_shared::<Barrier>();
    may_be_shared::<pass::Semaphore>();
    may_go::<pass::SemaphorePass>();
    may_go::<pass::Permit<'_>>();
    may_go::<pass::Wait<'_>>();
    may_be_shared::<pass::SyncSemaphore>();
    may_go::<pass::SyncSemaphorePass>();
    may_go::<pass::SyncPermit<'_>>();
    may_go::<pass::SyncWait<'_>>();
    may_go::<pass::SyncOwed<'_>>();
    may_be_shared::<pass::Mutex<Cell<u32>>>();
    may_go::<pass::MutexPass<u32>>();
    may_be_shared::<pass::Pool<Cell<u32>>>();
    may_be_shared::<pass::Latch>();
    may_be_shared::<pass::Barrier>();
    may_go::<pass::Party>();
    let (semaphore, mutex) = (Semaphore::new(1), Mutex::new(0));
    let (pool, latch, barrier) = (Pool::new([0]), Latch::new(1), Barrier::new(1));
    may_go_value(&semaphore.acquire());
    may_go_value(&mutex.lock());
    may_go_value(&pool.take());
    may_go_value(&latch.wait());
    may_go_value(&barrier.wait());
    may_go_value(&Arc::new(Semaphore::new(1)).acquire_owned());
}

#[test]
fn they_are_shown() {
    may_be_shown::<(SemaphoreConfig, MutexConfig, PoolConfig, LatchConfig, BarrierConfig)>();
    may_be_shown::<(BarrierWait, CountDown, OwnedPermit, OwnedItem<u32>, OwnedMutexGuard<u32>)>();
    may_be_shown::<(pass::Acquired<'_>, pass::Cancelled<'_>, pass::Locked<'_, u32>)>();
    may_be_shown::<(pass::SyncAcquired<'_>, pass::SyncCancelled<'_>, pass::SyncReleased<'_>)>();
    may_be_shown::<(pass::Taken<'_, u32>, pass::Entered<'_>, pass::Arrival<'_>, pass::Party)>();
    let semaphore = Semaphore::new(2);
    let permit = semaphore.try_acquire().unwrap();
    assert_eq!(format!("{semaphore:?}"), "Semaphore { available_permits: 1, .. }");
    assert_eq!(format!("{permit:?}"), "Permit { .. }");
    let mutex = Mutex::new(3);
    assert_eq!(format!("{mutex:?}"), "Mutex { value: 3, .. }");
    let guard = mutex.try_lock().unwrap();
    assert_eq!(format!("{mutex:?} {guard:?} {guard}"), "Mutex { value: <locked>, .. } 3 3");
    assert_eq!(format!("{:?}", Latch::new(0)), "Latch { is_open: true, .. }");
    assert_eq!(format!("{:?}", Barrier::new(4)), "Barrier { parties: 4, waiting: 0, .. }");
    assert_eq!(format!("{:?}", Pool::new(["a"])), "Pool { size: 1, .. }");
}

#[test]
fn errors_say_what_is_wrong() {
    is_error::<WaitError>();
    is_error::<NoneFree>();
    is_error::<TimeoutError>();
    is_error::<MakeError>();
    is_error::<BadNumber>();
    is_error::<pass::PassError>();
    is_error::<pass::TryError>();
    is_error::<pass::ArriveError>();
    let refused = |made: Result<(), MakeError>| match made {
        Err(MakeError::BadConfig(number)) => (number.name(), number.given(), number.range()),
        _ => panic!("it is out of range"),
    };
    let semaphore = |permits, limit| {
        let config = SemaphoreConfig { permits, limit, ..SemaphoreConfig::default() };
        refused(Semaphore::with_config(config).map(drop))
    };
    assert_eq!(semaphore(0, 1), ("permits", 0, 1..=1_048_576));
    assert_eq!(semaphore(1_048_577, 1), ("permits", 1_048_577, 1..=1_048_576));
    assert_eq!(semaphore(1, 0), ("limit", 0, 1..=68_719_476_736));
    let mutex =
        |limit, waiters| refused(Mutex::with_config((), MutexConfig { limit, waiters }).map(drop));
    assert_eq!(mutex(68_719_476_737, 1), ("limit", 68_719_476_737, 1..=68_719_476_736));
    assert_eq!(mutex(1, 0), ("waiters", 0, 1..=1_048_576));
    assert_eq!(mutex(1, 1_048_577), ("waiters", 1_048_577, 1..=1_048_576));
    let pool = |size| refused(Pool::with_config(vec![(); size], PoolConfig::default()).map(drop));
    assert_eq!(pool(0), ("values", 0, 1..=4096));
    assert_eq!(pool(4097), ("values", 4097, 1..=4096));
    let latch = |count, limit| {
        let config = LatchConfig { count, limit, ..LatchConfig::default() };
        refused(Latch::with_config(config).map(drop))
    };
    assert_eq!(latch(1_048_577, 1), ("count", 1_048_577, 0..=1_048_576));
    assert_eq!(latch(1, 4_294_967_233), ("limit", 4_294_967_233, 1..=4_294_967_232));
    let barrier = |parties| refused(Barrier::with_config(BarrierConfig { parties }).map(drop));
    assert_eq!(barrier(33), ("parties", 33, 1..=32));
    let error = Barrier::with_config(BarrierConfig { parties: 0 }).unwrap_err();
    assert_eq!(error.to_string(), "`parties` is 0, and must be from 1 to 32");
    assert_eq!(error.source().unwrap().to_string(), error.to_string());
}

#[test]
#[should_panic(expected = "no semaphore: `permits` is 0, and must be from 1 to 1048576")]
fn new_says_what_is_wrong() {
    let _none = Semaphore::new(0);
}

#[test]
fn a_mutex_is_around_whatever_there_is() {
    let mut sized: Mutex<[u32; 3]> = Mutex::from([1, 2, 3]);
    sized.get_mut()[0] = 7;
    let unsized_one: &Mutex<[u32]> = &sized;
    unsized_one.try_lock().unwrap()[1] = 8;
    assert_eq!(sized.into_inner(), [7, 8, 3]);
    let shown: Arc<Mutex<dyn Debug + Send>> = Arc::new(Mutex::new("a value"));
    assert_eq!(format!("{:?}", shown.clone().try_lock_owned().unwrap()), "\"a value\"");
    assert_eq!(*Mutex::<u32>::default().lock_blocking().unwrap(), 0);
}
