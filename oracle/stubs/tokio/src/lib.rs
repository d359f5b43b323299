//! Stands in for `tokio`: what is spawned to block runs at once, a sleep is a recorded wait, channels carry nothing.
use std::future::{Future, Ready, ready};

/// No task of the original is judged here, so none is run.
pub fn spawn<F: Future + Send + 'static>(_task: F) {}

pub mod task {
    use super::*;
    #[derive(Debug)]
    pub struct JoinError;
    pub fn spawn_blocking<T>(work: impl FnOnce() -> T) -> Ready<Result<T, JoinError>> {
        ready(Ok(work()))
    }
}

pub mod time {
    use super::*;
    pub fn sleep(time: std::time::Duration) -> Ready<()> {
        rusb::clock::sleep(time);
        ready(())
    }
}

pub mod sync {
    pub mod broadcast {
        use std::marker::PhantomData;
        pub struct Sender<T>(PhantomData<fn(T) -> T>);
        pub struct Receiver<T>(PhantomData<fn(T) -> T>);
        pub fn channel<T>(_size: usize) -> (Sender<T>, Receiver<T>) {
            (Sender(PhantomData), Receiver(PhantomData))
        }
        impl<T> Sender<T> {
            pub fn send(&self, _value: T) -> Result<usize, ()> {
                Ok(0)
            }
            pub fn subscribe(&self) -> Receiver<T> {
                Receiver(PhantomData)
            }
        }
    }
}
