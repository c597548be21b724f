//! `crate::tokio::{sleep_until, Sleep}` as the original names them: a sleeper that keeps its
//! deadline and is always done.
use crate::std::Instant;
use std::future::Future;
use std::pin::Pin;
use std::task::{Context, Poll};

#[derive(Debug)]
pub struct Sleep(Instant);

pub fn sleep_until(deadline: Instant) -> Sleep {
    Sleep(deadline)
}

impl Sleep {
    pub fn deadline(&self) -> Instant {
        self.0
    }

    pub fn is_elapsed(&self) -> bool {
        true
    }

    pub fn reset(mut self: Pin<&mut Self>, deadline: Instant) {
        self.0 = deadline;
    }
}

impl Future for Sleep {
    type Output = ();

    fn poll(self: Pin<&mut Self>, _: &mut Context<'_>) -> Poll<()> {
        Poll::Ready(())
    }
}
