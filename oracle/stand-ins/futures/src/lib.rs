//! The two names that delay_queue.rs takes from the crate futures.
use std::pin::Pin;
use std::task::{Context, Poll};

#[macro_export]
macro_rules! ready {
    ($e:expr) => {
        match $e {
            ::core::task::Poll::Ready(t) => t,
            ::core::task::Poll::Pending => return ::core::task::Poll::Pending,
        }
    };
}

pub trait Stream {
    type Item;

    fn poll_next(self: Pin<&mut Self>, cx: &mut Context<'_>) -> Poll<Option<Self::Item>>;
}
