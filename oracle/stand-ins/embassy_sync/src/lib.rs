//! Stand-in for embassy-sync: the three names that the original uses. It decides what a queue of QLEN places does when it is full (the
//! item comes back) and in which order items leave it (first in, first out). Nothing is ever woken: the script polls instead.

pub mod blocking_mutex {
    pub mod raw {
        /// One thread runs the original, so that no lock is needed.
        pub struct NoopRawMutex;
        pub trait RawMutex {}
        impl RawMutex for NoopRawMutex {}
    }
}

pub mod waitqueue {
    use core::task::Waker;

    /// Decides that a wake does nothing. What the original would wake shows as the attention set, which the driver reads off the state.
    pub struct WakerRegistration;

    impl WakerRegistration {
        #[allow(clippy::new_without_default)]
        pub const fn new() -> Self {
            Self
        }
        pub fn register(&mut self, _waker: &Waker) {}
        pub fn wake(&mut self) {}
    }
}

pub mod channel {
    use core::cell::RefCell;
    use core::future::poll_fn;
    use core::marker::PhantomData;
    use core::task::{Context, Poll};
    use std::collections::VecDeque;

    #[derive(Debug)]
    pub struct TrySendError<T>(pub T);

    /// A queue of `QLEN` items.
    pub struct Channel<M, T, const QLEN: usize> {
        items: RefCell<VecDeque<T>>,
        mutex: PhantomData<M>,
    }

    impl<M, T, const QLEN: usize> Channel<M, T, QLEN> {
        #[allow(clippy::new_without_default)]
        pub const fn new() -> Self {
            Self { items: RefCell::new(VecDeque::new()), mutex: PhantomData }
        }

        pub fn try_send(&self, item: T) -> Result<(), TrySendError<T>> {
            let mut items = self.items.borrow_mut();
            if items.len() == QLEN {
                return Err(TrySendError(item));
            }
            items.push_back(item);
            Ok(())
        }

        pub async fn send(&self, item: T) {
            poll_fn(|cx| self.poll_ready_to_send(cx)).await;
            self.items.borrow_mut().push_back(item);
        }

        pub fn poll_ready_to_send(&self, _cx: &mut Context<'_>) -> Poll<()> {
            if self.items.borrow().len() < QLEN {
                Poll::Ready(())
            } else {
                Poll::Pending
            }
        }

        pub fn poll_receive(&self, _cx: &mut Context<'_>) -> Poll<T> {
            self.items.borrow_mut().pop_front().map_or(Poll::Pending, Poll::Ready)
        }

        pub async fn receive(&self) -> T {
            poll_fn(|cx| self.poll_receive(cx)).await
        }

        pub fn clear(&self) {
            self.items.borrow_mut().clear();
        }

        /// Not in embassy-sync: what waits, oldest first, and stays. Only the driver looks.
        pub fn peek(&self, mut see: impl FnMut(&T)) {
            self.items.borrow().iter().for_each(&mut see);
        }

        /// Not in embassy-sync by this name: the oldest item, if one waits.
        pub fn take(&self) -> Option<T> {
            self.items.borrow_mut().pop_front()
        }
    }
}
