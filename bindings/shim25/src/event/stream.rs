//! Events as a stream.

use super::{older, take_seen, Event};
use crate::Result;
use futures_core::stream::Stream;
use std::pin::Pin;
use std::task::{Context, Poll};

/// Events as a stream, which ends after the error `UnexpectedEof`.
#[derive(Debug, Default)]
pub struct EventStream(newer::event::EventStream);

impl EventStream {
    /// A stream of the events that aren't read yet.
    pub fn new() -> EventStream {
        EventStream::default()
    }
}

impl Stream for EventStream {
    type Item = Result<Event>;

    fn poll_next(mut self: Pin<&mut Self>, cx: &mut Context<'_>) -> Poll<Option<Result<Event>>> {
        if let Some(event) = take_seen() {
            return Poll::Ready(Some(Ok(event)));
        }
        loop {
            return match Pin::new(&mut self.0).poll_next(cx) {
                Poll::Pending => Poll::Pending,
                Poll::Ready(None) => Poll::Ready(None),
                Poll::Ready(Some(Err(error))) => Poll::Ready(Some(Err(error))),
                Poll::Ready(Some(Ok(event))) => match older(event) {
                    Some(event) => Poll::Ready(Some(Ok(event))),
                    None => continue,
                },
            };
        }
    }
}
