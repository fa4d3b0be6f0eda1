// SPDX-License-Identifier: BSD-3-Clause
//! The event stream, call by call, and each of its refusals.
use warpthistle::{Event, EventBookmark, EventStream, Refusal, EVENT_BOOKMARK_LIMIT};

/// All events of a stream that is settled.
fn popped(stream: &mut EventStream) -> Vec<Event> {
    std::iter::from_fn(|| stream.pop().unwrap()).collect()
}

#[test]
fn a_node_around_tokens() {
    let mut stream = EventStream::new(8, 2);
    stream.begin(7).unwrap();
    stream.push_token(33, 0..4).unwrap();
    stream.begin(8).unwrap();
    stream.push_token(72, 5..9).unwrap();
    stream.push_error(65_535, 9..9).unwrap();
    stream.end().unwrap();
    stream.end().unwrap();
    let events = [
        Event::Begin { kind: 7, span: 0..9 },
        Event::Token { kind: 33, span: 0..4 },
        Event::Begin { kind: 8, span: 4..9 },
        Event::Token { kind: 72, span: 5..9 },
        Event::Error { message: 65_535, span: 9..9 },
        Event::End { kind: 8, span: 4..9 },
        Event::End { kind: 7, span: 0..9 },
    ];
    assert_eq!(popped(&mut stream), events);
    assert_eq!(events[2].span(), 4..9);
    assert_eq!(stream.pop(), Ok(None));
}

#[test]
fn the_ring_goes_round() {
    let mut stream = EventStream::new(3, 0);
    for i in 0..20 {
        stream.push_token(i, usize::from(i)..usize::from(i) + 1).unwrap();
        assert_eq!(stream.pop(), Ok(Some(Event::Token { kind: i, span: usize::from(i)..usize::from(i) + 1 })));
    }
}

#[test]
fn ends() {
    let mut stream = EventStream::new(8, 2);
    // a plain end keeps an empty node, one with an error takes it out
    stream.begin(5).unwrap();
    stream.end().unwrap();
    stream.begin(6).unwrap();
    stream.end_with_error().unwrap();
    stream.begin(7).unwrap();
    stream.push_token(1, 2..3).unwrap();
    stream.end_with_error().unwrap();
    let kinds: Vec<_> = popped(&mut stream)
        .into_iter()
        .map(|event| match event {
            Event::Begin { kind, .. } => (0, kind),
            Event::End { kind, .. } => (1, kind),
            Event::Token { kind, .. } => (2, kind),
            Event::Error { message, .. } => (3, message),
        })
        .collect();
    assert_eq!(kinds, [(0, 5), (1, 5), (0, 0), (2, 1), (1, 0)]);
}

#[test]
fn truncation() {
    let mut stream = EventStream::new(8, 2);
    stream.push_token(1, 0..1).unwrap();
    let mark = stream.bookmark().unwrap();
    assert_eq!(mark.position(), 1);
    stream.begin(5).unwrap();
    stream.push_token(2, 1..2).unwrap();
    stream.end().unwrap();
    stream.truncate(&mark).unwrap();
    stream.remove_bookmark(mark).unwrap();
    // the last token is again the first one
    stream.begin(6).unwrap();
    stream.end().unwrap();
    let events = [Event::Token { kind: 1, span: 0..1 }, Event::Begin { kind: 6, span: 1..1 }, Event::End { kind: 6, span: 1..1 }];
    assert_eq!(popped(&mut stream), events);
}

#[test]
fn refusal_3() {
    let mut stream = EventStream::new(0, 0);
    for _ in 0..EVENT_BOOKMARK_LIMIT {
        let _ = stream.bookmark().unwrap();
    }
    assert_eq!(stream.bookmark(), Err(Refusal::TooManyBookmarks));
    stream.remove_bookmark(EventBookmark::new(0)).unwrap();
    assert_eq!(stream.bookmark(), Ok(EventBookmark::new(0)));
}

#[test]
fn refusals_4_and_10() {
    let mut stream = EventStream::new(4, 1);
    stream.push_token(1, 0..1).unwrap();
    // none lives: 4 comes before 10
    for position in [0, 1, 2, usize::MAX] {
        assert_eq!(stream.truncate(&EventBookmark::new(position)), Err(Refusal::NotLive));
        assert_eq!(stream.remove_bookmark(EventBookmark::new(position)), Err(Refusal::NotLive));
    }
    let first = stream.bookmark().unwrap();
    stream.push_token(2, 1..2).unwrap();
    let second = stream.bookmark().unwrap();
    stream.truncate(&first).unwrap();
    for mark in [second, EventBookmark::new(usize::MAX)] {
        assert_eq!(stream.truncate(&mark), Err(Refusal::PastTheEnd));
        assert_eq!(stream.remove_bookmark(mark), Err(Refusal::PastTheEnd));
    }
    // once an event stands there again, it can be removed
    stream.push_token(3, 1..2).unwrap();
    stream.remove_bookmark(second).unwrap();
    stream.remove_bookmark(first).unwrap();
    assert_eq!(stream.remove_bookmark(first), Err(Refusal::NotLive));
}

#[test]
fn refusals_5_and_11() {
    let mut stream = EventStream::new(3, 1);
    stream.begin(1).unwrap();
    // one node can be open: 11 comes before 5
    assert_eq!(stream.begin(2), Err(Refusal::TooDeep));
    stream.push_token(3, 0..1).unwrap();
    // the last slot is the node's
    assert_eq!(stream.push_token(4, 1..2), Err(Refusal::EventsFull));
    assert_eq!(stream.push_error(4, 1..2), Err(Refusal::EventsFull));
    assert_eq!(stream.begin(2), Err(Refusal::TooDeep));
    stream.end().unwrap();
    assert_eq!(stream.begin(2), Err(Refusal::EventsFull));
    assert_eq!(popped(&mut stream).len(), 3);

    // a node wants two slots
    let mut stream = EventStream::new(1, 1);
    assert_eq!(stream.begin(1), Err(Refusal::EventsFull));
    stream.push_error(1, 0..0).unwrap();

    let mut stream = EventStream::new(0, 0);
    assert_eq!(stream.push_token(1, 0..0), Err(Refusal::EventsFull));
    assert_eq!(stream.begin(1), Err(Refusal::TooDeep));
    assert_eq!(stream.pop(), Ok(None));
}

#[test]
fn refusal_6() {
    let mut stream = EventStream::new(4, 1);
    assert_eq!(stream.end(), Err(Refusal::NothingOpen));
    assert_eq!(stream.end_with_error(), Err(Refusal::NothingOpen));
    stream.begin(1).unwrap();
    stream.end().unwrap();
    assert_eq!(stream.end(), Err(Refusal::NothingOpen));
}

#[test]
fn refusal_7() {
    let mut stream = EventStream::new(1, 0);
    #[allow(clippy::reversed_empty_ranges)]
    let wrong = [1..0, 65_535..65_534, 0..65_536, 0..u32::MAX as usize + 1, u32::MAX as usize + 1..1, usize::MAX..usize::MAX];
    for span in wrong {
        assert_eq!(stream.push_token(1, span.clone()), Err(Refusal::NoSpan));
        assert_eq!(stream.push_error(1, span), Err(Refusal::NoSpan));
    }
    stream.push_token(1, 65_535..65_535).unwrap();
    // 7 comes before 5
    assert_eq!(stream.push_token(1, 0..65_536), Err(Refusal::NoSpan));
    assert_eq!(stream.push_token(1, 0..65_535), Err(Refusal::EventsFull));
}

#[test]
fn refusal_8() {
    let mut stream = EventStream::new(8, 2);
    stream.begin(1).unwrap();
    let mark = stream.bookmark().unwrap();
    stream.push_token(2, 0..1).unwrap();
    stream.end().unwrap();
    assert_eq!(stream.truncate(&mark), Err(Refusal::Unbalanced));
    // nothing has changed
    stream.remove_bookmark(mark).unwrap();
    assert_eq!(popped(&mut stream).len(), 3);
    // a node that is open
    let mark = stream.bookmark().unwrap();
    stream.begin(1).unwrap();
    assert_eq!(stream.truncate(&mark), Err(Refusal::Unbalanced));
}

#[test]
fn refusal_9() {
    let mut stream = EventStream::new(8, 2);
    stream.push_token(1, 0..1).unwrap();
    let mark = stream.bookmark().unwrap();
    assert_eq!(stream.pop(), Err(Refusal::NotSettled));
    stream.remove_bookmark(mark).unwrap();
    stream.begin(1).unwrap();
    assert_eq!(stream.pop(), Err(Refusal::NotSettled));
    stream.end_with_error().unwrap();
    assert_eq!(stream.pop(), Ok(Some(Event::Token { kind: 1, span: 0..1 })));
}

#[test]
fn what_debug_writes() {
    assert_eq!(format!("{:?}", EventStream::new(8, 2)), "EventStream { slots: 8, depth: 2, .. }");
}
