//! Topics by name: what a broker opens, what it refuses first, and when its topics end.
use std::error::Error;
use std::thread;
use vahepito::{Broker, BrokerError, OpenError, RecvError};

/// What an opening of these topics is refused with.
fn refusal(topics: &[(&str, Option<usize>, usize)]) -> Option<BrokerError> {
    Broker::<u8>::open(topics).err()
}

#[test]
fn topics_are_refused_in_this_order() {
    let names: Vec<String> = (0..65).map(|number| number.to_string()).collect();
    let mut topics: Vec<_> = names.iter().map(|it| (it.as_str(), Some(1), 1)).collect();
    topics[3] = ("2", Some(1), 9);
    topics[1] = ("1", Some(0), 2);
    assert_eq!(refusal(&topics), Some(BrokerError::TooMany));
    topics.pop();
    topics[9].0 = "5";
    assert_eq!(refusal(&topics), Some(BrokerError::DoubleName(3)));
    topics[3].0 = "3";
    assert_eq!(refusal(&topics), Some(BrokerError::DoubleName(9)));
    topics[9].0 = "";
    assert_eq!(
        refusal(&topics),
        Some(BrokerError::Topic(1, OpenError::Capacity))
    );
    topics[1].1 = None;
    assert_eq!(
        refusal(&topics),
        Some(BrokerError::Topic(3, OpenError::Groups))
    );
    topics[3].2 = 8;
    assert_eq!(refusal(&topics), None);
    assert_eq!(refusal(&[]), None);
    assert_eq!(
        refusal(&[("", None, 0)]),
        Some(BrokerError::Topic(0, OpenError::Groups))
    );
}

#[test]
fn refusals_have_a_text() {
    let said = |told: BrokerError| (told.to_string(), told.source().map(ToString::to_string));
    let groups = "the number of groups isn't from 1 to 8";
    for (told, text, source) in [
        (BrokerError::TooMany, "there are more than 64 topics", None),
        (
            BrokerError::DoubleName(7),
            "the topic at 7 has the name of an earlier one",
            None,
        ),
        (
            BrokerError::Topic(3, OpenError::Groups),
            &*format!("the topic at 3: {groups}"),
            Some(groups),
        ),
    ] {
        assert_eq!(said(told), (text.to_string(), source.map(str::to_string)));
    }
}

#[test]
fn a_topic_is_a_channel_of_its_own() {
    let topics = [
        ("zero", Some(0), 1),
        ("two", Some(2), 1),
        ("all", None, 1),
        ("each", Some(1), 3),
    ];
    let broker = Broker::<String>::open(&topics).unwrap();
    assert!(broker.names().eq(topics.iter().map(|it| it.0)));
    for (name, capacity, groups) in topics {
        let (sender, receivers) = broker.topic(name).unwrap();
        assert_eq!(
            (sender.capacity(), receivers.len()),
            (capacity, groups),
            "{name}"
        );
        assert!(receivers.iter().map(|it| it.group()).eq(1..=groups));
        let name = name.to_string();
        thread::scope(|scope| {
            scope.spawn(|| sender.send(name.clone()).unwrap());
            assert!(receivers.iter().all(|it| it.recv().as_ref() == Ok(&name)));
        });
        assert!(sender.same_channel(&broker.topic(&name).unwrap().0));
    }
    assert!(broker.topic("Zero").is_none() && broker.topic("").is_none());
    let (sender, receivers) = broker.topic("each").unwrap();
    sender.send("last".to_string()).unwrap();
    drop(sender);
    assert!(!receivers[0].is_closed(), "the broker has a sender");
    drop(broker);
    for receiver in receivers {
        assert_eq!(
            (receiver.recv().as_deref(), receiver.recv()),
            (Ok("last"), Err(RecvError))
        );
    }
}
