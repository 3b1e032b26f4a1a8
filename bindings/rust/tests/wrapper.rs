//! What the wrapper adds to the library: names for numbers, pieces of no bytes,
//! pieces that overlap, values that are kept. What the library answers is
//! compared with an independent program by `tests/bindings/run`, over millions
//! of calls.

use piongseut::{
    build, check, gather, inquiry, read_page83, roll, write_page83, Census, Checked, Direction,
    Edition, Field, Form, Inquiry, Intake, Order, Ports, Protocol, Record, Refusal, Refused, Shown,
    State, Status, Submit, Submitted,
};
use std::error::Error;

/// Nothing is lent, and nothing stated.
const NOTHING: Inquiry = Inquiry {
    command: &[],
    block: &[],
    signature: &[],
    texts: &[],
    reply: &[],
    ports: Ports {
        relative: None,
        sas: None,
    },
    form: Form::Unstated,
};

fn submit(command: &[u8]) -> Submit<'_> {
    Submit {
        command,
        registers: &[0; 11],
        block: &[],
        declared: 512,
        edition: Edition::default(),
        form: Form::default(),
    }
}

const IDENTIFY: [u8; 12] = [0xA1, 0x08, 0x0E, 0, 1, 0, 0, 0, 0, 0xEC, 0, 0];
const RESET: [u8; 12] = [0xA1, 0x02, 0, 0, 0, 0, 0, 0, 0, 0, 0, 0];

#[test]
fn every_number_has_one_name() {
    for number in 0..=255 {
        assert_eq!(Status::of(number).number(), number);
        assert_eq!(Refusal::of(number).number(), number);
        assert_eq!(Protocol::of(number).number(), number);
        assert_eq!(Direction::of(number).number(), number);
        assert_eq!(Field::of(number).tag(), number);
        let named = (1..=23).contains(&number);
        assert_eq!(Refusal::of(number) == Refusal::Other(number), !named);
    }
    assert_eq!(Status::of(0x18), Status::Other(0x18));
    assert_eq!(Protocol::of(7), Protocol::Other(7));
    assert_eq!(Direction::of(3), Direction::Other(3));
    assert_eq!(Field::of(0x02), Field::Other(0x02));
    let forms = [Form::Unstated, Form::Fixed, Form::Descriptor];
    assert_eq!(forms.map(Form::number), [0, 1, 2]);
    assert_eq!(
        [Edition::First, Edition::Later].map(Edition::number),
        [1, 2]
    );
}

#[test]
fn a_refusal_is_an_error_with_a_text() {
    let refused = Refused {
        refusal: Refusal::Pending,
        status: Status::Busy,
    };
    let errors: [Box<dyn Error>; 2] = [Box::new(refused), Box::new(Refusal::Damaged)];
    assert_eq!(errors[0].to_string(), "refused 10, status 08h");
    assert_eq!(errors[1].to_string(), "refused 18");
}

/// An empty slice is a pointer to nothing, and not a null one.
#[test]
fn nothing_can_be_lent_to_every_function() {
    let size = Refused {
        refusal: Refusal::Size,
        status: Status::None,
    };
    assert_eq!(inquiry(&NOTHING, &mut [], &mut []), Err(size));
    let nothing = Submit {
        registers: &[],
        ..submit(&[])
    };
    assert_eq!(Record::empty().submit(&nothing, &mut []), Err(size));
    let ended = Record::empty().complete(&[], Form::Fixed, &mut []);
    assert_eq!(ended, Err(size));
    let none = Ports::default();
    assert_eq!(write_page83(&[], none, &mut []), Err(Refusal::Size));
    assert_eq!(read_page83(&[]), Err(Refusal::NotAPage));
    assert_eq!(roll(&[], &mut []).map(|roll| roll.blocks), Ok(0));
    assert_eq!(gather(&[], &[], &mut []), Ok(&[][..]));
    assert_eq!(Intake::empty().take(&mut [], &[]), Err(Refusal::Size));
    assert_eq!(Intake::empty().block(&[]), Err(Refusal::Size));
    assert_eq!(Census::empty().feed(&[]), Err(Refusal::Size));
    let refusal = Refusal::Capture;
    assert_eq!(check(&[]), Checked::Refused { refusal, place: 0 });
    assert_eq!(build(&Order::default()), Err(Refusal::Order));
}

/// Of pieces that are only read each may be a part of another.
#[test]
fn what_is_only_read_may_overlap() {
    let mut bytes: Vec<u8> = (0..=255).cycle().take(600).collect();
    bytes[..6].copy_from_slice(&[0x12, 0x01, 0x89, 0xFF, 0xFF, 0x00]);
    let overlapping = Inquiry {
        command: &bytes,
        block: &bytes[..512],
        signature: &bytes[..20],
        texts: &bytes[4..32],
        reply: &bytes,
        ports: Ports {
            relative: Some(1),
            sas: Some(&bytes[..8]),
        },
        form: Form::Fixed,
    };
    let (mut room, mut sense) = ([0; 572], [0; 22]);
    let page = inquiry(&overlapping, &mut room, &mut sense)
        .unwrap()
        .bytes();
    assert_eq!(page.len(), 572);
    assert_eq!(page[8..36], bytes[4..32]);
    assert_eq!(page[36..56], bytes[..20]);
    assert_eq!(page[60..], bytes[..512]);
}

#[test]
fn what_is_shown_is_the_front_of_what_was_lent() {
    let mut signature = [0; 20];
    signature[5..7].copy_from_slice(&[0x14, 0xEB]);
    let reply = [0x05, 0x80, 0x05];
    let asked = Inquiry {
        command: &[0x12, 0x00, 0x00, 0x00, 0xFF, 0x00],
        signature: &signature,
        texts: &[0; 28],
        reply: &reply,
        ..NOTHING
    };
    let (mut room, mut sense) = ([0xEE; 572], [0xEE; 22]);
    let shown = inquiry(&asked, &mut room, &mut sense);
    assert_eq!(shown, Ok(Shown::Reply(&reply)));
    assert_eq!(shown.unwrap().bytes().as_ptr(), reply.as_ptr());
    assert_eq!((room, sense), ([0xEE; 572], [0xEE; 22]));
}

#[test]
fn a_record_tells_what_it_holds() {
    let (mut record, mut sense) = (Record::default(), [0; 22]);
    assert_eq!(record.state(), State::Nothing);
    let order = match record.submit(&submit(&IDENTIFY), &mut sense) {
        Ok(Submitted::Taken(order)) => order,
        other => panic!("{other:?}"),
    };
    assert_eq!(record.state(), State::Order(order));
    let before = record;
    assert!(record.submit(&submit(&IDENTIFY), &mut sense).is_err());
    assert_eq!(record, before);
    let reset = match record.submit(&submit(&RESET), &mut sense) {
        Ok(Submitted::Taken(reset)) => reset,
        other => panic!("{other:?}"),
    };
    assert_eq!(reset.protocol, Protocol::Srst);
    assert_eq!(record.state(), State::ResetOverOrder { reset, order });
    assert_eq!(Record::from_bytes(record.to_bytes()), record);
}

/// A record of any bytes is one, and flags that are not 0 are set.
#[test]
fn a_record_of_any_bytes_can_be_used() {
    let mut record = Record::from_bytes([0xA5; 60]);
    match record.state() {
        State::Order(order) => {
            assert_eq!(order.protocol, Protocol::Other(0xA5));
            assert_eq!(order.direction, Direction::Other(0xA5));
            assert!(order.ck_cond && order.extend);
        }
        other => panic!("{other:?}"),
    }
    let ended = record.complete(&[0; 11], Form::Descriptor, &mut [0; 22]);
    assert_eq!(ended.unwrap().status, Status::CheckCondition);
    assert_eq!(record, Record::empty());
}

/// What is built and submitted is the order again.
#[test]
fn a_built_command_gives_its_order() {
    let order = Order {
        length: 0x1_0000 * 512 - 512,
        count: 0xFFFF,
        lba_high: 0x0506,
        sectors_per_block: 8,
        command: 0x25,
        protocol: Protocol::Dma,
        ck_cond: true,
        extend: true,
        direction: Direction::ToDrive,
        ..Order::default()
    };
    let command = build(&order).unwrap();
    assert_eq!(command.bytes().len(), 16);
    let lent = Submit {
        declared: order.length,
        ..submit(command.bytes())
    };
    let given = Record::empty().submit(&lent, &mut [0; 22]);
    assert_eq!(given, Ok(Submitted::Taken(order)));
}

#[test]
fn a_refused_run_or_block_changes_nothing() {
    let mut intake = Intake { have: 600, sum: 7 };
    assert_eq!(intake.take(&mut [0; 512], &[1]), Err(Refusal::Size));
    assert_eq!(intake, Intake { have: 600, sum: 7 });
    let mut census = Census {
        named: 1,
        ..Census::empty()
    };
    let before = census;
    assert_eq!(census.feed(&[0; 512]), Err(Refusal::Census));
    assert_eq!(census, before);
}

/// The values can go to other threads; they are numbers.
#[test]
fn values_go_to_other_threads() {
    fn goes<T: Send + Sync + Copy + 'static>() {}
    goes::<Record>();
    goes::<Intake>();
    goes::<Census>();
    goes::<Order>();
    goes::<Refused>();
}
