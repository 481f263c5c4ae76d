//! What Rust programs expect of types.

use lomqashe::{
    Breach, CellPlace, ChannelOpening, Counts, CutSection, HeadStatus, Opening, PunchHead, Record, Refusal, Repeat,
    Rows, Section, Sections, State, Strikes, Tune, Voice, restore,
};
use std::fmt::{Debug, Display};
use std::hash::Hash;
use std::iter::FusedIterator;

const WORKED: &[u8] = include_bytes!("../../oracle/examples/worked.s3m");

fn value<T: Clone + Debug + Eq + Hash + Send + Sync>() {}
fn copied<T: Copy>() {}
fn iterator<T: Clone + Debug + FusedIterator>() {}
fn bytes<'b, T: AsRef<[u8]> + TryFrom<&'b [u8], Error = Refusal>>() {}

#[test]
fn types_have_the_common_traits() {
    value::<Breach>();
    value::<CellPlace>();
    value::<ChannelOpening>();
    value::<Counts>();
    value::<CutSection>();
    value::<HeadStatus>();
    value::<Opening>();
    value::<PunchHead>();
    value::<Record>();
    value::<Refusal>();
    value::<Repeat>();
    value::<Section>();
    value::<State>();
    value::<Strikes>();
    value::<Tune>();
    value::<Voice>();
    copied::<HeadStatus>();
    copied::<Strikes>();
    iterator::<Rows<'static>>();
    iterator::<Sections<'static>>();
    bytes::<PunchHead>();
    bytes::<Record>();
    bytes::<State>();
}

#[test]
fn a_record_is_displayed_as_its_line() {
    fn displayed(what: &impl Display) -> String {
        what.to_string()
    }
    let tune = Tune::read(WORKED, 60_000).unwrap();
    let record = tune.rows(1).unwrap().next().unwrap();
    assert_eq!(displayed(&record), "0,0,0,0,6,125,0,7200,1");
    assert_eq!(format!("{record:?}"), "Record(0,0,0,0,6,125,0,7200,1)");
}

#[test]
fn strikes_are_gone_through() {
    let tune = Tune::read(WORKED, 60_000).unwrap();
    let strikes = tune.rows(1).unwrap().next().unwrap().strikes();
    assert_eq!(strikes.into_iter().collect::<Vec<u8>>(), [0]);
    assert_eq!((&strikes).into_iter().count(), 1);
    assert_eq!(format!("{strikes:?}"), "Strikes([0])");
    assert_eq!(strikes, strikes.clone());
}

#[test]
fn bytes_of_another_length_are_refused() {
    assert_eq!(Record::try_from(&[0; 535][..]).unwrap_err().number(), 13);
    assert_eq!(Record::try_from(&[7; 536][..]).unwrap().as_ref(), [7; 536]);
    for length in [0, 2_623, 2_625] {
        let refusal = State::try_from(&vec![0; length][..]).unwrap_err();
        assert_eq!(
            refusal.to_string(),
            "a length at the library's border is wrong, or a command is above 255"
        );
    }
    assert_eq!(State::try_from(&[7; 2_624][..]).unwrap().as_ref(), [7; 2_624]);
    assert_eq!(restore(&[0; 535]).unwrap_err().number(), 16);
    assert_eq!(restore(&[7; 536]).unwrap(), [Record::from_bytes(&[7; 536])]);
}

#[test]
fn a_refusal_is_shown_in_words() {
    let refusal = Tune::read(b"", 60_000).unwrap_err();
    assert_eq!(
        format!("{refusal:?}"),
        "Refusal(1, \"the file is shorter than 96 bytes\")"
    );
}

#[test]
fn open_accepts_the_default() {
    let tune = Tune {
        orders: vec![0],
        samples: vec![],
        cells: [255, 0, 255, 0, 0].repeat(64 * 32),
        opening: Opening::default(),
    };
    assert!(tune.open().is_ok());
    assert_eq!(tune.rows(50).unwrap().count(), 64);
}
