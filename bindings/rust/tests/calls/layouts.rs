//! The names of the record's numbers and of a row's words are those of the archive.

use crate::{answer, create, started};
use turns::{job, lent, stage, step, Collected, Record, Refusal, Row, NONE, SLOTS};

/// An idle row with empty slots.
const IDLE: Row = Row {
    slots: [NONE; SLOTS],
    ..Row::ZERO
};

#[test]
fn a_start_fills_the_parts() {
    let store = started::<3, 2>();
    let record = Record {
        n: 3,
        g: 1,
        m: 2,
        hold: NONE.into(),
        ..Record::ZERO
    };
    assert_eq!(store.record(), &record);
    assert_eq!(store.desk(), &[IDLE; 2]);
    assert_eq!(store.fields(), &[[NONE; 4]; 3]);
    assert_eq!(store.colours(), &[1, 0, 0]);
}

#[test]
fn a_row_says_what_its_job_carries() -> Result<(), Refusal> {
    let mut store = started::<3, 1>();
    let mut parts = store.parts();
    create(&mut parts, 5)?;
    assert!(parts.create(0, 6).is_ok());
    let mut row = IDLE;
    row.slots[5] = 1;
    let creating = Row {
        job: job::CREATING,
        step: step::AHEAD,
        cell: 2,
        at: 6,
        ..row
    };
    assert_eq!(parts.desk[0], creating);

    for _ in 0..2 {
        assert!(parts.next(0).is_ok());
    }
    row.slots[6] = 2;
    assert!(parts.store(0, 5, 3, 6).is_ok());
    let storing = Row {
        job: job::STORING,
        step: step::BARE_WRITE,
        cell: 1,
        at: 3,
        fresh: 2,
        old: NONE,
        ..row
    };
    assert_eq!(parts.desk[0], storing);
    Ok(())
}

#[test]
fn the_record_says_where_the_collector_is() -> Result<(), Refusal> {
    let mut store = started::<3, 1>();
    let mut parts = store.parts();
    parts.page(0, 0, 0)?;
    create(&mut parts, 1)?;
    let begun = parts.store(0, 0, 0, 1)?;
    crate::finish(&mut parts, 0, begun)?;
    // To the scan, in which page 0 is opened and its field 0 read.
    while parts.record.part < 2 {
        if parts.collect()? == Collected::Waited {
            answer(&mut parts)?;
        }
    }
    let record = Record {
        n: 3,
        g: 1,
        m: 1,
        stage: stage::SCAN,
        place: 0,
        part: 2,
        hold: 1,
        found: 1,
        count: 7,
    };
    assert_eq!(parts.record, &record);
    Ok(())
}

#[test]
fn both_forms_of_the_calls_are_the_same() -> Result<(), Refusal> {
    let mut store = started::<2, 1>();
    create(&mut store.parts(), 4)?;

    let (record, desk) = (&mut [0; 9], &mut [0; 16]);
    let (fields, colours) = (&mut [0; 8], &mut [0; 2]);
    assert_eq!(
        lent::start(record, desk, fields, colours, 2, 1, 1),
        lent::DONE
    );
    assert_eq!(
        lent::create(record, desk, fields, colours, 0, 4),
        lent::MORE
    );
    assert_eq!(lent::next(record, desk, fields, colours, 0), lent::MORE);
    assert_eq!(lent::next(record, desk, fields, colours, 0), lent::DONE);

    let Record { n, g, m, hold, .. } = *store.record();
    assert_eq!(record, &[n, g, m, 0, 0, 0, hold, 0, 0]);
    assert_eq!(desk[5], store.desk()[0].slots[4]);
    assert_eq!(fields, store.fields().as_flattened());
    assert_eq!(colours, store.colours());
    Ok(())
}
