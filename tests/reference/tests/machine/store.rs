//! A store with its lent parts, for the tests.

use reference::*;

#[derive(Clone, PartialEq, Debug)]
pub struct Store {
    pub record: Vec<u32>,
    pub desk: Vec<u16>,
    pub fields: Vec<u16>,
    pub colours: Vec<u8>,
}

/// Makes a call on the four parts of a store: `call!(store, page, w, p, s)`.
macro_rules! call {
    ($store:expr, $name:ident $(, $number:expr)*) => {
        reference::$name::<0>(
            &mut $store.record,
            &mut $store.desk,
            &mut $store.fields,
            &mut $store.colours
            $(, $number)*
        )
    };
}

impl Store {
    /// Lends what the sizes ask for, and starts.
    pub fn try_start(n: u32, g: u32, m: u32) -> (Store, u32) {
        let mut store = Store {
            record: vec![0; 9],
            desk: vec![0; ROW * m as usize],
            fields: vec![0; 4 * n as usize],
            colours: vec![0; n as usize],
        };
        let answer = call!(store, start, n, g, m);
        (store, answer)
    }

    pub fn started(n: u32, g: u32, m: u32) -> Store {
        let (store, answer) = Store::try_start(n, g, m);
        assert_eq!(answer, DONE);
        store
    }

    pub fn stage(&self) -> u32 {
        self.record[3]
    }

    pub fn place(&self) -> u32 {
        self.record[4]
    }

    pub fn count(&self) -> u32 {
        self.record[8]
    }

    /// Makes the rest of writer `w`'s job; the answer is how many turns that took.
    pub fn finish(&mut self, w: u32) -> u32 {
        let mut turns = 1;
        while call!(self, next, w) == MORE {
            turns += 1;
        }
        turns
    }

    /// Creates a cell into slot 0 of writer 0.
    pub fn create(&mut self) {
        assert_eq!(call!(self, create, 0, 0), MORE);
        assert_eq!(self.finish(0), 2);
    }

    /// Writer 0 answers what is posted.
    pub fn answer(&mut self) {
        if call!(self, answer, 0) == MORE {
            self.finish(0);
        }
    }

    /// Collects, with prompt answers, until the stage and the place come.
    pub fn collect_until(&mut self, stage: u32, place: u32) {
        loop {
            if call!(self, collect) == WAITED {
                self.answer();
            }
            if (self.stage(), self.place()) == (stage, place) {
                return;
            }
        }
    }

    /// Collects to the next closing; the answer is the cycle's count.
    pub fn cycle(&mut self) -> u32 {
        self.collect_until(5, 0);
        self.collect_until(0, 0);
        self.count()
    }
}
