//! The proved engine, through the functions that `engine.txt` exports.

use crate::plain::{Division, Found, Row, Sheet, Shortfall};

unsafe extern "C" {
    fn pilvecsa_make(
        exponents: *const u16,
        exponents_len: usize,
        rows: u8,
        variables: u8,
        ordering: *const u8,
        ordering_len: usize,
    ) -> u64;

    fn pilvecsa_settle(
        exponents: *const u16,
        exponents_len: usize,
        rows: u8,
        variables: u8,
        ordering: *const u8,
        ordering_len: usize,
        division: u8,
        answers: *mut u64,
        answers_len: usize,
    ) -> u64;

    fn pilvecsa_verdict(
        exponents: *const u16,
        exponents_len: usize,
        rows: u8,
        variables: u8,
        ordering: *const u8,
        ordering_len: usize,
        division: u8,
        answers: *mut u64,
        answers_len: usize,
    ) -> u64;

    fn pilvecsa_locate(
        exponents: *const u16,
        exponents_len: usize,
        rows: u8,
        variables: u8,
        ordering: *const u8,
        ordering_len: usize,
        division: u8,
        targets: *const u16,
        targets_len: usize,
        answers: *mut u64,
        answers_len: usize,
    ) -> u64;
}

/// An exported function that is handed a sheet and a division, and writes its answers.
type Call = unsafe extern "C" fn(*const u16, usize, u8, u8, *const u8, usize, u8, *mut u64, usize) -> u64;

/// A sheet in the form that the exported functions take.
pub struct Handed {
    exponents: Vec<u16>,
    rows: u8,
    variables: u8,
    ordering: [u8; 8],
}

pub fn exponents_of(rows: &[Row]) -> Vec<u16> {
    rows.iter().flat_map(|row| row.exponents).collect()
}

impl Handed {
    pub fn new(sheet: &Sheet) -> Handed {
        let mut ordering = [0; 8];
        for (byte, &variable) in ordering.iter_mut().zip(&sheet.order) {
            *byte = variable as u8 + 1;
        }
        Handed {
            exponents: exponents_of(&sheet.rows),
            rows: sheet.rows.len() as u8,
            variables: sheet.n as u8,
            ordering,
        }
    }

    pub fn make(&self) -> u64 {
        unsafe {
            pilvecsa_make(
                self.exponents.as_ptr(),
                self.exponents.len(),
                self.rows,
                self.variables,
                self.ordering.as_ptr(),
                self.ordering.len(),
            )
        }
    }

    fn ask(&self, call: Call, division: Division, answers: &mut [u64]) {
        let made = unsafe {
            call(
                self.exponents.as_ptr(),
                self.exponents.len(),
                self.rows,
                self.variables,
                self.ordering.as_ptr(),
                self.ordering.len(),
                division.number(),
                answers.as_mut_ptr(),
                answers.len(),
            )
        };
        assert_eq!(made, 1, "the engine found no memory, or no such division");
    }

    /// Settled so many times, and opened again in between; all answers have to be the same.
    pub fn settles(&self, division: Division, times: usize) -> Found {
        let mut answers = vec![u64::MAX; 10 * times];
        self.ask(pilvecsa_settle, division, &mut answers);
        assert!(answers.chunks(10).all(|answer| answer == &answers[..10]));
        let tested = answers[0] as u32;
        let ordering = match answers[9] {
            0 => Some(
                answers[1..=self.variables as usize]
                    .iter()
                    .map(|&v| v as usize - 1)
                    .collect(),
            ),
            16 => None,
            number => panic!("settle was refused by {number}"),
        };
        Found { tested, ordering }
    }

    /// The verdict, asked for so many times; all answers have to be the same.
    pub fn verdicts(&self, division: Division, times: usize) -> Option<Shortfall> {
        let mut answers = vec![u64::MAX; 3 * times];
        self.ask(pilvecsa_verdict, division, &mut answers);
        assert!(answers.chunks(3).all(|answer| answer == &answers[..3]));
        assert!(answers[0] < 64, "the verdict was refused");
        (answers[1] > 0).then(|| Shortfall {
            place: answers[0] as usize,
            variable: answers[1] as usize - 1,
            power: answers[2] as u16,
        })
    }

    /// The places of the rows whose cones hold the targets, which stand eight exponents each.
    pub fn locate(&self, division: Division, targets: &[u16]) -> Vec<Option<usize>> {
        let mut answers = vec![u64::MAX; targets.len() / 8];
        let made = unsafe {
            pilvecsa_locate(
                self.exponents.as_ptr(),
                self.exponents.len(),
                self.rows,
                self.variables,
                self.ordering.as_ptr(),
                self.ordering.len(),
                division.number(),
                targets.as_ptr(),
                targets.len(),
                answers.as_mut_ptr(),
                answers.len(),
            )
        };
        assert_eq!(made, 1, "the engine found no memory, or no such division");
        answers
            .iter()
            .map(|&answer| match answer {
                0..64 => Some(answer as usize),
                117 => None,
                _ => panic!("locate was refused by {}", answer - 100),
            })
            .collect()
    }
}
