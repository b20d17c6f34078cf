//! Judges one question: the library, where the driver ran, against `records` in all that it leaves; and what was left against the
//! plain list of the set's rows, and against the pads of its tree.

use crate::by_pads;
use crate::by_rows;
use crate::call::{Call, Left};
use crate::pads::Pads;
use crate::questions::Asked;
use crate::tally::Tally;
use crate::trials::{Gave, Trial};
use crate::verdict::{same, Verdict};

pub struct QuestionTrial {
    pub kind: &'static str,
    /// By which it is shown: --group or --pair, the number, and what else finds it.
    pub label: String,
    pub asked: Asked,
    /// Of the tree that the set was built from.
    pub pads: Pads,
    /// The answer to a count, where another way than those here has counted the rows.
    pub counted: Option<u64>,
}

impl Trial for QuestionTrial {
    fn call(&self) -> Call {
        self.asked.asking.call()
    }

    fn judge(&self, gave: Gave, tally: &mut Tally) {
        let expected = self.asked.asking.expected();
        let verdict = match gave {
            Gave::NoDriver => self.check_rows(&expected),
            Gave::Nothing => Err("the driver gave no answer".to_string()),
            Gave::Left(left) => left.is(&self.call(), &expected).and_then(|()| self.check_rows(left)),
        };
        tally.question(self, expected.answer, self.call().entries(), verdict);
    }
}

impl QuestionTrial {
    fn check_rows(&self, left: &Left) -> Verdict {
        if self.asked.promised {
            same("answer that is promised", left.answer, 0)?;
        }
        self.counted.map_or(Ok(()), |rows| by_rows::check_count(left, rows))?;
        by_pads::check(&self.asked.asking, left, &self.pads)?;
        self.asked.rows.as_ref().map_or(Ok(()), |rows| by_rows::check(&self.asked.asking, left, rows))
    }
}
