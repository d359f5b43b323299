//! What must come back from a call at the byte boundary: the harness's answer by documents 01 and 02, and document 01's rule for what the harness
//! has no place for (slices for next records that are too short, FIR bytes of another length).
use crate::given::Given;
use harness::case::{Answer, By, Case};
use harness::requests::answer;

pub fn wanted(given: &Given) -> Answer {
    let case = &given.case;
    if case.call == 36 && case.input.len() != 64 || case.call == 37 && case.input.len() != 20 {
        return Answer::refused(7, By::Page);
    }
    if given.short_next() {
        // Asked without any room: the records' and the arguments' refusals stand before 8, and 8 before 9 and 10. A call that
        // looks at no room is done then, and 8 is all that is left to say.
        let first = answer(&Case { room: 0, ..case.clone() });
        return if first.refusal == 0 { Answer::refused(8, By::Page) } else { first };
    }
    answer(case)
}
