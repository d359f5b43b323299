//! The PLL's numbers as they are printed, and the reference that they are worked out from.
use crate::printed::json;
use crate::printed::out::Out;
use crate::runs::answer;
use crate::runs::receiver::Receiver;
use crate::words::given::Given;
use pasetone::{Board, Driver, PllPlan, Tuner};

/// The reference with its correction, by the library; a refusal is told.
pub fn corrected(given: &Given, receiver: &Receiver, out: &mut Out) -> Option<u32> {
    let driver = |ppm: i32| Driver::new(Board::V4, receiver.reference(), ppm, 0, 0);
    match driver(receiver.ppm.unwrap_or(0)) {
        Ok(driver) => Some(driver.corrected_xtal_hz()),
        Err(error) => {
            let records =
                Tuner::new(receiver.kind(), receiver.address(), receiver.reference()).and_then(|tuner| Ok((tuner, driver(0)?))).ok();
            let records = records.as_ref().map(|(tuner, driver)| (tuner, driver));
            answer::refused(given, error, &answer::reference_line(error, records), out);
            None
        }
    }
}

/// The numbers as JSON.
pub fn pll_json(numbers: &[u64; 5]) -> String {
    let fields: Vec<(&str, String)> =
        ["m", "n", "setting", "sum", "rest"].into_iter().zip(numbers.map(|number| number.to_string())).collect();
    json::object(&fields)
}

pub fn numbered(plan: &PllPlan) -> [u64; 5] {
    [plan.divider.into(), plan.n.into(), plan.setting.into(), plan.sum.into(), plan.rest]
}
