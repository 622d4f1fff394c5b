//! The cases with known answers: issue 5's bad inputs and their good neighbours.

use oracle::cases::{Case, cases};

use super::{Compared, Tally, exact, lookups, rules, verdicts};

pub fn compare_cases(tally: &mut Tally) -> Compared {
    cases().iter().try_for_each(|case| compare(tally, case))
}

/// What is no image is 1 to every operation. Nothing is changed.
fn compare(tally: &mut Tally, case: &Case) -> Compared {
    let named = || format!("{:?}", case.name);
    let buffer = case.bytes.clone();
    exact::expect(tally, "cases", &buffer, case.is_image, named)?;
    if !case.is_image {
        lookups::compare_no_image(tally, &buffer)?;
        verdicts::compare_no_image(tally, &buffer)?;
        rules::compare_no_image(tally, &buffer)
            .map_err(|difference| format!("{}: {difference}", named()))?;
    }
    match buffer == case.bytes {
        true => Ok(()),
        false => Err(format!("{}: the buffer is changed", named())),
    }
}
