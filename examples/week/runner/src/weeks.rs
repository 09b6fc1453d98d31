//! The same week decided by each book.

use crate::barn::{run_week, Outcome};
use crate::case::{Case, Second};
use crate::early::Books;
use crate::gate::Gate;
use crate::progress::Progress;
use crate::tables::Visit;
use crate::typed::Typed;

pub struct Weeks {
    /// The rule book, with what is typed at the change.
    pub first: Vec<Outcome>,
    /// What LIST writes of the rule book, and again after the change, each typed into an empty page.
    pub listed: Vec<Outcome>,
    /// Every gate loaded with what another has saved, on Monday and after the change.
    pub carried: Vec<Outcome>,
    pub second: Option<SecondWeek>,
}

/// The week by the second book.
pub struct SecondWeek {
    /// The very visits of the first.
    pub same: Vec<Outcome>,
    /// The visits as the cows come when the second book counts; the very visits of the first, if there is no other list.
    pub lived: Vec<Outcome>,
}

impl Weeks {
    pub fn decide(case: &Case) -> Result<Weeks, String> {
        let again = case.second.as_ref().map_or(0, |_| {
            case.visits.len() + case.lived.as_ref().map_or(0, Vec::len)
        });
        let mut progress = Progress::of(3 * case.visits.len() + again);
        let mut week =
            |visits: &[Visit], gate: Gate, change: &dyn Fn(&mut Gate) -> Result<(), String>| {
                run_week(case.farm(), visits, gate, change, &mut progress)
            };
        let first = week(&case.visits, case.monday()?, &|gate| case.change(gate))?;
        let listed = week(&case.visits, typed_back(&mut case.monday()?)?, &|gate| {
            case.change(gate)?;
            *gate = typed_back(gate)?;
            Ok(())
        })?;
        let carried = week(&case.visits, case.monday()?.carried()?, &|gate| {
            case.change(gate)?;
            *gate = gate.carried()?;
            Ok(())
        })?;
        let mut by = |second: &Second, visits: &[Visit]| {
            week(visits, case.monday()?, &|gate| case.change_to(second, gate))
        };
        let second = case.second.as_ref().map(|second| {
            let same = by(second, &case.visits)?;
            let lived = match &case.lived {
                Some(visits) => by(second, visits)?,
                None => same.clone(),
            };
            Ok::<_, String>(SecondWeek { same, lived })
        });
        Ok(Weeks {
            first,
            listed,
            carried,
            second: second.transpose()?,
        })
    }
}

impl Weeks {
    /// How many visits were decided, in all.
    pub fn decisions(&self) -> usize {
        let second = self
            .second
            .as_ref()
            .map_or(0, |week| week.same.len() + week.lived.len());
        self.first.len() + self.listed.len() + self.carried.len() + second
    }
}

/// A gate with an empty page, into which the other's listing is typed.
fn typed_back(gate: &mut Gate) -> Result<Gate, String> {
    Gate::with(&Typed::of("the listing", gate.listing()?.as_bytes()))
}

/// The rule book as it is from the change on.
pub fn changed(case: &Case) -> Result<Gate, String> {
    let mut gate = case.monday()?;
    case.change(&mut gate)?;
    Ok(gate)
}

/// Both books as they are from the change on, if there are two.
pub fn books(case: &Case) -> Result<Option<Books>, String> {
    let of = |second: &Second| {
        let mut gate = case.monday()?;
        case.change_to(second, &mut gate)?;
        Ok::<_, String>(Books {
            first: changed(case)?,
            second: gate,
        })
    };
    case.second.as_ref().map(of).transpose()
}
