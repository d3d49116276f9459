//! Sheets that grow evenly, for measuring: in a series every cabinet is alike, so that time can be set beside the number of cabinets.

use serde_json::{json, Value as Json};

use super::plan::{text_of, Style};
use super::rng::Rng;
use super::sheets;
use super::tree::*;
use super::write::bundle;
use super::Case;

pub struct Sheet {
    pub series: &'static str,
    pub cabinets: usize,
    pub case: Case,
}

/// A thousand cabinets fit the plan's 4,096 values if each takes three of them.
fn small_cabinet(rng: &mut Rng) -> Json {
    let w = 100 * rng.between(3, 10);
    json!({"code": format!("{}{}", rng.pick(&["B", "W", "T", "D"]), w / 10), "w": w})
}

fn with_panels(rng: &mut Rng) -> Json {
    sheets::cabinet(rng, 5)
}

fn sheet(series: &'static str, cabinets: usize, tree: &Tree, cabinet: sheets::Cabinet<'_>) -> Sheet {
    let mut tree = tree.clone();
    tree.number_lines();
    let mut rng = Rng::of_case(1, "sheets", 0);
    let plan = sheets::plan_of(&mut rng, cabinets, cabinet);
    let plan = text_of(&plan, &mut rng, Style::PLAIN).into_bytes();
    Sheet { series, cabinets, case: Case::new(bundle(&tree), plan) }
}

/// Quotations and delivery notes of 10 to 1,000 cabinets; cutting lists as far as five panels a cabinet fit a plan.
pub fn all() -> Vec<Sheet> {
    let most = [10, 30, 100, 300, 1_000];
    let size = vec![show(path(&["w"])), raw(" mm")];
    let of = |series: &'static str, tree: Tree, sizes: &[usize], cabinet: sheets::Cabinet<'_>| {
        sizes.iter().map(|n| sheet(series, *n, &tree, cabinet)).collect::<Vec<_>>()
    };
    let mut all = of("quotation", sheets::quotation_with(size), &most, &small_cabinet);
    all.extend(of("delivery note", sheets::delivery_note(), &most, &small_cabinet));
    all.extend(of("cutting list", sheets::cutting_list(), &most[..3], &with_panels));
    all
}

#[cfg(test)]
mod test {
    use super::all;

    #[test]
    fn test_all_fit_the_page() {
        for sheet in all() {
            let answer = sheet.case.answer().expect("no fault of the oracle");
            assert_eq!(answer.number, 0, "{} of {} cabinets", sheet.series, sheet.cabinets);
            assert!(answer.text.len() > 10 * sheet.cabinets);
        }
    }
}
