//! The sheets profile: quotation, cutting list and delivery note of a kitchen, for measuring speed.

use serde_json::{json, Value as Json};

use super::plan::{text_of, Style};
use super::rng::Rng;
use super::tree::*;
use super::write::bundle;
use super::Case;
use crate::plan::MAX_BYTES;

/// More cabinets than this do not fit the plan's 4,096 values, even without panels.
pub const MOST_CABINETS: usize = 650;

pub fn case(rng: &mut Rng, cabinets: usize) -> Case {
    let plan = plan(rng, cabinets);
    let mut tree = match rng.below(3) {
        0 => quotation(),
        1 => cutting_list(),
        _ => delivery_note(),
    };
    tree.number_lines();
    Case::new(bundle(&tree), text_of(&plan, rng, Style::PLAIN).into_bytes())
}

// The plan

/// Rooms with runs of at most 12 cabinets; the panels are as many as the plan's values allow.
fn plan(rng: &mut Rng, cabinets: usize) -> Json {
    // A cabinet takes six values and one for its list; a panel takes six.
    let room_left = 4_000 / cabinets.max(1);
    let panels = (room_left.saturating_sub(8) / 6).min(5);
    plan_of(rng, cabinets, &|rng| cabinet(rng, panels))
}

/// What makes a cabinet of a plan.
pub(super) type Cabinet<'a> = &'a dyn Fn(&mut Rng) -> Json;

pub(super) fn plan_of(rng: &mut Rng, cabinets: usize, cabinet: Cabinet<'_>) -> Json {
    let names = ["Kitchen", "Utility", "Pantry & larder", "Hall", "Study"];
    let mut left = cabinets;
    let mut rooms = Vec::new();
    while left > 0 {
        let here = left.min(rng.between(6, 36));
        left -= here;
        let name = names[rooms.len() % names.len()];
        rooms.push(
            json!({"name": name, "floor": rooms.len() / 3, "runs": runs(rng, here, cabinet)}),
        );
    }
    json!({
        "number": format!("Q-{}", rng.between(1000, 9999)),
        "customer": {"name": "M. O'Neill <oak>", "address": ["12 High Street", "", "Leeds"]},
        "currency": "GBP",
        "vat": rng.chance(70),
        "rooms": rooms,
        "notes": ["Oak fronts = solid", "Handles \"bar\" 160"],
    })
}

/// A plan of exactly 65,536 bytes, without spaces or by lines with indents: cabinets as far as they fit, then notes.
pub fn large_plan(seed: u64, indented: bool) -> String {
    let write = if indented { serde_json::to_string_pretty } else { serde_json::to_string };
    let text = |plan: &Json| write(plan).expect("a text of a plan");
    let mut cabinets = 130;
    loop {
        let mut plan = plan(&mut Rng::of_case(seed, "sheets", 0), cabinets);
        if text(&plan).len() + 200 <= MAX_BYTES {
            fill_notes(&mut plan, &text);
            return text(&plan);
        }
        cabinets -= 1;
    }
}

/// Adds notes of 80 bytes, and a last one of what is left.
fn fill_notes(plan: &mut Json, text: &dyn Fn(&Json) -> String) {
    let line = "Check the width on site, and scribe the filler to the wall before it is fixed. ";
    let add = |plan: &mut Json, bytes: usize| {
        let note: String = line.chars().cycle().take(bytes).collect();
        plan["notes"].as_array_mut().expect("a list of notes").push(Json::String(note));
    };
    let mut left = MAX_BYTES - text(plan).len();
    while left > 200 {
        add(plan, 80);
        left = MAX_BYTES - text(plan).len();
    }
    add(plan, 0);
    let left = MAX_BYTES - text(plan).len();
    plan["notes"].as_array_mut().expect("a list of notes").pop();
    add(plan, left);
}

fn runs(rng: &mut Rng, cabinets: usize, cabinet: Cabinet<'_>) -> Vec<Json> {
    let walls = ["north", "east", "south", "west", "island"];
    let mut left = cabinets;
    let mut runs = Vec::new();
    while left > 0 {
        let here = left.min(12);
        left -= here;
        let list: Vec<Json> = (0..here).map(|_| cabinet(rng)).collect();
        runs.push(json!({"wall": walls[runs.len() % walls.len()], "cabinets": list}));
    }
    runs
}

pub(super) fn cabinet(rng: &mut Rng, panels: usize) -> Json {
    let w = 100 * rng.between(3, 10);
    let code = format!("{}{}", rng.pick(&["B", "W", "T", "D"]), w / 10);
    let parts = ["side", "bottom", "back", "shelf", "door"];
    let panel = |i: usize| json!({"p": parts[i], "l": 720 - i, "w": w, "t": 18, "e": i % 2 == 0});
    let list: Vec<Json> = (0..panels).map(panel).collect();
    json!({"code": code, "w": w, "h": 720, "d": 560, "panels": list})
}

// The bundles

fn each(over: &str, names: &[&str], inside: Vec<Kind>) -> Kind {
    block_of(calls("each", vec![path(&[over])]), names, Some(inside), None)
}

fn include(n: &str, indent: &str) -> Kind {
    partial(calls(n, vec![])).indented(indent, true)
}

/// What stands over and under every sheet, with the title as block text.
fn layout() -> (&'static str, Vec<Kind>) {
    let lines = vec![block("if", vec![path(&[])], vec![show(path(&[])), raw("\n")])];
    (
        "head",
        vec![
            raw("== "),
            partial(calls("@partial-block", vec![])),
            raw(" ==\n"),
            show(root(&["customer", "name"])),
            raw("\n"),
            block("each", vec![root(&["customer", "address"])], lines),
            raw("\n"),
        ],
    )
}

fn head(title: &str) -> Kind {
    partial_block(
        calls("head", vec![]).with("title", string(title)),
        vec![show(path(&["title"])), raw(" "), show(root(&["number"]))],
    )
}

fn notes() -> Kind {
    let line = vec![raw("* "), show_html(path(&[])), raw("\n")];
    block("each", vec![root(&["notes"])], line)
}

pub(super) fn quotation() -> Tree {
    quotation_with(vec![show(path(&["w"])), raw("x"), show(path(&["h"])), raw("x"), show(path(&["d"]))])
}

/// The partial `size` says what a line has behind a cabinet's code.
pub(super) fn quotation_with(size: Vec<Kind>) -> Tree {
    let line = vec![
        show(local(0, "index")),
        raw(". "),
        show(path(&["c", "code"])),
        raw("  "),
        partial(calls("size", vec![])),
        block_of(calls("unless", vec![local(0, "last")]), &[], Some(vec![raw(",")]), None),
        raw("\n"),
    ];
    Tree::new(vec![
        ("main", vec![head("Quotation"), each("rooms", &[], vec![include("room", "")]), notes()]),
        (
            "room",
            vec![
                raw("Room: "),
                show(path(&["name"])),
                raw("\n"),
                each("runs", &[], vec![include("run", "  ")]),
            ],
        ),
        (
            "run",
            vec![
                raw("Run "),
                show(path(&["wall"])),
                raw(":\n"),
                each("cabinets", &["c", "i"], line),
            ],
        ),
        ("size", size),
        layout(),
    ])
}

pub(super) fn cutting_list() -> Tree {
    let edge = block_of(
        calls("if", vec![path(&["e"])]),
        &[],
        Some(vec![raw(" edged")]),
        Some(vec![raw(" plain")]),
    );
    let panel = vec![
        show(ups(1, &["code"])),
        raw("/"),
        show(path(&["p"])),
        raw(": "),
        show(path(&["l"])),
        raw(" x "),
        show(path(&["w"])),
        raw(" x "),
        show(path(&["t"])),
        edge,
        raw("\n"),
    ];
    let cabinet =
        vec![block("each", vec![path(&["panels"])], vec![partial(calls("panel", vec![]))])];
    let run = vec![
        raw("# "),
        show(ups(1, &["name"])),
        raw(", "),
        show(path(&["wall"])),
        raw("\n"),
        each("cabinets", &[], cabinet),
    ];
    Tree::new(vec![
        (
            "main",
            vec![
                inline("panel", panel),
                head("Cutting list"),
                each("rooms", &[], vec![each("runs", &[], run)]),
            ],
        ),
        layout(),
    ])
}

pub(super) fn delivery_note() -> Tree {
    let cabinet = vec![
        raw("[ ] "),
        Kind::Expr(calls("lookup", vec![path(&[]), string("code")]), false),
        raw(" to "),
        show(path(&["to"])),
        raw("\n"),
    ];
    let to = calls("cabinet", vec![]).with("to", path(&["room", "name"]));
    let runs = vec![each("cabinets", &[], vec![partial(to).indented("    ", true)])];
    Tree::new(vec![
        (
            "main",
            vec![
                head("Delivery note"),
                each(
                    "rooms",
                    &["room"],
                    vec![show(path(&["room", "name"])), raw("\n"), each("runs", &[], runs)],
                ),
                notes(),
            ],
        ),
        ("cabinet", cabinet),
        layout(),
    ])
}
