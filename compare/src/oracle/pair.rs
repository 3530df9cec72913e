//! Document 01, 'The program `pair`': three files in, lines out.

use super::analysis::analyse_read;
use super::orders::run_order;
use super::path::Which;
use super::plan;
use super::refusal::Refusal;
use super::run::OwnedAreas;
use super::script;

/// The output of `pair` for the content of its three files. It reads them whole: the 4,096
/// bytes that `pair` reads must be enough to refuse any longer file in the same words.
pub fn pair(plan: &[u8], first: &[u8], second: &[u8]) -> Vec<u8> {
    lines(plan, first, second)
        .unwrap_or_else(|line| line)
        .into_bytes()
}

/// The lines, or the only line when a file is refused.
fn lines(plan: &[u8], first: &[u8], second: &[u8]) -> Result<String, String> {
    let table = plan::read(plan).map_err(|refusal| file_line("plan", refusal))?;
    let first_read = script::read(first).map_err(|refusal| file_line("first", refusal))?;
    let second_read = script::read(second).map_err(|refusal| file_line("second", refusal))?;

    let answer = analyse_read(&first_read, &second_read);
    let mut lines = format!("answer {}\n", answer.text());
    let mut areas = OwnedAreas::default();
    for (name, leader) in [("one-two", Which::First), ("two-one", Which::Second)] {
        let line = match run_order(&table, first, second, leader, &mut areas) {
            Ok(order) => format!(
                "{name} {} {} {}\n",
                order.first.answer.len(),
                order.second.answer.len(),
                order.table.rows.len()
            ),
            Err((which, refusal)) => {
                let script = match which {
                    Which::First => 1,
                    Which::Second => 2,
                };
                format!("{name} refused {script} {}\n", refusal.number.value())
            }
        };
        lines.push_str(&line);
    }
    Ok(lines)
}

fn file_line(name: &str, refusal: Refusal) -> String {
    format!("file {name} {} {}\n", refusal.number.value(), refusal.place)
}
