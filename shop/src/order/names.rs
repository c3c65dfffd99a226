// Names that stand more than once are numbered, so that each panel of an order has its own.
use super::reader::Placed;
use super::Panel;
use std::collections::{HashMap, HashSet};

/// The most numbered names that a notice shows.
const SHOWN: usize = 3;

/// Numbers repeated names from 2, past every name that stands in the order, and says so.
pub fn number_repeated(panels: &mut [Placed<Panel>]) -> Option<String> {
    let mut taken: HashSet<String> = panels.iter().map(|panel| panel.value.name.clone()).collect();
    let mut last: HashMap<String, u32> = HashMap::new();
    let mut numbered = Vec::new();
    for Placed { value: panel, line, .. } in panels {
        let Some(number) = last.get_mut(&panel.name) else {
            last.insert(panel.name.clone(), 1);
            continue;
        };
        let name = loop {
            *number += 1;
            let name = format!("{} ({number})", panel.name);
            if taken.insert(name.clone()) {
                break name;
            }
        };
        numbered.push(format!("\"{name}\" in line {line}"));
        panel.name = name;
    }
    notice(&numbered)
}

fn notice(numbered: &[String]) -> Option<String> {
    let shown = &numbered[..numbered.len().min(SHOWN)];
    let more = match numbered.len() - shown.len() {
        0 => String::new(),
        more => format!(" and {more} more"),
    };
    (!shown.is_empty()).then(|| format!("repeated names are numbered: {}{more}", shown.join(", ")))
}
